/* p2c 1 */
#include <stdint.h>
#include <stdio.h>
#include <stdlib.h>
void f(void) {
  putchar(INT64_C(65));
}
int main(void) {
  f();
  return INT64_C(0);
}
