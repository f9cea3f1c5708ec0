/* p2c 1 */
#include <stdint.h>
#include <stdio.h>
#include <stdlib.h>
int main(void) {
  int64_t c;
  c = getchar();
  while ((c != (-INT64_C(1)))) {
    putchar(c);
    c = getchar();
  }
  return INT64_C(0);
}
