/* p2c 1 */
#include <stdint.h>
#include <stdio.h>
#include <stdlib.h>
int64_t c;
int main(void) {
  c = getchar();
  while ((c != (-INT64_C(1)))) {
    putchar(c);
    c = getchar();
  }
  return INT64_C(0);
}
