/* p2c 1 */
#include <stdint.h>
#include <stdio.h>
#include <stdlib.h>
int main(void) {
  int64_t i;
  int64_t s;
  i = INT64_C(0);
  s = INT64_C(0);
  while ((i < INT64_C(1000))) {
    s = (s + i);
    i = (i + INT64_C(1));
  }
  return INT64_C(0);
}
