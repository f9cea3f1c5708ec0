# Writes a C text in the printed layout of at most so many bytes: awk -v bytes=N -f fill.awk -f c_text.awk

# a function that calls the one before it
function routine(i) {
  text = ""
  put("void p_" i "(int64_t n) {")
  put("  int64_t v;")
  put("  int64_t w;")
  put("  v = n;")
  put("  w = INT64_C(" (i * 7919) % 1000 ");")
  put("  while ((v > INT64_C(0))) {")
  put("    if (((v % INT64_C(2)) == INT64_C(0))) {")
  put("      g = ((g + (n * INT64_C(" (i * 104729) % 100000 "))) % INT64_C(10000));")
  put("    }")
  put("    else {")
  put("      r.c[(v % INT64_C(64))] = (w + v);")
  put("      if ((g > w)) {")
  put("        goto l;")
  put("      }")
  put("    }")
  put("    w = (w + r.c[INT64_C(3)]);")
  put("    l: ;")
  put("    v = (v - INT64_C(1));")
  put("  }")
  if (i > 1) {
    put("  if ((n > INT64_C(0))) {")
    put("    p_" (i - 1) "((n - INT64_C(1)));")
    put("  }")
  }
  put("}")
  return text
}

BEGIN {
  text = ""
  put("/* p2c 1 */")
  put("#include <stdint.h>")
  put("#include <stdio.h>")
  put("#include <stdlib.h>")
  put("struct s {")
  put("  int64_t c[64];")
  put("};")
  put("int64_t g;")
  put("struct s r;")
  fill(text, "int main(void) {\n  p_1(INT64_C(1));\n  return INT64_C(0);\n}\n")
}
