#!/usr/bin/env bash
# Times the runner of C texts beside Lua 5.4 and `gcc -O0`, on programs that are made in a temporary folder. Each time is
# the best of three runs. Wanted: a loop with two variables and calls of a small function in at most 4 times what Lua
# takes, and the same loop and calls as fast below 10,000 functions and 10,000 globals, and under 10,000 calls; and blocks
# that go in the order in which they are made, each after the next one was made, in memory that does not grow with the turns.
set -eu
top=$(cd "$(dirname "$0")/.." && pwd)
. "$top/bench/best.sh"
runner=$top/crates/runner_bench/out/runner_bench
built runner_bench data/loop.c 10000
folder=$(mktemp -d)
trap 'rm -r "$folder"' EXIT
steps=1000000000000
turns=${1:-3333333}

head_of() { printf '/* p2c 1 */\n#include <stdint.h>\n#include <stdio.h>\n#include <stdlib.h>\n'; }

# so many globals, and so many functions that count one up
many() {
  awk -v count="$1" 'BEGIN {
    for (i = 1; i <= count; i++) printf "int64_t g_%d;\n", i
    for (i = 1; i <= count; i++) printf "int64_t f_%d(int64_t n) {\n  return (n + INT64_C(1));\n}\n", i
  }'
}

# main with a loop of so many turns: the variables and the statements in the loop are given
main_of() {
  printf 'int main(void) {\n  int64_t i;\n%s  i = INT64_C(0);\n  while ((i < INT64_C(%s))) {\n%s  }\n  return INT64_C(0);\n}\n' "$1" "$turns" "$2"
}

# a function that calls itself 10,000 times and then has such a loop over two variables of its own
deep_of() {
  printf 'int64_t deep(int64_t n) {\n  int64_t i;\n  int64_t s;\n  i = INT64_C(0);\n  s = INT64_C(0);\n'
  printf '  if ((n > INT64_C(0))) {\n    i = deep((n - INT64_C(1)));\n    return i;\n  }\n'
  printf '  while ((i < INT64_C(%s))) {\n%s  }\n  return s;\n}\n' "$turns" "$1"
  printf 'int main(void) {\n  int64_t i;\n  i = deep(INT64_C(10000));\n  return INT64_C(0);\n}\n'
}

sums=$'    s = (s + i);\n    i = (i + INT64_C(1));\n'
{ head_of; main_of $'  int64_t s;\n' "$sums" | sed 's/^  i = INT64_C(0);/  s = INT64_C(0);\n&/'; } > "$folder/loop.c"
{ head_of; many 1; main_of '' $'    i = f_1(i);\n'; } > "$folder/calls.c"
{ head_of; many 10000; main_of '' $'    g_10000 = (g_10000 + i);\n    i = (i + INT64_C(1));\n'; } > "$folder/loop_many.c"
{ head_of; many 1; main_of '' $'    g_1 = (g_1 + i);\n    i = (i + INT64_C(1));\n'; } > "$folder/loop_one.c"
{ head_of; many 10000; main_of '' $'    i = f_10000(i);\n'; } > "$folder/calls_many.c"
{ head_of; many 1; deep_of "$sums"; } > "$folder/loop_deep.c"
{ head_of; many 1; deep_of $'    i = f_1(i);\n'; } > "$folder/calls_deep.c"
{
  head_of
  main_of $'  int64_t *p;\n  int64_t *q;\n' $'    q = malloc(sizeof(int64_t));\n    free(p);\n    p = q;\n    i = (i + INT64_C(1));\n' |
    sed 's/^  i = INT64_C(0);/  p = malloc(sizeof(int64_t));\n&/'
} > "$folder/queue.c"
cat > "$folder/loop.lua" <<LUA
local i = 0
local s = 0
while i < $turns do
  s = s + i
  i = i + 1
end
LUA
cat > "$folder/calls.lua" <<LUA
local function f(n)
  return n + 1
end
local i = 0
while i < $turns do
  i = f(i)
end
LUA

lua=$(command -v lua5.4 || true)
if [ -z "$lua" ]; then echo "lua5.4 is absent, and its times are left out"; fi
for name in loop calls; do
  "$runner" "$folder/$name.c" "$steps"
  gcc -std=c99 -O0 -w -o "$folder/$name" "$folder/$name.c"
  ours=$(best 3 "$runner" "$folder/$name.c" "$steps")
  compiled=$(best 3 "$folder/$name")
  # a turn of the loop is three steps, and one of the calls is three too
  echo "$name, $turns turns: $ours us, $((ours * 1000 / (turns * 3))) ns a step; gcc -O0 $compiled us"
  if [ -n "$lua" ]; then
    peer=$(best 3 "$lua" "$folder/$name.lua")
    echo "$name in Lua: $peer us; we take $((ours * 10 / peer)) tenths of it"
  fi
done
for name in loop_one loop_many loop_deep calls_many calls_deep; do
  none=$(best 3 "$runner" "$folder/$name.c" 1)
  all=$(best 3 "$runner" "$folder/$name.c" "$steps")
  echo "$name, $turns turns: $((all - none)) us, beside $none us to read and begin"
done
ours=$(best 3 "$runner" "$folder/queue.c" "$steps")
memory=$(/usr/bin/time -f %M "$runner" "$folder/queue.c" "$steps" 2>&1 > /dev/null | tail -1)
echo "queue, $turns turns: $ours us in $memory KB"
