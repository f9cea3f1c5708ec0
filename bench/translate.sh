#!/usr/bin/env bash
# Times `p2c translate` beside `fpc -Miso -s` on programs of `writeln`s, made in a temporary folder. Each time is the
# best of three runs. Wanted: 8 MB in at most 9 times what 1 MB takes, and faster than fpc.
# fpc takes at most some 7,280 `writeln`s in one body; of the 8 MB it is timed until it gives up.
set -eu
top=$(cd "$(dirname "$0")/.." && pwd)
. "$top/bench/best.sh"
program=$top/crates/p2c_main/out/p2c_main
"$top/p2c" translate "$top/examples/hello.pas" > /dev/null
folder=$(mktemp -d)
trap 'rm -r "$folder"' EXIT
ulimit -s unlimited

# a program of so many statements, with lines of 200 bytes
writer() {
  awk -v count="$1" 'BEGIN {
    for (i = 0; i < 170; i++) text = text "x"
    print "program lines(output);"; print "begin"
    for (i = 1; i <= count; i++) printf "  writeln(\x27%06d %s\x27);\n", i, text
    print "end."
  }'
}

# fpc up to the assembler; what it says is in the file out
compile() {
  fpc -Miso -s "-FE$folder" "$1" > "$folder/out" 2>&1 || true
}

# times of both on the same text
beside() {
  local ours theirs
  ours=$(best 3 "$program" translate "$folder/$1.pas")
  theirs=$(best 3 compile "$folder/$1.pas")
  echo "$1 ($(stat -c %s "$folder/$1.pas") bytes): p2c $ours us; fpc -s $theirs us, $((theirs * 10 / ours)) tenths; $(grep -h Fatal "$folder/out" | head -n 1)"
}

writer 4968 > "$folder/one.pas"
writer 7200 > "$folder/most.pas"
writer 39744 > "$folder/eight.pas"
small=$(best 3 "$program" translate "$folder/one.pas")
large=$(best 3 "$program" translate "$folder/eight.pas")
echo "p2c, 1 MB:   $small us"
echo "p2c, 8 MB:   $large us; $((large * 10 / small)) tenths of 1 MB"
beside most
beside eight
