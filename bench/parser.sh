#!/usr/bin/env bash
# Times the lexer and the parser of Pascal beside `fpc -Miso -s`, on texts that are made in a temporary folder. Each time is
# the best of three runs.
# Wanted: 8 MB in at most a third of what fpc takes, and in at most 9 times what 1 MB takes; at most 100 bytes of memory for
# each byte of the text; and texts of one token again and again take no longer than the ordinary text.
set -eu
top=$(cd "$(dirname "$0")/.." && pwd)
. "$top/bench/best.sh"
parser=$top/crates/parser_bench/out/parser_bench
built parser_bench data/t.pas
folder=$(mktemp -d)
trap 'rm -r "$folder"' EXIT

# fpc up to the assembler; what it says is in the file out
compile() { fpc -Miso -s "-FE$folder" "$1" > "$folder/out" 2>&1 || true; }

# so many times one text between two others
again() { awk -v count="$1" -v first="$2" -v one="$3" -v last="$4" 'BEGIN { printf "%s", first; for (i = 0; i < count; i++) printf "%s", one; printf "%s", last }'; }

awk -v bytes=8000000 -f "$top/bench/fill.awk" -f "$top/bench/pascal_text.awk" > "$folder/8.pas"
awk -v bytes=1000000 -f "$top/bench/fill.awk" -f "$top/bench/pascal_text.awk" > "$folder/1.pas"
"$parser" "$folder/8.pas"
large=$(best 3 "$parser" "$folder/8.pas")
small=$(best 3 "$parser" "$folder/1.pas")
theirs=$(best 3 compile "$folder/8.pas")
memory=$({ /usr/bin/time -f %M "$parser" "$folder/8.pas" > /dev/null; } 2>&1)
echo "parser, 8 MB: $large us; 1 MB: $small us; 8 MB takes $((large * 10 / small)) tenths of it"
echo "fpc -s, 8 MB: $theirs us, $((theirs * 10 / large)) tenths of ours; $(grep -h 'Fatal\|lines compiled' "$folder/out" | head -n 1)"
echo "memory, 8 MB: $memory kB, $((memory * 1024 / $(wc -c < "$folder/8.pas"))) bytes a byte"
again 8000000 "" "(" "" > "$folder/open.pas"
again 1390000 "program p; begin " "begin " "" > "$folder/begin.pas"
again 4000000 "program p; begin a := " "a+" "a end." > "$folder/sum.pas"
again 8000000 "program p; begin " ";" " end." > "$folder/semicolons.pas"
again 8000000 "program p; begin a := " "(" "" > "$folder/nested.pas"
for name in open begin sum semicolons nested; do
  echo "$name: $(best 3 "$parser" "$folder/$name.pas") us, $("$parser" "$folder/$name.pas")"
done
