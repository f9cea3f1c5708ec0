#!/usr/bin/env bash
# Times the lexer beside `wc -w`, on texts that are made in a temporary folder. Each time is the best of seven runs.
# Wanted: 8 MB of ordinary Pascal in at most 3 times what `wc -w` takes, 8 MB in at most 9 times what 1 MB takes,
# and 8 MB of one byte no slower a byte than ordinary Pascal by more than a factor 3.
set -eu
top=$(cd "$(dirname "$0")/.." && pwd)
. "$top/bench/best.sh"
lexer=$top/crates/lexer_bench/out/lexer_bench
built lexer_bench data/p.pas
folder=$(mktemp -d)
trap 'rm -r "$folder"' EXIT

# the declarations and routines of a program, with numbers in the names, up to so many bytes
ordinary() {
  local program
  program=$(sed '1,/^procedure print/{/^procedure print/!d}; /^begin$/,$d' "$top/bench/queens.pas"; sed -n '/^procedure place/,/^end;/p' "$top/bench/queens.pas")
  awk -v program="$program" 'BEGIN { for (i = 0; ; i++) { text = program; gsub(/place/, "place" i % 97, text); print text } }' 2> /dev/null | head -c "$1"
}

set +o pipefail
ordinary 8388000 > "$folder/8.pas" || true
ordinary 1048500 > "$folder/1.pas" || true
counted=$(best 7 wc -w "$folder/8.pas")
large=$(best 7 "$lexer" "$folder/8.pas")
small=$(best 7 "$lexer" "$folder/1.pas")
echo "wc -w, 8 MB:          $counted us"
echo "lexer, 8 MB:          $large us, $((large * 10 / counted)) tenths of wc"
echo "lexer, 1 MB:          $small us; 8 MB takes $((large * 10 / small)) tenths of it"
for byte in '{' '(' "'" 1; do
  head -c 8388000 /dev/zero | tr '\0' "$byte" > "$folder/one.pas"
  took=$(best 7 "$lexer" "$folder/one.pas")
  echo "lexer, 8 MB of $byte:     $took us, $((took * 10 / large)) tenths of ordinary Pascal"
done
