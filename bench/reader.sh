#!/usr/bin/env bash
# Times the reader of C texts beside `gcc -fsyntax-only`, on texts that are made in a temporary folder. Each time is the best of five runs.
# Wanted: 10 MB in at most a third of what gcc takes, 10 MB in at most 11 times what 1 MB takes,
# and at most 60 bytes of memory for each byte of the text.
set -eu
top=$(cd "$(dirname "$0")/.." && pwd)
. "$top/bench/best.sh"
reader=$top/crates/reader_bench/out/reader_bench
built reader_bench data/t.c
folder=$(mktemp -d)
trap 'rm -r "$folder"' EXIT

awk -v bytes=10000000 -f "$top/bench/fill.awk" -f "$top/bench/c_text.awk" > "$folder/10.c"
awk -v bytes=1000000 -f "$top/bench/fill.awk" -f "$top/bench/c_text.awk" > "$folder/1.c"
"$reader" "$folder/10.c"
compiler=$(best 5 gcc -std=c99 -fsyntax-only "$folder/10.c")
large=$(best 5 "$reader" "$folder/10.c")
small=$(best 5 "$reader" "$folder/1.c")
memory=$({ /usr/bin/time -f %M "$reader" "$folder/10.c" > /dev/null; } 2>&1)
echo "gcc -fsyntax-only, 10 MB: $compiler us"
echo "reader, 10 MB:            $large us, gcc takes $((compiler * 10 / large)) tenths of it"
echo "reader, 1 MB:             $small us; 10 MB takes $((large * 10 / small)) tenths of it"
echo "memory, 10 MB:            $memory kB, $((memory * 1024 / $(wc -c < "$folder/10.c"))) bytes a byte"
