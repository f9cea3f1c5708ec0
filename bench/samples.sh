#!/usr/bin/env bash
# Times the generator's text. Each time is the best of seven runs.
# Wanted: a text of size 10,000 in at most 20 times what one of size 1,000 takes, and in at most 1 second.
set -eu
top=$(cd "$(dirname "$0")/.." && pwd)
. "$top/bench/best.sh"
samples=$top/crates/samples_bench/out/samples_bench
built samples_bench 1 1

small=$(best 7 "$samples" 1 1000)
large=$(best 7 "$samples" 1 10000)
echo "size 1,000:   $small us"
echo "size 10,000:  $large us, $((large * 10 / small)) tenths of it, $("$samples" 1 10000)"
