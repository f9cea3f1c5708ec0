#!/usr/bin/env bash
# Times tables of scopes: names are declared in one scope, scopes are opened in it, and each name is found from the
# innermost one. Each time is the best of seven runs.
# Wanted: 10,000 names in one scope in at most 20 times what 1,000 take, and 10,000 names found through 1,000 scopes in
# at most 2 seconds.
set -eu
top=$(cd "$(dirname "$0")/.." && pwd)
. "$top/bench/best.sh"
scopes=$top/crates/scopes_bench/out/scopes_bench
built scopes_bench 3 2

few=$(best 7 "$scopes" 1000 0)
many=$(best 7 "$scopes" 10000 0)
deep=$(best 7 "$scopes" 10000 1000)
echo "1,000 names:                        $few us"
echo "10,000 names:                       $many us, $((many * 10 / few)) tenths of it"
echo "10,000 names through 1,000 scopes:  $deep us"
