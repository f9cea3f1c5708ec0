# For the scripts beside it: `best RUNS COMMAND..` is the least time of so many runs, in microseconds. What the command
# prints is thrown away.
best() {
  local runs=$1 start end took least=
  shift
  while [ "$runs" -gt 0 ]; do
    start=$(date +%s%N)
    "$@" > /dev/null
    end=$(date +%s%N)
    took=$(((end - start) / 1000))
    if [ -z "$least" ] || [ "$took" -lt "$least" ]; then least=$took; fi
    runs=$((runs - 1))
  done
  echo "$least"
}

# `built CRATE WORD..` builds the program of a crate by a run with these words, where it is not there yet.
built() {
  local crate=$1
  shift
  [ -x "$top/crates/$crate/out/$crate" ] || (cd "$top/crates/$crate" && rt run -- "$@" > /dev/null)
}
