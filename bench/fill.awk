# Fills a text up to at most so many bytes: awk -v bytes=N -f fill.awk -f TEXT.awk, where TEXT.awk has a function
# `routine(i)` that gives the part with the number i.

# one more line of `text`
function put(line) {
  text = text line "\n"
}

# what stands before the parts, as many parts as there is room for, and what stands behind them
function fill(before, behind,    part, i, room) {
  printf "%s", before
  room = bytes - length(before) - length(behind)
  for (i = 1; length(part = routine(i)) <= room; i++) {
    printf "%s", part
    room -= length(part)
  }
  printf "%s", behind
}
