# Prints a lawful trace of EVENTS events of 4 threads, 8 locks and 64 variables, or VARS variables, the same for the same SEED:
#   awk -v EVENTS=4000 -v SEED=1 [-v VARS=64] [-v DEPTH=2] -f bench/trace.awk
# Five of eight turns are reads and writes. A thread takes at most two locks, or DEPTH locks, each of a greater number than
# those that it holds, and gives back the one that it took last.

function draw(n) {
  state = (state * 16807) % 2147483647
  return int(state / 8) % n
}

function access(thread, word) {
  printf "T%d|%s(X%d)|%d\n", thread, word, draw(VARS), ++line
}

function take(thread, lock) {
  owner[lock] = thread + 1
  held[thread, ++depth[thread]] = lock
  printf "T%d|acq(L%d)|%d\n", thread, lock, ++line
}

function give(thread) {
  owner[held[thread, depth[thread]]] = 0
  printf "T%d|rel(L%d)|%d\n", thread, held[thread, depth[thread]--], ++line
}

BEGIN {
  state = SEED
  if (VARS == "") VARS = 64
  if (DEPTH == "") DEPTH = 2
  while (line < EVENTS) {
    thread = draw(4)
    action = draw(8)
    lock = draw(8)
    if (action < 3) access(thread, "r")
    else if (action < 5) access(thread, "w")
    else if (action < 7 && !owner[lock] && (depth[thread] == 0 || (depth[thread] < DEPTH && held[thread, depth[thread]] < lock))) take(thread, lock)
    else if (depth[thread] > 0) give(thread)
    else access(thread, "r")
  }
}
