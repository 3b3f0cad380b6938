# Prints a lawful trace of EVENTS events of a storage engine's transfers, the same for the same SEED:
#   awk -v EVENTS=16000 -v SEED=1 -f bench/transfers.awk
# Each of 8 threads locks two of 1,000 rows, which are drawn evenly, in the order in which they were drawn, changes both
# balances, and gives the rows back. A transfer begins only where no other one works on its rows, so no thread has to wait.

function draw(n) {
  state = (state * 16807) % 2147483647
  return int(state / 8) % n
}

function event(thread, word, operand) {
  printf "T%d|%s(%s)|%d\n", thread, word, operand, ++line
}

function begin_transfer(thread, from, to) {
  if (from == to || busy[from] || busy[to]) return 0
  busy[from] = busy[to] = 1
  first[thread] = from
  second[thread] = to
  return 1
}

# One event of a transfer.
function step(thread, at, from, to) {
  if (at == 1) event(thread, "acq", "row." from)
  else if (at == 2) event(thread, "acq", "row." to)
  else if (at == 3) event(thread, "r", "balance." from)
  else if (at == 4) event(thread, "w", "balance." from)
  else if (at == 5) event(thread, "r", "balance." to)
  else if (at == 6) event(thread, "w", "balance." to)
  else if (at == 7) event(thread, "rel", "row." to)
  else event(thread, "rel", "row." from)
}

BEGIN {
  state = SEED
  while (line < EVENTS) {
    thread = draw(8)
    if (at[thread] == 0 && !begin_transfer(thread, draw(1000), draw(1000))) continue
    step(thread, ++at[thread], first[thread], second[thread])
    if (at[thread] == 8) {
      at[thread] = 0
      busy[first[thread]] = busy[second[thread]] = 0
    }
  }
}
