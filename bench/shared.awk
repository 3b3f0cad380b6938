# Writes a workload script of some EVENTS events in 4 threads, the same for the same SEED. Each thread works on variables of
# its own under locks that all share, and after one of ten sections writes one of 16 variables that all share and nothing
# guards.

function draw(n) {
  state = (state * 16807) % 2147483647
  return int(state / 8) % n
}

BEGIN {
  state = SEED
  for (t = 0; t < 4; t++) {
    print "thread T" t
    for (events = 0; events + 4 < EVENTS / 4; events += 4) {
      own = "X" t "." draw(16)
      lock = "L" draw(8)
      print "lock " lock
      print "read " own
      print "add 1"
      print "write " own
      print "unlock " lock
      if (draw(10) == 0) { print "write S" draw(16); events++ }
    }
  }
}
