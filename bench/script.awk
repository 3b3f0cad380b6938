# Writes a workload script of INSTRUCTIONS instructions in THREADS threads, the same for the same SEED. Each thread
# takes a lock, reads a variable, adds to it, writes it and gives the lock back, again and again.

function draw(n) {
  state = (state * 16807) % 2147483647
  return int(state / 8) % n
}

BEGIN {
  state = SEED
  for (t = 0; t < THREADS; t++) {
    print "thread T" t
    count = int(INSTRUCTIONS * (t + 1) / THREADS) - int(INSTRUCTIONS * t / THREADS)
    for (i = 0; i < count; i++) {
      step = i % 5
      if (step == 0) { lock = draw(8); var = draw(64); print (i + 5 <= count) ? "lock L" lock : "read X" var }
      else if (i - step + 5 > count) print "read X" var
      else if (step == 1) print "read X" var
      else if (step == 2) print "add 1"
      else if (step == 3) print "write X" var
      else print "unlock L" lock
    }
  }
}
