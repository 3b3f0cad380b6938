/* Refuses one request for memory of a program that is run with this library before the C library (LD_PRELOAD): the one whose
 * number, from 1, stands in the variable REFUSE. */
#define _GNU_SOURCE
#include <dlfcn.h>
#include <stddef.h>
#include <stdlib.h>

static void *(*next_malloc)(size_t);
static void *(*next_realloc)(void *, size_t);
static long refused;
static long requests;

static void find_next(void) {
  next_malloc = (void *(*)(size_t))dlsym(RTLD_NEXT, "malloc");
  next_realloc = (void *(*)(void *, size_t))dlsym(RTLD_NEXT, "realloc");
}

/* Nothing is counted before the program begins. */
__attribute__((constructor)) static void begin(void) {
  const char *number = getenv("REFUSE");
  if (!next_malloc) find_next();
  __atomic_store_n(&requests, 0, __ATOMIC_SEQ_CST);
  __atomic_store_n(&refused, number ? atol(number) : 0, __ATOMIC_SEQ_CST);
}

static int is_refused(void) {
  long number = __atomic_add_fetch(&requests, 1, __ATOMIC_SEQ_CST);
  return number == __atomic_load_n(&refused, __ATOMIC_SEQ_CST);
}

void *malloc(size_t size) {
  if (!next_malloc) find_next();
  return is_refused() ? NULL : next_malloc(size);
}

void *realloc(void *old, size_t size) {
  if (!next_realloc) find_next();
  return is_refused() ? NULL : next_realloc(old, size);
}
