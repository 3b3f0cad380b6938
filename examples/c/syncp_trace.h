/* Writes the trace of a program with POSIX threads, for `syncp predict`. Include it in one file of the program, or give the
   functions external linkage. The trace goes to the file that the environment variable SYNCP_TRACE names, or nowhere.

     syncp_lock(&row->mutex, row->name)          in place of pthread_mutex_lock(&row->mutex)
     syncp_unlock(&row->mutex, row->name)        in place of pthread_mutex_unlock(&row->mutex)
     SYNCP_READ("balance", x = balance)          round each read of what threads share
     SYNCP_WRITE("balance", balance = x)         round each write
     syncp_start(&thread, "teller-1", run, arg)  in place of pthread_create(&thread, 0, run, arg)
     syncp_join(thread, "teller-1")              in place of pthread_join(thread, 0)

   One mutex keeps the lines in an order in which the run can have happened: an acquire is written after the lock was got, a
   release before it is given back, and an access is made while its line is written. Names are without | ( ) and newline. */
#include <pthread.h>
#include <stdio.h>
#include <stdlib.h>

static pthread_mutex_t syncp_mutex = PTHREAD_MUTEX_INITIALIZER;
static pthread_once_t syncp_once = PTHREAD_ONCE_INIT;
static FILE *syncp_file;
static __thread const char *syncp_name = "main";

static void syncp_open(void) {
    const char *path = getenv("SYNCP_TRACE");
    if (path && !(syncp_file = fopen(path, "w"))) perror(path);
}

static void syncp_event(const char *operation, const char *name, int line) {
    pthread_once(&syncp_once, syncp_open);
    if (syncp_file) fprintf(syncp_file, "%s|%s(%s)|%d\n", syncp_name, operation, name, line);
}

static void syncp_line(const char *operation, const char *name, int line) {
    pthread_mutex_lock(&syncp_mutex);
    syncp_event(operation, name, line);
    pthread_mutex_unlock(&syncp_mutex);
}

#define SYNCP_ACCESS(operation, name, statement) do { pthread_mutex_lock(&syncp_mutex); statement; \
    syncp_event(operation, name, __LINE__); pthread_mutex_unlock(&syncp_mutex); } while (0)
#define SYNCP_READ(name, statement) SYNCP_ACCESS("r", name, statement)
#define SYNCP_WRITE(name, statement) SYNCP_ACCESS("w", name, statement)
#define syncp_lock(mutex, name) do { pthread_mutex_lock(mutex); syncp_line("acq", name, __LINE__); } while (0)
#define syncp_unlock(mutex, name) do { syncp_line("rel", name, __LINE__); pthread_mutex_unlock(mutex); } while (0)
#define syncp_start(thread, name, run, argument) syncp_create(thread, name, run, argument, __LINE__)
#define syncp_join(thread, name) do { pthread_join(thread, 0); syncp_line("join", name, __LINE__); } while (0)

struct syncp_begin { const char *name; void *(*run)(void *); void *argument; };

static void *syncp_run(void *given) {
    struct syncp_begin begin = *(struct syncp_begin *)given;
    free(given);
    syncp_name = begin.name;
    return begin.run(begin.argument);
}

static int syncp_create(pthread_t *thread, const char *name, void *(*run)(void *), void *argument, int line) {
    struct syncp_begin *begin = malloc(sizeof *begin);
    if (!begin) return -1;
    *begin = (struct syncp_begin){name, run, argument};
    syncp_line("fork", name, line);
    return pthread_create(thread, 0, syncp_run, begin);
}
