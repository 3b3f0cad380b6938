// Runs two threads, of which the second waits for a while before it begins.
#include <pthread.h>
#include <unistd.h>

void *first(void *unused);
void *second(void *unused);

static inline void come_second(void) { usleep(200000); }

int main(void) {
    pthread_t threads[2];
    pthread_create(&threads[0], 0, first, 0);
    pthread_create(&threads[1], 0, second, 0);
    pthread_join(threads[0], 0);
    pthread_join(threads[1], 0);
    return 0;
}
