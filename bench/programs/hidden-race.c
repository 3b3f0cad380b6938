// Both threads write x outside the lock. In this run the first gives the lock back before the second takes it.
#include "two_threads.h"

pthread_mutex_t l = PTHREAD_MUTEX_INITIALIZER;
int x;

void *first(void *unused) {
    x = 1;
    pthread_mutex_lock(&l);
    pthread_mutex_unlock(&l);
    return unused;
}

void *second(void *unused) {
    come_second();
    pthread_mutex_lock(&l);
    pthread_mutex_unlock(&l);
    x = 2;
    return unused;
}
