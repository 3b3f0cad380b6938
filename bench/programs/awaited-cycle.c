// Both threads take a and b crosswise, but the second waits until it reads, under a lock of its own, that the first is done.
#include "two_threads.h"

pthread_mutex_t a = PTHREAD_MUTEX_INITIALIZER;
pthread_mutex_t b = PTHREAD_MUTEX_INITIALIZER;
pthread_mutex_t note = PTHREAD_MUTEX_INITIALIZER;
int done;

void *first(void *unused) {
    pthread_mutex_lock(&a);
    pthread_mutex_lock(&b);
    pthread_mutex_unlock(&b);
    pthread_mutex_unlock(&a);
    pthread_mutex_lock(&note);
    done = 1;
    pthread_mutex_unlock(&note);
    return unused;
}

void *second(void *unused) {
    int seen = 0;
    come_second();
    while (!seen) {
        pthread_mutex_lock(&note);
        seen = done;
        pthread_mutex_unlock(&note);
    }
    pthread_mutex_lock(&b);
    pthread_mutex_lock(&a);
    pthread_mutex_unlock(&a);
    pthread_mutex_unlock(&b);
    return unused;
}
