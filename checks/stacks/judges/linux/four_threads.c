// Four threads: in pause, in the wait for a mutex, in the wait for a condition, and in a loop without calls.
#include <pthread.h>
#include "stop.h"
static pthread_barrier_t all;
static pthread_mutex_t mutex = PTHREAD_MUTEX_INITIALIZER, other = PTHREAD_MUTEX_INITIALIZER;
static pthread_cond_t condition = PTHREAD_COND_INITIALIZER;
static volatile unsigned long count;
static NOINLINE int waits_for_mutex(int n) { return n > 0 ? (waits_for_mutex(n - 1) * 3) ^ n : pthread_mutex_lock(&mutex); }
static NOINLINE int waits_for_condition(int n) {
    if (n > 0) return (waits_for_condition(n - 1) * 3) ^ n;
    pthread_mutex_lock(&other);
    return pthread_cond_wait(&condition, &other);
}
static NOINLINE int runs(int n) {
    if (n > 0) return (runs(n - 1) * 3) ^ n;
    while (running) count++;
    return (int)count;
}
static void *run(void *number) {
    pthread_barrier_wait(&all);
    switch ((long)number) {
    case 1: return (void *)(long)waits_for_mutex(2);
    case 2: return (void *)(long)waits_for_condition(3);
    default: return (void *)(long)runs(4);
    }
}
int main(void) {
    pthread_t threads[3];
    pthread_barrier_init(&all, 0, 4);
    pthread_mutex_lock(&mutex);
    for (long i = 0; i < 3; i++) pthread_create(&threads[i], 0, run, (void *)(i + 1));
    pthread_barrier_wait(&all);
    usleep(200000);
    stop();
    return 0;
}
