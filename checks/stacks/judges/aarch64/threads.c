// aarch64: three threads: one crashes below a recursion, one waits for a mutex, one for a condition. Before, it prints where its files are.
#include <pthread.h>
#include <stdio.h>
#include <unistd.h>
#define NOINLINE __attribute__((noinline))
static pthread_mutex_t mutex = PTHREAD_MUTEX_INITIALIZER, other = PTHREAD_MUTEX_INITIALIZER;
static pthread_cond_t condition = PTHREAD_COND_INITIALIZER;
static volatile int *volatile nowhere;
static NOINLINE int waits_for_mutex(int n) { return n > 0 ? (waits_for_mutex(n - 1) * 3) ^ n : pthread_mutex_lock(&mutex); }
static NOINLINE int waits_for_condition(int n) {
    if (n > 0) return (waits_for_condition(n - 1) * 3) ^ n;
    pthread_mutex_lock(&other);
    return pthread_cond_wait(&condition, &other);
}
static NOINLINE int crashes(int n) { return n > 0 ? (crashes(n - 1) * 3) ^ n : (*nowhere = n); }
static void *run(void *number) { return (void *)(long)(number ? waits_for_mutex(2) : waits_for_condition(3)); }
int main(void) {
    pthread_t threads[2];
    FILE *maps = fopen("/proc/self/maps", "r");
    for (int next; (next = fgetc(maps)) != EOF;) putchar(next);
    fflush(stdout);
    pthread_mutex_lock(&mutex);
    for (long i = 0; i < 2; i++) pthread_create(&threads[i], 0, run, (void *)i);
    usleep(300000);
    return crashes(4);
}
