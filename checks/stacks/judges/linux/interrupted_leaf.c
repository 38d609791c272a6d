// A timer interrupts a loop of two small functions without frames, at any instruction of them, and its handler aborts.
#include <signal.h>
#include <stdlib.h>
#include <sys/time.h>
#define NOINLINE __attribute__((noinline))
static void handler(int number) {
    (void)number;
    abort();
}
static NOINLINE int one(int a) { return a * 3 + 1; }
static NOINLINE int two(int a, int b) {
    int r = one(a);
    return r ^ one(b + r);
}
int main(int argc, char **argv) {
    struct itimerval timer = {{0, 0}, {0, 20000}};
    volatile int s = argv[0][0];
    signal(SIGALRM, handler);
    setitimer(ITIMER_REAL, &timer, 0);
    for (;;) s = two(s, argc);
}
