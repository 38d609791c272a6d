// A handler is interrupted by another signal, whose handler crashes.
#include <signal.h>
#define NOINLINE __attribute__((noinline))
static volatile int *volatile nothing;
static NOINLINE void writes(int number) { *nothing = number; }
static void second(int number) {
    writes(number);
    __asm__ volatile("");
}
static NOINLINE void between(int number) {
    raise(SIGUSR2);
    __asm__ volatile("" ::"r"(number));
}
static void first(int number) {
    between(number);
    __asm__ volatile("");
}
static NOINLINE int outer(int number) {
    raise(SIGUSR1);
    return number + 1;
}
int main(int argc, char **argv) {
    signal(SIGUSR1, first);
    signal(SIGUSR2, second);
    return outer(argc) + argv[0][0];
}
