// Overflows its stack; the handler runs on a stack of its own, and aborts.
#include <signal.h>
#include <stdlib.h>
#define NOINLINE __attribute__((noinline))
static char stack[65536];
static NOINLINE void give_up(void) { abort(); }
static void handler(int number) {
    (void)number;
    give_up();
    __asm__ volatile("");
}
static NOINLINE int deeper(volatile char *above, int number) {
    volatile char room[4096];
    room[0] = above ? above[0] : 1;
    if (number < 0) return room[0];
    return deeper(room, number + 1) + room[1];
}
int main(int argc, char **argv) {
    stack_t other = {.ss_sp = stack, .ss_size = sizeof stack};
    struct sigaction action = {.sa_handler = handler, .sa_flags = SA_ONSTACK};
    sigaltstack(&other, 0);
    sigaction(SIGSEGV, &action, 0);
    return deeper(0, argc) + argv[0][0];
}
