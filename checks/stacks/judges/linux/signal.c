// Stopped two calls below a handler of a signal that came while a loop ran (SIGALRM: at any instruction of it).
#include <signal.h>
#include "stop.h"
static volatile unsigned long count;
static NOINLINE int callee(int number) {
    stop();
    return number + 1;
}
static void handler(int number) { count += callee(number); }
static NOINLINE unsigned long loop(unsigned long a, unsigned long b) {
    while (running) {
        a = a * 6364136223846793005ul + b;
        b ^= a >> 7;
        count += a & b;
    }
    return a + b;
}
int main(int argc, char **argv) {
    signal(SIGALRM, handler);
    ualarm(20000, 0);
    return (int)loop(argc, argv[0][0]) + 1;
}
