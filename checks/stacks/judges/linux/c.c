// C: five calls that keep different numbers of registers, a recursion and a variable-length array, at -O2.
#include "stop.h"
static NOINLINE int third(volatile int *at) {
    stop();
    return *at + 1;
}
static NOINLINE int second(volatile int *at, int n) {
    volatile char room[n + 40];
    room[n] = (char)n;
    return n > 0 ? second(at, n - 1) + room[n] : third(at) + room[0];
}
static NOINLINE int first(volatile int *at, int a, int b, int c, int d, int e) {
    int sum = second(at, 4) + a * b;
    return sum + *at + c * d + e + a + b;
}
int main(int argc, char **argv) {
    volatile int value = argc;
    return first(&value, argc, 2, argc + 3, 4, argv[0][0]) + 1;
}
