// Compiled with -fomit-frame-pointer and -fno-asynchronous-unwind-tables: this file's functions have no .eh_frame, and use rbp as any other
// register. A walk by .eh_frame is expected to end in the first of them, or one frame later by what lies where rbp points. Debuggers read
// the functions' instructions, or with -g their .debug_frame.
#include "stop.h"
static NOINLINE int third(volatile int *at) {
    stop();
    return *at + 1;
}
static NOINLINE int second(volatile int *at, int n) { return n > 0 ? second(at, n - 1) + *at : third(at) + 1; }
static NOINLINE int first(volatile int *at) { return second(at, 3) + *at; }
int main(int argc, char **argv) {
    volatile int value = argc + argv[0][0];
    return first(&value) + 1;
}
