// How a process comes to its stop: it says so on standard output, and waits. `running` keeps gcc from taking it that a call does not return.
#include <stdio.h>
#include <unistd.h>
#define NOINLINE __attribute__((noinline))
static volatile int running = 1;
static inline void ready(void) {
    puts("ready");
    fflush(stdout);
}
static inline void stop(void) {
    ready();
    while (running) pause();
}
