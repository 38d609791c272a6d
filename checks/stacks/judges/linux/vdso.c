// Crashes in a function of the vdso, which writes the time to an address that is none.
#include <time.h>
#define NOINLINE __attribute__((noinline))
static NOINLINE int asks(struct timespec *at) { return clock_gettime(CLOCK_MONOTONIC, at) + 1; }
static NOINLINE int middle(struct timespec *at) { return asks(at) * 2; }
int main(int argc, char **argv) { return middle((struct timespec *)(long)(argc * 16)) + argv[0][0]; }
