// Crashes: a write through a null pointer, four calls deep.
#define NOINLINE __attribute__((noinline))
static NOINLINE int writes(volatile int *at, int n) {
    *at = n;
    return *at + n;
}
static NOINLINE int second(volatile int *at, int n) { return n > 0 ? second(at, n - 1) + n : writes(at, n) + 1; }
static NOINLINE int first(volatile int *at, int n) { return second(at, n) + 1; }
int main(int argc, char **argv) { return first(argc > 100 ? &argc : 0, argc + 1) + argv[0][0]; }
