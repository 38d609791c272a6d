// Crashes: a recursion without end that overflows the stack. It takes room by pushes only, so the stack pointer stays in the stack: LLDB
// writes no minidump where it is below.
static volatile int deepest = 2000000000;
__attribute__((noinline)) int deeper(int n) {
    if (n == deepest) return n;
    return deeper(n + deepest % 3) ^ n;
}
int main(void) { return deeper(1); }
