// Windows: a thread waits below saved xmm registers, large and variable frames and a callback of qsort, one runs in a loop, many run
// through short functions and are stopped wherever they are just then, and the main thread waits for the one that writes the minidump.
#include "judge.h"

void __cdecl qsort(void *, size_t, size_t, int(__cdecl *)(const void *, const void *));

static HANDLE event;
static volatile int running = 1, zero, waits;

static NOINLINE int wait(int n) {
    waits = 1;
    return (int)WaitForSingleObject(event, INFINITE) + n;
}
// UWOP_SAVE_XMM128
static NOINLINE int keeps_xmm(int n, int (*next)(int)) {
    int sum = next(n);
    __asm__ volatile("" ::: "xmm6", "xmm7", "xmm15", "rbx");
    return sum + n;
}
// UWOP_ALLOC_LARGE
static NOINLINE int large(int n) {
    volatile char room[20000];
    room[n] = (char)n;
    return wait(n) + room[n];
}
// UWOP_ALLOC_LARGE with a size of four bytes
static NOINLINE int larger(int n) {
    volatile char room[600000];
    room[n] = (char)n;
    return keeps_xmm(n, large) + room[n];
}
// UWOP_SET_FPREG
static NOINLINE int variable(int n) {
    volatile char *room = __builtin_alloca(n + 100);
    room[n] = (char)n;
    return larger(n) + room[n];
}
// a frame that is aligned
static NOINLINE int aligned(int n) {
    volatile char room[64] __attribute__((aligned(64)));
    room[n] = (char)n;
    return variable(n) + room[n];
}
// many saved registers
static NOINLINE int saves(int a, int b, int c, int d) {
    int e = a + zero, f = b * (c + zero), g = c + d + zero, h = a ^ d ^ zero;
    int sum = aligned(a);
    return sum + a * b + c * d + e * f + g * h + aligned(sum & 1);
}
static int __cdecl compare(const void *a, const void *b) {
    static int calls;
    if (calls++ == 5) return saves(1, 2, 3, 4);
    return *(const int *)a - *(const int *)b;
}
static NOINLINE int sorts(int n) {
    int list[10];
    for (int at = 0; at < 10; at++) list[at] = (at * n) % 11;
    qsort(list, 10, sizeof *list, compare);
    return list[0];
}
static DWORD WINAPI waiting(void *number) { return sorts((int)(DWORD64)number) + 1; }

static NOINLINE int spins(int n) {
    while (running) n += zero;
    return n;
}
static NOINLINE int spins_below(int n) { return spins(n + 1) ^ n; }
static DWORD WINAPI spinning(void *number) { return spins_below((int)(DWORD64)number) + 1; }

static NOINLINE int leaf(int n) { return n * 3 + zero; }
static NOINLINE int pushes(int a, int b) {
    int c = leaf(a), d = leaf(b);
    return leaf(c + d) + a * b + c * d;
}
static NOINLINE int rooms(int n) {
    volatile int room[2000];
    room[n & 1023] = n;
    return pushes(room[n & 1023], n) ^ n;
}
static NOINLINE int varies(int n) {
    volatile char *room = __builtin_alloca((n & 63) + 64);
    room[n & 63] = (char)n;
    return rooms(room[n & 63]) ^ n;
}
static NOINLINE int wide(int n) {
    int sum = varies(n);
    __asm__ volatile("" ::: "xmm6", "xmm8", "xmm9", "rdi");
    return sum + n;
}
static NOINLINE int busy(int n) {
    while (running) n = pushes(n, 3) ^ wide(n & 1023) ^ rooms(n);
    return n;
}
static DWORD WINAPI working(void *number) { return busy((int)(DWORD64)number) + 1; }

#define THREADS 34
static HANDLE threads[THREADS];

static DWORD WINAPI writes(void *main_thread) {
    while (!waits) Sleep(1);
    Sleep(200);
    print_stopped(main_thread);
    for (int at = 0; at < THREADS; at++) print_stopped(threads[at]);
    write_minidump("nest.dmp", 0);
    ExitProcess(0);
}

void start(void) {
    HANDLE self, writer;
    event = CreateEventA(0, 1, 0, 0);
    DuplicateHandle(GetCurrentProcess(), GetCurrentThread(), GetCurrentProcess(), &self, 0, 0, DUPLICATE_SAME_ACCESS);
    for (DWORD64 at = 0; at < THREADS; at++)
        threads[at] = CreateThread(0, 1 << 21, at == 0 ? waiting : at == 1 ? spinning : working, (void *)(at + 7), 0, 0);
    writer = CreateThread(0, 0, writes, self, 0, 0);
    WaitForSingleObject(writer, INFINITE);
    ExitProcess(1);
}
