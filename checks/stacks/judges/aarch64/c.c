// aarch64: a crash in a callback of qsort, below a recursion with a variable-length array. Before, it prints where its files are.
#include <stdio.h>
#include <stdlib.h>
#define NOINLINE __attribute__((noinline))
static volatile int calls;
static volatile int *volatile nowhere;
static NOINLINE int writes(volatile int *at, int n) { return *at = n; }
static NOINLINE int second(volatile int *at, int n) {
    volatile char room[n + 40];
    room[n] = (char)n;
    return n > 0 ? second(at, n - 1) + room[n] : writes(at, n) + room[0];
}
static int compare(const void *a, const void *b) {
    if (calls++ == 20) return second(nowhere, 3) + *(const int *)a;
    return *(const int *)a - *(const int *)b;
}
int main(void) {
    static int list[100];
    FILE *maps = fopen("/proc/self/maps", "r");
    for (int next; (next = fgetc(maps)) != EOF;) putchar(next);
    fflush(stdout);
    for (int i = 0; i < 100; i++) list[i] = (i * 79) % 100;
    qsort(list, 100, sizeof *list, compare);
    return list[0];
}
