// Stopped in the system call of nanosleep, below a callback of qsort.
#include <stdlib.h>
#include <time.h>
#include "stop.h"
static int compare(const void *a, const void *b) {
    static int calls;
    if (calls++ == 50) {
        struct timespec time = {1000, 0};
        ready();
        nanosleep(&time, 0);
    }
    return *(const int *)a - *(const int *)b;
}
int main(void) {
    static int list[1000];
    for (int i = 0; i < 1000; i++) list[i] = (i * 7919) % 1000;
    qsort(list, 1000, sizeof *list, compare);
    return list[0];
}
