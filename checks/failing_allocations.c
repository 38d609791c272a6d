/* Put before the C library by LD_PRELOAD, lets the allocation with the number FAILING_ALLOCATION fail. */
#define _GNU_SOURCE
#include <dlfcn.h>
#include <stdio.h>
#include <stdlib.h>

static void *(*next_malloc)(size_t);
static void *(*next_realloc)(void *, size_t);
static long failing, number;

static int fails(void) {
    if (next_malloc == NULL) {
        const char *asked = getenv("FAILING_ALLOCATION");
        next_malloc = dlsym(RTLD_NEXT, "malloc");
        next_realloc = dlsym(RTLD_NEXT, "realloc");
        failing = asked == NULL ? 0 : atol(asked);
    }
    number += 1;
    return number == failing;
}

/* Writes how many allocations there were. */
__attribute__((destructor)) static void tell(void) {
    long count = number;
    const char *name = getenv("ALLOCATIONS");
    FILE *file = name == NULL ? NULL : fopen(name, "w");
    if (file != NULL) {
        fprintf(file, "%ld\n", count);
        fclose(file);
    }
}

void *malloc(size_t size) { return fails() ? NULL : next_malloc(size); }
void *realloc(void *block, size_t size) { return fails() ? NULL : next_realloc(block, size); }
