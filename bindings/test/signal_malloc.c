/* A library for LD_PRELOAD: ends the program with status 9 where memory is asked for, or freed, on the stack of a signal
 * handler. For glibc, which has its own calls under the names __libc_malloc and so on. */
#define _GNU_SOURCE
#include <signal.h>
#include <stddef.h>
#include <unistd.h>

void *__libc_malloc(size_t size);
void *__libc_calloc(size_t count, size_t size);
void *__libc_realloc(void *place, size_t size);
void __libc_free(void *place);

static void check(void)
{
    static const char text[] = "signal_malloc: memory is asked for in a signal handler\n";
    stack_t stack;
    if (sigaltstack(NULL, &stack) == 0 && (stack.ss_flags & SS_ONSTACK)) {
        (void)!write(2, text, sizeof text - 1);
        _exit(9);
    }
}

void *malloc(size_t size)
{
    check();
    return __libc_malloc(size);
}

void *calloc(size_t count, size_t size)
{
    check();
    return __libc_calloc(count, size);
}

void *realloc(void *place, size_t size)
{
    check();
    return __libc_realloc(place, size);
}

void free(void *place)
{
    check();
    __libc_free(place);
}
