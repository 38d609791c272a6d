// Windows: crashes by a write through a null pointer; the filter of unhandled exceptions prints the frames from the registers of the
// exception on, and has another thread write the minidump.
#include "judge.h"

static volatile int *volatile nowhere;
static volatile int zero;
static MINIDUMP_EXCEPTION_INFORMATION exception;

static NOINLINE int crash(int n) { return *nowhere = n; }
static NOINLINE int variable(int n) {
    volatile char *room = __builtin_alloca(n + 100);
    room[n] = (char)n;
    return crash(n) + room[n];
}
static NOINLINE int recursion(int n) { return n > 0 ? (recursion(n - 1) * 3) ^ n : variable(n + 1); }
static NOINLINE int outer(int a, int b) {
    int c = a * b + zero;
    return recursion(a) + a * c + b;
}

static DWORD WINAPI writes(void *unused) {
    (void)unused;
    return (DWORD)write_minidump("crash.dmp", &exception);
}

static LONG WINAPI filter(EXCEPTION_POINTERS *pointers) {
    exception.ThreadId = GetCurrentThreadId();
    exception.ExceptionPointers = pointers;
    print_frames(exception.ThreadId, pointers->ContextRecord);
    WaitForSingleObject(CreateThread(0, 0, writes, 0, 0, 0), INFINITE);
    ExitProcess(0);
}

static DWORD WINAPI crashing(void *number) { return (DWORD)outer((int)(DWORD64)number, 5); }

void start(void) {
    SetUnhandledExceptionFilter(filter);
    WaitForSingleObject(CreateThread(0, 0, crashing, (void *)3, 0, 0), INFINITE);
    ExitProcess(1);
}
