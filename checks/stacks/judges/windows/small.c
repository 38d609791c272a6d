// Windows, for a stored test: all frames are in this program, since the stacks of its four threads begin with a return address 0. One
// runs in a loop below frames of all kinds, one in a prologue, between its pushes, one is in an epilogue, between its pops, and one crashes
// by a write through a null pointer.
#include "judge.h"

volatile int running = 1;
static volatile int zero, ready;
static volatile int *volatile nowhere;
static HANDLE threads[4];
static MINIDUMP_EXCEPTION_INFORMATION exception;

static NOINLINE int spins(int n) {
    ready++;
    while (running) n += zero;
    return n;
}
// UWOP_ALLOC_LARGE
static NOINLINE int large(int n) {
    volatile char room[300];
    room[n] = (char)n;
    return spins(n) + room[n];
}
// UWOP_SET_FPREG
static NOINLINE int variable(int n) {
    volatile char *room = __builtin_alloca(n + 20);
    room[n] = (char)n;
    return large(n) + room[n];
}
// UWOP_SAVE_XMM128
static NOINLINE int keeps_xmm(int n) {
    int sum = variable(n);
    __asm__ volatile("" ::: "xmm6", "xmm15");
    return sum + n;
}
static NOINLINE int recursion(int n) { return n > 0 ? (recursion(n - 1) * 3) ^ n : keeps_xmm(n + 1); }
// many saved registers
int saves(int a, int b, int c, int d) {
    int e = a + zero, f = b * (c + zero), g = c + d + zero, h = a ^ d ^ zero;
    int sum = recursion(a + 1);
    return sum + a * b + c * d + e * f + g * h + recursion(sum & 1);
}

// A prologue that waits between its pushes, while rbx and rsi are saved, and rdi and 40 bytes are not.
int prologue(void);
__asm__(".seh_proc prologue\n"
        "prologue:\n"
        "push %rbx\n"
        ".seh_pushreg %rbx\n"
        "push %rsi\n"
        ".seh_pushreg %rsi\n"
        "1: cmpl $0, running(%rip)\n"
        "jne 1b\n"
        "push %rdi\n"
        ".seh_pushreg %rdi\n"
        "sub $40, %rsp\n"
        ".seh_stackalloc 40\n"
        ".seh_endprologue\n"
        "xor %eax, %eax\n"
        "add $40, %rsp\n"
        "pop %rdi\n"
        "pop %rsi\n"
        "pop %rbx\n"
        "ret\n"
        ".seh_endproc\n");
int above_prologue(int n) { return prologue() + n; }

// An epilogue: a thread that runs in the loop is put between the pops.
int epilogue(void);
extern char between_pops[];
__asm__(".seh_proc epilogue\n"
        "epilogue:\n"
        "push %rbx\n"
        ".seh_pushreg %rbx\n"
        "push %rsi\n"
        ".seh_pushreg %rsi\n"
        "sub $40, %rsp\n"
        ".seh_stackalloc 40\n"
        ".seh_endprologue\n"
        "1: cmpl $0, running(%rip)\n"
        "jne 1b\n"
        "xor %eax, %eax\n"
        "add $40, %rsp\n"
        "pop %rsi\n"
        "between_pops:\n"
        "pop %rbx\n"
        "ret\n"
        ".seh_endproc\n");
int above_epilogue(int n) { return epilogue() + n; }
static void put_between_pops(HANDLE thread) {
    static CONTEXT context;
    SuspendThread(thread);
    context.ContextFlags = CONTEXT_FULL;
    GetThreadContext(thread, &context);
    context.Rip = (DWORD64)between_pops;
    context.Rsi = *(DWORD64 *)(context.Rsp + 40);
    context.Rsp += 48;
    SetThreadContext(thread, &context);
}

static NOINLINE int crash(int n) { return *nowhere = n; }
int above_crash(int n) {
    volatile char room[40];
    room[n] = (char)n;
    return crash(n) + room[n];
}

// The functions that threads begin with: in the place of a return address is 0.
#define BEGINS(name, function)                                                                                         \
    DWORD WINAPI name(void *);                                                                                         \
    __asm__(#name ":\n"                                                                                                \
                  "push $0\n"                                                                                          \
                  "push $0\n"                                                                                          \
                  "jmp " #function "\n")
BEGINS(begins_saves, saves);
BEGINS(begins_prologue, above_prologue);
BEGINS(begins_epilogue, above_epilogue);
BEGINS(begins_crash, above_crash);

static DWORD WINAPI writes(void *unused) {
    (void)unused;
    write_minidump("small.dmp", &exception);
    ExitProcess(0);
}

static LONG WINAPI handler(EXCEPTION_POINTERS *pointers) {
    exception.ThreadId = GetCurrentThreadId();
    exception.ExceptionPointers = pointers;
    put_between_pops(threads[2]);
    for (int at = 0; at < 3; at++) print_stopped(threads[at]);
    print_frames(exception.ThreadId, pointers->ContextRecord);
    WaitForSingleObject(CreateThread(0, 0, writes, 0, 0, 0), INFINITE);
    return EXCEPTION_CONTINUE_SEARCH;
}

void start(void) {
    AddVectoredExceptionHandler(1, handler);
    threads[0] = CreateThread(0, 0, begins_saves, (void *)1, 0, 0);
    threads[1] = CreateThread(0, 0, begins_prologue, (void *)2, 0, 0);
    threads[2] = CreateThread(0, 0, begins_epilogue, (void *)3, 0, 0);
    while (!ready) Sleep(1);
    Sleep(200);
    threads[3] = CreateThread(0, 0, begins_crash, (void *)4, 0, 0);
    WaitForSingleObject(threads[3], INFINITE);
    ExitProcess(1);
}
