// What the programs of this folder share: they print the frames of a thread's stack by RtlVirtualUnwind, as `thread index: address`, and
// write a minidump of themselves. The C library's start is not linked.
#include <windows.h>
#include <dbghelp.h>
#define NOINLINE __attribute__((noinline))

// Touches each page of a large frame of rax bytes, and keeps all registers. The one of libgcc has no unwind data, so RtlVirtualUnwind goes
// wrong where a thread is stopped in it.
__asm__(".text\n"
        ".globl ___chkstk_ms\n"
        ".seh_proc ___chkstk_ms\n"
        "___chkstk_ms:\n"
        "push %rcx\n"
        ".seh_pushreg %rcx\n"
        "push %rax\n"
        ".seh_pushreg %rax\n"
        ".seh_endprologue\n"
        "lea 24(%rsp), %rcx\n"
        "1: cmp $4096, %rax\n"
        "jb 2f\n"
        "sub $4096, %rcx\n"
        "orb $0, (%rcx)\n"
        "sub $4096, %rax\n"
        "jmp 1b\n"
        "2: sub %rax, %rcx\n"
        "orb $0, (%rcx)\n"
        "pop %rax\n"
        "pop %rcx\n"
        "ret\n"
        ".seh_endproc\n");

// For copies of structs: there is no C library.
void *memcpy(void *to, const void *from, size_t count) {
    for (size_t at = 0; at < count; at++) ((volatile char *)to)[at] = ((const char *)from)[at];
    return to;
}

static void print_text(const char *text) {
    DWORD written, length = 0;
    while (text[length]) length++;
    WriteFile(GetStdHandle(STD_OUTPUT_HANDLE), text, length, &written, 0);
}

static void print_number(DWORD64 number, unsigned base, const char *after) {
    char text[24], *at = text + sizeof text - 1;
    *at = 0;
    do *--at = "0123456789abcdef"[number % base];
    while (number /= base);
    print_text(at);
    print_text(after);
}

// Prints the frames from a context on. An address outside of all modules that have unwind data is the last one: below wine the stack of
// Windows begins in a library of Linux.
static NOINLINE void print_frames(DWORD thread, const CONTEXT *of) {
    static CONTEXT context;
    context = *of;
    for (unsigned index = 0; context.Rip && index < 1000; index++) {
        DWORD64 base, frame;
        void *data;
        print_number(thread, 10, " ");
        print_number(index, 10, ": ");
        print_number(context.Rip, 16, "\n");
        RUNTIME_FUNCTION *function = RtlLookupFunctionEntry(context.Rip, &base, 0);
        if (function) {
            RtlVirtualUnwind(UNW_FLAG_NHANDLER, base, context.Rip, function, &context, &data, &frame, 0);
        } else if (index == 0 || RtlPcToFileHeader((void *)context.Rip, &data)) {
            // a function without an entry has moved no register but rsp's return address
            context.Rip = *(DWORD64 *)context.Rsp;
            context.Rsp += 8;
        } else {
            break;
        }
    }
}

// Stops a thread, and prints its frames; it stays as it is.
static inline void print_stopped(HANDLE thread) {
    static CONTEXT context;
    SuspendThread(thread);
    context.ContextFlags = CONTEXT_FULL;
    if (GetThreadContext(thread, &context)) print_frames(GetThreadId(thread), &context);
}

// Writes a minidump of the process: the stacks of all threads, and the registers of an exception, if there is one.
static int write_minidump(const char *name, MINIDUMP_EXCEPTION_INFORMATION *exception) {
    HANDLE file = CreateFileA(name, GENERIC_WRITE, 0, 0, CREATE_ALWAYS, 0, 0);
    int written = MiniDumpWriteDump(GetCurrentProcess(), GetCurrentProcessId(), file, MiniDumpNormal, exception, 0, 0);
    CloseHandle(file);
    if (!written) print_text("# no minidump\n");
    return written;
}
