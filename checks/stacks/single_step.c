/* single_step PAUSE STOPS PROGRAM ARGUMENT..: runs a program, stops it about each PAUSE microseconds, and then steps it instruction by
   instruction until the function that it was stopped in has returned: until it has made one return more than calls. To standard output
   it writes, for each stop:
   - as text a line "stop", the 16 general registers in the order of DWARF's columns, the instruction pointer, and how many bytes of the
     stack follow; the bytes; then a line "back" with the instruction pointer, the 16 registers and how many steps were made; or "late",
     where it has not returned after STEPS of them.
   Its mappings (/proc/PID/maps) are the line "maps SIZE" with SIZE bytes, before the first stop and where they have changed. */
#define _GNU_SOURCE
#include <fcntl.h>
#include <signal.h>
#include <stdio.h>
#include <stdlib.h>
#include <string.h>
#include <sys/personality.h>
#include <sys/ptrace.h>
#include <sys/syscall.h>
#include <sys/user.h>
#include <sys/wait.h>
#include <unistd.h>

enum { STEPS = 400000, STACK = 60000, MAPS = 1 << 20 };

static pid_t program;

static void write_registers(const char *what, const struct user_regs_struct *r, long number) {
    printf("%s %llx %llx %llx %llx %llx %llx %llx %llx %llx %llx %llx %llx %llx %llx %llx %llx %llx %ld\n", what, r->rax, r->rdx, r->rcx,
           r->rbx, r->rsi, r->rdi, r->rbp, r->rsp, r->r8, r->r9, r->r10, r->r11, r->r12, r->r13, r->r14, r->r15, r->rip, number);
}

static void write_maps(void) {
    static char before[MAPS], maps[MAPS];
    char path[32];
    snprintf(path, sizeof path, "/proc/%d/maps", program);
    int file = open(path, O_RDONLY);
    size_t size = 0;
    for (ssize_t more; size < MAPS - 1 && (more = read(file, maps + size, MAPS - 1 - size)) > 0;) size += more;
    close(file);
    maps[size] = 0;
    if (!strcmp(before, maps)) return;
    strcpy(before, maps);
    printf("maps %zu\n%s", size, maps);
}

/* 1 for a call, -1 for a return, 0 for all else */
static int depth_of(int memory, unsigned long long at) {
    unsigned char code[16];
    ssize_t size = pread(memory, code, sizeof code, at);
    int opcode = 0;
    while (opcode < 8 && (strchr("\x66\xf2\xf3\x2e\x3e", code[opcode]) && code[opcode] || code[opcode] >> 4 == 4)) opcode++;
    if (size < 2) return 0;
    if (code[opcode] == 0xe8 || code[opcode] == 0xff && (code[opcode + 1] >> 3 & 7) == 2) return 1;
    return code[opcode] == 0xc3 || code[opcode] == 0xc2 ? -1 : 0;
}

/* Stops the program, and returns whether it has not ended. */
static int stop(void) {
    int status;
    syscall(SYS_tgkill, program, program, SIGSTOP);
    for (;;) {
        if (waitpid(program, &status, __WALL) < 0 || WIFEXITED(status) || WIFSIGNALED(status)) return 0;
        if (WIFSTOPPED(status) && WSTOPSIG(status) == SIGSTOP) return 1;
        ptrace(PTRACE_CONT, program, 0, WSTOPSIG(status) == SIGTRAP ? 0 : WSTOPSIG(status));
    }
}

/* Steps to the return of the function, and returns whether the program has not ended. */
static int step_out(int memory) {
    struct user_regs_struct registers;
    int depth = 0, status, steps = 0;
    for (; steps < STEPS && depth >= 0; steps++) {
        ptrace(PTRACE_GETREGS, program, 0, &registers);
        unsigned long long at = registers.rip;
        int change = depth_of(memory, at);
        ptrace(PTRACE_SINGLESTEP, program, 0, 0);
        if (waitpid(program, &status, __WALL) < 0 || !WIFSTOPPED(status)) return 0;
        ptrace(PTRACE_GETREGS, program, 0, &registers);
        /* a signal stopped it before the instruction */
        if (WSTOPSIG(status) != SIGTRAP && registers.rip == at) continue;
        depth += change;
    }
    ptrace(PTRACE_GETREGS, program, 0, &registers);
    write_registers(depth < 0 ? "back" : "late", &registers, steps);
    return 1;
}

int main(int count, char **arguments) {
    if (count < 4) return 2;
    long pause = atol(arguments[1]), stops = atol(arguments[2]);
    program = fork();
    if (!program) {
        personality(ADDR_NO_RANDOMIZE);
        int null = open("/dev/null", O_RDWR);
        dup2(null, 0), dup2(null, 1), dup2(null, 2);
        ptrace(PTRACE_TRACEME, 0, 0, 0);
        execvp(arguments[3], arguments + 3);
        _exit(127);
    }
    waitpid(program, 0, 0);
    ptrace(PTRACE_SETOPTIONS, program, 0, PTRACE_O_EXITKILL);
    char path[32];
    snprintf(path, sizeof path, "/proc/%d/mem", program);
    int memory = open(path, O_RDONLY);
    static char stack[STACK];
    srand(1);
    for (long made = 0; made < stops; made++) {
        ptrace(PTRACE_CONT, program, 0, 0);
        usleep(pause / 2 + rand() % pause);
        if (!stop()) break;
        struct user_regs_struct registers;
        ptrace(PTRACE_GETREGS, program, 0, &registers);
        ssize_t size = pread(memory, stack, STACK, registers.rsp);
        write_maps();
        write_registers("stop", &registers, size < 0 ? 0 : size);
        if (size > 0) fwrite(stack, 1, size, stdout);
        if (!step_out(memory)) break;
    }
    kill(program, SIGKILL);
    return 0;
}
