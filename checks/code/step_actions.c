/* step_actions: runs instructions on the processor. Each line of standard input has the bytes of one, in hexadecimal. It is stepped
   three times, from registers that are random, over memory whose words are a function of their address (word_at of
   step_actions.rs): pages come where the instruction asks for them. For each time a line is written: the bytes; the signal that
   ended the step, 5 where it was made; the 16 registers before it, by their DWARF numbers; how far rip is behind the instruction's
   first byte; the registers after it; and each run of bytes of memory that changed, as w, address, colon and the new bytes. */
#define _GNU_SOURCE
#include <signal.h>
#include <stdint.h>
#include <stdio.h>
#include <stdlib.h>
#include <string.h>
#include <sys/mman.h>
#include <ucontext.h>
#include <unistd.h>

enum { TRIALS = 3, PAGES = 60, PAGE = 4096, FAULTS = 12, TRAP_FLAG = 0x100, FLAGS = 0x302, CARRY = 1, ZERO = 0x40, RSP = 7, RCX = 2 };

static const int order[16] = { REG_RAX, REG_RDX, REG_RCX, REG_RBX, REG_RSI, REG_RDI, REG_RBP, REG_RSP, REG_R8, REG_R9, REG_R10, REG_R11, REG_R12, REG_R13, REG_R14, REG_R15 };
static struct { uint64_t at; unsigned char copy[PAGE]; } pages[PAGES];
static volatile int count, phase, seen, faults;
static volatile uint64_t before[16], after[16], rip;
static unsigned char *code;
static greg_t saved[NGREG];
static uint64_t state = 88172645463325252u;

static uint64_t some(void)
{
    state ^= state << 13, state ^= state >> 7, state ^= state << 17;
    return state;
}

static uint64_t word_at(uint64_t address)
{
    uint64_t v = address * 0x9E3779B97F4A7C15u;
    v ^= v >> 29, v *= 0xBF58476D1CE4E5B9u, v ^= v >> 32;
    return address % PAGE / 8 % 3 ? v : 0x40000000 + (v & 0xffff);
}

static int map(uint64_t address)
{
    address -= address % PAGE;
    for (int i = 0; i < count; i++)
        if (pages[i].at == address) return 0;
    if (count == PAGES) return 0;
    void *page = mmap((void *)address, PAGE, PROT_READ | PROT_WRITE, MAP_PRIVATE | MAP_ANONYMOUS | MAP_FIXED_NOREPLACE, -1, 0);
    if (page != (void *)address) return 0;
    for (int i = 0; i < PAGE; i += 8) ((uint64_t *)page)[i / 8] = word_at(address + i);
    pages[count].at = address;
    memcpy(pages[count++].copy, page, PAGE);
    return 1;
}

static void caught(int signal, siginfo_t *info, void *context)
{
    greg_t *now = ((ucontext_t *)context)->uc_mcontext.gregs;
    if (phase == 0) {
        memcpy(saved, now, sizeof saved);
        for (int i = 0; i < 16; i++) now[order[i]] = before[i];
        now[REG_RIP] = (greg_t)code;
        now[REG_EFL] = FLAGS | (some() & (CARRY | ZERO));
        phase = 1;
        return;
    }
    uint64_t address = (uint64_t)info->si_addr;
    if (signal == SIGSEGV && info->si_code != SI_KERNEL && address != (uint64_t)now[REG_RIP] && faults++ < FAULTS && map(address) | map(address + 64))
        return;
    seen = signal;
    rip = now[REG_RIP];
    for (int i = 0; i < 16; i++) after[i] = now[order[i]];
    memcpy(now, saved, sizeof saved);
    now[REG_EFL] &= ~TRAP_FLAG;
    phase = 2;
}

static void put_writes(int page)
{
    const unsigned char *now = (unsigned char *)pages[page].at, *was = pages[page].copy;
    for (int i = 0; i < PAGE; i++) {
        if (now[i] == was[i]) continue;
        printf(" w%lx:", pages[page].at + i);
        for (; i < PAGE && now[i] != was[i]; i++) printf("%02x", now[i]);
    }
}

static void step(const char *line, int trial)
{
    count = phase = seen = faults = 0;
    for (int i = 0; i < 16; i++) {
        uint64_t v = some();
        before[i] = trial == 2 && i != RSP ? 0x40000000 + (v & 0xffff) : v % 4 == 0 && i != RSP ? v >> 8 & 0xff : ((1 + (v >> 40) % 8) << 32) + (v >> 20 & 0xfffff8);
    }
    if (trial == 2) before[RCX] = some() & 7;
    raise(SIGUSR1);
    printf("%s %d", line, seen);
    for (int i = 0; i < 16; i++) printf(" %lx", before[i]);
    printf(" %lx", rip - (uint64_t)code);
    for (int i = 0; i < 16; i++) printf(" %lx", after[i]);
    for (int i = 0; i < count; i++) put_writes(i);
    putchar('\n');
    for (int i = 0; i < count; i++) munmap((void *)pages[i].at, PAGE);
}

int main(void)
{
    static char line[256];
    stack_t stack = { .ss_sp = malloc(1 << 17), .ss_size = 1 << 17 };
    struct sigaction action = { .sa_sigaction = caught, .sa_flags = SA_SIGINFO | SA_ONSTACK };
    const int signals[] = { SIGSEGV, SIGTRAP, SIGILL, SIGFPE, SIGBUS, SIGUSR1 };
    sigaltstack(&stack, 0);
    for (int i = 0; i < 6; i++) sigaction(signals[i], &action, 0);
    code = mmap((void *)0x700000000000, PAGE, PROT_READ | PROT_WRITE | PROT_EXEC, MAP_PRIVATE | MAP_ANONYMOUS | MAP_FIXED, -1, 0);
    while (fgets(line, sizeof line, stdin)) {
        line[strcspn(line, "\n")] = 0;
        memset(code, 0x90, 64);
        for (int i = 0; line[2 * i]; i++) sscanf(line + 2 * i, "%2hhx", code + i);
        for (int trial = 0; trial < TRIALS; trial++) step(line, trial);
    }
    return 0;
}
