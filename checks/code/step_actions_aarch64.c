/* step_actions_aarch64: runs instructions of aarch64, below qemu-user too. Each line of standard input has the word of one, in
   hexadecimal. It is stepped three times, from registers that are random, over memory whose words are a function of their address
   (word_at of steps.rs): pages come where the instruction asks for them. The page of code has BRK around the instruction. For each time
   a line is written: the word; the signal that ended the step, 5 where it was made; the registers before it, x0 to x30 and sp; how far
   pc is behind the instruction; the registers after it; and each run of bytes of memory that changed, as w, address, colon and the new
   bytes. */
#define _GNU_SOURCE
#include <signal.h>
#include <stdint.h>
#include <stdio.h>
#include <stdlib.h>
#include <string.h>
#include <sys/mman.h>
#include <ucontext.h>
#include <unistd.h>

enum { TRIALS = 3, PAGES = 60, PAGE = 4096, FAULTS = 12, COUNT = 32, SP = 31, FPSIMD = 0x46508001, SVE = 0x53564501 };

#define CODE 0x700000000000u
#define BRK 0xd4200000u

static struct { uint64_t at; unsigned char copy[PAGE]; } pages[PAGES];
static volatile int count, phase, seen, faults;
static volatile uint64_t before[COUNT], after[COUNT], pc;
static uint32_t *code;
static mcontext_t saved;
static uint64_t state = 88172645463325252u;

static uint64_t some(void)
{
    state ^= state << 13, state ^= state >> 7, state ^= state << 17;
    return state;
}

static uint64_t word_at(uint64_t address)
{
    uint64_t v = address * 0x9E3779B97F4A7C15u;
    v ^= v >> 29, v *= 0xBF58476D1CE4E5B9u, v ^= v >> 32;
    return address % PAGE / 8 % 3 ? v : 0x40000000 + (v & 0xffff);
}

static int map(uint64_t address)
{
    address -= address % PAGE;
    for (int i = 0; i < count; i++)
        if (pages[i].at == address) return 0;
    if (count == PAGES) return 0;
    void *page = mmap((void *)address, PAGE, PROT_READ | PROT_WRITE, MAP_PRIVATE | MAP_ANONYMOUS | MAP_FIXED_NOREPLACE, -1, 0);
    if (page == MAP_FAILED) return 0;
    if (page != (void *)address) {
        munmap(page, PAGE);
        return 0;
    }
    for (int i = 0; i < PAGE; i += 8) ((uint64_t *)page)[i / 8] = word_at(address + i);
    pages[count].at = address;
    memcpy(pages[count++].copy, page, PAGE);
    return 1;
}

/* Fills the vector registers of a signal frame: records of it begin with their kind and size. */
static void fill_vectors(unsigned char *record)
{
    uint32_t *head = (uint32_t *)record;
    for (; head[0]; head += head[1] / 4)
        if (head[0] == FPSIMD || head[0] == SVE)
            for (uint32_t i = 4; i + 1 < head[1] / 4; i += 2) {
                uint64_t v = some();
                memcpy(head + i, &v, sizeof v);
            }
}

static void caught(int signal, siginfo_t *info, void *context)
{
    mcontext_t *now = &((ucontext_t *)context)->uc_mcontext;
    if (phase == 0) {
        saved = *now;
        for (int i = 0; i < SP; i++) now->regs[i] = before[i];
        now->sp = before[SP];
        now->pc = CODE;
        fill_vectors(now->__reserved);
        now->pstate = (now->pstate & ~0xf0000000u) | (some() & 0xf0000000u);
        phase = 1;
        return;
    }
    uint64_t address = (uint64_t)info->si_addr;
    int is_there = signal == SIGSEGV && address == now->pc && now->pc != CODE;
    if (signal == SIGSEGV && !is_there && faults++ < FAULTS && map(address) | map(address + 64))
        return;
    seen = is_there ? SIGTRAP : signal;
    pc = now->pc;
    for (int i = 0; i < SP; i++) after[i] = now->regs[i];
    after[SP] = now->sp;
    memcpy(now->regs, saved.regs, sizeof saved.regs);
    now->sp = saved.sp, now->pc = saved.pc, now->pstate = saved.pstate;
    phase = 2;
}

static void put_writes(int page)
{
    const unsigned char *now = (unsigned char *)pages[page].at, *was = pages[page].copy;
    for (int i = 0; i < PAGE; i++) {
        if (now[i] == was[i]) continue;
        printf(" w%lx:", pages[page].at + i);
        for (; i < PAGE && now[i] != was[i]; i++) printf("%02x", now[i]);
    }
}

static void step(const char *line, int trial)
{
    count = phase = seen = faults = 0;
    for (int i = 0; i < COUNT; i++) {
        uint64_t v = some();
        before[i] = trial == 2 ? 0x40000000 + (v & 0xfff0) : v % 4 == 0 && i != SP ? v >> 8 & 0xff : ((1 + (v >> 40) % 8) << 32) + (v >> 20 & 0xfffff0);
    }
    raise(SIGUSR1);
    printf("%s %d", line, seen);
    for (int i = 0; i < COUNT; i++) printf(" %lx", before[i]);
    printf(" %lx", pc - CODE);
    for (int i = 0; i < COUNT; i++) printf(" %lx", after[i]);
    for (int i = 0; i < count; i++) put_writes(i);
    putchar('\n');
    fflush(stdout);
    for (int i = 0; i < count; i++) munmap((void *)pages[i].at, PAGE);
}

int main(void)
{
    static char line[256];
    stack_t stack = { .ss_sp = malloc(1 << 17), .ss_size = 1 << 17 };
    struct sigaction action = { .sa_sigaction = caught, .sa_flags = SA_SIGINFO | SA_ONSTACK };
    const int signals[] = { SIGSEGV, SIGTRAP, SIGILL, SIGFPE, SIGBUS, SIGUSR1 };
    sigaltstack(&stack, 0);
    for (int i = 0; i < 6; i++) sigaction(signals[i], &action, 0);
    code = mmap((void *)(CODE - PAGE), 2 * PAGE, PROT_READ | PROT_WRITE | PROT_EXEC, MAP_PRIVATE | MAP_ANONYMOUS | MAP_FIXED, -1, 0);
    for (int i = 0; i < 2 * PAGE / 4; i++) code[i] = BRK;
    while (fgets(line, sizeof line, stdin)) {
        line[strcspn(line, "\n")] = 0;
        code[PAGE / 4] = strtoul(line, 0, 16);
        __builtin___clear_cache((char *)(code + PAGE / 4), (char *)(code + PAGE / 4 + 1));
        for (int trial = 0; trial < TRIALS; trial++) step(line, trial);
    }
    return 0;
}
