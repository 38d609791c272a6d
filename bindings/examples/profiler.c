/* A profiler of its own program: samples its threads by a timer signal, unwinds copied stacks, and prints folded text.
 *
 *     cc -I ../include profiler.c libframehop_c.a liblibc_c.a -rdynamic -o profiler
 *     ./profiler 1000 | framehop-stacks --svg - >profile.svg
 *
 * The number says how long it works: 1000 are about a second.
 *
 * For Linux on x86_64, with glibc. The signal handler copies the registers and the stack of the thread that it interrupts,
 * and no more: it takes no memory and no lock. All else is done when the threads have ended: the modules are those that are
 * loaded, each with the bytes of .eh_frame_hdr and .eh_frame where they are in memory, so that no file is opened.
 *
 * With WITH_LIBUNWIND the handler also lets libunwind unwind the same thread, and the program says on standard error how
 * many samples have the same frames; its status is 1 if any has not. */
#define _GNU_SOURCE
#include "framehop.h"
#include <dlfcn.h>
#include <link.h>
#include <pthread.h>
#include <signal.h>
#include <stdatomic.h>
#include <stdio.h>
#include <stdlib.h>
#include <string.h>
#include <sys/syscall.h>
#include <time.h>
#include <ucontext.h>
#include <unistd.h>
#ifdef WITH_LIBUNWIND
#define UNW_LOCAL_ONLY
#include <libunwind.h>
#endif

#define SAMPLES 2000          /* the most samples */
#define STACK_WORDS 2048      /* the most words of a stack that are copied */
#define FRAMES 256            /* the most frames of a sample */
#define INTERVAL 1000000      /* the processor time between two samples of a thread, in nanoseconds */
#define LINE 8192             /* the greatest length of a folded stack, in bytes */

/* A thread that is interrupted: its registers, and the words of its stack from the stack pointer on. */
struct sample {
    framehop_registers_x86_64 registers;
    uint64_t stack[STACK_WORDS];
    size_t stack_length;
    const char *thread;
#ifdef WITH_LIBUNWIND
    uint64_t expected[FRAMES];
    size_t expected_count;
#endif
};

static struct sample samples[SAMPLES];
static atomic_size_t sample_count;

/* The name of this thread, and where its stack ends. */
static __thread const char *thread_name;
static __thread uint64_t stack_end;

static _Noreturn void stop(const char *what)
{
    fprintf(stderr, "profiler: %s\n", what);
    exit(2);
}

/* ---- in the signal handler */

static framehop_registers_x86_64 registers_of(const ucontext_t *context)
{
    const greg_t *all = context->uc_mcontext.gregs;
    framehop_registers_x86_64 registers = {
        .ip = all[REG_RIP], .rax = all[REG_RAX], .rdx = all[REG_RDX], .rcx = all[REG_RCX], .rbx = all[REG_RBX],
        .rsi = all[REG_RSI], .rdi = all[REG_RDI], .rbp = all[REG_RBP], .rsp = all[REG_RSP], .r8 = all[REG_R8],
        .r9 = all[REG_R9], .r10 = all[REG_R10], .r11 = all[REG_R11], .r12 = all[REG_R12], .r13 = all[REG_R13],
        .r14 = all[REG_R14], .r15 = all[REG_R15]};
    return registers;
}

#ifdef WITH_LIBUNWIND
static void unwind_by_libunwind(struct sample *sample, ucontext_t *context)
{
    unw_cursor_t cursor;
    unw_word_t ip;
    if (unw_init_local2(&cursor, context, UNW_INIT_SIGNAL_FRAME) != 0)
        return;
    do {
        if (unw_get_reg(&cursor, UNW_REG_IP, &ip) != 0 || ip == 0)
            return;
        sample->expected[sample->expected_count++] = ip;
    } while (sample->expected_count < FRAMES && unw_step(&cursor) > 0);
}
#endif

/* Copies word by word: a stack has words of the address sanitizer that memcpy must not touch. */
__attribute__((no_sanitize("address"))) static void copy_stack(struct sample *sample)
{
    const volatile uint64_t *word = (const volatile uint64_t *)(sample->registers.rsp & ~(uint64_t)7);
    while (sample->stack_length < STACK_WORDS && (uint64_t)word < stack_end)
        sample->stack[sample->stack_length++] = *word++;
}

static void take_sample(int signal_number, siginfo_t *information, void *context)
{
    size_t number = atomic_fetch_add(&sample_count, 1);
    (void)signal_number;
    (void)information;
    if (number >= SAMPLES)
        return;
    samples[number].thread = thread_name;
    samples[number].registers = registers_of(context);
    copy_stack(&samples[number]);
#ifdef WITH_LIBUNWIND
    unwind_by_libunwind(&samples[number], context);
#endif
}

/* ---- threads */

/* Begins to sample this thread, by a timer of its own processor time. */
static timer_t profile_this_thread(const char *name)
{
    struct sigevent event = {.sigev_notify = SIGEV_THREAD_ID, .sigev_signo = SIGPROF};
    struct itimerspec interval = {{0, INTERVAL}, {0, INTERVAL}};
    pthread_attr_t attributes;
    void *start;
    size_t size;
    timer_t timer;
    if (pthread_getattr_np(pthread_self(), &attributes) != 0
        || pthread_attr_getstack(&attributes, &start, &size) != 0)
        stop("the stack of a thread is not known");
    pthread_attr_destroy(&attributes);
    thread_name = name;
    stack_end = (uint64_t)start + size;
    event._sigev_un._tid = (pid_t)syscall(SYS_gettid);
    if (timer_create(CLOCK_THREAD_CPUTIME_ID, &event, &timer) != 0 || timer_settime(timer, 0, &interval, NULL) != 0)
        stop("no timer");
    return timer;
}

/* ---- what is profiled */

static volatile uint64_t sink;

__attribute__((noinline)) void spin(void)
{
    for (uint64_t i = 0; i < 2000; i++)
        sink += i * i;
}

void odd(int depth);

__attribute__((noinline)) void even(int depth)
{
    if (depth > 0)
        odd(depth - 1);
    spin();
}

__attribute__((noinline)) void odd(int depth)
{
    char room[64 + depth];  /* a frame whose size is known only when it runs */
    memset(room, depth, sizeof room);
    even(depth - 1);
    sink += room[depth];
}

int compare(const void *left, const void *right)
{
    uint64_t a = *(const uint64_t *)left, b = *(const uint64_t *)right;
    spin();
    return (a > b) - (a < b);
}

/* Sorts by the C library, which calls back. */
void sort(void)
{
    uint64_t numbers[64];
    for (size_t i = 0; i < 64; i++)
        numbers[i] = i * 2654435761u % 1000;
    qsort(numbers, 64, sizeof *numbers, compare);
}

void *recurse_thread(void *argument)
{
    timer_t timer = profile_this_thread("recurse");
    for (int i = 0; i < 10 * *(const int *)argument; i++)
        even(20);
    timer_delete(timer);
    return NULL;
}

void *sort_thread(void *argument)
{
    timer_t timer = profile_this_thread("sort");
    for (int i = 0; i < *(const int *)argument; i++)
        sort();
    timer_delete(timer);
    return NULL;
}

/* ---- modules */

struct modules {
    framehop_handle generations, unwinder;
};

static int32_t signed_32(const uint8_t *bytes)
{
    int32_t number;
    memcpy(&number, bytes, sizeof number);
    return number;
}

/* The bytes of a module from an address on, to the end of the segment that has it. */
static framehop_section from_here(const struct dl_phdr_info *module, uint64_t svma)
{
    framehop_section section = {0};
    for (int i = 0; i < module->dlpi_phnum; i++) {
        const ElfW(Phdr) *segment = &module->dlpi_phdr[i];
        if (segment->p_type == PT_LOAD && svma >= segment->p_vaddr && svma < segment->p_vaddr + segment->p_filesz) {
            section.svma_start = svma;
            section.svma_end = segment->p_vaddr + segment->p_filesz;
            section.bytes.start = (const uint8_t *)(module->dlpi_addr + svma);
            section.bytes.length = section.svma_end - svma;
            section.has_range = section.has_bytes = true;
        }
    }
    return section;
}

/* Adds a loaded module. Its .eh_frame_hdr is a segment; that says where .eh_frame is, as a number of four bytes that
 * counts from where it is stored (DW_EH_PE_pcrel | DW_EH_PE_sdata4), which all linkers write. */
static int add_module(struct dl_phdr_info *module, size_t size, void *data)
{
    struct modules *modules = data;
    framehop_sections sections = {0};
    uint64_t code_start = UINT64_MAX, code_end = 0;
    (void)size;
    for (int i = 0; i < module->dlpi_phnum; i++) {
        const ElfW(Phdr) *segment = &module->dlpi_phdr[i];
        if (segment->p_type == PT_LOAD && (segment->p_flags & PF_X)) {
            if (segment->p_vaddr < code_start)
                code_start = segment->p_vaddr;
            if (segment->p_vaddr + segment->p_memsz > code_end)
                code_end = segment->p_vaddr + segment->p_memsz;
        }
        if (segment->p_type == PT_GNU_EH_FRAME)
            sections.eh_frame_hdr = from_here(module, segment->p_vaddr);
    }
    if (code_end == 0 || !sections.eh_frame_hdr.has_bytes || sections.eh_frame_hdr.bytes.start[1] != 0x1b)
        return 0;
    sections.eh_frame = from_here(
        module, sections.eh_frame_hdr.svma_start + 4 + signed_32(sections.eh_frame_hdr.bytes.start + 4));
    return framehop_unwinder_x86_64_add_module(&modules->unwinder, &modules->generations,
        module->dlpi_addr + code_start, module->dlpi_addr + code_end, module->dlpi_addr, &sections);
}

/* ---- printing */

/* Appends the name of a frame: its function, or its module and the offset there. */
static size_t append_frame(char *line, size_t length, uint64_t lookup)
{
    Dl_info found;
    int added;
    if (!dladdr((void *)lookup, &found))
        added = snprintf(line + length, LINE - length, ";0x%llx", (unsigned long long)lookup);
    else if (found.dli_sname)
        added = snprintf(line + length, LINE - length, ";%s", found.dli_sname);
    else
        added = snprintf(line + length, LINE - length, ";%s+0x%llx", strrchr(found.dli_fname, '/') + 1,
            (unsigned long long)(lookup - (uint64_t)found.dli_fbase));
    return length + (size_t)added;
}

/* A stack as a line: the thread, then its frames from the outermost on. Of a return address the byte before it is looked
 * up, which is of the call. */
static char *folded(const char *thread, const uint64_t *frames, size_t count)
{
    char *line = malloc(LINE);
    size_t length;
    if (!line)
        stop("out of memory");
    length = (size_t)snprintf(line, LINE, "%s", thread);
    while (count-- > 0 && length < LINE - 256)
        length = append_frame(line, length, count ? frames[count] - 1 : frames[0]);
    return line;
}

static int compare_lines(const void *left, const void *right)
{
    return strcmp(*(char *const *)left, *(char *const *)right);
}

/* Prints each line once, with how often it is there. */
static void print_lines(char **lines, size_t count)
{
    qsort(lines, count, sizeof *lines, compare_lines);
    for (size_t i = 0, same; i < count; i += same) {
        for (same = 1; i + same < count && strcmp(lines[i], lines[i + same]) == 0; same++)
            ;
        printf("%s %zu\n", lines[i], same);
    }
}

#ifdef WITH_LIBUNWIND
/* Whether a sample has the frames that libunwind found; else both are printed. */
static bool same_frames(const struct sample *sample, const uint64_t *frames, size_t count)
{
    if (count == sample->expected_count && memcmp(frames, sample->expected, count * sizeof *frames) == 0)
        return true;
    fprintf(stderr, "ours:      %s\n", folded(sample->thread, frames, count));
    fprintf(stderr, "libunwind: %s\n", folded(sample->thread, sample->expected, sample->expected_count));
    return false;
}
#endif

/* Unwinds a sample, and returns how many frames it has. */
static size_t unwind(struct modules *modules, framehop_handle *cache, struct sample *sample, uint64_t *frames)
{
    framehop_registers_x86_64 registers = sample->registers;
    framehop_window window = {registers.rsp & ~(uint64_t)7, sample->stack, sample->stack_length};
    framehop_walk walk;
    int32_t status = framehop_unwinder_x86_64_walk(
        &modules->unwinder, cache, registers.ip, &registers, &window, frames, FRAMES, &walk);
    if (status == FRAMEHOP_WRONG_HANDLE || status == FRAMEHOP_OUT_OF_MEMORY)
        stop(framehop_status_text(status));
    return walk.frame_count;
}

/* Unwinds all samples and prints them. Returns the status of the program. */
static int report(void)
{
    static char *lines[SAMPLES];
    size_t count = sample_count < SAMPLES ? sample_count : SAMPLES, same = 0;
    uint64_t frames[FRAMES];
    struct modules modules;
    framehop_handle cache;
    if (framehop_generations_new(&modules.generations) != FRAMEHOP_OK
        || framehop_cache_x86_64_new(true, &cache) != FRAMEHOP_OK
        || framehop_unwinder_x86_64_new(&modules.generations, true, &modules.unwinder) != FRAMEHOP_OK
        || dl_iterate_phdr(add_module, &modules) != 0)
        stop("no unwinder");
    for (size_t i = 0; i < count; i++) {
        size_t frame_count = unwind(&modules, &cache, &samples[i], frames);
        lines[i] = folded(samples[i].thread, frames, frame_count);
#ifdef WITH_LIBUNWIND
        same += same_frames(&samples[i], frames, frame_count);
#endif
    }
    print_lines(lines, count);
    for (size_t i = 0; i < count; i++)
        free(lines[i]);
    framehop_free(modules.unwinder);
    framehop_free(cache);
    framehop_free(modules.generations);
#ifdef WITH_LIBUNWIND
    fprintf(stderr, "%zu of %zu samples have the frames of libunwind\n", same, count);
    return same != count;
#else
    (void)same;
    return count == 0;
#endif
}

int main(int argument_count, char **arguments)
{
    int times = argument_count > 1 ? atoi(arguments[1]) : 1000;
    struct sigaction action = {.sa_sigaction = take_sample, .sa_flags = SA_SIGINFO | SA_RESTART};
    pthread_t threads[2];
    if (sigaction(SIGPROF, &action, NULL) != 0 || pthread_create(&threads[0], NULL, recurse_thread, &times) != 0
        || pthread_create(&threads[1], NULL, sort_thread, &times) != 0)
        stop("no threads");
    pthread_join(threads[0], NULL);
    pthread_join(threads[1], NULL);
    return report();
}
