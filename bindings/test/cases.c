/* Carries out a case that cases.py writes, and prints what `framehop-walk` does: `cases window` with walks and steps that are one
 * call; `cases callback` with a callback that reads a word a call, and steps that ask for words; `cases chunks` with a
 * callback that reads as many words as it can; `cases frames` with a call for each frame, which is lent the words that the
 * call before told; `cases time N` with walks by one call, which are made N times more in each
 * way, and tells the nanoseconds of a frame. */
#define _POSIX_C_SOURCE 199309L
#include "framehop.h"
#include <stdio.h>
#include <stdlib.h>
#include <string.h>
#include <time.h>

#define UNWINDERS 2100
#define FRAMES 1000000

static framehop_handle generations, unwinders[UNWINDERS], caches[UNWINDERS];
static size_t unwinder_count, cache_count, modules_bytes;
static bool by_callback, by_chunks, by_frames;
static size_t times, frame_calls, frame_count, reads;
static uint8_t *kept[200000];

static const char *text(void)
{
    static char word[1 << 25];
    char *start = word;
    int next;
    while ((next = getchar()) == ' ' || next == '\n')
        ;
    for (; next != EOF && next != ' ' && next != '\n'; next = getchar())
        *start++ = (char)next;
    *start = 0;
    if (start == word) {
        fprintf(stderr, "a word is missing\n");
        exit(3);
    }
    return word;
}

static size_t count(void)
{
    return strtoull(text(), NULL, 10);
}

static uint64_t address(void)
{
    return strtoull(text(), NULL, 16);
}

static int32_t good(int32_t status)
{
    if (status < 0) {
        fprintf(stderr, "status %d: %s\n", (int)status, framehop_status_text(status));
        exit(3);
    }
    return status;
}

static int digit(char it)
{
    return it <= '9' ? it - '0' : (it | 0x20) - 'a' + 10;
}

struct memory {
    uint64_t base;
    uint64_t *words;
    size_t count;
};

static struct memory read_memory(void)
{
    struct memory memory;
    size_t i;
    memory.base = address();
    memory.count = count();
    memory.words = malloc(8 * memory.count + 8);
    for (i = 0; i < memory.count; i++)
        memory.words[i] = address();
    return memory;
}

static size_t read_words(void *data, uint64_t at, uint64_t *words, size_t capacity)
{
    const struct memory *memory = (const struct memory *)data;
    size_t first = (at - memory->base) / 8, count = by_chunks ? capacity : 1;
    reads++;
    if (at < memory->base || (at - memory->base) % 8 || first >= memory->count)
        return 0;
    if (count > memory->count - first)
        count = memory->count - first;
    memcpy(words, &memory->words[first], count * sizeof *words);
    return count;
}

/* reads a word into a window of its own; false where it can't be read */
static bool read_known(struct memory *memory, uint64_t at, framehop_window *windows, uint64_t *words, size_t *known)
{
    framehop_window *window = &windows[*known];
    size_t i;
    for (i = 0; i < *known; i++)
        if (windows[i].base == at) {
            fprintf(stderr, "a word is asked for twice\n");
            exit(3);
        }
    window->base = at;
    window->words = &words[*known];
    window->word_count = read_words(memory, at, &words[*known], 1);
    ++*known;
    return window->word_count > 0;
}

static framehop_section *place_of(framehop_sections *sections, bool is_segment, const char *name)
{
    if (is_segment)
        return strcmp(name, "__TEXT") ? NULL : &sections->text_segment;
#define UNDER(under, field)       \
    if (strcmp(name, under) == 0) \
        return &sections->field
    UNDER("__text", text);
    UNDER(".text", text);
    UNDER("__stubs", stubs);
    UNDER("__stub_helper", stub_helper);
    UNDER("__got", got);
    UNDER(".got", got);
    UNDER("__unwind_info", unwind_info);
    UNDER("__eh_frame", eh_frame);
    UNDER(".eh_frame", eh_frame);
    UNDER("__eh_frame_hdr", eh_frame_hdr);
    UNDER(".eh_frame_hdr", eh_frame_hdr);
    UNDER(".debug_frame", debug_frame);
    UNDER(".pdata", pdata);
    UNDER(".rdata", rdata);
    UNDER(".xdata", xdata);
    return NULL;
}

static void read_sections(framehop_sections *sections)
{
    size_t parts = count(), i;
    while (parts--) {
        bool is_segment = strcmp(text(), "segment") == 0;
        framehop_section *place = place_of(sections, is_segment, text());
        framehop_section read;
        const char *digits;
        memset(&read, 0, sizeof read);
        read.has_range = count() == 1;
        read.svma_start = address();
        read.svma_end = address();
        read.has_bytes = count() == 1;
        digits = text();
        if (read.has_bytes) {
            size_t length = *digits == '-' ? 0 : strlen(digits) / 2;
            uint8_t *bytes = malloc(length + 1);
            for (i = 0; i < length; i++)
                bytes[i] = (uint8_t)(digit(digits[2 * i]) << 4 | digit(digits[2 * i + 1]));
            read.bytes.start = bytes;
            read.bytes.length = length;
            kept[modules_bytes++] = bytes;
        }
        if (place != NULL)
            *place = read;
    }
}

static void print_end(const char *before, int32_t status, uint64_t unreadable)
{
    if (status == FRAMEHOP_END)
        printf("%send\n", before);
    else if (status == FRAMEHOP_FRAMES_FULL)
        printf("%slimit\n", before);
    else if (status == FRAMEHOP_COULD_NOT_READ_STACK)
        printf("%sstopped: %s at 0x%llx\n", before, framehop_status_text(status), (unsigned long long)unreadable);
    else
        printf("%sstopped: %s\n", before, framehop_status_text(status));
}

static framehop_registers_x86_64 read_x86_64(void)
{
    framehop_registers_x86_64 registers;
    registers.ip = address();
    registers.rax = address();
    registers.rdx = address();
    registers.rcx = address();
    registers.rbx = address();
    registers.rsi = address();
    registers.rdi = address();
    registers.rbp = address();
    registers.rsp = address();
    registers.r8 = address();
    registers.r9 = address();
    registers.r10 = address();
    registers.r11 = address();
    registers.r12 = address();
    registers.r13 = address();
    registers.r14 = address();
    registers.r15 = address();
    return registers;
}

static void print_x86_64(const framehop_registers_x86_64 *it)
{
#define ONE(name) printf(" %s=%llx", #name, (unsigned long long)it->name)
    printf("regs ip=%llx", (unsigned long long)it->ip);
    ONE(rax), ONE(rdx), ONE(rcx), ONE(rbx), ONE(rsi), ONE(rdi), ONE(rbp), ONE(rsp);
    ONE(r8), ONE(r9), ONE(r10), ONE(r11), ONE(r12), ONE(r13), ONE(r14), ONE(r15);
    printf("\n");
}

static framehop_registers_aarch64 read_aarch64(void)
{
    framehop_registers_aarch64 registers;
    registers.lr_mask = address();
    registers.lr = address();
    registers.sp = address();
    registers.fp = address();
    return registers;
}

static void print_aarch64(const framehop_registers_aarch64 *it)
{
    /* registers that no step has written are as the caller gave them */
    printf("regs lr=%llx", (unsigned long long)(it->lr & it->lr_mask));
    ONE(sp), ONE(fp);
    printf("\n");
}

/* what is left after a walk is as it was before it */
#define CHECK_REST(frames, from, to)                             \
    for (size_t i_ = (from); i_ < (to); i_++)                    \
        if ((frames)[i_] != 0xabababababababab) {                \
            fprintf(stderr, "a frame beyond those is written\n"); \
            exit(3);                                             \
        }

static double nanoseconds(void)
{
    struct timespec now;
    clock_gettime(CLOCK_MONOTONIC, &now);
    return 1e9 * (double)now.tv_sec + (double)now.tv_nsec;
}

#define CHECK_REST_ZERO(frames, from, to)                        \
    for (size_t i_ = (from); i_ < (to); i_++)                    \
        if ((frames)[i_] != 0) {                                 \
            fprintf(stderr, "a frame beyond those is written\n"); \
            exit(3);                                             \
        }

#define ARCHITECTURE(arch)                                                                                            \
    /* a step from a first frame is a walk to its caller */                                                           \
    static int32_t call_##arch(framehop_handle *unwinder, framehop_handle *cache, uint64_t pc,                        \
        framehop_registers_##arch *registers, struct memory *memory, framehop_step *step)                             \
    {                                                                                                                 \
        uint64_t frames[3] = {0, 0, 0};                                                                               \
        framehop_walk walk;                                                                                           \
        int32_t status = framehop_unwinder_##arch##_walk_with(unwinder, cache, pc, registers, read_words, memory,     \
            frames, 2, &walk);                                                                                        \
        CHECK_REST_ZERO(frames, walk.frame_count, 3)                                                                  \
        step->return_address = frames[1];                                                                             \
        step->unreadable = walk.unreadable;                                                                           \
        return status == FRAMEHOP_FRAMES_FULL || status == FRAMEHOP_RETURN_ADDRESS_IS_NULL ? FRAMEHOP_OK : status;    \
    }                                                                                                                 \
                                                                                                                      \
    /* a step that is given the words that it asks for, one after the other */                                        \
    static int32_t ask_##arch(framehop_handle *unwinder, framehop_handle *cache, uint64_t address,                    \
        bool is_return_address, framehop_registers_##arch *registers, struct memory *memory, framehop_step *step)     \
    {                                                                                                                 \
        framehop_window windows[600];                                                                                 \
        uint64_t words[600];                                                                                          \
        const framehop_registers_##arch before = *registers;                                                          \
        size_t known = 0;                                                                                             \
        for (;;) {                                                                                                    \
            int32_t status = framehop_unwinder_##arch##_unwind_frame(unwinder, cache, address, is_return_address,     \
                registers, windows, known, step);                                                                     \
            if (!step->has_missing)                                                                                   \
                return status;                                                                                        \
            *registers = before;                                                                                      \
            windows[known].base = step->missing;                                                                      \
            windows[known].words = &words[known];                                                                     \
            windows[known].word_count = read_words(memory, step->missing, &words[known], 1);                          \
            known++;                                                                                                  \
        }                                                                                                             \
    }                                                                                                                 \
                                                                                                                      \
    /* a frame a call: the words that are told are read first, and each other one that is missing */                  \
    static int32_t next_##arch(framehop_handle *unwinder, framehop_handle *cache, uint64_t address,                   \
        bool is_return_address, framehop_registers_##arch *registers, struct memory *memory, framehop_next *next)     \
    {                                                                                                                 \
        framehop_window windows[600];                                                                                 \
        uint64_t words[600], asked[2] = {next->ahead.first, next->ahead.second};                                      \
        const framehop_registers_##arch before = *registers;                                                          \
        size_t known = 0, calls = 0, i;                                                                               \
        int32_t status;                                                                                               \
        for (i = 0; i < next->ahead.count; i++)                                                                       \
            if (!read_known(memory, asked[i], windows, words, &known))                                                \
                break;                                                                                                \
        for (;;) {                                                                                                    \
            status = framehop_unwinder_##arch##_next_frame(unwinder, cache, address, is_return_address, registers,    \
                windows, known, next);                                                                                \
            calls++;                                                                                                  \
            if (status != FRAMEHOP_OK && next->ahead.count + next->ahead.lookup + next->return_address > 0)           \
                exit(4);                                                                                              \
            if (status != FRAMEHOP_OK && status != FRAMEHOP_RETURN_ADDRESS_IS_NULL                                    \
                && memcmp(registers, &before, sizeof before))                                                         \
                exit(5);                                                                                              \
            if (status != FRAMEHOP_MISSING_WORD)                                                                      \
                break;                                                                                                \
            read_known(memory, next->unreadable, windows, words, &known);                                             \
        }                                                                                                             \
        frame_calls += calls;                                                                                         \
        frame_count++;                                                                                                \
        return status;                                                                                                \
    }                                                                                                                 \
                                                                                                                      \
    static int32_t walk_frames_##arch(framehop_handle *unwinder, framehop_handle *cache, uint64_t pc,                 \
        framehop_registers_##arch *registers, struct memory *memory, uint64_t *frames, size_t limit,                  \
        framehop_walk *walk)                                                                                          \
    {                                                                                                                 \
        framehop_next next;                                                                                           \
        memset(&next, 0, sizeof next);                                                                                \
        walk->unreadable = 0;                                                                                         \
        for (walk->frame_count = 0; walk->frame_count < limit; walk->frame_count++) {                                 \
            size_t at = walk->frame_count;                                                                            \
            int32_t status = FRAMEHOP_OK;                                                                             \
            if (at > 0)                                                                                               \
                status = next_##arch(unwinder, cache, frames[at - 1], at > 1, registers, memory, &next);              \
            walk->unreadable = next.unreadable;                                                                       \
            if (status != FRAMEHOP_OK)                                                                                \
                return status;                                                                                        \
            frames[at] = at > 0 ? next.return_address : pc;                                                           \
        }                                                                                                             \
        return FRAMEHOP_FRAMES_FULL;                                                                                  \
    }                                                                                                                 \
                                                                                                                      \
    static void step_##arch(framehop_handle *unwinder)                                                                \
    {                                                                                                                 \
        framehop_handle *cache = &caches[count()];                                                                    \
        bool is_return_address = strcmp(text(), "ra") == 0;                                                           \
        uint64_t from = address();                                                                                    \
        framehop_registers_##arch registers = read_##arch();                                                          \
        struct memory memory = read_memory();                                                                         \
        framehop_window window = {memory.base, memory.words, memory.count};                                           \
        framehop_step step;                                                                                           \
        int32_t status;                                                                                               \
        if (!by_callback)                                                                                             \
            status = framehop_unwinder_##arch##_unwind_frame(unwinder, cache, from, is_return_address, &registers,    \
                &window, 1, &step);                                                                                   \
        else if (is_return_address)                                                                                   \
            status = ask_##arch(unwinder, cache, from, true, &registers, &memory, &step);                             \
        else                                                                                                          \
            status = call_##arch(unwinder, cache, from, &registers, &memory, &step);                                  \
        if (status == FRAMEHOP_OK)                                                                                    \
            printf("step %llx\n", (unsigned long long)step.return_address);                                           \
        else                                                                                                          \
            print_end("step ", status, step.unreadable);                                                              \
        print_##arch(&registers);                                                                                     \
        free(memory.words);                                                                                           \
    }                                                                                                                 \
                                                                                                                      \
    static int32_t walk_by_##arch(framehop_handle *unwinder, framehop_handle *cache, uint64_t pc,                     \
        framehop_registers_##arch *registers, struct memory *memory, uint64_t *frames, size_t limit,                  \
        framehop_walk *walk)                                                                                          \
    {                                                                                                                 \
        framehop_window window = {memory->base, memory->words, memory->count};                                        \
        if (by_frames)                                                                                                \
            return walk_frames_##arch(unwinder, cache, pc, registers, memory, frames, limit, walk);                   \
        if (by_callback)                                                                                              \
            return framehop_unwinder_##arch##_walk_with(unwinder, cache, pc, registers, read_words, memory, frames,   \
                limit, walk);                                                                                         \
        return framehop_unwinder_##arch##_walk(unwinder, cache, pc, registers, &window, frames, limit, walk);         \
    }                                                                                                                 \
                                                                                                                      \
    /* tells the time of a frame in each way */                                                                       \
    static void time_##arch(framehop_handle *unwinder, framehop_handle *cache, uint64_t pc,                           \
        const framehop_registers_##arch *start, struct memory *memory, uint64_t *frames, size_t limit)                \
    {                                                                                                                 \
        static const char *const ways[] = {"one call", "callback for words", "callback for a word", "a frame a call"}; \
        size_t way, i;                                                                                                \
        for (way = 0; way < 4; way++) {                                                                               \
            size_t count = 0;                                                                                         \
            double before = nanoseconds();                                                                            \
            by_callback = way > 0;                                                                                    \
            by_frames = way == 3;                                                                                     \
            by_chunks = way == 1;                                                                                     \
            reads = 0;                                                                                                \
            for (i = 0; i < times; i++) {                                                                             \
                framehop_registers_##arch registers = *start;                                                         \
                framehop_walk walk;                                                                                   \
                walk_by_##arch(unwinder, cache, pc, &registers, memory, frames, limit, &walk);                        \
                count += walk.frame_count;                                                                            \
            }                                                                                                         \
            fprintf(stderr, "C, %s: %.2f ns/frame\n", ways[way], (nanoseconds() - before) / (double)count);           \
            if (way == 2)                                                                                             \
                fprintf(stderr, "C, words a frame: %.2f\n", (double)reads / (double)count);                           \
        }                                                                                                             \
        fprintf(stderr, "C, calls a frame: %.2f\n", (double)frame_calls / (double)frame_count);                       \
        by_callback = by_chunks = by_frames = false;                                                                  \
    }                                                                                                                 \
                                                                                                                      \
    static void walk_##arch(framehop_handle *unwinder)                                                                \
    {                                                                                                                 \
        framehop_handle *cache = &caches[count()];                                                                    \
        uint64_t pc = address(), *frames;                                                                             \
        size_t limit = count(), i;                                                                                    \
        framehop_registers_##arch registers = read_##arch();                                                          \
struct memory memory = read_memory();                                                                         \
        framehop_registers_##arch start = registers;                                                                  \
        framehop_walk walk;                                                                                           \
        int32_t status;                                                                                               \
        limit = limit < FRAMES ? limit : FRAMES;                                                                      \
        frames = malloc(8 * limit + 16);                                                                              \
        memset(frames, 0xab, 8 * limit + 16);                                                                         \
        status = walk_by_##arch(unwinder, cache, pc, &registers, &memory, frames, limit, &walk);                      \
        for (i = 0; i < walk.frame_count; i++)                                                                        \
            printf("%s %llx\n", i ? "ra" : "ip", (unsigned long long)frames[i]);                                      \
        CHECK_REST(frames, walk.frame_count, limit + 2);                                                              \
        print_end("", status, walk.unreadable);                                                                       \
        print_##arch(&registers);                                                                                     \
        if (times)                                                                                                    \
            time_##arch(unwinder, cache, pc, &start, &memory, frames, limit);                                         \
        free(frames);                                                                                                 \
        free(memory.words);                                                                                           \
    }                                                                                                                 \
                                                                                                                      \
    static void add_##arch(framehop_handle *unwinder)                                                                 \
    {                                                                                                                 \
        framehop_sections sections;                                                                                   \
        uint64_t start = address(), end = address(), base = address();                                                \
        memset(&sections, 0, sizeof sections);                                                                        \
        sections.base_svma = address();                                                                               \
        read_sections(&sections);                                                                                     \
        good(framehop_unwinder_##arch##_add_module(unwinder, &generations, start, end, base, &sections));             \
    }                                                                                                                 \
                                                                                                                      \
    static void run_##arch(bool may_allocate)                                                                         \
    {                                                                                                                 \
        size_t commands, i;                                                                                           \
        cache_count = count();                                                                                        \
        for (i = 0; i < cache_count; i++)                                                                             \
            good(framehop_cache_##arch##_new(may_allocate, &caches[i]));                                              \
        for (commands = count(); commands > 0; commands--) {                                                          \
            char command[16];                                                                                         \
            size_t number = 0;                                                                                        \
            strcpy(command, text());                                                                                  \
            if (strcmp(command, "new") == 0) {                                                                        \
                good(framehop_unwinder_##arch##_new(&generations, may_allocate, &unwinders[unwinder_count]));         \
                printf("new %zu\n", unwinder_count++);                                                                \
                continue;                                                                                             \
            }                                                                                                         \
            number = count();                                                                                         \
            if (strcmp(command, "clone") == 0) {                                                                      \
                good(framehop_unwinder_##arch##_clone(&unwinders[number], &unwinders[unwinder_count]));               \
                printf("clone %zu\n", unwinder_count++);                                                              \
            } else if (strcmp(command, "add") == 0) {                                                                 \
                add_##arch(&unwinders[number]);                                                                       \
                printf("add\n");                                                                                      \
            } else if (strcmp(command, "remove") == 0) {                                                              \
                good(framehop_unwinder_##arch##_remove_module(&unwinders[number], &generations, address()));          \
                printf("remove\n");                                                                                   \
            } else if (strcmp(command, "stats") == 0) {                                                               \
                framehop_cache_stats it;                                                                              \
                good(framehop_cache_##arch##_stats(&caches[number], &it));                                            \
                printf("stats hits=%llu empty=%llu modules=%llu address=%llu\n", (unsigned long long)it.hit_count,    \
                    (unsigned long long)it.miss_empty_slot_count, (unsigned long long)it.miss_wrong_modules_count,    \
                    (unsigned long long)it.miss_wrong_address_count);                                                 \
            } else if (strcmp(command, "step") == 0) {                                                                \
                step_##arch(&unwinders[number]);                                                                      \
            } else {                                                                                                  \
                walk_##arch(&unwinders[number]);                                                                      \
            }                                                                                                         \
        }                                                                                                             \
    }

ARCHITECTURE(x86_64)
ARCHITECTURE(aarch64)

/* the texts of refusals are those of the original crate's errors */
static void check_texts(void)
{
    static const struct {
        int32_t status;
        const char *text;
    } texts[] = {
        {-10, "Could not read stack memory"},
        {-11, "Frame pointer unwinding moved backwards"},
        {-12, "Neither the code address nor the stack pointer changed, would loop"},
        {-13, "Unwinding caused integer overflow"},
        {-14, "Return address is null"},
        {-15, "Unknown status"},
    };
    size_t i;
    for (i = 0; i < sizeof texts / sizeof *texts; i++)
        if (strcmp(framehop_status_text(texts[i].status), texts[i].text)) {
            fprintf(stderr, "the text of %d\n", (int)texts[i].status);
            exit(3);
        }
}

int main(int argc, char **argv)
{
    bool is_x86_64 = strcmp(text(), "x86_64") == 0;
    bool may_allocate = strcmp(text(), "may") == 0;
    size_t i;
    by_chunks = argc > 1 && strcmp(argv[1], "chunks") == 0;
    by_frames = argc > 1 && strcmp(argv[1], "frames") == 0;
    times = argc > 2 && strcmp(argv[1], "time") == 0 ? strtoull(argv[2], NULL, 10) : 0;
    by_callback = by_chunks || (argc > 1 && strcmp(argv[1], "callback") == 0);
    check_texts();
    good(framehop_generations_new(&generations));
    if (is_x86_64)
        run_x86_64(may_allocate);
    else
        run_aarch64(may_allocate);
    for (i = 0; i < unwinder_count; i++)
        framehop_free(unwinders[i]);
    for (i = 0; i < cache_count; i++)
        framehop_free(caches[i]);
    framehop_free(generations);
    for (i = 0; i < modules_bytes; i++)
        free(kept[i]);
    return 0;
}
