/* Walks N random stacks of frame records by one call and by callbacks, and asks that frames, registers and ends are the same:
 * random_walks N. A callback reads a word a call, two, as many as it may, or a random number. */
#include "framehop.h"
#include <stdio.h>
#include <stdlib.h>
#include <string.h>

#define WORDS 900
#define FRAMES 300

static uint64_t state;

static size_t random_below(size_t below)
{
    state = state * 6364136223846793005u + 1442695040888963407u;
    return (size_t)(state >> 33) % below;
}

/* `most` is how many words a call of the callback reads, 0 for a random number */
static struct stack {
    uint64_t base, words[WORDS];
    size_t count, most;
} stack;

static size_t read_words(void *data, uint64_t address, uint64_t *words, size_t capacity)
{
    struct stack *it = data;
    size_t first = (address - it->base) / 8, count = it->most == 0 ? 1 + random_below(5) : it->most;
    if (address < it->base || (address - it->base) % 8 || first >= it->count)
        return 0;
    if (count > it->count - first)
        count = it->count - first;
    if (count > capacity)
        count = capacity;
    memcpy(words, &it->words[first], count * sizeof *words);
    return count;
}

/* frame records, one above the other, most of which lead on */
static void make_stack(void)
{
    size_t at = random_below(4), next, i;
    stack.base = 0x7fff00000000 - 8 * random_below(2);
    stack.count = 20 + random_below(WORDS - 20);
    for (i = 0; i < stack.count; i++)
        stack.words[i] = random_below(50) ? 0x550000001000 + 16 * random_below(500) : random_below(3);
    for (; at + 1 < stack.count; at = next) {
        next = at + 2 + random_below(6);
        stack.words[at] = stack.base + 8 * next;
        switch (random_below(200)) {
        case 0:
            stack.words[at] = 0;
            return;
        case 1:
            stack.words[at] = stack.base + 8 * at - 8 * random_below(3);
            return;
        case 2:
            stack.words[at] = UINT64_MAX - 8 * random_below(3);
            return;
        case 3:
            stack.words[at + 1] = 0;
            return;
        }
    }
}

static void check(bool is_same, const char *what, size_t number)
{
    if (!is_same) {
        fprintf(stderr, "stack %zu: %s\n", number, what);
        exit(1);
    }
}

#define ARCHITECTURE(arch)                                                                                             \
    static void walk_##arch(size_t number, framehop_registers_##arch start, framehop_handle *unwinder,                 \
        framehop_handle *cache)                                                                                        \
    {                                                                                                                  \
        static const size_t most[] = {1, WORDS, 2, 0};                                                                 \
        framehop_window window = {stack.base, stack.words, stack.count};                                               \
        size_t capacity = random_below(4) ? FRAMES : random_below(40), way, i;                                         \
        uint64_t pc = 0x550000001000 + random_below(500), frames[FRAMES + 1];                                          \
        framehop_registers_##arch end = start;                                                                         \
        framehop_walk walk;                                                                                            \
        int32_t status = framehop_unwinder_##arch##_walk(unwinder, cache, pc, &end, &window, frames, capacity, &walk); \
        for (way = 0; way < sizeof most / sizeof *most; way++) {                                                       \
            framehop_registers_##arch registers = start;                                                               \
            uint64_t found[FRAMES + 1];                                                                                \
            framehop_walk told;                                                                                        \
            memset(found, 0xab, sizeof found);                                                                         \
            stack.most = most[way];                                                                                    \
            check(framehop_unwinder_##arch##_walk_with(unwinder, cache, pc, &registers, read_words, &stack, found,     \
                capacity, &told) == status, "another status", number);                                                 \
            check(told.frame_count == walk.frame_count, "another number of frames", number);                           \
            check(told.unreadable == walk.unreadable, "another word that can't be read", number);                      \
            check(memcmp(found, frames, 8 * walk.frame_count) == 0, "other frames", number);                           \
            check(memcmp(&registers, &end, sizeof end) == 0, "other registers", number);                               \
            for (i = walk.frame_count; i <= FRAMES; i++)                                                               \
                check(found[i] == 0xabababababababab, "a frame beyond those is written", number);                      \
        }                                                                                                              \
    }

ARCHITECTURE(x86_64)
ARCHITECTURE(aarch64)

int main(int argc, char **argv)
{
    size_t count = argc > 1 ? strtoull(argv[1], NULL, 10) : 1000, i;
    framehop_handle generations, handles[4];
    if (framehop_generations_new(&generations) || framehop_unwinder_x86_64_new(&generations, true, &handles[0])
        || framehop_cache_x86_64_new(true, &handles[1]) || framehop_unwinder_aarch64_new(&generations, true, &handles[2])
        || framehop_cache_aarch64_new(true, &handles[3]))
        return 1;
    for (i = 0; i < count; i++) {
        framehop_registers_x86_64 of_x86_64 = {0};
        framehop_registers_aarch64 of_aarch64 = {UINT64_MAX, 0, 0, 0};
        size_t frame;
        state = i;
        make_stack();
        frame = random_below(4);
        of_x86_64.ip = 0x550000001000;
        of_x86_64.rsp = of_aarch64.sp = stack.base;
        of_x86_64.rbp = of_aarch64.fp = stack.base + 8 * frame;
        of_aarch64.lr = 0x550000001000 + 16 * random_below(500);
        walk_x86_64(i, of_x86_64, &handles[0], &handles[1]);
        walk_aarch64(i, of_aarch64, &handles[2], &handles[3]);
    }
    for (i = 0; i < 4; i++)
        framehop_free(handles[i]);
    framehop_free(generations);
    printf("%zu stacks\n", count);
    return 0;
}
