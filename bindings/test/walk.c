/* Walks the stack of an example by one call, by steps and by a callback, under both policies, and prints its frames. */
#include "framehop.h"
#include "stack.h"
#include <stdio.h>
#include <string.h>

#define CAPACITY 310

static int failed(const char *call, int32_t status)
{
    fprintf(stderr, "%s: %d\n", call, (int)status);
    return 1;
}

#define CHECK(call)                        \
    do {                                   \
        int32_t status_ = (call);          \
        if (status_ < 0)                   \
            return failed(#call, status_); \
    } while (0)

struct stack {
    uint64_t base;
    const uint64_t *words;
    size_t count;
    size_t asked;
};

static size_t read_words(void *data, uint64_t address, uint64_t *words, size_t capacity)
{
    struct stack *stack = data;
    size_t first = (address - stack->base) / 8, i;
    stack->asked++;
    if (address < stack->base || (address - stack->base) % 8)
        return 0;
    for (i = 0; i < capacity && first + i < stack->count; i++)
        words[i] = stack->words[first + i];
    return i;
}

static int walk(bool may_allocate, uint64_t *frames, size_t *count)
{
    framehop_handle generations, cache, unwinder, clone;
    framehop_sections sections;
    framehop_window window = {STACK_BASE, stack_words, sizeof stack_words / 8};
    framehop_registers_x86_64 registers;
    framehop_cache_stats stats;
    framehop_walk told;
    uint64_t again[CAPACITY], greatest;
    struct stack stack = {STACK_BASE, stack_words, sizeof stack_words / 8, 0};
    int32_t status;

    memset(&sections, 0, sizeof sections);
    sections.base_svma = MODULE_BASE_SVMA;
    SECTIONS(sections);
    CHECK(framehop_generations_new(&generations));
    CHECK(framehop_cache_x86_64_new(may_allocate, &cache));
    CHECK(framehop_unwinder_x86_64_new(&generations, may_allocate, &unwinder));
    CHECK(framehop_unwinder_x86_64_add_module(&unwinder, &generations, MODULE_START, MODULE_END, MODULE_BASE,
        &sections));
    CHECK(framehop_unwinder_x86_64_max_known_code_address(&unwinder, &greatest));
    if (greatest != MODULE_END)
        return failed("the greatest address", 0);

    memset(&registers, 0, sizeof registers);
    registers.ip = PC;
    registers.rsp = SP;
    registers.rbp = BP;
    status = framehop_unwinder_x86_64_walk(&unwinder, &cache, PC, &registers, &window, frames, CAPACITY, &told);
    if (status != FRAMEHOP_END)
        return failed("the walk", status);
    *count = told.frame_count;

    /* a clone, by a callback */
    CHECK(framehop_unwinder_x86_64_clone(&unwinder, &clone));
    memset(&registers, 0, sizeof registers);
    registers.ip = PC;
    registers.rsp = SP;
    registers.rbp = BP;
    status = framehop_unwinder_x86_64_walk_with(&clone, &cache, PC, &registers, read_words, &stack, again, CAPACITY,
        &told);
    if (status != FRAMEHOP_END || told.frame_count != *count || memcmp(again, frames, *count * sizeof *frames))
        return failed("the walk by a callback", status);
    if (stack.asked * 8 > *count)
        return failed("words are read too often", (int32_t)stack.asked);
    CHECK(framehop_cache_x86_64_stats(&cache, &stats));
    if (stats.hit_count + stats.miss_empty_slot_count + stats.miss_wrong_modules_count
            + stats.miss_wrong_address_count < 2 * *count - 2)
        return failed("the counts of the cache", 0);

    /* what is of another kind, architecture or policy */
    if (framehop_unwinder_x86_64_walk(&unwinder, &generations, PC, &registers, &window, again, CAPACITY, &told)
            != FRAMEHOP_WRONG_HANDLE
        || framehop_unwinder_aarch64_new(&cache, may_allocate, &clone) != FRAMEHOP_WRONG_HANDLE
        || framehop_cache_aarch64_stats(&cache, &stats) != FRAMEHOP_WRONG_HANDLE)
        return failed("a wrong handle", 0);

    CHECK(framehop_unwinder_x86_64_remove_module(&unwinder, &generations, MODULE_START));
    CHECK(framehop_unwinder_x86_64_max_known_code_address(&unwinder, &greatest));
    if (greatest != 0)
        return failed("the greatest address without modules", 0);
    framehop_free(unwinder);
    framehop_free(clone);
    framehop_free(cache);
    framehop_free(generations);
    return 0;
}

int main(void)
{
    uint64_t frames[CAPACITY], limited[CAPACITY];
    size_t count, i;
    if (walk(true, frames, &count) || walk(false, limited, &count))
        return 1;
    if (memcmp(frames, limited, count * sizeof *frames))
        return failed("the walk without allocation", 0);
    for (i = 0; i < count; i++)
        printf("%s %llx\n", i ? "ra" : "ip", (unsigned long long)frames[i]);
    printf("end\n");
    return 0;
}
