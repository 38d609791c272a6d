/* framehop for C: unwinds the stacks of x86_64 and aarch64 programs by the unwind data of their modules.
 *
 * Link libframehop_c.a and liblibc_c.a (malloc, realloc and free for it). The calls are proved from here on: if the
 * caller sees to what stands below, what they write and return is what their contracts in crates/framehop_c say.
 *
 * What the caller sees to:
 * - Each pointer is valid and not null, unless a length of 0 goes with it; the places that a call writes don't overlap.
 * - A handle is what a call named ..._new or ..._clone has written with FRAMEHOP_OK. Where a call takes two, they
 *   differ.
 * - A handle is given to framehop_free once, and not used after that.
 * - A handle stays on the thread that made it, and is in one call at a time.
 * - The bytes of a section stay as they are until each unwinder that has its module is freed, clones too.
 * - Unwinders that share a cache draw from one counter of generations.
 *
 * Units: an AVMA is an address in the memory of the process that is unwound; an SVMA is an address as it is stated in
 * the file of a module. Ranges go from their start to below their end. Sizes are in bytes, lengths in elements.
 */
#ifndef FRAMEHOP_H
#define FRAMEHOP_H

#include <stdbool.h>
#include <stddef.h>
#include <stdint.h>

/* The version of this header, of the archive and of the shared library that it goes with. */
#define FRAMEHOP_VERSION "0.16.0"
#define FRAMEHOP_VERSION_MAJOR 0
#define FRAMEHOP_VERSION_MINOR 16
#define FRAMEHOP_VERSION_PATCH 0
#define FRAMEHOP_VERSION_NUMBER 1600 /* 10000 * major + 100 * minor + patch */

#ifdef __cplusplus
extern "C" {
#endif

/* What calls return: below 0 a refusal, else how the call ended. */
enum {
    FRAMEHOP_OK = 0,
    FRAMEHOP_FRAMES_FULL = 1,             /* a walk has written as many frames as there is room for */
    FRAMEHOP_END = 2,                     /* the root of the stack */
    FRAMEHOP_MISSING_WORD = 3,            /* a walk over windows asks for a word of which none of them tells */
    FRAMEHOP_OUT_OF_MEMORY = -1,          /* an allocation failed */
    FRAMEHOP_GENERATIONS_EXHAUSTED = -2,  /* the counter has reached 2^64 - 1 */
    FRAMEHOP_WRONG_HANDLE = -3,           /* an object of another kind, architecture or policy */
    FRAMEHOP_COULD_NOT_READ_STACK = -10,  /* the stack word at `unreadable` can't be read */
    FRAMEHOP_MOVED_BACKWARDS = -11,       /* the caller's frame or stack pointer is not above the callee's */
    FRAMEHOP_DID_NOT_ADVANCE = -12,       /* the step would give the same frame again */
    FRAMEHOP_INTEGER_OVERFLOW = -13,      /* a stack pointer or stack address does not fit 64 bits */
    FRAMEHOP_RETURN_ADDRESS_IS_NULL = -14 /* a frame has the return address 0 */
};

/* How a lookup of the cache has ended. */
enum {
    FRAMEHOP_NO_LOOKUP = 0,             /* none was made, or its count is UINT64_MAX */
    FRAMEHOP_LOOKUP_HIT = 1,            /* the frame's rule is in the cache */
    FRAMEHOP_LOOKUP_EMPTY_SLOT = 2,     /* it is not, and there was room for it */
    FRAMEHOP_LOOKUP_WRONG_MODULES = 3,  /* it is not, and in its place were rules of other modules */
    FRAMEHOP_LOOKUP_WRONG_ADDRESS = 4   /* it is not, and in its place were rules of other addresses */
};

/* A status as text, for a reader. What no call returns is "Unknown status". */
static inline const char *framehop_status_text(int32_t status)
{
    switch (status) {
    case FRAMEHOP_OK:
        return "OK";
    case FRAMEHOP_FRAMES_FULL:
        return "As many frames as there is room for";
    case FRAMEHOP_END:
        return "Root of the stack";
    case FRAMEHOP_MISSING_WORD:
        return "No window tells of a stack word";
    case FRAMEHOP_OUT_OF_MEMORY:
        return "Out of memory";
    case FRAMEHOP_GENERATIONS_EXHAUSTED:
        return "Generations exhausted";
    case FRAMEHOP_WRONG_HANDLE:
        return "Object of another kind, architecture or policy";
    case FRAMEHOP_COULD_NOT_READ_STACK:
        return "Could not read stack memory";
    case FRAMEHOP_MOVED_BACKWARDS:
        return "Frame pointer unwinding moved backwards";
    case FRAMEHOP_DID_NOT_ADVANCE:
        return "Neither the code address nor the stack pointer changed, would loop";
    case FRAMEHOP_INTEGER_OVERFLOW:
        return "Unwinding caused integer overflow";
    case FRAMEHOP_RETURN_ADDRESS_IS_NULL:
        return "Return address is null";
    default:
        return "Unknown status";
    }
}

/* A counter of generations, an unwinder or a cache. */
typedef struct {
    void *address;
} framehop_handle;

/* Bytes that are lent. */
typedef struct {
    const uint8_t *start;
    size_t length;
} framehop_bytes;

/* Where a section or segment lies (SVMAs), if has_range, and its bytes, if has_bytes. */
typedef struct {
    uint64_t svma_start;
    uint64_t svma_end;
    framehop_bytes bytes;
    bool has_range;
    bool has_bytes;
} framehop_section;

/* The sections of a module, of an ELF, Mach-O or PE file; `{0}` where there is none. */
typedef struct {
    uint64_t base_svma;             /* the base as stated in the file: 0 for ELF, the vmaddr of __TEXT for Mach-O */
    framehop_section text;          /* .text or __text */
    framehop_section stubs;         /* __stubs: its range */
    framehop_section stub_helper;   /* __stub_helper: its range */
    framehop_section got;           /* .got or __got: its range */
    framehop_section unwind_info;   /* __unwind_info: its bytes */
    framehop_section eh_frame;      /* .eh_frame or __eh_frame */
    framehop_section eh_frame_hdr;  /* .eh_frame_hdr */
    framehop_section debug_frame;   /* .debug_frame: its bytes */
    framehop_section text_segment;  /* the segment __TEXT */
    framehop_section pdata;         /* .pdata: its bytes */
    framehop_section rdata;         /* .rdata */
    framehop_section xdata;         /* .xdata */
} framehop_sections;

typedef struct {
    uint64_t ip, rax, rdx, rcx, rbx, rsi, rdi, rbp, rsp, r8, r9, r10, r11, r12, r13, r14, r15;
} framehop_registers_x86_64;

/* lr_mask has the bits of a pointer that are its address: UINT64_MAX where pointers carry no authentication code, and
 * UINT64_MAX >> 24 on macOS arm64e. */
typedef struct {
    uint64_t lr_mask, lr, sp, fp;
} framehop_registers_aarch64;

/* Stack words that are lent: words[i] is at the AVMA base + 8 * i. A window without words tells a step that the word
 * at its base can't be read. */
typedef struct {
    uint64_t base;
    const uint64_t *words;
    size_t word_count;
} framehop_window;

/* What a walk has written: how many frames, and the AVMA of the stack word that could not be read, after
 * FRAMEHOP_COULD_NOT_READ_STACK, or that is missing, after FRAMEHOP_MISSING_WORD: it may be 0, an AVMA like others. After
 * another status it is 0 and says nothing. */
typedef struct {
    size_t frame_count;
    uint64_t unreadable;
} framehop_walk;

/* What a step returned: the return address (AVMA) after FRAMEHOP_OK, the AVMA of the stack word that could not be read
 * after FRAMEHOP_COULD_NOT_READ_STACK, each 0 after another status; and the first AVMA of a word that was asked for and
 * of which no window tells, if has_missing. */
typedef struct {
    uint64_t return_address;
    uint64_t unreadable;
    uint64_t missing;
    bool has_missing;
} framehop_step;

/* The AVMAs of the stack words that a step will ask for first, as far as they are known before one is read: count is 0, 1
 * or 2, and what is beyond it is 0. Where the first can't be read, the step does not ask for the second. `lookup` is how the
 * lookup of the step's rule has ended: with FRAMEHOP_LOOKUP_HIT no rule reads a word before these, and only one that pops
 * registers reads more than two. */
typedef struct {
    uint64_t first;
    uint64_t second;
    uint32_t count;
    int32_t lookup;
} framehop_ahead;

/* What a call for the next frame returned: the return address (AVMA) after FRAMEHOP_OK, and then the words that the step
 * from that frame will ask for; the AVMA of the stack word that could not be read, after FRAMEHOP_COULD_NOT_READ_STACK, or
 * that is missing, after FRAMEHOP_MISSING_WORD; each 0 after another status; and how the lookup of the rule has ended by
 * which the frame was found. */
typedef struct {
    uint64_t return_address;
    uint64_t unreadable;
    framehop_ahead ahead;
    int32_t lookup;
} framehop_next;

/* How many lookups hit and missed: one lookup for each call that unwinds a frame, so a frame that is unwound again for
 * a missing word counts again. The counts stop at UINT64_MAX. */
typedef struct {
    uint64_t hit_count, miss_empty_slot_count, miss_wrong_modules_count, miss_wrong_address_count;
} framehop_cache_stats;

/* The version of the archive, or of the shared library, as FRAMEHOP_VERSION_NUMBER has that of the header. */
uint32_t framehop_version(void);

/* Makes a counter of generations. One is enough for a thread. A cache serves the unwinders of one counter: with those of
 * another, a walk may find frames that were stored for other modules. */
int32_t framehop_generations_new(framehop_handle *place);

/* Frees a counter, an unwinder or a cache. */
void framehop_free(framehop_handle handle);

/* The calls below come for each architecture. A call that returns FRAMEHOP_WRONG_HANDLE has changed nothing, and a call
 * named ..._new or ..._clone writes a handle with FRAMEHOP_OK only.
 *
 * cache_..._new     an empty cache. With may_allocate unwinding may take memory, which is the usual choice; without, it
 *                   takes none, and some DWARF unwind data is too large for it. An unwinder and a cache go together
 *                   only if both have the same policy, and the cache serves the unwinders of one counter only.
 * cache_..._stats   its counts.
 * unwinder_..._new  an unwinder without modules, by a counter of generations. All calls for one unwinder take the same
 *                   counter, and a cache serves the unwinders of one counter only.
 * ..._clone         the same modules and generation, so the same counter. Module data is shared, not copied.
 * ..._add_module    a module that is loaded from avma_start to below avma_end, whose relative address 0 is base_avma.
 *                   Where it is refused, nothing has changed. It takes the counter that the unwinder was made by: a
 *                   cache serves the unwinders of one counter only.
 * ..._remove_module removes the newest module of a start, and does nothing (FRAMEHOP_OK) where there is none. It takes
 *                   the counter that the unwinder was made by: a cache serves the unwinders of one counter only.
 * ..._max_known_code_address    the greatest end of a module, or 0.
 * ..._walk          writes the addresses of the frames, pc first, then return addresses, at most frame_capacity; the
 *                   registers become those at its end. FRAMEHOP_END at the root, FRAMEHOP_FRAMES_FULL, or a refusal
 *                   after the frames that are written, which is common at the end of a stack.
 * ..._unwind_frame  one frame. FRAMEHOP_OK with the return address and the caller's registers; FRAMEHOP_END at the root
 *                   of the stack, and a refusal, leave the registers. If step.has_missing, even with FRAMEHOP_OK, the
 *                   answer was found without a word that was asked for: to have the exact one, restore the registers,
 *                   add a window that has that word, or one without words if it can't be read, and call again.
 *
 * ..._walk_on       the frames that called the one at an address: writes their return addresses, at most frame_capacity;
 *                   the registers become those at its end. FRAMEHOP_MISSING_WORD where a word is asked for of which no
 *                   window tells: the registers are those of the last frame that is written, or as before. Add a window
 *                   that has the word, or one without words if it can't be read, and walk on from that frame.
 *
 * ..._next_frame    the frame that called the one at an address: writes its return address, and the registers become its
 *                   own. FRAMEHOP_MISSING_WORD and the other statuses are those of ..._walk_on, and leave the registers,
 *                   but for FRAMEHOP_RETURN_ADDRESS_IS_NULL. It also tells the words that the step from the frame that it
 *                   has found will ask for: who reads words by a callback reads these, in their order, and lends them to
 *                   the next call. So a frame takes one call, but for the first one, one that is not in the cache, and
 *                   one whose rule pops registers. The lookups of the words that are told count too: one, or two with
 *                   FRAMEHOP_LOOKUP_HIT and a word.
 *
 * Which address counts: pc, or address, says which module and which unwind data a frame has. registers.ip of x86_64
 * does not: it is only compared, to tell a step that gives the same frame again. Give both the same value.
 *
 * Symbols: a return address is that of the instruction after the call, which may be of another function. Look up the
 * symbol of the byte before it, address - 1; of the first frame, whose address is pc, that of pc itself.
 */

int32_t framehop_cache_x86_64_new(bool may_allocate, framehop_handle *place);
int32_t framehop_cache_x86_64_stats(framehop_handle *cache, framehop_cache_stats *stats);
int32_t framehop_unwinder_x86_64_new(framehop_handle *generations, bool may_allocate, framehop_handle *place);
int32_t framehop_unwinder_x86_64_clone(framehop_handle *unwinder, framehop_handle *place);
int32_t framehop_unwinder_x86_64_add_module(framehop_handle *unwinder, framehop_handle *generations,
    uint64_t avma_start, uint64_t avma_end, uint64_t base_avma, const framehop_sections *sections);
int32_t framehop_unwinder_x86_64_remove_module(framehop_handle *unwinder, framehop_handle *generations,
    uint64_t avma_start);
int32_t framehop_unwinder_x86_64_max_known_code_address(framehop_handle *unwinder, uint64_t *address);
int32_t framehop_unwinder_x86_64_walk(framehop_handle *unwinder, framehop_handle *cache, uint64_t pc,
    framehop_registers_x86_64 *registers, const framehop_window *stack, uint64_t *frames, size_t frame_capacity,
    framehop_walk *walk);
int32_t framehop_unwinder_x86_64_unwind_frame(framehop_handle *unwinder, framehop_handle *cache, uint64_t address,
    bool is_return_address, framehop_registers_x86_64 *registers, const framehop_window *windows, size_t window_count,
    framehop_step *step);
int32_t framehop_unwinder_x86_64_walk_on(framehop_handle *unwinder, framehop_handle *cache, uint64_t address,
    bool is_return_address, framehop_registers_x86_64 *registers, const framehop_window *windows, size_t window_count,
    uint64_t *frames, size_t frame_capacity, framehop_walk *walk);
int32_t framehop_unwinder_x86_64_next_frame(framehop_handle *unwinder, framehop_handle *cache, uint64_t address,
    bool is_return_address, framehop_registers_x86_64 *registers, const framehop_window *windows, size_t window_count,
    framehop_next *next);

int32_t framehop_cache_aarch64_new(bool may_allocate, framehop_handle *place);
int32_t framehop_cache_aarch64_stats(framehop_handle *cache, framehop_cache_stats *stats);
int32_t framehop_unwinder_aarch64_new(framehop_handle *generations, bool may_allocate, framehop_handle *place);
int32_t framehop_unwinder_aarch64_clone(framehop_handle *unwinder, framehop_handle *place);
int32_t framehop_unwinder_aarch64_add_module(framehop_handle *unwinder, framehop_handle *generations,
    uint64_t avma_start, uint64_t avma_end, uint64_t base_avma, const framehop_sections *sections);
int32_t framehop_unwinder_aarch64_remove_module(framehop_handle *unwinder, framehop_handle *generations,
    uint64_t avma_start);
int32_t framehop_unwinder_aarch64_max_known_code_address(framehop_handle *unwinder, uint64_t *address);
int32_t framehop_unwinder_aarch64_walk(framehop_handle *unwinder, framehop_handle *cache, uint64_t pc,
    framehop_registers_aarch64 *registers, const framehop_window *stack, uint64_t *frames, size_t frame_capacity,
    framehop_walk *walk);
int32_t framehop_unwinder_aarch64_unwind_frame(framehop_handle *unwinder, framehop_handle *cache, uint64_t address,
    bool is_return_address, framehop_registers_aarch64 *registers, const framehop_window *windows, size_t window_count,
    framehop_step *step);
int32_t framehop_unwinder_aarch64_walk_on(framehop_handle *unwinder, framehop_handle *cache, uint64_t address,
    bool is_return_address, framehop_registers_aarch64 *registers, const framehop_window *windows, size_t window_count,
    uint64_t *frames, size_t frame_capacity, framehop_walk *walk);
int32_t framehop_unwinder_aarch64_next_frame(framehop_handle *unwinder, framehop_handle *cache, uint64_t address,
    bool is_return_address, framehop_registers_aarch64 *registers, const framehop_window *windows, size_t window_count,
    framehop_next *next);

/* Reads stack words from an AVMA upwards, as many as the caller likes, and returns how many: at most capacity, which is 1
 * or more, and 0 if the first of them can't be read. */
typedef size_t (*framehop_read_words)(void *data, uint64_t address, uint64_t *words, size_t capacity);

/* How often a frame may ask for words, how many words a call of the callback may read, and how many are kept. */
#define FRAMEHOP_READS_A_FRAME 64
#define FRAMEHOP_WORDS_A_READ 256
#define FRAMEHOP_WORDS_KEPT 320

/* How many frame records are read ahead, at most, that of the frame itself with them. */
#define FRAMEHOP_RECORDS_A_RUN 16

/* What a callback has read, how often it was asked for words of the frame, how many frame records the next run may have,
 * whether the last call of the callback has read one word, and whether the windows are a run of frame records. */
typedef struct {
    framehop_window windows[FRAMEHOP_READS_A_FRAME + FRAMEHOP_RECORDS_A_RUN];
    uint64_t words[FRAMEHOP_WORDS_KEPT];
    size_t window_count, word_count, read_count, run;
    bool is_by_word, is_run;
} framehop_words_read;

/* Reads words from an AVMA upwards, or returns false where the frame has asked often enough. Of the room for words one each
 * is left for the windows that may follow. */
static inline bool framehop_read_more(framehop_words_read *known, framehop_read_words read, void *data, uint64_t address)
{
    size_t reads_left = FRAMEHOP_READS_A_FRAME - known->read_count, room;
    framehop_window *window = &known->windows[known->window_count];
    if (reads_left == 0)
        return false;
    room = FRAMEHOP_WORDS_KEPT - known->word_count - (reads_left - 1);
    if (room > FRAMEHOP_WORDS_A_READ)
        room = FRAMEHOP_WORDS_A_READ;
    window->base = address;
    window->words = &known->words[known->word_count];
    window->word_count = read(data, address, &known->words[known->word_count], room);
    known->is_by_word = window->word_count == 1;
    known->is_run = false;
    known->word_count += window->word_count;
    known->window_count++;
    known->read_count++;
    return true;
}

/* Reads frame records from the one at a frame pointer on, each at the frame pointer in the one before it: up to the run's
 * length, and no more than there may be frames. A record has the caller's frame pointer, and above it the return address.
 * Both words of the first one may be known. */
static inline void framehop_read_records(framehop_words_read *known, framehop_read_words read, void *data,
    uint64_t frame_pointer, size_t frames_left)
{
    size_t limit = known->run < frames_left ? known->run : frames_left, count = known->word_count;
    known->window_count = known->word_count = 0;
    known->read_count = 2;
    known->is_by_word = false;
    known->is_run = true;
    while (known->window_count < limit) {
        framehop_window *window = &known->windows[known->window_count++];
        uint64_t *words = &known->words[known->word_count];
        if (count == 0)
            count = read(data, frame_pointer, words, 2);
        if (count == 1)
            count += read(data, frame_pointer + 8, words + 1, 1);
        window->base = frame_pointer;
        window->words = words;
        window->word_count = count;
        known->word_count += count;
        if (count == 1) {
            window[1].base = frame_pointer + 8;
            window[1].words = words;
            window[1].word_count = 0;
            known->window_count++;
        }
        if (count < 2 || words[1] == 0 || words[0] < frame_pointer || words[0] - frame_pointer < 16
            || words[0] > UINT64_MAX - 16)
            return;
        frame_pointer = words[0];
        count = 0;
    }
}

/* Reads the words that a step asks for, or returns false where the frame has asked often enough. A second word that lies
 * next below the first one is read before it. Where both are the frame record at the frame pointer, and each takes a call of
 * the callback, the records to which it leads are read, too. */
static inline bool framehop_read_asked(framehop_words_read *known, framehop_read_words read, void *data,
    const framehop_ahead *asked, uint64_t frame_pointer, size_t frames_left)
{
    bool is_below = asked->count == 2 && asked->first - asked->second == 8;
    uint64_t base = is_below ? asked->second : asked->first, other = is_below ? asked->first : asked->second;
    size_t count;
    if (!framehop_read_more(known, read, data, base))
        return false;
    count = known->windows[known->window_count - 1].word_count;
    if (asked->count < 2 || count > 1 || (count == 0 && !is_below))
        return true;
    if (!framehop_read_more(known, read, data, other))
        return false;
    if (base == frame_pointer && other - base == 8 && known->is_by_word && known->word_count == 2)
        framehop_read_records(known, read, data, base, frames_left);
    return true;
}

/* Lets go of what was read, once a call has found frames. The next run may be longer where each record was a frame's. */
static inline void framehop_forget_words(framehop_words_read *known, size_t frame_count)
{
    if (frame_count < known->window_count)
        known->run = 1;
    else if (known->run < FRAMEHOP_RECORDS_A_RUN)
        known->run *= 2;
    known->window_count = known->word_count = known->read_count = 0;
    known->is_run = false;
}

/* Walks with a callback: the calls above, again while they ask for a word that was not read. A word is not asked for twice
 * while a frame is unwound. Where a frame asks for words more often than FRAMEHOP_READS_A_FRAME times, the walk ends with
 * FRAMEHOP_COULD_NOT_READ_STACK.
 *
 * By a callback that reads a word a call, where it may read more, the frame record at a frame's frame pointer is read as a
 * whole, and the callers' to which it leads are read ahead, in runs of 1, 2, 4, 8 and then 16 frames. So it may be asked for
 * words of frame records that no step needs; what the walk finds is the same. */
static inline int32_t framehop_unwinder_x86_64_walk_with(framehop_handle *unwinder, framehop_handle *cache, uint64_t pc,
    framehop_registers_x86_64 *registers, framehop_read_words read, void *data, uint64_t *frames, size_t frame_capacity,
    framehop_walk *walk)
{
    framehop_words_read known;
    framehop_next next;
    size_t count = 1;
    known.window_count = known.word_count = known.read_count = 0;
    known.run = 1;
    known.is_by_word = known.is_run = false;
    if (frame_capacity == 0)
        return framehop_unwinder_x86_64_walk_on(unwinder, cache, pc, false, registers, NULL, 0, NULL, 0, walk);
    for (;;) {
        const uint64_t from = count > 1 ? frames[count - 1] : pc;
        const size_t left = frame_capacity - count;
        int32_t status;
        if (known.is_by_word && left > 0) {
            status = framehop_unwinder_x86_64_next_frame(unwinder, cache, from, count > 1, registers, known.windows,
                known.window_count, &next);
            walk->frame_count = status == FRAMEHOP_OK;
            walk->unreadable = next.unreadable;
            if (status == FRAMEHOP_OK)
                frames[count] = next.return_address;
        } else {
            const size_t most = known.is_run && known.window_count < left ? known.window_count : left;
            status = framehop_unwinder_x86_64_walk_on(unwinder, cache, from, count > 1, registers, known.windows,
                known.window_count, frames + count, most, walk);
            if (status == FRAMEHOP_WRONG_HANDLE)
                return status;
        }
        frames[0] = pc;
        if (walk->frame_count > 0)
            framehop_forget_words(&known, walk->frame_count);
        count += walk->frame_count;
        walk->frame_count = count;
        if (status == FRAMEHOP_MISSING_WORD) {
            next.ahead.first = walk->unreadable;
            next.ahead.second = walk->unreadable + 8;
            next.ahead.count = 1;
            if (known.window_count == 0 && walk->unreadable == registers->rbp)
                next.ahead.count = 2;
        } else if (status == FRAMEHOP_FRAMES_FULL && count < frame_capacity) {
            if (registers->rbp >= registers->rsp && registers->rbp <= UINT64_MAX - 16)
                framehop_read_records(&known, read, data, registers->rbp, frame_capacity - count);
            continue;
        } else if (status != FRAMEHOP_OK) {
            return status;
        }
        if (next.ahead.count > 0 && count < frame_capacity
            && !framehop_read_asked(&known, read, data, &next.ahead, registers->rbp, frame_capacity - count))
            return FRAMEHOP_COULD_NOT_READ_STACK;
    }
}

/* Walks with a callback: the calls above, again while they ask for a word that was not read. A word is not asked for twice
 * while a frame is unwound. A step asks for the return address first, and in a frame record the frame pointer is in the word
 * below it, so a frame's words are read from there on. Where a frame asks for words more often than FRAMEHOP_READS_A_FRAME
 * times, the walk ends with FRAMEHOP_COULD_NOT_READ_STACK.
 *
 * By a callback that reads a word a call, where it may read more, the frame record at a frame's frame pointer is read as a
 * whole, and the callers' to which it leads are read ahead, in runs of 1, 2, 4, 8 and then 16 frames. So it may be asked for
 * words of frame records that no step needs; what the walk finds is the same. */
static inline int32_t framehop_unwinder_aarch64_walk_with(framehop_handle *unwinder, framehop_handle *cache, uint64_t pc,
    framehop_registers_aarch64 *registers, framehop_read_words read, void *data, uint64_t *frames, size_t frame_capacity,
    framehop_walk *walk)
{
    framehop_words_read known;
    framehop_next next;
    size_t count = 1;
    known.window_count = known.word_count = known.read_count = 0;
    known.run = 1;
    known.is_by_word = known.is_run = false;
    if (frame_capacity == 0)
        return framehop_unwinder_aarch64_walk_on(unwinder, cache, pc, false, registers, NULL, 0, NULL, 0, walk);
    for (;;) {
        const uint64_t from = count > 1 ? frames[count - 1] : pc;
        const size_t left = frame_capacity - count;
        int32_t status;
        if (known.is_by_word && left > 0) {
            status = framehop_unwinder_aarch64_next_frame(unwinder, cache, from, count > 1, registers, known.windows,
                known.window_count, &next);
            walk->frame_count = status == FRAMEHOP_OK;
            walk->unreadable = next.unreadable;
            if (status == FRAMEHOP_OK)
                frames[count] = next.return_address;
        } else {
            const size_t most = known.is_run && known.window_count < left ? known.window_count : left;
            status = framehop_unwinder_aarch64_walk_on(unwinder, cache, from, count > 1, registers, known.windows,
                known.window_count, frames + count, most, walk);
            if (status == FRAMEHOP_WRONG_HANDLE)
                return status;
        }
        frames[0] = pc;
        if (walk->frame_count > 0)
            framehop_forget_words(&known, walk->frame_count);
        count += walk->frame_count;
        walk->frame_count = count;
        if (status == FRAMEHOP_MISSING_WORD) {
            next.ahead.first = walk->unreadable;
            next.ahead.second = walk->unreadable - 8;
            next.ahead.count = 1;
            if (known.window_count == 0 && walk->unreadable >= 8 && next.ahead.second >= registers->sp)
                next.ahead.count = 2;
        } else if (status == FRAMEHOP_FRAMES_FULL && count < frame_capacity) {
            if (registers->fp >= registers->sp && registers->fp <= UINT64_MAX - 16)
                framehop_read_records(&known, read, data, registers->fp, frame_capacity - count);
            continue;
        } else if (status != FRAMEHOP_OK) {
            return status;
        }
        if (next.ahead.count > 0 && count < frame_capacity
            && !framehop_read_asked(&known, read, data, &next.ahead, registers->fp, frame_capacity - count))
            return FRAMEHOP_COULD_NOT_READ_STACK;
    }
}

#ifdef __cplusplus
}
#endif
#endif
