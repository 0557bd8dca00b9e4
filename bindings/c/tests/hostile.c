/* SPDX-License-Identifier: MIT OR Apache-2.0 */
/* Calls every function of the header with random and extreme arguments, and allocations that fail.
 *
 * usage: hostile [CALLS [SEED [FIRST]]]
 * It makes CALLS calls, a million without an argument, and prints the seed. A mistake ends it with
 * status 1 and the number of the call, which can be made alone: `hostile 1 SEED NUMBER`.
 *
 * Each buffer lies right before an inaccessible page, or right after one. What a call only reads
 * lies in read-only pages. With any status but LINKER_UTILS_OK every byte of what the call may
 * write is unchanged, except for `faulty`, and with LINKER_UTILS_OK every byte beyond what the call
 * writes. The bytes around the buffers never change. Memory that the archive allocates lies before
 * an inaccessible page too, and is inaccessible once it is freed.
 *
 * That it finds mistakes is tested each time too: `run` links it with the faults of faults.c, and
 * it has to find each. By hand it was also compiled over four changed copies of the header, in
 * which `linker_utils_write` passed on `dest_len + 1`, `linker_utils_deltas_translate_all` a
 * `faulty` that is null, `linker_utils_pack` the length that `packed` should have, and
 * `linker_utils_survey` the count of facts as that of groups: each ended it with status 1 within
 * 6,000 calls.
 *
 * The linker has to be given --wrap for malloc, realloc, calloc, posix_memalign, aligned_alloc and
 * free, so that the archive's allocations are the ones below. */
#define _GNU_SOURCE
#include <inttypes.h>
#include <signal.h>
#include <stdio.h>
#include <stdlib.h>
#include <string.h>
#include <sys/mman.h>
#include <unistd.h>

#define LINKER_UTILS_MUST_USE /* calls that prepare others may fail */
#include "linker_utils.h"

#define PAGE ((size_t)4096)
#define CANARY 0xa5
/* How many bytes around a buffer are looked at after each call; all are now and then. */
#define AROUND ((size_t)256)

static uint64_t seed, number;
static const char *calling = "setting up";

static _Noreturn void fail(const char *what) {
    dprintf(2, "seed %" PRIu64 ", call %" PRIu64 ", %s: %s\n", seed, number, calling, what);
    _exit(1);
}

static void expect(bool holds, const char *what) {
    if (!holds) fail(what);
}

static void on_signal(int cause) {
    fail(cause == SIGSEGV || cause == SIGBUS ? "touches memory that isn't its own" : "crashes");
}

/* Pages between two that may not be touched. */
static uint8_t *between_guards(size_t len, int protection, int file) {
    uint8_t *all = mmap(NULL, len + 2 * PAGE, PROT_NONE, MAP_PRIVATE | MAP_ANONYMOUS, -1, 0);
    expect(all != MAP_FAILED, "no pages");
    int flags = MAP_FIXED | (file < 0 ? MAP_PRIVATE | MAP_ANONYMOUS : MAP_SHARED);
    expect(mmap(all + PAGE, len, protection, flags, file, 0) != MAP_FAILED, "no pages");
    return all + PAGE;
}

/* ---- Random numbers: splitmix64, begun anew for each call. */

static uint64_t state;

static uint64_t any(void) {
    uint64_t z = state += 0x9e3779b97f4a7c15;
    z = (z ^ z >> 30) * 0xbf58476d1ce4e5b9;
    z = (z ^ z >> 27) * 0x94d049bb133111eb;
    return z ^ z >> 31;
}

static size_t below(size_t limit) {
    return any() % limit;
}

/* Whether one of so many times. */
static bool once_in(size_t times) {
    return below(times) == 0;
}

/* A number with more of those that lie near a limit. */
static uint64_t any_number(void) {
    uint64_t near = below(9) - (uint64_t)4;
    switch (below(6)) {
    case 0: return below(64);
    case 1: return near;
    case 2: return ((uint64_t)1 << below(64)) + near;
    case 3: return -((uint64_t)1 << below(64)) + near;
    case 4: return any() >> below(64);
    default: return any();
    }
}

/* An offset, usually in or near so many bytes. */
static uint64_t any_offset(size_t len) {
    return once_in(4) ? any_number() : below(len + 8) - (uint64_t)(once_in(8) ? 4 : 0);
}

static size_t any_len(size_t usual) {
    return once_in(4) ? 0 : below(usual + 1);
}

static uint16_t any_machine(void) {
    static const uint16_t known[5] = {LINKER_UTILS_PPC64, LINKER_UTILS_X86_64,
                                      LINKER_UTILS_AARCH64, LINKER_UTILS_RISCV,
                                      LINKER_UTILS_LOONGARCH64};
    return once_in(16) ? (uint16_t)any_number() : known[below(5)];
}

/* More than there are statuses. */
#define STATUSES 128

/* The number of a form, a rewrite or a status. */
static uint32_t any_of_enum(void) {
    return once_in(16) ? (uint32_t)any_number() : (uint32_t)below(once_in(4) ? STATUSES : 12);
}

static uint32_t any_relocation_type(void) {
    return once_in(8) ? (uint32_t)any_number() : (uint32_t)below(once_in(4) ? 1200 : 128);
}

/* ---- The allocations of the archive. */

#define BLOCKS 16
#define BLOCK_LEN ((size_t)1 << 18)

void *__wrap_malloc(size_t size);
void *__wrap_realloc(void *old, size_t size);
void *__wrap_calloc(size_t count, size_t size);
int __wrap_posix_memalign(void **at, size_t alignment, size_t size);
void *__wrap_aligned_alloc(size_t alignment, size_t size);
void __wrap_free(void *at);

/* Each block of memory is at the end of its pages. */
static struct block {
    uint8_t *pages, *at;
    size_t size;
} blocks[BLOCKS];

static unsigned allocations, live, refused_allocation;
static bool was_refused;

void *__wrap_malloc(size_t size) {
    if (++allocations == refused_allocation) {
        was_refused = true;
        return NULL;
    }
    struct block *block = blocks;
    while (block < blocks + BLOCKS && block->at) block++;
    size_t room = (size + 15) / 16 * 16;
    expect(block < blocks + BLOCKS && size <= BLOCK_LEN && room <= BLOCK_LEN, "takes much memory");
    block->at = block->pages + BLOCK_LEN - room;
    block->size = size;
    expect(mprotect(block->pages, BLOCK_LEN, PROT_READ | PROT_WRITE) == 0, "no pages");
    memset(block->at, CANARY, room);
    live++;
    return block->at;
}

void __wrap_free(void *at) {
    if (!at) return;
    struct block *block = blocks;
    while (block < blocks + BLOCKS && block->at != at) block++;
    expect(block < blocks + BLOCKS, "frees what it has not allocated");
    uint8_t *end = block->pages + BLOCK_LEN;
    for (uint8_t *past = block->at + block->size; past < end; past++) {
        expect(*past == CANARY, "writes past the memory that it has allocated");
    }
    for (uint8_t *before = block->at; before > block->pages && before > block->at - 64;) {
        expect(*--before == CANARY, "writes before the memory that it has allocated");
    }
    memset(block->at, CANARY, block->size);
    expect(mprotect(block->pages, BLOCK_LEN, PROT_NONE) == 0, "no pages");
    block->at = NULL;
    live--;
}

void *__wrap_realloc(void *old, size_t size) {
    void *grown = __wrap_malloc(size);
    if (!grown || !old) return grown;
    struct block *block = blocks;
    while (block < blocks + BLOCKS && block->at != old) block++;
    expect(block < blocks + BLOCKS, "reallocates what it has not allocated");
    memcpy(grown, old, block->size < size ? block->size : size);
    __wrap_free(old);
    return grown;
}

void *__wrap_calloc(size_t count, size_t size) {
    (void)count, (void)size;
    fail("calls calloc, which the header doesn't name");
}

int __wrap_posix_memalign(void **at, size_t alignment, size_t size) {
    (void)at, (void)alignment, (void)size;
    fail("calls posix_memalign, which the header doesn't name");
}

void *__wrap_aligned_alloc(size_t alignment, size_t size) {
    (void)alignment, (void)size;
    fail("calls aligned_alloc, which the header doesn't name");
}

/* ---- The buffers of a call. */

#define BUFFERS 20
#define BUFFER_LEN ((size_t)1 << 17)

/* Of SCRATCH nothing is known after a call. */
enum use { READ, WRITTEN, SCRATCH };

/* Pages that are mapped twice: the call may not write to the second. */
static struct buffer {
    uint8_t *pages, *read_only;
    /* what stood there before the call */
    uint8_t was[BUFFER_LEN];
    enum use use;
    size_t at, len;
    /* the bytes that a success may write, counted from the buffer's first */
    size_t changes_from, changes_to;
    /* what the call was given */
    void *given;
} buffers[BUFFERS];

static size_t used;

/* The contents before any call. */
static uint8_t untouched[BUFFER_LEN];

static void set_up(void) {
    memset(untouched, CANARY, BUFFER_LEN);
    for (struct buffer *buffer = buffers; buffer < buffers + BUFFERS; buffer++) {
        int file = memfd_create("hostile", 0);
        expect(file >= 0 && ftruncate(file, (off_t)BUFFER_LEN) == 0, "no pages");
        buffer->pages = between_guards(BUFFER_LEN, PROT_READ | PROT_WRITE, file);
        buffer->read_only = between_guards(BUFFER_LEN, PROT_READ, file);
        memset(buffer->pages, CANARY, BUFFER_LEN);
    }
}

/* The next buffer, of so many elements. A call gets `given`, of which `pages + at` are the bytes to
 * fill. */
static struct buffer *place(enum use use, size_t count, size_t size) {
    expect(used < BUFFERS && count <= BUFFER_LEN / size, "too many buffers");
    struct buffer *buffer = &buffers[used++];
    buffer->use = use;
    buffer->len = count * size;
    buffer->at = once_in(4) ? 0 : BUFFER_LEN - buffer->len;
    buffer->changes_from = 0;
    buffer->changes_to = buffer->len;
    uint8_t *pages = use == READ ? buffer->read_only : buffer->pages;
    buffer->given = count == 0 && once_in(2) ? NULL : pages + buffer->at;
    return buffer;
}

static void *filled(struct buffer *buffer) {
    return buffer->pages + buffer->at;
}

/* A success writes none but these bytes of the buffer. */
static void changes(struct buffer *buffer, uint64_t from, uint64_t to) {
    buffer->changes_from = from < buffer->len ? from : buffer->len;
    buffer->changes_to = to < buffer->len ? to : buffer->len;
}

/* One value that a call writes, of any contents. */
static void *output(size_t size) {
    struct buffer *buffer = place(WRITTEN, 1, size);
    uint8_t *bytes = filled(buffer);
    for (size_t i = 0; i < size; i++) bytes[i] = (uint8_t)any();
    return buffer->given;
}

/* One value that a call only reads. */
static const void *input(const void *value, size_t size) {
    struct buffer *buffer = place(READ, 1, size);
    memcpy(filled(buffer), value, size);
    return buffer->given;
}

/* A struct of the header that a call only reads. */
#define INPUT(name, ...) \
    input(&(struct linker_utils_##name){__VA_ARGS__}, sizeof(struct linker_utils_##name))

/* Bytes, of which some are the instructions of calls. */
static struct buffer *bytes(enum use use, size_t len) {
    static const uint32_t words[12] = {0x00000097, 0x000080e7, 0x00000317, 0x00030067,
                                       0x1e000001, 0x4c000021, 0x1a000004, 0x02c00084,
                                       0xf9400421, 0xf9400021, 0x00000013, 0x80808080};
    struct buffer *buffer = place(use, len, 1);
    uint8_t *at = filled(buffer);
    for (size_t i = 0; i < len; i++) at[i] = (uint8_t)(once_in(8) ? 0x80 : any());
    size_t pairs = once_in(2) ? len / 8 : 0;
    for (size_t i = 0; i < pairs; i++) {
        size_t word = once_in(2) ? 2 * below(6) : below(12);
        for (size_t k = 0; k < 8; k++) {
            at[8 * i + k] = (uint8_t)(words[(word + k / 4) % 12] >> 8 * (k % 4));
        }
    }
    return buffer;
}

/* A section of these bytes, of which a slice of none may be null. */
static const struct linker_utils_section *section_of(const struct buffer *bytes) {
    return INPUT(section, .bytes = bytes->given, .bytes_len = bytes->len);
}

static size_t any_section_len(void) {
    return once_in(2) ? 8 * below(8) : any_len(40);
}

/* `faulty`, which may be null; it is set to no index. */
static size_t *any_faulty(void) {
    if (once_in(3)) return NULL;
    struct buffer *buffer = place(WRITTEN, 1, sizeof(size_t));
    memset(filled(buffer), 0xff, sizeof(size_t));
    /* `finish_faulty` looks at it */
    changes(buffer, 0, 0);
    return buffer->given;
}

static size_t any_count(void) {
    if (once_in(1000)) return 2000 + below(3);
    if (once_in(16)) return 60 + below(80);
    return any_len(8);
}

static uint32_t any_deleted(void) {
    return once_in(8) ? (uint32_t)any_number() : (uint32_t)below(6);
}

/* Deletions that usually ascend, from an offset up. */
static struct buffer *deletions(size_t count) {
    struct buffer *buffer = place(READ, count, sizeof(struct linker_utils_deletion));
    struct linker_utils_deletion *at = filled(buffer);
    bool is_wild = once_in(4);
    uint64_t offset = once_in(4) ? any_number() : below(16);
    for (size_t i = 0; i < count; i++) {
        at[i].offset = is_wild ? any_number() : offset;
        at[i].bytes = any_deleted();
        offset += at[i].bytes + 1 + (once_in(4) ? any() >> (32 + below(32)) : below(8));
    }
    if (count > 1 && once_in(8)) {
        struct linker_utils_deletion *first = &at[below(count)], *second = &at[below(count)];
        struct linker_utils_deletion held = *first;
        *first = *second;
        *second = held;
    }
    return buffer;
}

/* Deltas as the library writes them, some changed, or of any contents. */
static struct buffer *deltas(size_t count) {
    struct buffer *buffer = place(READ, count, sizeof(struct linker_utils_delta));
    struct linker_utils_delta *at = filled(buffer);
    bool is_wild = once_in(6);
    uint64_t offset = below(16), sum = 0;
    for (size_t i = 0; i < count; i++) {
        uint32_t deleted = once_in(4) ? any_deleted() : 4 * (uint32_t)below(3);
        sum += deleted;
        at[i] = (struct linker_utils_delta){offset, sum, deleted};
        if (is_wild) at[i] = (struct linker_utils_delta){any_number(), any_number(), any_deleted()};
        offset += deleted + 1 + (once_in(8) ? any() >> (32 + below(32)) : below(12));
    }
    if (count > 0 && once_in(8)) at[below(count)].input_offset = any_number();
    if (count > 0 && once_in(8)) at[below(count)].cumulative_deleted = any_number();
    if (count > 0 && once_in(8)) at[below(count)].bytes_deleted = any_deleted();
    return buffer;
}

#define LEN(buffer, type) ((buffer)->len / sizeof(type))
#define DELTAS(buffer) (buffer)->given, LEN(buffer, struct linker_utils_delta)

/* Heads of the blocks of deltas, or any others, or not as many as blocks. */
static struct buffer *heads(const struct buffer *of) {
    const struct linker_utils_delta *listed = (const void *)(of->pages + of->at);
    size_t blocks_len = (LEN(of, struct linker_utils_delta) + 63) / 64;
    size_t count = once_in(8) ? below(blocks_len + 3) : blocks_len;
    struct buffer *buffer = place(READ, count, sizeof(struct linker_utils_block_head));
    struct linker_utils_block_head *at = filled(buffer);
    bool is_wild = once_in(4);
    for (size_t i = 0; i < count; i++) {
        if (is_wild || i >= blocks_len) {
            at[i] = (struct linker_utils_block_head){any_number(), any_number()};
            continue;
        }
        const struct linker_utils_delta *first = &listed[64 * i];
        uint64_t before = first->cumulative_deleted - first->bytes_deleted;
        at[i] = (struct linker_utils_block_head){first->input_offset, first->input_offset - before};
    }
    return buffer;
}

/* Before the call: what is in its buffers, and which of its allocations fails. */
static void begin(const char *name) {
    expect(allocations == 0, "allocates");
    calling = name;
    for (size_t i = 0; i < used; i++) {
        struct buffer *buffer = &buffers[i];
        memcpy(buffer->was, buffer->pages + buffer->at, buffer->len);
    }
    was_refused = false;
    refused_allocation = once_in(2) ? 1 + (unsigned)below(6) : 0;
}

#define CALL(name, ...) (begin(#name), linker_utils_##name(__VA_ARGS__))

static void look_around(const struct buffer *buffer, size_t around) {
    size_t end = buffer->at + buffer->len;
    size_t before = buffer->at < around ? buffer->at : around;
    size_t past = BUFFER_LEN - end < around ? BUFFER_LEN - end : around;
    expect(memcmp(buffer->pages + buffer->at - before, untouched, before) == 0,
           "writes before a buffer");
    expect(memcmp(buffer->pages + end, untouched, past) == 0, "writes past a buffer");
}

/* After the call: looks at the buffers. A call that returns no status has written what it may. */
static void finish_buffers(bool has_written) {
    for (size_t i = 0; i < used; i++) {
        struct buffer *buffer = &buffers[i];
        const uint8_t *is = buffer->pages + buffer->at;
        size_t from = has_written ? buffer->changes_from : 0;
        size_t to = has_written ? buffer->changes_to : 0;
        if (from > to) from = to = 0;
        bool is_kept = memcmp(is, buffer->was, from) == 0 &&
                       memcmp(is + to, buffer->was + to, buffer->len - to) == 0;
        expect(is_kept || buffer->use == SCRATCH,
               has_written ? "writes more than it says" : "writes, and returns an error");
        look_around(buffer, once_in(1000) ? BUFFER_LEN : AROUND);
    }
    expect(live == 0, "keeps memory");
    refused_allocation = 0;
}

static void finish(bool has_written) {
    finish_buffers(has_written);
    expect(allocations == 0, "allocates");
    for (size_t i = 0; i < used; i++) memset(filled(&buffers[i]), CANARY, buffers[i].len);
    used = 0;
}

/* A bit for each status. */
__extension__ typedef unsigned __int128 statuses;
#define OR(status) | (statuses)1 << LINKER_UTILS_##status
#define NO_FORM OR(UNKNOWN_ARCHITECTURE) OR(UNKNOWN_FORM)
#define NO_REWRITE OR(UNKNOWN_ARCHITECTURE) OR(UNKNOWN_REWRITE)
#define NO_RELOCATION OR(UNKNOWN_ARCHITECTURE) OR(UNKNOWN_RELOCATION)

/* How often each status was returned. */
static uint64_t returned[STATUSES];

static void expect_status(uint32_t status, statuses allowed) {
    expect(status < STATUSES && ((allowed | 1) >> status & 1), "returns a status that it doesn't name");
    returned[status]++;
}

static void finish_with(uint32_t status, statuses allowed) {
    expect_status(status, allowed);
    finish(status == LINKER_UTILS_OK);
}

/* `faulty` is an index below `limit` with a status about an entry, and otherwise unchanged. */
static void finish_faulty(size_t *faulty, bool is_set, size_t limit) {
    if (!faulty) return;
    struct buffer *buffer = &buffers[used - 1];
    expect((void *)faulty == buffer->given, "`faulty` is the last buffer");
    if (is_set) {
        expect(*faulty < limit, "`faulty` is not an index");
        memcpy(buffer->was, filled(buffer), sizeof(size_t));
    }
}

/* ---- A call of each function. */

static void call_status_text(void) {
    const char *text = CALL(status_text, any_of_enum());
    expect(text && text[0] && text[strlen(text) - 1] == '.', "no sentence");
    finish(true);
}

static void call_operands_of(void) {
    uint64_t symbol = any_number(), place = any_number();
    int64_t addend = (int64_t)any_number();
    struct linker_utils_operands made = CALL(operands_of, symbol, addend, place);
    expect(made.symbol == symbol && made.addend == addend && made.place == place &&
               !made.has_got_entry && !made.has_plt_entry && !made.has_tls_base,
           "other operands");
    finish(true);
}

static void call_section_of(void) {
    uint8_t byte;
    size_t len = below(2);
    struct linker_utils_section made = CALL(section_of, &byte, len);
    expect(made.bytes == &byte && made.bytes_len == len && !made.relocations &&
               !made.relocations_len && !made.address && !made.base && !made.deleted &&
               !made.deleted_len,
           "another section");
    finish(true);
}

static void call_version(void) {
    const char *version = CALL(version, );
    expect(strcmp(version, LINKER_UTILS_VERSION) == 0, "another version than the header");
    (void)CALL(is_proved, );
    finish(true);
}

static void call_window(void) {
    uint16_t machine = any_machine();
    uint32_t form = any_of_enum();
    size_t *window = output(sizeof(size_t));
    uint32_t status = CALL(window, machine, form, window);
    expect(status != LINKER_UTILS_OK || (*window >= 2 && *window <= 8), "no length of a window");
    finish_with(status, 0 NO_FORM);
}

/* `fits`, and `write` where that says that it will do. */
static void call_write(void) {
    uint16_t machine = any_machine();
    uint32_t form = any_of_enum();
    uint64_t value = any_number();
    struct buffer *dest = bytes(WRITTEN, any_len(16));
    size_t window = 0;
    (void)linker_utils_window(machine, form, &window);
    changes(dest, 0, window);
    uint32_t fits = CALL(fits, machine, form, value, dest->given, dest->len);
    finish_buffers(false);
    uint32_t status = CALL(write, machine, form, value, once_in(2), dest->given, dest->len);
    expect(status == fits, "`fits` and `write` differ");
    expect(status != LINKER_UTILS_OK || dest->len >= window, "fits in fewer bytes than the window");
    finish_with(status, 0 NO_FORM OR(TOO_SHORT) OR(DOES_NOT_FIT));
}

static void call_read(void) {
    uint16_t machine = any_machine();
    uint32_t form = any_of_enum();
    struct buffer *from = bytes(READ, any_len(16));
    uint64_t *value = output(sizeof(uint64_t));
    uint8_t *negative = output(1);
    uint32_t status = CALL(read, machine, form, from->given, from->len, value, negative);
    expect(status != LINKER_UTILS_OK || *negative <= 1, "a sign that is neither 0 nor 1");
    finish_with(status, 0 NO_FORM OR(TOO_SHORT));
}

/* `can_apply`, and `apply` where that says that it will do, as where `matches` returns OK. It writes
 * the rewrite's window. */
static void call_apply(void) {
    uint16_t machine = any_machine();
    uint32_t rewrite = any_of_enum();
    uint8_t n = (uint8_t)(once_in(8) ? any_number() : below(8));
    struct buffer *section = bytes(WRITTEN, any_section_len());
    uint64_t offset = any_offset(section->len), before = offset;
    uint64_t *given_offset = output(sizeof(uint64_t));
    int64_t *addend = output(sizeof(int64_t));
    *given_offset = offset;
    struct linker_utils_window_bounds window = {0, 0};
    (void)linker_utils_rewrite_window(machine, rewrite, n, &window);
    uint64_t start = offset < window.back ? 0 : offset - window.back;
    changes(section, start, start + window.len);
    void *read_only = section->given ? section->read_only + section->at : NULL;
    const struct linker_utils_section *to = section_of(section);
    const struct linker_utils_section *read =
        INPUT(section, .bytes = read_only, .bytes_len = section->len);
    uint32_t can = CALL(can_apply, machine, rewrite, n, read, offset);
    uint32_t meant = CALL(matches, machine, rewrite, n, read, offset);
    expect(meant == LINKER_UTILS_DOES_NOT_MATCH || meant == can, "`can_apply` rejects what matches");
    finish_buffers(false);
    uint32_t status = CALL(apply, machine, rewrite, n, to, given_offset, addend);
    expect(status == can, "`can_apply` and `apply` differ");
    expect(status != LINKER_UTILS_OK || *given_offset - before + 1 <= 16, "the offset goes far");
    finish_with(status, 0 NO_REWRITE OR(CANNOT_APPLY));
}

static void call_matches(void) {
    uint16_t machine = any_machine();
    uint32_t rewrite = any_of_enum();
    uint8_t n = (uint8_t)(once_in(8) ? any_number() : below(8));
    struct buffer *section = bytes(READ, any_section_len());
    uint64_t offset = any_offset(section->len);
    const struct linker_utils_section *in = section_of(section);
    uint32_t status = CALL(matches, machine, rewrite, n, in, offset);
    finish_with(status, 0 NO_REWRITE OR(DOES_NOT_MATCH));
}

/* Facts of which some hold. */
static struct buffer *any_facts(void) {
    struct buffer *given = place(READ, 1, sizeof(struct linker_utils_link_facts));
    struct linker_utils_link_facts *facts = filled(given);
    uint64_t *operand = &facts->operands.symbol;
    for (size_t i = 0; i < sizeof facts->operands / sizeof *operand; i++) operand[i] = any_number();
    for (uint8_t *fact = &facts->is_local; fact <= &facts->is_class32; fact++)
        *fact = (uint8_t)(once_in(8) ? any() : below(2));
    if (once_in(2)) facts->operands.addend = -4;
    return given;
}

/* What is chosen matches. */
static void call_choose(void) {
    uint16_t machine = any_machine();
    uint32_t r_type = any_relocation_type();
    struct buffer *section = bytes(READ, any_section_len());
    uint64_t offset = any_offset(section->len);
    struct buffer *given = any_facts();
    struct linker_utils_choice *choice = output(sizeof *choice);
    const struct linker_utils_section *in = section_of(section);
    uint32_t status = CALL(choose, machine, r_type, in, offset, given->given, choice);
    if (status == LINKER_UTILS_OK) {
        uint32_t meant = CALL(matches, machine, choice->rewrite, choice->opcode_len, in, offset);
        expect(meant == LINKER_UTILS_OK, "a choice that doesn't match");
        expect(choice->modifier <= 1 && choice->deleted_start <= 4 && choice->deleted_len <= 6,
               "no choice's numbers");
        expect(choice->skipped_offset <= (choice->modifier ? 8 : 0), "no skipped relocation");
        expect(choice->has_other ? choice->has_other == 1 && choice->other_offset == -4
                                 : !choice->other_offset && !choice->other_relocation,
               "no other relocation");
    }
    finish_with(status, 0 OR(UNKNOWN_ARCHITECTURE));
}

/* A relocation fits if it is rewritten once the others of its sequence fit. */
static void call_relocation_fits(void) {
    uint16_t machine = any_machine();
    uint32_t r_type = any_relocation_type();
    struct buffer *section = bytes(READ, any_section_len());
    uint64_t offset = any_offset(section->len);
    struct buffer *given = any_facts();
    struct linker_utils_link_facts facts = *(struct linker_utils_link_facts *)given->given;
    struct linker_utils_choice choice;
    const struct linker_utils_section *in = section_of(section);
    bool fits = CALL(relocation_fits, machine, r_type, in, offset, given->given);
    facts.group_fits = 1;
    bool is_known =
        linker_utils_choose(machine, r_type, in, offset, &facts, &choice) == LINKER_UTILS_OK;
    expect(fits == (is_known && !linker_utils_is_unchanged(machine, r_type, &choice)),
           "not what fits");
    finish(true);
}

/* No rewrite writes more than 5 bytes before the offset, nor 19 from it on. */
static void call_rewrite_window(void) {
    uint16_t machine = any_machine();
    uint8_t n = (uint8_t)(once_in(8) ? any_number() : below(8));
    struct linker_utils_window_bounds *window = output(sizeof *window);
    uint32_t status = CALL(rewrite_window, machine, any_of_enum(), n, window);
    expect(status != LINKER_UTILS_OK || (window->back <= 5 && window->len <= window->back + 19),
           "no window");
    finish_with(status, 0 NO_REWRITE);
}

static void call_is_unchanged(void) {
    uint16_t machine = any_machine();
    uint32_t type = any_relocation_type(), rewrite = any_of_enum(), modifier;
    struct buffer *given = place(READ, 1, sizeof(struct linker_utils_choice));
    struct linker_utils_choice *choice = filled(given);
    *choice = (struct linker_utils_choice){
        .rewrite = rewrite, .relocation = type, .opcode_len = (uint8_t)any()};
    uint32_t r_type = once_in(2) ? type : any_relocation_type();
    bool is = CALL(is_unchanged, machine, r_type, given->given);
    uint32_t no_op = machine == LINKER_UTILS_X86_64 ? LINKER_UTILS_X86_64_REWRITE_NO_OP : 0;
    bool is_known = linker_utils_next_modifier(machine, rewrite, 0, &modifier) == LINKER_UTILS_OK;
    expect(is == (is_known && rewrite == no_op && type == r_type), "not what is unchanged");
    finish(true);
}

static void call_next_modifier(void) {
    uint16_t machine = any_machine();
    uint32_t *modifier = output(sizeof(uint32_t));
    uint32_t status = CALL(next_modifier, machine, any_of_enum(), (uint8_t)any(), modifier);
    expect(status != LINKER_UTILS_OK || *modifier <= 1, "no modifier");
    finish_with(status, 0 NO_REWRITE);
}

static void call_relocation(void) {
    uint16_t machine = any_machine();
    struct linker_utils_relocation_info *info = output(sizeof *info);
    uint32_t r_type = any_relocation_type();
    uint32_t status = CALL(relocation, machine, r_type, info);
    if (status == LINKER_UTILS_OK) {
        expect(info->kind <= LINKER_UTILS_KIND_TLS_DESC_CALL && info->is_bits <= 1 &&
                   info->has_range <= 1 && info->thunkable <= 1 && info->implicit_addend <= 1 &&
                   info->alignment > 0 && info->byte_size <= 8 && info->end_bit <= 64,
               "no relocation's numbers");
    }
    finish_with(status, 0 NO_RELOCATION);
    bool asks = CALL(asks_for_got, machine, r_type);
    finish(true);
    bool may = CALL(may_use_plt, machine, r_type);
    expect(status == LINKER_UTILS_OK ? !(asks && may) : !asks && !may, "a wrong entry");
    finish(true);
    bool is_skipped = CALL(may_be_skipped, machine, r_type);
    expect(status == LINKER_UTILS_OK || !is_skipped, "a type without a meaning");
    finish(true);
}

static void call_relocation_name(void) {
    uint16_t machine = any_machine();
    uint32_t r_type = any_relocation_type();
    struct buffer *name = bytes(WRITTEN, any_len(LINKER_UTILS_NAME_SIZE));
    size_t *name_used = output(sizeof(size_t));
    uint32_t status = CALL(relocation_name, machine, r_type, name->given, name->len, name_used);
    if (status == LINKER_UTILS_OK) {
        expect(*name_used <= name->len, "a name that is longer than its place");
        changes(name, 0, *name_used);
    }
    if (name->len == LINKER_UTILS_NAME_SIZE) {
        expect(status != LINKER_UTILS_TOO_SHORT, "a name is longer than LINKER_UTILS_NAME_SIZE");
    }
    finish_with(status, 0 NO_RELOCATION OR(TOO_SHORT));
}

static void fill_operands(struct linker_utils_operands *operands) {
    *operands = (struct linker_utils_operands){
        any_number(), (int64_t)any_number(), any_number(), any_number(), any_number(), any_number(),
        any_number(), any_number(), once_in(2), once_in(2), once_in(2)};
}

static void call_value(void) {
    uint16_t machine = any_machine();
    struct buffer *given = place(READ, 1, sizeof(struct linker_utils_operands));
    fill_operands(filled(given));
    int64_t *value = output(sizeof(int64_t));
    uint32_t status = CALL(value, machine, any_relocation_type(), given->given, value);
    finish_with(status, 0 NO_RELOCATION OR(NO_ENTRY) OR(NO_TLS_BASE) OR(NO_VALUE));
}

static void call_reach(void) {
    uint16_t machine = any_machine();
    struct linker_utils_relocation_reach *reach = output(sizeof *reach);
    uint32_t status = CALL(reach, machine, any_relocation_type(), reach);
    if (status == LINKER_UTILS_OK) {
        expect(reach->has_range <= 1 && reach->min <= reach->max, "no reach");
    }
    finish_with(status, 0 NO_RELOCATION);
}

#define NOT_RELOCATED \
    NO_RELOCATION OR(UNSUPPORTED) OR(TOO_SHORT) OR(MISALIGNED) OR(OUT_OF_REACH)

static void call_relocate(void) {
    uint16_t machine = any_machine();
    struct buffer *dest = bytes(WRITTEN, any_len(16));
    int64_t value = (int64_t)(once_in(2) ? below(4096) : any_number());
    changes(dest, 0, 8);
    uint32_t status = CALL(relocate, machine, any_relocation_type(), value, dest->given, dest->len);
    finish_with(status, 0 NOT_RELOCATED);
}

/* A handle, or another number. */
static uint32_t any_handle(void) {
    return once_in(16) ? (uint32_t)any_number()
                       : linker_utils_find(any_machine(), any_relocation_type());
}

/* It is that of the machine and the type. */
static void call_find(void) {
    uint16_t machine = any_machine();
    uint32_t r_type = any_relocation_type();
    uint32_t handle = CALL(find, machine, r_type);
    struct linker_utils_relocation_info info;
    struct linker_utils_row row;
    bool is_known = linker_utils_relocation(machine, r_type, &info) == LINKER_UTILS_OK;
    expect((handle != 0) == is_known, "no handle of a relocation");
    uint32_t status = linker_utils_row_of(handle, &row);
    expect(status == LINKER_UTILS_OK ? row.machine == machine && row.r_type == r_type : !is_known,
           "a handle of another relocation");
    finish(true);
}

static void call_row_of(void) {
    struct linker_utils_row *row = output(sizeof *row);
    uint32_t status = CALL(row_of, any_handle(), row);
    if (status == LINKER_UTILS_OK) {
        expect(memchr(row->name, 0, sizeof row->name) && row->window <= 8, "no row");
    }
    finish_with(status, 0 OR(UNKNOWN_RELOCATION));
}

static void call_row_value(void) {
    struct buffer *given = place(READ, 1, sizeof(struct linker_utils_operands));
    fill_operands(filled(given));
    int64_t *value = output(sizeof(int64_t));
    uint32_t status = CALL(row_value, any_handle(), given->given, value);
    finish_with(status, 0 OR(UNKNOWN_RELOCATION) OR(NO_ENTRY) OR(NO_TLS_BASE) OR(NO_VALUE));
}

#define ROW_NOT_WRITTEN \
    OR(UNKNOWN_RELOCATION) OR(UNSUPPORTED) OR(TOO_SHORT) OR(MISALIGNED) OR(OUT_OF_REACH)

static void call_row_write(void) {
    struct buffer *dest = bytes(WRITTEN, any_len(16));
    int64_t value = (int64_t)(once_in(2) ? below(4096) : any_number());
    changes(dest, 0, 8);
    uint32_t status = CALL(row_write, any_handle(), value, dest->given, dest->len);
    finish_with(status, 0 ROW_NOT_WRITTEN);
}

static void call_row_apply(void) {
    struct buffer *given = place(READ, 1, sizeof(struct linker_utils_operands));
    fill_operands(filled(given));
    struct buffer *dest = bytes(WRITTEN, any_len(16));
    changes(dest, 0, 8);
    uint32_t status = CALL(row_apply, any_handle(), given->given, dest->given, dest->len);
    finish_with(status, 0 ROW_NOT_WRITTEN OR(NO_ENTRY) OR(NO_TLS_BASE) OR(NO_VALUE));
}

static void call_row_reach(void) {
    struct linker_utils_relocation_reach *reach = output(sizeof *reach);
    uint32_t status = CALL(row_reach, any_handle(), reach);
    if (status == LINKER_UTILS_OK) {
        expect(reach->has_range <= 1 && reach->min <= reach->max, "no reach");
    }
    finish_with(status, 0 OR(UNKNOWN_RELOCATION));
}

static void call_row_needs(void) {
    struct linker_utils_requirements *required = output(sizeof *required);
    uint32_t status = CALL(row_needs, any_handle(), (int64_t)any_number(), once_in(2), required);
    finish_with(status, 0 OR(UNKNOWN_RELOCATION));
}

static void call_row_choose(void) {
    struct buffer *section = bytes(READ, any_section_len());
    uint64_t offset = any_offset(section->len);
    struct buffer *given = any_facts();
    struct linker_utils_choice *choice = output(sizeof *choice);
    const struct linker_utils_section *in = section_of(section);
    uint32_t status = CALL(row_choose, any_handle(), in, offset, given->given, choice);
    finish_with(status, 0 OR(UNKNOWN_RELOCATION));
}

/* A relocation fits by its handle if it does by its machine and type. */
static void call_row_fits(void) {
    uint32_t handle = any_handle();
    struct buffer *section = bytes(READ, any_section_len());
    uint64_t offset = any_offset(section->len);
    struct buffer *given = any_facts();
    struct linker_utils_row row;
    const struct linker_utils_section *in = section_of(section);
    bool fits = CALL(row_fits, handle, in, offset, given->given);
    bool is_known = linker_utils_row_of(handle, &row) == LINKER_UTILS_OK;
    expect(fits == (is_known && linker_utils_relocation_fits(row.machine, row.r_type, in, offset,
                                                             given->given)),
           "not what fits");
    finish(true);
}

/* What is before the rejected relocation is written. */
static void call_relocate_all(void) {
    uint16_t machine = any_machine();
    struct buffer *section = bytes(WRITTEN, any_section_len());
    size_t count = any_len(6);
    struct buffer *given =
        place(READ, count, sizeof(struct linker_utils_relocation_entry));
    struct linker_utils_relocation_entry *entry = filled(given);
    for (size_t i = 0; i < count; i++) {
        int64_t value = (int64_t)(once_in(2) ? 4 * below(64) : any_number());
        uint32_t r_type = once_in(8) ? any_relocation_type() : (uint32_t)below(60);
        entry[i] = (struct linker_utils_relocation_entry){any_offset(section->len), value, r_type};
    }
    const struct linker_utils_section *in = section_of(section);
    size_t *faulty = any_faulty();
    uint32_t status = CALL(relocate_all, machine, in, given->given, count, faulty);
    expect_status(status, 0 NOT_RELOCATED);
    bool is_of_entry = status != LINKER_UTILS_OK && status != LINKER_UTILS_UNKNOWN_ARCHITECTURE;
    finish_faulty(faulty, is_of_entry, count);
    finish(status == LINKER_UTILS_OK || is_of_entry);
}

static void call_needs(void) {
    uint16_t machine = any_machine();
    uint32_t r_type = any_relocation_type();
    struct linker_utils_requirements *required = output(sizeof *required);
    int64_t addend = (int64_t)any_number();
    uint32_t status = CALL(needs, machine, r_type, addend, once_in(2), required);
    if (status == LINKER_UTILS_OK) {
        expect(required->entry_class <= LINKER_UTILS_ENTRY_DESCRIPTOR && required->is_branch <= 1 &&
                   required->may_use_stub <= 1 &&
                   required->stub_only_if_undefined <= required->may_use_stub &&
                   required->is_word <= 1 && required->depends_on_load <= 1 &&
                   (required->entry_class ? required->entry_addend == 0 ||
                                                required->entry_addend == addend
                                          : required->entry_addend == 0),
               "no requirements");
    }
    finish_with(status, 0 NO_RELOCATION);
}

/* Relocations of RISC-V and LoongArch that compose, a high part, and a low part. */
static uint32_t any_type_of_section(uint16_t machine) {
    static const uint32_t riscv[8] = {60, 61, 35, 39, 23, 24, 20, 2}, larch[4] = {107, 108, 50, 55};
    if (machine == LINKER_UTILS_RISCV && once_in(2)) return riscv[below(8)];
    if (machine == LINKER_UTILS_LOONGARCH64 && once_in(2)) return larch[below(4)];
    return once_in(8) ? any_relocation_type() : (uint32_t)below(60);
}

/* `st_other` of a symbol, which both tables mostly have alike. */
static uint8_t other_of(size_t symbol) {
    return (uint8_t)(once_in(64) ? any() : 37 * symbol);
}

/* What a linker knows of symbols, usually that they are near. */
static struct buffer *symbols(size_t count) {
    struct buffer *buffer = place(READ, count, sizeof(struct linker_utils_symbol));
    struct linker_utils_symbol *at = filled(buffer);
    for (size_t i = 0; i < count; i++) {
        uint64_t entry = once_in(4) ? 0 : once_in(8) ? any_number() : 0x12000 + 8 * below(8);
        at[i] = (struct linker_utils_symbol){
            .address = once_in(8) ? any_number() : 0x11000 + 4 * below(12), .size = any_number(),
            .stub = once_in(4) ? 0x11800 : 0, .address_entry = entry, .thread_entry = entry,
            .module_entry = entry, .descriptor = entry,
            .entry_addend = once_in(4) ? (int64_t)any_number() : 0, .other = other_of(i),
            .is_thread_local = once_in(4), .is_undefined_weak = once_in(16)};
    }
    return buffer;
}

/* What a linker knows for each relocation. */
static struct buffer *resolved(size_t count) {
    struct buffer *buffer = place(READ, count, sizeof(struct linker_utils_resolved));
    struct linker_utils_resolved *at = filled(buffer);
    for (size_t i = 0; i < count; i++)
        at[i] = (struct linker_utils_resolved){
            .address = once_in(8) ? any_number() : 0x11000 + 4 * below(12),
            .entry = once_in(4) ? 0 : once_in(8) ? any_number() : 0x12000 + 8 * below(8),
            .stub = once_in(4) ? 0x11800 : 0, .other = other_of(i),
            .is_undefined_weak = once_in(16), .is_left_out = once_in(8)};
    return buffer;
}

/* Relocations, of which some bytes may be after the last, and often several are at one offset. */
static struct buffer *relocations(enum use use, uint16_t machine, size_t section_len,
                                  size_t symbols_len) {
    size_t count = any_count();
    struct buffer *buffer = place(use, 24 * count + (once_in(4) ? below(24) : 0), 1);
    uint8_t *at = filled(buffer);
    uint64_t words[3] = {0};
    for (size_t i = 0; i < count; i++, at += sizeof words) {
        if (!once_in(3)) words[0] = once_in(2) ? words[0] + 4 : any_offset(section_len);
        uint64_t symbol = once_in(8) ? any_number() >> 32 : below(symbols_len + 1);
        words[1] = symbol << 32 | any_type_of_section(machine);
        words[2] = once_in(4) ? any_number() : 4 * below(4);
        memcpy(at, words, sizeof words);
    }
    return buffer;
}

/* What a linker knows of the output. */
static const struct linker_utils_link *any_link(uint16_t machine) {
    bool is_wild = once_in(8);
    uint64_t any_address = any_number();
    return INPUT(link, .machine = machine, .got_base = is_wild ? any_address : 0x12000,
                 .thread_origin = is_wild ? any_address : 0x11000, .module_origin = 0x11000,
                 .module_entry = once_in(2) ? 0 : 0x12040, .has_tls = !once_in(4),
                 .global_pointer = any_number(), .is_executable = !once_in(4),
                 .is_fixed = once_in(2), .has_near_symbols = !once_in(4));
}

/* The same bytes, and relocations. */
static const struct linker_utils_section *relocated(const struct buffer *bytes,
                                                    const struct buffer *relocations) {
    return INPUT(section, .bytes = bytes ? bytes->given : NULL, .bytes_len = bytes ? bytes->len : 0,
                 .relocations = relocations->given, .relocations_len = relocations->len / 24,
                 .address = once_in(8) ? any_number() : 0x11000);
}

/* Fields of an object, of which a slice of no elements may be null. */
#define SLICE(field, buffer, type) .field = (buffer)->given, .field##_len = LEN(buffer, type)
#define VALUES(buffer) SLICE(values, buffer, struct linker_utils_symbol)
#define FACTS(buffer) SLICE(facts, buffer, struct linker_utils_symbol_facts)
#define GROUPS(buffer) SLICE(unrelaxable_groups, buffer, struct linker_utils_unrelaxable_groups)
#define FACTS_SNAPSHOT(buffer) SLICE(facts_snapshot, buffer, struct linker_utils_facts_snapshot)
#define HIGH_PARTS(buffer) SLICE(kept_high_parts, buffer, bool)

#define NO_VALUE_AT NO_RELOCATION OR(NO_SYMBOL) OR(NO_ENTRY) OR(NO_TLS_BASE) OR(NO_HIGH_PART)

static void call_value_at(void) {
    uint16_t machine = any_machine();
    struct buffer *known = symbols(any_len(8));
    struct buffer *given = relocations(READ, machine, 40, LEN(known, struct linker_utils_symbol));
    const struct linker_utils_link *link = any_link(machine);
    const struct linker_utils_object *object = INPUT(object, VALUES(known));
    const struct linker_utils_section *section = relocated(NULL, given);
    size_t index = once_in(8) ? (size_t)any_number() : below(given->len / 24 + 1);
    int64_t *value = output(sizeof(int64_t));
    uint32_t status = CALL(value_at, link, object, section, index, value);
    expect((status != LINKER_UTILS_TOO_SHORT) | (index >= given->len / 24), "a relocation is there");
    finish_with(status, 0 NO_VALUE_AT OR(TOO_SHORT) OR(NO_VALUE));
}

static void call_relocate_section(void) {
    uint16_t machine = any_machine();
    struct buffer *section = bytes(WRITTEN, any_section_len());
    struct buffer *known = symbols(any_len(8));
    struct buffer *given =
        relocations(READ, machine, section->len, LEN(known, struct linker_utils_symbol));
    const struct linker_utils_link *link = any_link(machine);
    const struct linker_utils_object *object = INPUT(object, VALUES(known));
    const struct linker_utils_section *in = relocated(section, given);
    size_t needed = CALL(relocate_memory, in);
    expect(needed == given->len / 24, "it needs other memory");
    size_t count = needed + (once_in(4) ? below(4) : 0);
    bool is_short = needed > 0 && once_in(16);
    if (is_short) count = below(needed);
    struct buffer *memory = place(SCRATCH, count, sizeof(uint64_t));
    size_t *faulty = any_faulty();
    uint32_t status = CALL(relocate_section, link, object, in, memory->given, count, faulty);
    expect_status(status, 0 NO_VALUE_AT NOT_RELOCATED OR(ULEB128_ENDED) OR(ULEB128_TOO_LARGE)
                              OR(DOES_NOT_FIT) OR(OVERLAPS) OR(SHORT_MEMORY) OR(NOT_ALIGNED)
                              OR(NEEDS_STUB) OR(OTHER_LENGTH));
    expect((status == LINKER_UTILS_SHORT_MEMORY) <= is_short, "the memory is long enough");
    bool is_of_entry = status != LINKER_UTILS_OK && status != LINKER_UTILS_UNKNOWN_ARCHITECTURE &&
                       status != LINKER_UTILS_SHORT_MEMORY;
    finish_faulty(faulty, is_of_entry, given->len / 24);
    finish(status == LINKER_UTILS_OK);
}

static void call_wrap_addends(void) {
    uint16_t machine = once_in(2) ? LINKER_UTILS_RISCV : any_machine();
    struct buffer *known = symbols(any_len(8));
    struct buffer *given = relocations(WRITTEN, machine, 40, LEN(known, struct linker_utils_symbol));
    const struct linker_utils_link *link = any_link(machine);
    const struct linker_utils_object *object = INPUT(object, VALUES(known));
    const struct linker_utils_section *section = relocated(NULL, given);
    uint32_t status = CALL(wrap_addends, link, object, section);
    expect((status == LINKER_UTILS_OK) == (machine == LINKER_UTILS_RISCV), "of another machine");
    finish_with(status, 0 OR(UNKNOWN_ARCHITECTURE));
}

static void call_relocate_resolved(void) {
    uint16_t machine = any_machine();
    struct buffer *section = bytes(WRITTEN, any_section_len());
    struct buffer *given = relocations(READ, machine, section->len, 8);
    size_t count = given->len / 24;
    bool is_missing = count > 0 && once_in(16);
    struct buffer *known = resolved(is_missing ? below(count) : count + (once_in(4) ? below(4) : 0));
    const struct linker_utils_link *link = any_link(machine);
    const struct linker_utils_section *in =
        INPUT(section, SLICE(bytes, section, uint8_t), .relocations = given->given,
              .relocations_len = count, SLICE(resolved, known, struct linker_utils_resolved),
              .address = 0x11000);
    bool is_short = count > 0 && once_in(16);
    size_t words = is_short ? below(count) : count + (once_in(4) ? below(4) : 0);
    struct buffer *memory = place(SCRATCH, words, sizeof(uint64_t));
    size_t *faulty = any_faulty();
    uint32_t status = CALL(relocate_resolved, link, in, memory->given, words, faulty);
    expect_status(status, 0 NO_VALUE_AT NOT_RELOCATED OR(ULEB128_ENDED) OR(ULEB128_TOO_LARGE)
                              OR(DOES_NOT_FIT) OR(OVERLAPS) OR(SHORT_MEMORY) OR(NOT_ALIGNED)
                              OR(NEEDS_STUB) OR(OTHER_LENGTH));
    expect((status == LINKER_UTILS_SHORT_MEMORY) <= is_short, "the memory is long enough");
    expect((status == LINKER_UTILS_NO_SYMBOL) <= is_missing, "each relocation has an element");
    bool is_of_entry = status != LINKER_UTILS_OK && status != LINKER_UTILS_UNKNOWN_ARCHITECTURE &&
                       status != LINKER_UTILS_SHORT_MEMORY;
    finish_faulty(faulty, is_of_entry, count);
    finish(status == LINKER_UTILS_OK);
}

/* What a linker knows of symbols before addresses are known. */
static struct buffer *symbol_facts(size_t count) {
    struct buffer *buffer = place(READ, count, sizeof(struct linker_utils_symbol_facts));
    struct linker_utils_symbol_facts *at = filled(buffer);
    for (size_t i = 0; i < count; i++)
        at[i] = (struct linker_utils_symbol_facts){
            .is_local = !once_in(4), .is_ifunc = once_in(8), .is_absolute = once_in(8),
            .is_undefined_weak = once_in(32), .is_tls_get_addr = once_in(4), .other = other_of(i)};
    return buffer;
}

static struct buffer *unrelaxable_groups(enum use use, size_t count) {
    struct buffer *buffer = place(use, count, sizeof(struct linker_utils_unrelaxable_groups));
    struct linker_utils_unrelaxable_groups *at = filled(buffer);
    for (size_t i = 0; i < count; i++)
        at[i] = (struct linker_utils_unrelaxable_groups){
            .initial_exec = once_in(4), .general_dynamic = once_in(4), .local_dynamic = once_in(4),
            .descriptor = once_in(4), .got_load = once_in(4)};
    return buffer;
}

static void call_survey(void) {
    uint16_t machine = any_machine();
    struct buffer *section = bytes(READ, any_section_len());
    struct buffer *known = symbol_facts(any_len(8));
    struct buffer *kept = unrelaxable_groups(WRITTEN, any_len(8));
    size_t symbols_len = LEN(known, struct linker_utils_symbol_facts);
    struct buffer *given = relocations(READ, machine, section->len, symbols_len);
    const struct linker_utils_link *link = any_link(machine);
    const struct linker_utils_object *object = INPUT(object, FACTS(known), GROUPS(kept));
    const struct linker_utils_section *in = relocated(section, given);
    uint32_t status = CALL(survey, link, object, in);
    /* what stays already stays */
    const uint8_t *now = filled(kept);
    for (size_t i = 0; i < kept->len; i++) expect(now[i] <= 1 && now[i] >= kept->was[i], "no flags");
    finish_with(status, 0 OR(UNKNOWN_ARCHITECTURE));
}

static void call_snapshot_facts(void) {
    struct buffer *known = symbol_facts(any_len(8));
    size_t symbols_len = LEN(known, struct linker_utils_symbol_facts);
    size_t count = once_in(8) ? any_len(8) : symbols_len;
    struct buffer *kept = place(WRITTEN, count, sizeof(struct linker_utils_facts_snapshot));
    const struct linker_utils_link *link = any_link(any_machine());
    const struct linker_utils_object *object = INPUT(object, FACTS(known), FACTS_SNAPSHOT(kept));
    uint32_t status = CALL(snapshot_facts, link, object);
    expect((status == LINKER_UTILS_OK) == (count == symbols_len), "other lengths");
    const struct linker_utils_facts_snapshot *now = filled(kept);
    for (size_t i = 0; i < count && status == LINKER_UTILS_OK; i++)
        expect(now[i].bits >> 15 == 1, "nothing is kept");
    finish_with(status, 0 OR(DIFFERENT_LENGTHS));
}

/* What is kept of an object's symbols, sometimes of others or of fewer. */
static struct buffer *facts_snapshot(const struct linker_utils_link *link, struct buffer *known) {
    size_t count = LEN(known, struct linker_utils_symbol_facts);
    struct buffer *buffer = place(READ, count, sizeof(struct linker_utils_facts_snapshot));
    struct linker_utils_facts_snapshot *at = filled(buffer);
    const struct linker_utils_object object = {FACTS(known), .facts_snapshot = at,
                                               .facts_snapshot_len = count};
    expect(linker_utils_snapshot_facts(link, &object) == 0, "nothing is kept");
    for (size_t i = 0; i < count; i++)
        if (once_in(64)) at[i].bits = (uint16_t)any_number();
    return buffer;
}

/* What an index at fault is below: that of a relocation, or of a symbol. */
static size_t limit_of(uint32_t status, size_t relocations_len, size_t symbols_len) {
    return status == LINKER_UTILS_FACTS_CONTRADICT ? symbols_len : relocations_len;
}

static void call_relocate_rewritten_section(void) {
    uint16_t machine = any_machine();
    struct buffer *section = bytes(WRITTEN, any_section_len());
    struct buffer *known = symbols(any_len(8));
    size_t symbols_len = LEN(known, struct linker_utils_symbol);
    struct buffer *facts = symbol_facts(once_in(8) ? any_len(8) : symbols_len);
    const struct linker_utils_link *link = any_link(machine);
    struct buffer *kept = facts_snapshot(link, facts);
    struct buffer *given = relocations(READ, machine, section->len, symbols_len);
    const struct linker_utils_object *object =
        INPUT(object, FACTS(facts), VALUES(known), FACTS_SNAPSHOT(kept));
    const struct linker_utils_section *in = relocated(section, given);
    size_t needed = given->len / 24;
    bool is_short = needed > 0 && once_in(16);
    size_t count = is_short ? below(needed) : needed + (once_in(4) ? below(4) : 0);
    struct buffer *memory = place(SCRATCH, count, sizeof(uint64_t));
    size_t *faulty = any_faulty();
    uint32_t status =
        CALL(relocate_rewritten_section, link, object, in, memory->given, count, faulty);
    expect_status(status, 0 NO_VALUE_AT NOT_RELOCATED OR(ULEB128_ENDED) OR(ULEB128_TOO_LARGE)
                              OR(DOES_NOT_FIT) OR(OVERLAPS) OR(SHORT_MEMORY) OR(FACTS_CHANGED)
                              OR(NOT_ALIGNED) OR(NEEDS_STUB) OR(OTHER_LENGTH)
                              OR(FACTS_CONTRADICT));
    expect((status == LINKER_UTILS_SHORT_MEMORY) <= is_short, "the memory is long enough");
    bool is_of_entry = status != LINKER_UTILS_OK && status != LINKER_UTILS_UNKNOWN_ARCHITECTURE &&
                       status != LINKER_UTILS_SHORT_MEMORY;
    finish_faulty(faulty, is_of_entry, limit_of(status, needed, symbols_len));
    finish(status == LINKER_UTILS_OK);
}

/* Room for as many elements as are needed, and sometimes for more or fewer. */
static size_t any_room(size_t needed, bool *is_short) {
    *is_short = needed > 0 && once_in(16);
    return *is_short ? below(needed) : needed + (once_in(4) ? below(4) : 0);
}

/* Of the bytes that a call may write with an error too, what it has written is kept. */
static void keep_written(struct buffer *buffer, size_t len) {
    memcpy(buffer->was, filled(buffer), len < buffer->len ? len : buffer->len);
}

static void expect_decisions(const struct linker_utils_decision *made, size_t count,
                             uint16_t machine) {
    for (size_t i = 0; i < count; i++) {
        bool is_redirected = made[i].fate == LINKER_UTILS_FATE_REWRITTEN_WITH_SYMBOL;
        bool is_made = is_redirected || made[i].fate == LINKER_UTILS_FATE_REWRITTEN;
        expect(made[i].fate <= LINKER_UTILS_FATE_REWRITTEN_WITH_SYMBOL, "no fate");
        expect(is_redirected || (made[i].symbol == 0 && made[i].addend == 0), "another symbol");
        expect(is_made ? made[i].machine == machine
                       : made[i].rewrite == 0 && made[i].relocation == 0 &&
                             made[i].opcode_len == 0 && made[i].machine == 0,
               "no decision");
    }
}

/* The decisions before the relocation at fault are made, and nothing is said of those of others. */
static void keep_decisions(struct buffer *decisions, size_t needed) {
    keep_written(decisions, needed * sizeof(struct linker_utils_decision));
}

/* What rewriting writes; of the struct itself how many deletions there are, if there may be some. */
static struct linker_utils_rewritten *rewritten_of(struct buffer *decisions, struct buffer *deleted) {
    struct buffer *buffer = place(WRITTEN, 1, sizeof(struct linker_utils_rewritten));
    struct linker_utils_rewritten *at = filled(buffer);
    *at = (struct linker_utils_rewritten){
        SLICE(decisions, decisions, struct linker_utils_decision), .deleted_used = any()};
    if (deleted) at->deleted = deleted->given;
    if (deleted) at->deleted_len = LEN(deleted, struct linker_utils_deletion);
    size_t from = offsetof(struct linker_utils_rewritten, deleted_used);
    changes(buffer, from, deleted ? from + sizeof at->deleted_used : from);
    return buffer->given;
}

static void call_rewrite_section(void) {
    uint16_t machine = any_machine();
    struct buffer *section = bytes(WRITTEN, any_section_len());
    struct buffer *known = symbol_facts(any_len(8));
    struct buffer *kept = unrelaxable_groups(READ, any_len(8));
    size_t symbols_len = LEN(known, struct linker_utils_symbol_facts);
    struct buffer *given = relocations(WRITTEN, machine, section->len, symbols_len);
    size_t needed = given->len / 24;
    bool is_short;
    size_t count = any_room(needed, &is_short);
    struct buffer *decisions = place(WRITTEN, count, sizeof(struct linker_utils_decision));
    changes(given, 0, 24 * needed);
    changes(decisions, 0, needed * sizeof(struct linker_utils_decision));
    const struct linker_utils_link *link = any_link(machine);
    const struct linker_utils_object *object = INPUT(object, FACTS(known), GROUPS(kept));
    const struct linker_utils_section *in = relocated(section, given);
    const struct linker_utils_rewritten *rewritten = rewritten_of(decisions, NULL);
    size_t *faulty = any_faulty();
    uint32_t status = CALL(rewrite_section, link, object, in, rewritten, faulty);
    expect_status(status,
                  0 OR(UNKNOWN_ARCHITECTURE) OR(SHORT_MEMORY) OR(NOT_SURVEYED) OR(OVERLAPS));
    expect((status == LINKER_UTILS_SHORT_MEMORY) <= is_short, "the memory is long enough");
    if (status == LINKER_UTILS_OK) expect_decisions(filled(decisions), needed, machine);
    bool is_of_entry = status == LINKER_UTILS_NOT_SURVEYED || status == LINKER_UTILS_OVERLAPS;
    finish_faulty(faulty, is_of_entry, needed);
    if (is_of_entry) keep_decisions(decisions, needed);
    finish(status == LINKER_UTILS_OK);
}

static void call_decide_rewrites(void) {
    uint16_t machine = any_machine();
    struct buffer *section = bytes(READ, any_section_len());
    struct buffer *known = symbol_facts(any_len(8));
    struct buffer *kept = unrelaxable_groups(READ, any_len(8));
    size_t symbols_len = LEN(known, struct linker_utils_symbol_facts);
    struct buffer *given = relocations(READ, machine, section->len, symbols_len);
    size_t needed = given->len / 24;
    bool is_short;
    size_t count = any_room(needed, &is_short);
    struct buffer *decisions = place(WRITTEN, count, sizeof(struct linker_utils_decision));
    changes(decisions, 0, needed * sizeof(struct linker_utils_decision));
    const struct linker_utils_link *link = any_link(machine);
    const struct linker_utils_object *object = INPUT(object, FACTS(known), GROUPS(kept));
    const struct linker_utils_section *in = relocated(section, given);
    const struct linker_utils_rewritten *rewritten = rewritten_of(decisions, NULL);
    size_t *faulty = any_faulty();
    uint32_t status = CALL(decide_rewrites, link, object, in, rewritten, faulty);
    expect_status(status,
                  0 OR(UNKNOWN_ARCHITECTURE) OR(SHORT_MEMORY) OR(NOT_SURVEYED) OR(OVERLAPS));
    expect((status == LINKER_UTILS_SHORT_MEMORY) <= is_short, "the memory is long enough");
    if (status == LINKER_UTILS_OK) expect_decisions(filled(decisions), needed, machine);
    bool is_of_entry = status == LINKER_UTILS_NOT_SURVEYED || status == LINKER_UTILS_OVERLAPS;
    finish_faulty(faulty, is_of_entry, needed);
    if (is_of_entry) keep_decisions(decisions, needed);
    finish(status == LINKER_UTILS_OK);
}

/* Decisions of any bytes, or of numbers that more often are rewrites. */
static struct buffer *any_decisions(size_t count) {
    struct buffer *buffer = bytes(READ, count * sizeof(struct linker_utils_decision));
    struct linker_utils_decision *at = filled(buffer);
    uint16_t machine = any_machine();
    bool are_any = once_in(4);
    for (size_t i = 0; i < count && !are_any; i++) {
        at[i].machine = machine;
        at[i].rewrite = (uint32_t)below(8);
        at[i].fate = (uint8_t)below(4);
    }
    return buffer;
}

static void call_make_rewrites(void) {
    struct buffer *section = bytes(WRITTEN, any_section_len());
    struct buffer *given = relocations(WRITTEN, any_machine(), section->len, 4);
    size_t needed = given->len / 24;
    bool is_short;
    struct buffer *decisions = any_decisions(any_room(needed, &is_short));
    changes(given, 0, 24 * needed);
    const struct linker_utils_section *in = relocated(section, given);
    const struct linker_utils_rewritten *rewritten = rewritten_of(decisions, NULL);
    size_t *faulty = any_faulty();
    uint32_t status = CALL(make_rewrites, in, rewritten, faulty);
    expect_status(status, 0 OR(SHORT_MEMORY) OR(DOES_NOT_MATCH) OR(OVERLAPS));
    expect((status == LINKER_UTILS_SHORT_MEMORY) == is_short, "the memory is long enough");
    bool is_of_entry = status == LINKER_UTILS_DOES_NOT_MATCH || status == LINKER_UTILS_OVERLAPS;
    finish_faulty(faulty, is_of_entry, needed);
    finish(status == LINKER_UTILS_OK);
}

/* A phase, or another number. */
static uint32_t any_phase(void) {
    return once_in(16) ? (uint32_t)any_number() : (uint32_t)below(5);
}

static void call_has_rewrites(void) {
    uint16_t machine = any_machine();
    uint32_t phase = any_phase();
    bool has_rewrites = CALL(has_rewrites, machine, phase);
    expect(!has_rewrites || phase <= LINKER_UTILS_PHASE_SHORT_PC_REL, "there is no such phase");
    finish(true);
}

static void call_survey_placed_section(void) {
    uint16_t machine = any_machine();
    struct buffer *section = bytes(READ, any_section_len());
    struct buffer *known = symbol_facts(any_len(8)), *values = symbols(any_len(8));
    struct buffer *kept = unrelaxable_groups(WRITTEN, any_len(8));
    size_t symbols_len = LEN(known, struct linker_utils_symbol_facts);
    struct buffer *given = relocations(READ, machine, section->len, symbols_len);
    const struct linker_utils_link *link = any_link(machine);
    const struct linker_utils_object *object = INPUT(object, FACTS(known), VALUES(values),
                                                     GROUPS(kept));
    const struct linker_utils_section *in = relocated(section, given);
    uint32_t status = CALL(survey_placed_section, link, object, in, any_phase());
    const uint8_t *now = filled(kept);
    for (size_t i = 0; i < kept->len; i++) expect(now[i] <= 1 && now[i] >= kept->was[i], "no flags");
    finish_with(status, 0 OR(UNKNOWN_ARCHITECTURE) OR(UNKNOWN_PHASE) OR(FACTS_CONTRADICT));
}

static void call_rewrite_placed_section(void) {
    uint16_t machine = any_machine();
    struct buffer *section = bytes(WRITTEN, any_section_len());
    struct buffer *known = symbol_facts(any_len(8)), *values = symbols(any_len(8));
    struct buffer *kept = unrelaxable_groups(READ, any_len(8));
    size_t symbols_len = LEN(known, struct linker_utils_symbol_facts);
    struct buffer *given = relocations(WRITTEN, machine, section->len, symbols_len);
    size_t needed = given->len / 24;
    bool is_short, has_little_room;
    size_t count = any_room(needed, &is_short), room = any_room(needed, &has_little_room);
    struct buffer *decisions = place(WRITTEN, count, sizeof(struct linker_utils_decision));
    struct buffer *deleted = place(WRITTEN, room, sizeof(struct linker_utils_deletion));
    changes(given, 0, 24 * needed);
    changes(decisions, 0, needed * sizeof(struct linker_utils_decision));
    const struct linker_utils_link *link = any_link(machine);
    const struct linker_utils_object *object =
        INPUT(object, FACTS(known), VALUES(values), GROUPS(kept));
    const struct linker_utils_section *in = relocated(section, given);
    struct linker_utils_rewritten *rewritten = rewritten_of(decisions, deleted);
    size_t *faulty = any_faulty();
    uint32_t status =
        CALL(rewrite_placed_section, link, object, in, any_phase(), rewritten, faulty);
    expect_status(status, 0 OR(UNKNOWN_ARCHITECTURE) OR(UNKNOWN_PHASE) OR(SHORT_MEMORY)
                              OR(NOT_SURVEYED) OR(OVERLAPS) OR(FACTS_CONTRADICT));
    expect((status == LINKER_UTILS_SHORT_MEMORY) <= (is_short || has_little_room),
           "the memory is long enough");
    if (status == LINKER_UTILS_OK) {
        const struct linker_utils_deletion *at = filled(deleted);
        expect_decisions(filled(decisions), needed, machine);
        expect(rewritten->deleted_used <= room && rewritten->deleted_used <= needed, "more than there is room for");
        for (size_t i = 0; i < rewritten->deleted_used && i < room; i++)
            expect(at[i].offset + at[i].bytes <= section->len &&
                       (i == 0 || at[i - 1].offset + at[i - 1].bytes <= at[i].offset),
                   "deletes what isn't there, or twice");
        changes(deleted, 0, rewritten->deleted_used * sizeof *at);
    }
    bool is_of_entry = status == LINKER_UTILS_NOT_SURVEYED || status == LINKER_UTILS_OVERLAPS;
    finish_faulty(faulty, is_of_entry || status == LINKER_UTILS_FACTS_CONTRADICT,
                  limit_of(status, needed, symbols_len));
    if (is_of_entry) keep_decisions(decisions, needed);
    if (status == LINKER_UTILS_SHORT_MEMORY && !is_short) {
        keep_decisions(decisions, needed);
        keep_written(deleted, deleted->len);
    }
    finish(status == LINKER_UTILS_OK);
}

/* Whether each word of a section of addresses stays. */
static struct buffer *kept_words(enum use use, size_t count) {
    struct buffer *buffer = place(use, count, sizeof(bool));
    bool *at = filled(buffer);
    for (size_t i = 0; i < count; i++) at[i] = once_in(4);
    return buffer;
}

static const struct linker_utils_words *words_of(const struct buffer *words,
                                                 const struct buffer *kept) {
    return INPUT(words, .address = any_number(), .relocations = words->given,
                 .relocations_len = words->len / 24, .kept = kept->given, .kept_len = kept->len);
}

static void call_survey_toc_loads(void) {
    uint16_t machine = any_machine();
    struct buffer *section = bytes(READ, any_section_len());
    struct buffer *known = symbol_facts(any_len(8)), *values = symbols(any_len(8));
    size_t symbols_len = LEN(known, struct linker_utils_symbol_facts);
    struct buffer *words = relocations(READ, machine, any_section_len(), symbols_len);
    struct buffer *kept = kept_words(WRITTEN, any_len(8));
    struct buffer *given = relocations(READ, machine, section->len, symbols_len);
    const struct linker_utils_link *link = any_link(machine);
    const struct linker_utils_object *object = INPUT(object, FACTS(known), VALUES(values));
    const struct linker_utils_section *in = relocated(section, given);
    const struct linker_utils_words *all_words = words_of(words, kept);
    uint32_t status = CALL(survey_toc_loads, link, object, in, all_words);
    const uint8_t *now = filled(kept);
    for (size_t i = 0; i < kept->len; i++) expect(now[i] <= 1 && now[i] >= kept->was[i], "no flags");
    finish_with(status, 0 OR(UNKNOWN_ARCHITECTURE) OR(FACTS_CONTRADICT));
}

static void call_rewrite_toc_loads(void) {
    uint16_t machine = any_machine();
    struct buffer *section = bytes(WRITTEN, any_section_len());
    struct buffer *known = symbol_facts(any_len(8)), *values = symbols(any_len(8));
    size_t symbols_len = LEN(known, struct linker_utils_symbol_facts);
    struct buffer *words = relocations(READ, machine, any_section_len(), symbols_len);
    struct buffer *kept = kept_words(READ, any_len(8));
    struct buffer *given = relocations(WRITTEN, machine, section->len, symbols_len);
    size_t needed = given->len / 24;
    bool is_short;
    size_t count = any_room(needed, &is_short);
    struct buffer *decisions = place(WRITTEN, count, sizeof(struct linker_utils_decision));
    changes(given, 0, 24 * needed);
    changes(decisions, 0, needed * sizeof(struct linker_utils_decision));
    const struct linker_utils_link *link = any_link(machine);
    const struct linker_utils_object *object = INPUT(object, FACTS(known), VALUES(values));
    const struct linker_utils_section *in = relocated(section, given);
    const struct linker_utils_words *all_words = words_of(words, kept);
    const struct linker_utils_rewritten *rewritten = rewritten_of(decisions, NULL);
    size_t *faulty = any_faulty();
    uint32_t status =
        CALL(rewrite_toc_loads, link, object, in, all_words, rewritten, faulty);
    expect_status(status, 0 OR(UNKNOWN_ARCHITECTURE) OR(SHORT_MEMORY) OR(NOT_SURVEYED)
                              OR(OVERLAPS) OR(FACTS_CONTRADICT));
    expect((status == LINKER_UTILS_SHORT_MEMORY) <= is_short, "the memory is long enough");
    if (status == LINKER_UTILS_OK) expect_decisions(filled(decisions), needed, machine);
    bool is_of_entry = status == LINKER_UTILS_NOT_SURVEYED || status == LINKER_UTILS_OVERLAPS;
    finish_faulty(faulty, is_of_entry || status == LINKER_UTILS_FACTS_CONTRADICT,
                  limit_of(status, needed, symbols_len));
    if (is_of_entry) keep_decisions(decisions, needed);
    finish(status == LINKER_UTILS_OK);
}

/* Mostly RISC-V, of which alone addresses are near the global pointer. */
static uint16_t mostly_riscv(void) {
    return once_in(4) ? any_machine() : LINKER_UTILS_RISCV;
}

static void call_survey_global_pointer(void) {
    uint16_t machine = mostly_riscv();
    struct buffer *section = bytes(READ, any_section_len());
    struct buffer *known = symbol_facts(any_len(8)), *values = symbols(any_len(8));
    size_t symbols_len = LEN(known, struct linker_utils_symbol_facts);
    struct buffer *kept = kept_words(WRITTEN, any_len(8));
    struct buffer *given = relocations(READ, machine, section->len, symbols_len);
    const struct linker_utils_link *link = any_link(machine);
    const struct linker_utils_object *object =
        INPUT(object, FACTS(known), VALUES(values), HIGH_PARTS(kept));
    const struct linker_utils_section *in = relocated(section, given);
    uint32_t status = CALL(survey_global_pointer, link, object, in);
    const uint8_t *now = filled(kept);
    for (size_t i = 0; i < kept->len; i++) expect(now[i] <= 1 && now[i] >= kept->was[i], "no flags");
    finish_with(status, 0 OR(UNKNOWN_ARCHITECTURE) OR(FACTS_CONTRADICT));
}

static void call_rewrite_global_pointer(void) {
    uint16_t machine = mostly_riscv();
    struct buffer *section = bytes(READ, any_section_len());
    struct buffer *known = symbol_facts(any_len(8)), *values = symbols(any_len(8));
    struct buffer *kept = kept_words(READ, any_len(8));
    size_t symbols_len = LEN(known, struct linker_utils_symbol_facts);
    struct buffer *given = relocations(WRITTEN, machine, section->len, symbols_len);
    size_t needed = given->len / 24;
    bool is_short, has_little_room;
    size_t count = any_room(needed, &is_short), room = any_room(needed, &has_little_room);
    struct buffer *decisions = place(WRITTEN, count, sizeof(struct linker_utils_decision));
    struct buffer *deleted = place(WRITTEN, room, sizeof(struct linker_utils_deletion));
    changes(given, 0, 24 * needed);
    changes(decisions, 0, needed * sizeof(struct linker_utils_decision));
    const struct linker_utils_link *link = any_link(machine);
    const struct linker_utils_object *object =
        INPUT(object, FACTS(known), VALUES(values), HIGH_PARTS(kept));
    const struct linker_utils_section *in = relocated(section, given);
    struct linker_utils_rewritten *rewritten = rewritten_of(decisions, deleted);
    size_t *faulty = any_faulty();
    uint32_t status = CALL(rewrite_global_pointer, link, object, in, rewritten, faulty);
    expect_status(status, 0 OR(UNKNOWN_ARCHITECTURE) OR(SHORT_MEMORY) OR(NOT_SURVEYED)
                              OR(OVERLAPS) OR(FACTS_CONTRADICT));
    expect((status == LINKER_UTILS_SHORT_MEMORY) <= (is_short || has_little_room),
           "the memory is long enough");
    if (status == LINKER_UTILS_OK) {
        const struct linker_utils_deletion *at = filled(deleted);
        expect_decisions(filled(decisions), needed, machine);
        expect(rewritten->deleted_used <= room && rewritten->deleted_used <= needed, "more than there is room for");
        for (size_t i = 0; i < rewritten->deleted_used && i < room; i++)
            expect(at[i].bytes == 4 && at[i].offset + 4 <= section->len, "deletes what isn't there");
        changes(deleted, 0, rewritten->deleted_used * sizeof *at);
    }
    bool is_of_entry = status == LINKER_UTILS_NOT_SURVEYED || status == LINKER_UTILS_OVERLAPS;
    finish_faulty(faulty, is_of_entry || status == LINKER_UTILS_FACTS_CONTRADICT,
                  limit_of(status, needed, symbols_len));
    if (is_of_entry) keep_decisions(decisions, needed);
    if (status == LINKER_UTILS_SHORT_MEMORY && !is_short) {
        keep_decisions(decisions, needed);
        keep_written(deleted, deleted->len);
    }
    finish(status == LINKER_UTILS_OK);
}

static void call_finish_gp_relaxation(void) {
    struct buffer *section = bytes(WRITTEN, any_section_len());
    struct buffer *values = symbols(any_len(8));
    size_t symbols_len = LEN(values, struct linker_utils_symbol);
    struct buffer *given = relocations(WRITTEN, LINKER_UTILS_RISCV, section->len, symbols_len);
    size_t needed = given->len / 24;
    uint8_t *listed = filled(given);
    for (size_t i = 0; i < needed; i++)
        if (once_in(4)) memcpy(listed + 24 * i + 8, &(uint32_t){(uint32_t)(47 + below(2))}, 4);
    changes(given, 0, 24 * needed);
    const struct linker_utils_link *link = any_link(any_machine());
    const struct linker_utils_object *object = INPUT(object, VALUES(values));
    const struct linker_utils_section *in = relocated(section, given);
    size_t *faulty = any_faulty();
    uint32_t status = CALL(finish_gp_relaxation, link, object, in, faulty);
    expect_status(status, 0 OR(OUT_OF_REACH));
    finish_faulty(faulty, status == LINKER_UTILS_OUT_OF_REACH, needed);
    finish(status == LINKER_UTILS_OK);
}

#define UNKNOWN OR(UNKNOWN_ARCHITECTURE)

/* The class of an entry of the GOT, or another number. */
static uint32_t any_class(void) {
    return once_in(16) ? (uint32_t)any_number() : (uint32_t)below(7);
}

static void call_dynamic_types(void) {
    struct linker_utils_dynamic_types *types = output(sizeof *types);
    uint32_t status = CALL(get_dynamic_types, any_machine(), types);
    expect(status || (types->word && types->relative && types->irelative), "no types");
    finish_with(status, 0 UNKNOWN);
}

static void call_dynamic_name(void) {
    struct buffer *name = bytes(WRITTEN, any_len(LINKER_UTILS_NAME_SIZE));
    size_t *name_used = output(sizeof(size_t));
    uint32_t status = CALL(dynamic_name, any_machine(), any_relocation_type(), name->given, name->len,
                           name_used);
    if (status == LINKER_UTILS_OK) changes(name, 0, *name_used);
    expect(status != LINKER_UTILS_TOO_SHORT || name->len < LINKER_UTILS_NAME_SIZE, "a long name");
    finish_with(status, 0 NO_RELOCATION OR(TOO_SHORT));
}

static void call_dynamic_words(void) {
    struct linker_utils_word_types *words = output(sizeof *words);
    uint32_t status = CALL(dynamic_words, any_machine(), any_class(), once_in(2), once_in(2), words);
    finish_with(status, 0 UNKNOWN OR(UNKNOWN_ENTRY_CLASS));
}

static void call_entry_words(void) {
    uint32_t class = any_class();
    uint64_t words = CALL(get_entry_words, class);
    expect(words <= 2 && (words > 0) == (class > 0 && class <= LINKER_UTILS_ENTRY_DESCRIPTOR),
           "other words");
    finish(true);
}

static void call_origins(void) {
    struct linker_utils_origins *origins = output(sizeof *origins);
    uint32_t status = CALL(get_origins, any_machine(), any_number(), any_number(), any_number(), origins);
    finish_with(status, 0 UNKNOWN);
}

static void call_static_words(void) {
    struct buffer *origins = place(READ, 1, sizeof(struct linker_utils_origins));
    struct linker_utils_origins *at = filled(origins);
    *at = (struct linker_utils_origins){any_number(), any_number()};
    struct linker_utils_entry_words *words = output(sizeof *words);
    uint32_t status = CALL(static_words, any_class(), any_number(), origins->given, words);
    finish_with(status, 0 OR(UNKNOWN_ENTRY_CLASS));
}

static void call_got(void) {
    struct linker_utils_got *got = output(sizeof *got);
    uint32_t status = CALL(get_got, any_machine(), any_number(), any_number(), got);
    expect(status || (got->has_header <= 1 && (got->has_header || !got->header)), "no flag");
    finish_with(status, 0 UNKNOWN);
}

static void call_join_flags(void) {
    uint32_t first = (uint32_t)(once_in(4) ? any_number() : below(8));
    uint32_t second = (uint32_t)(once_in(4) ? any_number() : below(8)), *joined = output(4);
    uint32_t status = CALL(join_flags, any_machine(), first, second, joined);
    expect(status || *joined == (first | second), "other flags");
    finish_with(status, 0 UNKNOWN OR(DIFFERENT_FLAGS));
}

/* `needed` is written with LINKER_UTILS_TOO_SHORT too. */
static void finish_needed(uint32_t status, const size_t *needed, statuses allowed) {
    struct buffer *buffer = &buffers[used - 1];
    expect((const void *)needed == buffer->given, "`needed` is the last buffer");
    if (status == LINKER_UTILS_TOO_SHORT) memcpy(buffer->was, filled(buffer), sizeof *needed);
    finish_with(status, allowed);
}

static void call_write_relr(void) {
    size_t count = any_count();
    struct buffer *addresses = place(READ, count, sizeof(uint64_t));
    uint64_t *address = filled(addresses), next = any_number() & ~(uint64_t)7;
    for (size_t i = 0; i < count; i++) {
        address[i] = once_in(200) ? any_number() : next;
        next += 8 + 8 * below(once_in(4) ? 200 : 4);
    }
    size_t words_len = once_in(4) ? any_count() : count;
    struct buffer *words = place(WRITTEN, words_len, sizeof(uint64_t));
    size_t *needed = output(sizeof *needed);
    uint32_t status = CALL(write_relr, addresses->given, LEN(addresses, uint64_t), words->given,
                           LEN(words, uint64_t), needed);
    if (status == LINKER_UTILS_OK) words->changes_to = *needed * sizeof(uint64_t);
    expect(status || *needed <= count, "more words than addresses");
    expect(status != LINKER_UTILS_TOO_SHORT || *needed > words_len, "too short, but for none");
    finish_needed(status, needed, 0 OR(UNALIGNED_ADDRESS) OR(NOT_ASCENDING) OR(TOO_SHORT));
}

static void call_read_relr(void) {
    size_t count = any_count();
    struct buffer *words = place(READ, count, sizeof(uint64_t));
    uint64_t *word = filled(words);
    for (size_t i = 0; i < count; i++)
        word[i] = i == 0 || once_in(4) ? any_number() & ~(uint64_t)(once_in(100) ? 0 : 7)
                                       : any_number() | 1;
    size_t most = count < 8 ? 63 * count : any_count();
    size_t addresses_len = once_in(2) ? any_count() : most;
    struct buffer *addresses = place(WRITTEN, addresses_len, sizeof(uint64_t));
    size_t *needed = output(sizeof *needed);
    uint32_t status = CALL(read_relr, words->given, LEN(words, uint64_t), addresses->given,
                           LEN(addresses, uint64_t), needed);
    if (status == LINKER_UTILS_OK) addresses->changes_to = *needed * sizeof(uint64_t);
    expect(status || *needed <= 63 * count, "more addresses than bits");
    finish_needed(status, needed, 0 OR(NO_ADDRESS) OR(UNALIGNED_ADDRESS) OR(TOO_LARGE) OR(TOO_SHORT));
}

static void call_read_crel(void) {
    size_t count = below(16), len = once_in(4) ? any_count() : 8 * count + 1;
    struct buffer *crel = place(READ, len, 1);
    uint8_t *byte = filled(crel);
    for (size_t at = 0; at < len; at++)
        byte[at] = once_in(100) ? (uint8_t)any() : (uint8_t)below(once_in(8) ? 256 : 128);
    if (len > 0 && !once_in(20)) byte[0] = (uint8_t)(8 * count + below(8));
    struct buffer *relas = place(WRITTEN, 24 * (once_in(4) ? below(16) : count), 1);
    uint8_t *has_addends = output(sizeof *has_addends);
    size_t *number = output(sizeof *number);
    uint32_t status = CALL(read_crel, crel->given, len, relas->given, relas->len / 24, number,
                           has_addends);
    if (status == LINKER_UTILS_OK) {
        relas->changes_to = *number * 24;
        expect(*has_addends <= 1, "a flag that is neither 0 nor 1");
    }
    expect(*number <= len, "more than bytes");
    struct buffer *buffer = &buffers[used - 1];
    memcpy(buffer->was, filled(buffer), sizeof *number);
    finish_with(status, 0 OR(CUT_OFF) OR(TOO_LARGE) OR(TOO_SHORT));
}

static void call_read_rela32(void) {
    size_t count = below(16), len = 12 * count + below(12), room = once_in(4) ? below(16) : count;
    struct buffer *entries = bytes(READ, len), *relas = place(WRITTEN, 24 * room, 1);
    uint32_t status = CALL(read_rela32, LINKER_UTILS_RISCV, entries->given, len, relas->given, room);
    if (status == LINKER_UTILS_OK) relas->changes_to = 24 * count;
    expect((status == LINKER_UTILS_OK) == (room >= count), "not as much room as relocations");
    finish_with(status, 0 OR(TOO_SHORT));
}

static const uint32_t property_kinds[] = {1, 2, 0xb0000000, 0xb0008000, 0xc0000000, 0xc0000001,
                                          0xc0000002, 0xc0008002, 0xc0010002};
enum { PROPERTY_KINDS = sizeof property_kinds / sizeof *property_kinds };

/* Properties with ascending types, mostly. */
static struct buffer *properties(enum use use, size_t count) {
    struct buffer *made = place(use, count, sizeof(struct linker_utils_property));
    struct linker_utils_property *property = filled(made);
    size_t next = 0;
    for (size_t i = 0; i < count; i++) {
        if (!once_in(3) && next + 1 < PROPERTY_KINDS) next++;
        property[i] = (struct linker_utils_property){
            .kind = once_in(50) ? (uint32_t)any_number() : property_kinds[next],
            .value = once_in(20) ? any_number() : below(8), .version = once_in(20)};
    }
    return made;
}

/* `number` is written with all of these but LINKER_UTILS_TOO_LARGE and an unknown machine. */
static void finish_number(uint32_t status, const size_t *number, statuses allowed) {
    struct buffer *buffer = &buffers[used - 1];
    expect((const void *)number == buffer->given, "`number` is the last buffer");
    if (status != LINKER_UTILS_TOO_LARGE && status != LINKER_UTILS_UNKNOWN_ARCHITECTURE)
        memcpy(buffer->was, filled(buffer), sizeof *number);
    finish_with(status, allowed);
}

static void call_read_properties(void) {
    size_t count = below(8), len = once_in(4) ? any_count() : 16 + 16 * count;
    struct buffer *notes = place(READ, len, 1);
    uint8_t *byte = filled(notes);
    for (size_t at = 0; at + 4 <= len; at += 4) {
        uint32_t word = (uint32_t)any_number();
        if (!once_in(100)) {
            size_t part = at / 4;
            uint32_t header[] = {4, (uint32_t)(16 * count), 5, 0x554e47};
            uint32_t kind = property_kinds[part / 4 % PROPERTY_KINDS];
            word = part < 4 ? header[part] : part % 4 == 0 ? kind : part % 4 == 1 ? 4 : below(8);
        }
        memcpy(byte + at, &word, 4);
    }
    size_t room = once_in(4) ? below(8) : count;
    struct buffer *read = place(WRITTEN, room, sizeof(struct linker_utils_property));
    size_t *number = output(sizeof *number);
    uint32_t status = CALL(read_properties, any_machine(), notes->given, len, read->given,
                           LEN(read, struct linker_utils_property), number);
    if (status == LINKER_UTILS_OK) read->changes_to = *number * sizeof(struct linker_utils_property);
    expect(status == LINKER_UTILS_UNKNOWN_ARCHITECTURE || *number <= len, "more than bytes");
    finish_number(status, number, 0 UNKNOWN OR(NOT_PROPERTIES) OR(CUT_OFF) OR(WRONG_SIZE)
                  OR(NOT_ASCENDING) OR(TOO_SHORT));
}

static void call_merge_properties(void) {
    size_t first_len = below(8), second_len = below(8);
    struct buffer *first = properties(READ, first_len), *second = properties(READ, second_len);
    const struct linker_utils_property_inputs *inputs = INPUT(
        property_inputs, .first = first->given, .first_len = first_len, .second = second->given,
        .second_len = second_len);
    size_t room = once_in(4) ? below(8) : first_len + second_len;
    struct buffer *merged = place(WRITTEN, room, sizeof(struct linker_utils_property));
    size_t *number = output(sizeof *number);
    uint32_t status = CALL(merge_properties, any_machine(), inputs, merged->given,
                           LEN(merged, struct linker_utils_property), number);
    if (status == LINKER_UTILS_OK)
        merged->changes_to = *number * sizeof(struct linker_utils_property);
    expect(status || *number <= first_len + second_len, "more than there were");
    finish_number(status, number, 0 UNKNOWN OR(DIFFERENT_VALUES) OR(TOO_SHORT));
}

static void call_write_properties(void) {
    size_t count = below(8);
    struct buffer *given = properties(READ, count);
    struct buffer *note = place(WRITTEN, once_in(4) ? any_count() : 16 + 24 * count, 1);
    size_t *number = output(sizeof *number);
    uint32_t status = CALL(write_properties, any_machine(), given->given,
                           LEN(given, struct linker_utils_property), note->given, note->len, number);
    if (status == LINKER_UTILS_OK) note->changes_to = *number;
    expect(status || *number <= 16 + 24 * count, "a longer note");
    finish_number(status, number, 0 UNKNOWN OR(NOT_ASCENDING) OR(UNKNOWN_PROPERTY) OR(DOES_NOT_FIT)
                  OR(TOO_LARGE) OR(TOO_SHORT));
}

static void call_is_property_known(void) {
    uint16_t machine = any_machine();
    bool known = CALL(is_property_known, machine, property_kinds[below(PROPERTY_KINDS)]);
    expect(!CALL(is_property_known, machine, 0), "type 0 has no rule");
    finish(known);
}

static void call_landing_property(void) {
    struct linker_utils_landing_property *landing = output(sizeof *landing);
    uint16_t machine = any_machine();
    uint32_t status = CALL(get_landing_property, machine, landing);
    expect(status || (landing->bit && CALL(is_property_known, machine, landing->kind)), "no bit");
    finish_with(status, 0 UNKNOWN OR(NOT_PROVIDED));
}

static void call_output_facts(void) {
    uint16_t machine = any_machine();
    uint32_t flags = (uint32_t)any_number();
    uint32_t made = CALL(output_flags, machine, flags);
    expect((made & flags) == flags && (made & ~flags) <= 2, "other flags");
    uint64_t page = CALL(page, machine), unit = CALL(code_unit, machine, flags);
    expect(!(page & (page - 1)) && page <= 0x10000 && unit <= 4 && !page == !unit, "no page");
    uint8_t filler = CALL(filler, machine, any_number());
    expect(page || !filler, "filler of no machine");
    finish(true);
}

static void call_interpreter(void) {
    struct buffer *path = bytes(WRITTEN, any_len(LINKER_UTILS_NAME_SIZE));
    size_t *path_used = output(sizeof(size_t));
    uint32_t flags = (uint32_t)(once_in(4) ? any_number() : below(8));
    uint32_t status = CALL(interpreter, any_machine(), flags, path->given, path->len, path_used);
    if (status == LINKER_UTILS_OK) changes(path, 0, *path_used);
    expect(status != LINKER_UTILS_TOO_SHORT || path->len < LINKER_UTILS_NAME_SIZE, "a long path");
    finish_with(status, 0 UNKNOWN OR(NOT_PROVIDED) OR(TOO_SHORT));
}

static void call_address_section(void) {
    struct buffer *name = bytes(WRITTEN, any_len(LINKER_UTILS_NAME_SIZE));
    size_t *name_used = output(sizeof(size_t));
    uint32_t status = CALL(address_section, any_machine(), name->given, name->len, name_used);
    if (status == LINKER_UTILS_OK) changes(name, 0, *name_used);
    expect(status != LINKER_UTILS_TOO_SHORT || name->len < LINKER_UTILS_NAME_SIZE, "a long name");
    finish_with(status, 0 UNKNOWN OR(NOT_PROVIDED) OR(TOO_SHORT));
}

static void call_entry_relocation(void) {
    uint32_t *entry_type = output(sizeof *entry_type);
    uint32_t r_type = (uint32_t)(once_in(4) ? any_number() : below(80));
    uint32_t status = CALL(entry_relocation, any_machine(), r_type, entry_type);
    finish_with(status, 0 UNKNOWN OR(NOT_PROVIDED));
}

static void call_dynamic_entry(void) {
    const struct linker_utils_dynamic_facts *facts =
        INPUT(dynamic_facts, .first_entry = any_number(), .options = any_number(),
              .has_lazy_plt = once_in(2), .has_landing_plt = once_in(2),
              .has_signed_plt = once_in(2), .has_variant_calls = once_in(2));
    struct linker_utils_dynamic_entry *entry = output(sizeof *entry);
    size_t index = once_in(4) ? (size_t)any_number() : below(4);
    uint32_t status = CALL(get_dynamic_entry, any_machine(), facts, index, entry);
    expect(status || (index < 3 && entry->tag / 8 == 0x70000000 / 8), "no tag of a processor");
    finish_with(status, 0 UNKNOWN OR(NOT_PROVIDED));
}

static void call_provided_symbol(void) {
    struct buffer *name = bytes(WRITTEN, any_len(LINKER_UTILS_NAME_SIZE));
    size_t *name_used = output(sizeof(size_t));
    struct linker_utils_provided_symbol *symbol = output(sizeof *symbol);
    size_t index = once_in(4) ? (size_t)any_number() : below(3);
    uint32_t status = CALL(get_provided_symbol, any_machine(), index, name->given, name->len, name_used,
                           symbol);
    if (status == LINKER_UTILS_OK) changes(name, 0, *name_used);
    expect(status || symbol->place <= LINKER_UTILS_PLACE_SMALL_DATA, "no place");
    expect(status != LINKER_UTILS_TOO_SHORT || name->len < LINKER_UTILS_NAME_SIZE, "a long name");
    finish_with(status, 0 UNKNOWN OR(NOT_PROVIDED) OR(TOO_SHORT));
}

static void call_save_restore_routines(void) {
    struct buffer *prefix = bytes(WRITTEN, any_len(LINKER_UTILS_NAME_SIZE));
    size_t *prefix_used = output(sizeof(size_t));
    struct linker_utils_save_restore_routines *run = output(sizeof *run);
    size_t index = once_in(4) ? (size_t)any_number() : below(9);
    uint32_t status = CALL(get_save_restore_routines, any_machine(), index, prefix->given, prefix->len, prefix_used,
                           run);
    if (status == LINKER_UTILS_OK) changes(prefix, 0, *prefix_used);
    expect(status || run->len / run->spacing >= run->count, "no run");
    expect(status != LINKER_UTILS_TOO_SHORT || prefix->len < LINKER_UTILS_NAME_SIZE, "a long name");
    finish_with(status, 0 UNKNOWN OR(NOT_PROVIDED) OR(TOO_SHORT));
}

static void call_provided_word(void) {
    uint32_t *word = output(sizeof *word);
    size_t run = once_in(4) ? (size_t)any_number() : below(9);
    uint64_t index = once_in(4) ? any_number() : below(24);
    uint32_t status = CALL(provided_word, any_machine(), run, index, word);
    finish_with(status, 0 UNKNOWN OR(NOT_PROVIDED));
}

static void call_stub(void) {
    struct linker_utils_stub *stub = output(sizeof *stub);
    uint32_t kind = once_in(8) ? (uint32_t)any_number() : (uint32_t)below(10);
    uint32_t status = CALL(get_stub, any_machine(), kind, stub);
    expect(status || (stub->len <= 64 && stub->entry < stub->len), "no stub");
    finish_with(status, 0 UNKNOWN OR(UNKNOWN_STUB));
}

static void call_write_stub(void) {
    struct buffer *code = bytes(WRITTEN, any_len(48));
    uint32_t kind = once_in(8) ? (uint32_t)any_number() : (uint32_t)below(10);
    uint64_t at = any_number(), target = once_in(4) ? any_number() : at + 4 * below(1 << 20);
    changes(code, 0, 36);
    uint32_t status = CALL(write_stub, any_machine(), kind, at, target, code->given, code->len);
    finish_with(status, 0 UNKNOWN OR(UNKNOWN_STUB) OR(TOO_SHORT) OR(OUT_OF_REACH) OR(MISALIGNED));
}

static uint32_t any_form(void) {
    return once_in(8) ? (uint32_t)any_number() : (uint32_t)below(7);
}

static void call_lazy_plt(void) {
    struct linker_utils_lazy_plt *plt = output(sizeof *plt);
    uint32_t status = CALL(get_lazy_plt, any_machine(), any_form(), plt);
    expect(status || (plt->header_len <= 60 && plt->entry_len <= 24 && plt->alignment <= 16 &&
                      plt->header_words <= 3), "no lazy PLT");
    finish_with(status, 0 UNKNOWN OR(UNKNOWN_STUB));
}

static void call_write_lazy_header(void) {
    struct buffer *code = bytes(WRITTEN, any_len(72));
    uint64_t at = any_number(), words = once_in(4) ? any_number() : at + 8 * below(1 << 20);
    changes(code, 0, 60);
    uint32_t status = CALL(write_lazy_header, any_machine(), any_form(), at, words, code->given,
                           code->len);
    finish_with(status, 0 UNKNOWN OR(UNKNOWN_STUB) OR(TOO_SHORT) OR(OUT_OF_REACH) OR(MISALIGNED));
}

static void call_write_lazy_entry(void) {
    struct buffer *given = place(READ, 1, sizeof(struct linker_utils_lazy_entry));
    struct buffer *code = bytes(WRITTEN, any_len(32));
    uint64_t at = any_number(), index = once_in(4) ? any_number() : below(1 << 16);
    *(struct linker_utils_lazy_entry *)filled(given) = (struct linker_utils_lazy_entry){
        .address = at,
        .word = once_in(4) ? any_number() : at + 8 * below(1 << 20),
        .header = once_in(4) ? any_number() : at - 32 - 16 * index,
        .index = index,
    };
    changes(code, 0, 24);
    uint32_t status = CALL(write_lazy_entry, any_machine(), any_form(), given->given, code->given,
                           code->len);
    finish_with(status, 0 UNKNOWN OR(UNKNOWN_STUB) OR(TOO_SHORT) OR(OUT_OF_REACH) OR(MISALIGNED));
}

static void call_lazy_words(void) {
    uint64_t *word = output(sizeof *word), dynamic = any_number(), header = any_number();
    size_t index = once_in(4) ? (size_t)any_number() : below(4);
    uint32_t status = CALL(lazy_header_word, any_machine(), index, dynamic, header, word);
    expect(status || !*word || *word == dynamic || *word == header, "another word");
    uint64_t entry = any_number();
    uint64_t first = CALL(lazy_entry_word, any_machine(), any_form(), entry, header, dynamic);
    expect(!first || first == header || first - entry < 16, "another word of an entry");
    finish_with(status, 0 UNKNOWN OR(NOT_PROVIDED));
}

/* A route in numbers: a stub of the library's, or nothing. */
static bool is_route(const struct linker_utils_route *route) {
    return route->is_by_stub ? route->is_by_stub == 1 && route->kind < 2 && route->entry < 64
                             : !route->target && !route->entry && !route->kind;
}

static void call_route_at(void) {
    uint16_t machine = any_machine();
    struct buffer *known = symbols(any_len(8));
    struct buffer *given = relocations(READ, machine, 40, LEN(known, struct linker_utils_symbol));
    struct buffer *section = bytes(READ, any_len(48));
    const struct linker_utils_link *link = any_link(machine);
    const struct linker_utils_object *object = INPUT(object, VALUES(known));
    const struct linker_utils_section *in = relocated(section, given);
    size_t index = once_in(8) ? (size_t)any_number() : below(given->len / 24 + 1);
    struct linker_utils_route *route = output(sizeof *route);
    uint32_t status = CALL(route_at, link, object, in, index, route);
    expect(status || is_route(route), "no route");
    finish_with(status, 0 UNKNOWN OR(TOO_SHORT) OR(NO_SYMBOL) OR(NO_ENTRY) OR(NOT_A_BRANCH)
                OR(NO_ROOM) OR(UNSUPPORTED) OR(MISALIGNED) OR(OUT_OF_REACH));
}

static void call_route_by_word(void) {
    uint16_t machine = any_machine();
    struct buffer *given = relocations(READ, machine, 40, 8);
    struct buffer *section = bytes(READ, any_len(48));
    size_t index = once_in(8) ? (size_t)any_number() : below(given->len / 24 + 1);
    uint64_t word = any_number();
    struct linker_utils_route *route = output(sizeof *route);
    const struct linker_utils_section *in = relocated(section, given);
    uint32_t status = CALL(route_by_word, machine, word, in, index, route);
    expect(status || (is_route(route) && route->is_by_stub && route->target == word), "no route");
    finish_with(status, 0 UNKNOWN OR(TOO_SHORT) OR(NOT_A_BRANCH) OR(NO_ROOM));
}

static void call_most_stubs(void) {
    size_t branches = (size_t)any_number();
    size_t most = CALL(most_stubs, branches);
    expect(most == (branches > SIZE_MAX / 2 ? SIZE_MAX : 2 * branches), "two for each");
}

/* Offsets, mostly in ascending order. */
static struct buffer *offsets(size_t count) {
    struct buffer *buffer = place(READ, count, sizeof(uint64_t));
    uint64_t *at = filled(buffer), offset = 0;
    for (size_t i = 0; i < count; i++) {
        offset += below(256);
        at[i] = once_in(200) ? any_number() : offset;
    }
    return buffer;
}

static struct buffer *branches(size_t count, size_t targets_len) {
    struct buffer *buffer = place(READ, count, sizeof(struct linker_utils_branch));
    struct linker_utils_branch *at = filled(buffer);
    for (size_t i = 0; i < count; i++)
        at[i] = (struct linker_utils_branch){
            .offset = once_in(200) ? any_number() : below(4096),
            .target = once_in(200) ? (size_t)any_number() : below(targets_len + 1),
            .max_backward = 64 + below(1024), .max_forward = 64 + below(1024)};
    return buffer;
}

static struct buffer *stub_shape(void) {
    struct buffer *buffer = place(READ, 1, sizeof(struct linker_utils_stub_shape));
    *(struct linker_utils_stub_shape *)filled(buffer) = (struct linker_utils_stub_shape){
        .len = once_in(20) ? any_number() : 12, .unit = once_in(20) ? below(3) : 4,
        .max_backward = once_in(4) ? below(256) : 1 << 20,
        .max_forward = once_in(4) ? below(256) : 1 << 20};
    return buffer;
}

#define ABOUT_ONE(status) \
    (status == LINKER_UTILS_NOT_ASCENDING || status == LINKER_UTILS_NO_TARGET || \
     status == LINKER_UTILS_NO_BOUNDARY || status == LINKER_UTILS_STUB_TOO_FAR)

static void call_place_stubs(void) {
    size_t len = below(24), targets_len = below(8), boundaries_len = below(16);
    struct buffer *targets = offsets(targets_len), *boundaries = offsets(boundaries_len);
    struct buffer *given = branches(len, targets_len), *shape = stub_shape();
    size_t room = once_in(20) ? below(48) : 2 * len;
    struct buffer *stubs = place(WRITTEN, room, sizeof(struct linker_utils_placed_stub));
    struct buffer *ways = place(WRITTEN, once_in(20) ? below(24) : len, sizeof(size_t));
    size_t before_len = once_in(20) ? below(16) : boundaries_len + 1;
    struct buffer *before = place(WRITTEN, before_len, sizeof(uint64_t));
    const struct linker_utils_branches *from = INPUT(
        branches, .branches = given->given, .branches_len = len, .targets = targets->given,
        .targets_len = targets_len, .boundaries = boundaries->given,
        .boundaries_len = boundaries_len);
    struct buffer *to = place(WRITTEN, 1, sizeof(struct linker_utils_placement));
    struct linker_utils_placement *placement = filled(to);
    *placement = (struct linker_utils_placement){
        .stubs = stubs->given, .stubs_len = room, .stubs_used = any(), SLICE(ways, ways, size_t),
        .before = before->given, .before_len = before_len};
    changes(to, offsetof(struct linker_utils_placement, stubs_used),
            offsetof(struct linker_utils_placement, stubs_used) + sizeof placement->stubs_used);
    size_t *faulty = any_faulty();
    uint32_t status = CALL(place_stubs, from, shape->given, placement, faulty);
    expect_status(status, 0 OR(DIFFERENT_LENGTHS) OR(SHORT_MEMORY) OR(STUB_WITHOUT_LENGTH)
                  OR(NOT_ASCENDING) OR(NO_TARGET) OR(CODE_TOO_LONG) OR(OUT_OF_MEMORY) OR(NO_BOUNDARY)
                  OR(STUB_TOO_FAR));
    expect(was_refused == (status == LINKER_UTILS_OUT_OF_MEMORY), "tells nothing of memory");
    expect(status || placement->stubs_used <= room, "more stubs than there is room for");
    allocations = 0;
    if (!status) changes(stubs, 0, placement->stubs_used * sizeof(struct linker_utils_placed_stub));
    finish_faulty(faulty, ABOUT_ONE(status), 24);
    finish(status == LINKER_UTILS_OK);
}

static void call_clui_rel_info(void) {
    struct linker_utils_relocation_info *info = output(sizeof *info);
    CALL(clui_rel_info, info);
    expect(info->machine == LINKER_UTILS_RISCV, "not of RISC-V");
    finish(true);
}

static void call_jal_site(void) {
    struct buffer *section = bytes(WRITTEN, any_section_len());
    uint64_t site = any_offset(section->len);
    changes(section, site, site > 1000 ? 0 : site + 4);
    int64_t distance = (int64_t)any_number();
    const struct linker_utils_section *in = section_of(section);
    uint32_t status = CALL(jal_site, in, site, distance);
    finish_with(status, 0 OR(OUT_OF_SECTION) OR(ODD_DISTANCE) OR(TOO_FAR));
}

static void call_jal_site_with(void) {
    struct buffer *section = bytes(WRITTEN, any_section_len());
    uint64_t site = any_offset(section->len);
    changes(section, site, site > 1000 ? 0 : site + 4);
    int64_t distance = (int64_t)any_number();
    uint32_t link = once_in(8) ? (uint32_t)any_number() : (uint32_t)below(2);
    const struct linker_utils_section *in = section_of(section);
    uint32_t status = CALL(jal_site_with, in, site, distance, link);
    finish_with(status, 0 OR(UNKNOWN_LINK_REGISTER) OR(OUT_OF_SECTION) OR(NOT_A_CALL)
                            OR(ODD_DISTANCE) OR(TOO_FAR));
}

static void call_relax_call(void) {
    struct buffer *section = bytes(WRITTEN, any_section_len());
    struct buffer *listed = deltas(any_count());
    uint64_t site = any_offset(section->len), target = any_offset(section->len);
    changes(section, site, site > 1000 ? 0 : site + 4);
    const struct linker_utils_section *in = section_of(section);
    uint32_t status = CALL(relax_call, in, DELTAS(listed), site, target);
    finish_with(status, 0 OR(OUT_OF_SECTION) OR(SITE_DELETED) OR(ODD_DISTANCE) OR(TOO_FAR));
}

static void call_tests(void) {
    struct buffer *section = bytes(READ, any_section_len());
    uint64_t site = any_offset(section->len);
    const struct linker_utils_section *in = section_of(section);
    bool is_call = CALL(is_plain_call, in, site);
    bool has_room = section->len >= 8 && site <= section->len - 8;
    expect(!is_call || has_room, "a call beyond the section");
    finish_buffers(true);
    uint64_t value = any_number();
    int64_t distance = (int64_t)value;
    bool fits = CALL(distance_fits_jal, distance);
    expect(fits == (distance >= -1048576 && distance <= 1048575), "a wrong range of `jal`");
    bool is_zero = CALL(hi20_is_zero, value);
    expect(is_zero == ((value + 0x800) << 32 >> 44 == 0), "a wrong high part");
    bool fits_clui = CALL(hi20_fits_clui, value);
    expect(!(is_zero && fits_clui), "`c.lui` of 0");
    bool is_valid = CALL(rd_valid_for_clui, (uint32_t)value);
    expect(is_valid == ((uint32_t)value != 0 && (uint32_t)value != 2), "a wrong register");
    uint64_t one = CALL(highest_relocation_with_bias, value, any_number());
    (void)one;
    finish(true);
}

static void call_write_mov_sequence(void) {
    struct buffer *dest = bytes(WRITTEN, any_len(24));
    uint32_t rd = once_in(4) ? (uint32_t)any_number() : (uint32_t)below(33);
    changes(dest, 0, 16);
    uint32_t status = CALL(write_mov_sequence, dest->given, dest->len, rd, any_number());
    finish_with(status, 0 OR(TOO_SHORT) OR(BAD_REGISTER));
}

static void call_write_address_sequence(void) {
    struct buffer *dest = bytes(WRITTEN, any_len(28));
    uint64_t pc = any_number();
    changes(dest, 0, 20);
    uint32_t status = CALL(write_address_sequence, dest->given, dest->len, pc, any_number());
    finish_with(status, 0 OR(TOO_SHORT));
}

static void call_write_ha_lo(void) {
    struct buffer *ha = bytes(WRITTEN, any_len(8)), *lo = bytes(WRITTEN, any_len(8));
    changes(ha, 0, 4);
    changes(lo, 0, 4);
    uint32_t status = CALL(write_ha_lo, ha->given, ha->len, lo->given, lo->len, any_number());
    finish_with(status, 0 OR(TOO_SHORT));
}

static void call_u32_from_slice(void) {
    struct buffer *from = bytes(READ, any_len(8));
    uint32_t *value = output(sizeof(uint32_t));
    uint32_t status = CALL(u32_from_slice, from->given, from->len, value);
    finish_with(status, 0 OR(TOO_SHORT));
}

static void call_u64_from_slice(void) {
    struct buffer *from = bytes(READ, any_len(16));
    uint64_t *value = output(sizeof(uint64_t));
    uint32_t status = CALL(u64_from_slice, from->given, from->len, value);
    finish_with(status, 0 OR(TOO_SHORT));
}

static void call_read_u32(void) {
    struct buffer *from = bytes(READ, any_len(8));
    uint32_t *value = output(sizeof(uint32_t));
    size_t *consumed = output(sizeof(size_t));
    uint32_t status = CALL(read_u32, from->given, from->len, value, consumed);
    expect(status != LINKER_UTILS_OK || *consumed == 4, "not 4 bytes");
    finish_with(status, 0 OR(TOO_SHORT));
}

static void call_read_uleb128(void) {
    struct buffer *from = bytes(READ, any_len(14));
    if (once_in(2)) memset(filled(from), 0x80 + (int)below(128), from->len);
    if (from->len > 0 && once_in(2)) from->pages[from->at + from->len - 1] = (uint8_t)below(4);
    uint64_t *value = output(sizeof(uint64_t));
    size_t *consumed = output(sizeof(size_t));
    uint32_t status = CALL(read_uleb128, from->given, from->len, value, consumed);
    if (status == LINKER_UTILS_OK) {
        expect(*consumed >= 1 && *consumed <= 10 && *consumed <= from->len, "no number's length");
    }
    finish_with(status, 0 OR(ULEB128_ENDED) OR(ULEB128_TOO_LARGE));
}

static void call_write_uleb128(void) {
    struct buffer *dest = bytes(WRITTEN, any_len(14));
    size_t continued = 0;
    if (once_in(2)) memset(filled(dest), 0x80 + (int)below(128), dest->len);
    if (dest->len > 0 && once_in(2)) dest->pages[dest->at + below(dest->len)] = (uint8_t)below(4);
    uint64_t value = any_number() >> below(64);
    changes(dest, 0, 10);
    uint32_t status = CALL(write_uleb128, dest->given, dest->len, value);
    if (status == LINKER_UTILS_OK) {
        const uint8_t *number = dest->pages + dest->at;
        while (number[continued] >= 0x80) continued++;
        expect(continued < dest->len && continued < 10, "no number's length");
    }
    finish_with(status, 0 OR(ULEB128_ENDED) OR(ULEB128_TOO_LARGE) OR(DOES_NOT_FIT));
    uint32_t role = CALL(uleb128_role, any_machine(), any_relocation_type());
    expect(role <= LINKER_UTILS_ROLE_SUBTRACTS, "a role without a name");
    finish(true);
}

static void call_write_uleb128_pair(void) {
    uint16_t machine = once_in(2) ? 243 : any_machine();
    uint32_t r_type = once_in(2) ? 60 : any_relocation_type(); /* R_RISCV_SET_ULEB128 */
    struct buffer *dest = bytes(WRITTEN, any_len(14));
    if (once_in(2)) memset(filled(dest), 0x80 + (int)below(128), dest->len);
    if (dest->len > 0 && once_in(2)) dest->pages[dest->at + below(dest->len)] = (uint8_t)below(4);
    uint64_t first = any_number();
    uint64_t second = once_in(2) ? first - (any_number() >> below(64)) : any_number();
    changes(dest, 0, 10);
    uint32_t status =
        CALL(write_uleb128_pair, machine, r_type, dest->given, dest->len, first, second);
    finish_with(status, 0 NO_RELOCATION OR(ULEB128_ENDED) OR(ULEB128_TOO_LARGE) OR(DOES_NOT_FIT));
}

#define DELETIONS(buffer) (buffer)->given, LEN(buffer, struct linker_utils_deletion)

/* `deletions_valid`, and `deltas_create` where that says that it will do. */
static void call_deltas_create(void) {
    size_t count = any_count();
    struct buffer *raw = deletions(count);
    size_t deltas_len = once_in(8) ? any_count() : count;
    struct buffer *made = place(WRITTEN, deltas_len, sizeof(struct linker_utils_delta));
    size_t *faulty = any_faulty();
    uint32_t valid = CALL(deletions_valid, DELETIONS(raw), faulty);
    expect_status(valid, 0 OR(INVALID_DELETIONS));
    finish_faulty(faulty, valid != LINKER_UTILS_OK, count);
    finish_buffers(false);
    uint32_t status = CALL(deltas_create, DELETIONS(raw), DELTAS(made), faulty);
    expect((valid == LINKER_UTILS_OK) == (status != LINKER_UTILS_INVALID_DELETIONS),
           "`deletions_valid` and `deltas_create` differ");
    expect((status == LINKER_UTILS_OK) == (valid == LINKER_UTILS_OK && deltas_len == count),
           "a wrong status");
    finish_faulty(faulty, status == LINKER_UTILS_INVALID_DELETIONS, count);
    finish_with(status, 0 OR(INVALID_DELETIONS) OR(DIFFERENT_LENGTHS));
}

/* What is before the invalid deletion may be written, where the lengths are the same. */
static void call_deltas_create_in_one_pass(void) {
    size_t count = any_count();
    struct buffer *raw = deletions(count);
    size_t deltas_len = once_in(8) ? any_count() : count;
    struct buffer *made = place(WRITTEN, deltas_len, sizeof(struct linker_utils_delta));
    size_t *faulty = any_faulty();
    uint32_t valid = CALL(deletions_valid, DELETIONS(raw), NULL);
    finish_buffers(false);
    uint32_t status = CALL(deltas_create_in_one_pass, DELETIONS(raw), DELTAS(made), faulty);
    expect((valid == LINKER_UTILS_OK) == (status != LINKER_UTILS_INVALID_DELETIONS),
           "`deletions_valid` and `deltas_create_in_one_pass` differ");
    expect((status == LINKER_UTILS_OK) == (valid == LINKER_UTILS_OK && deltas_len == count),
           "a wrong status");
    finish_faulty(faulty, status == LINKER_UTILS_INVALID_DELETIONS, count);
    expect_status(status, 0 OR(INVALID_DELETIONS) OR(DIFFERENT_LENGTHS));
    finish(status != LINKER_UTILS_DIFFERENT_LENGTHS && deltas_len == count);
}

/* `deletions_mergeable`, and `deltas_merge` where that says that it will do. */
static void call_deltas_merge(void) {
    size_t count = any_count(), additional_len = any_count();
    struct buffer *listed = deltas(count), *additional = deletions(additional_len);
    if (count > 0 && once_in(2)) {
        const struct linker_utils_delta *last = filled(listed);
        struct linker_utils_deletion *first = filled(additional);
        uint64_t end = last[count - 1].input_offset + last[count - 1].bytes_deleted;
        for (size_t i = 0; i < additional_len; i++) first[i].offset += end;
    }
    size_t merged_len = once_in(8) ? any_count() : count + additional_len;
    struct buffer *merged = place(WRITTEN, merged_len, sizeof(struct linker_utils_delta));
    const struct linker_utils_merge *merge =
        INPUT(merge, SLICE(additional, additional, struct linker_utils_deletion),
              SLICE(merged, merged, struct linker_utils_delta));
    size_t *faulty = any_faulty();
    uint32_t can = CALL(deletions_mergeable, DELTAS(listed), DELETIONS(additional));
    expect_status(can, 0 OR(INVALID_DELETIONS) OR(NOT_MERGEABLE));
    /* it allocates for its speed, for more than the stack has room for */
    expect(additional_len > 1024 || allocations == 0, "allocates");
    expect(live == 0, "keeps memory");
    allocations = 0;
    was_refused = false;
    finish_buffers(false);
    uint32_t status = CALL(deltas_merge, DELTAS(listed), merge, faulty);
    if (merged_len != count + additional_len) {
        expect(status == LINKER_UTILS_DIFFERENT_LENGTHS, "writes to another length");
        expect(!was_refused, "allocates for another length");
    } else if (was_refused && can == LINKER_UTILS_OK) {
        // out of memory for a copy of numbers, it makes one of pairs
        expect(status == (refused_allocation == 1 ? LINKER_UTILS_OK : LINKER_UTILS_OUT_OF_MEMORY),
               "merges without memory");
    } else {
        expect(status == can, "`deletions_mergeable` and `deltas_merge` differ");
    }
    bool is_of_delta = status == LINKER_UTILS_INVALID_DELETIONS;
    finish_faulty(faulty, is_of_delta || status == LINKER_UTILS_NOT_MERGEABLE,
                  is_of_delta ? count : additional_len);
    expect(live == 0, "keeps memory");
    allocations = 0;
    finish_with(status, 0 OR(DIFFERENT_LENGTHS) OR(INVALID_DELETIONS) OR(NOT_MERGEABLE)
                            OR(OUT_OF_MEMORY));
}

static void call_has_valid_deltas(void) {
    struct buffer *listed = deltas(any_count());
    bool are_valid = CALL(has_valid_deltas, DELTAS(listed));
    const struct linker_utils_delta *at = filled(listed);
    uint64_t end = 0, sum = 0;
    bool expected = true;
    for (size_t i = 0; i < LEN(listed, struct linker_utils_delta); i++) {
        sum += at[i].bytes_deleted;
        expected &= at[i].input_offset >= end && at[i].cumulative_deleted == sum &&
                    at[i].input_offset <= UINT64_MAX - at[i].bytes_deleted &&
                    (i == 0 || at[i].input_offset > at[i - 1].input_offset);
        end = at[i].input_offset + at[i].bytes_deleted;
    }
    expect(are_valid == expected, "other deltas are valid");
    finish(true);
}

static void call_deltas_total_deleted(void) {
    struct buffer *listed = deltas(any_count());
    uint64_t total = CALL(deltas_total_deleted, DELTAS(listed));
    expect(listed->len > 0 || total == 0, "no deltas delete");
    finish(true);
}

/* Both translations, without heads and with them. */
static void call_translations(void) {
    struct buffer *listed = deltas(any_count()), *of_blocks = heads(listed);
    uint64_t *input = output(sizeof(uint64_t)), *by_heads = output(sizeof(uint64_t));
    uint64_t offset = any_offset(80);
    const void *first_head = of_blocks->given;
    size_t heads_len = LEN(of_blocks, struct linker_utils_block_head);
    bool is_empty = listed->len == 0;
    uint64_t output_offset = CALL(deltas_input_to_output, DELTAS(listed), offset);
    expect(!is_empty || output_offset == offset, "no deltas move an offset");
    output_offset = CALL(deltas_input_to_output_by_heads, DELTAS(listed), first_head, heads_len,
                         offset);
    expect(!is_empty || output_offset == offset, "no deltas move an offset");
    uint32_t status = CALL(deltas_output_to_input, DELTAS(listed), offset, input);
    expect_status(status, 0 OR(TOO_LARGE));
    expect(!is_empty || (status == LINKER_UTILS_OK && *input == offset), "no deltas move one");
    finish_buffers(status == LINKER_UTILS_OK);
    status = CALL(deltas_output_to_input_by_heads, DELTAS(listed), first_head, heads_len, offset,
                  by_heads);
    expect(!is_empty || (status == LINKER_UTILS_OK && *by_heads == offset), "no deltas move one");
    finish_with(status, 0 OR(TOO_LARGE));
}

static void call_deltas_translate_all(void) {
    struct buffer *listed = deltas(any_count());
    size_t count = any_count();
    struct buffer *queries = place(READ, count, sizeof(uint64_t));
    uint64_t *query = filled(queries), offset = below(8);
    bool is_wild = once_in(4);
    for (size_t i = 0; i < count; i++) {
        query[i] = is_wild ? any_number() : offset;
        offset += once_in(8) ? any() >> (2 + below(62)) : below(16);
    }
    size_t outputs_len = once_in(8) ? any_count() : count;
    struct buffer *outputs = place(WRITTEN, outputs_len, sizeof(uint64_t));
    const struct linker_utils_translation *translation =
        INPUT(translation, SLICE(queries, queries, uint64_t), SLICE(outputs, outputs, uint64_t));
    size_t *faulty = any_faulty();
    uint32_t status = CALL(deltas_translate_all, DELTAS(listed), translation, faulty);
    expect((status == LINKER_UTILS_DIFFERENT_LENGTHS) == (outputs_len != count), "a wrong status");
    finish_faulty(faulty, status == LINKER_UTILS_NOT_ASCENDING, count);
    finish_with(status, 0 OR(DIFFERENT_LENGTHS) OR(NOT_ASCENDING));
}

static void call_deltas_heads(void) {
    struct buffer *listed = deltas(any_count());
    size_t count = CALL(deltas_block_count, DELTAS(listed));
    expect(count == (LEN(listed, struct linker_utils_delta) + 63) / 64, "a wrong count of blocks");
    finish_buffers(false);
    size_t heads_len = once_in(8) ? any_len(4) : count;
    struct buffer *written = place(WRITTEN, heads_len, sizeof(struct linker_utils_block_head));
    uint32_t status = CALL(deltas_heads, DELTAS(listed), written->given, heads_len);
    expect((status == LINKER_UTILS_OK) == (heads_len == count), "a wrong status");
    finish_with(status, 0 OR(DIFFERENT_LENGTHS));
}

/* `pack`, to as many bytes as `packed_len` says or to others. */
static void call_pack(void) {
    struct buffer *section = bytes(READ, once_in(500) ? 5000 : any_section_len());
    struct buffer *listed = deltas(any_count());
    size_t calls_len = once_in(100) ? below(600) : any_len(4);
    struct buffer *calls = place(READ, calls_len, sizeof(struct linker_utils_call));
    struct linker_utils_call *call = filled(calls);
    uint64_t site = once_in(8) ? any_number() : 8 * below(3);
    for (size_t i = 0; i < calls_len; i++) {
        call[i].site = site;
        call[i].target = any_offset(section->len);
        site += once_in(8) ? any_number() : 8;
    }
    const struct linker_utils_section *in = section_of(section);
    size_t wanted = CALL(packed_len, in, DELTAS(listed));
    finish_buffers(false);
    size_t len = wanted > BUFFER_LEN || once_in(8) ? any_len(40) : wanted;
    struct buffer *packed = bytes(WRITTEN, len);
    const struct linker_utils_calls *jumps =
        INPUT(calls, SLICE(calls, calls, struct linker_utils_call),
              SLICE(deltas, listed, struct linker_utils_delta),
              .link = once_in(8) ? (uint32_t)any_number() : (uint32_t)below(2));
    size_t *faulty = any_faulty();
    uint32_t status = CALL(pack, in, jumps, packed->given, len, faulty);
    expect(status != LINKER_UTILS_OK || len == wanted, "packs to another length");
    finish_faulty(faulty,
                  status != LINKER_UTILS_OK && status != LINKER_UTILS_UNKNOWN_LINK_REGISTER &&
                      status != LINKER_UTILS_DIFFERENT_LENGTHS,
                  calls_len);
    finish_with(status, 0 OR(UNKNOWN_LINK_REGISTER) OR(CALLS_NOT_APART) OR(DIFFERENT_LENGTHS)
                            OR(OUT_OF_SECTION) OR(SITE_DELETED) OR(NOT_A_CALL) OR(ODD_DISTANCE)
                            OR(TOO_FAR));
}

/* `calls_shrinkable`, and `shrink_calls` where that says that it will do. */
static void call_shrink_calls(void) {
    struct buffer *listed = deltas(any_count());
    size_t count = once_in(100) ? below(600) : any_len(4);
    struct buffer *given = place(READ, count, sizeof(struct linker_utils_call));
    struct linker_utils_call *call = filled(given);
    uint64_t site = once_in(8) ? any_number() : 8 * below(3);
    for (size_t i = 0; i < count; i++) {
        call[i] = (struct linker_utils_call){site, once_in(4) ? any_number() : 8 * below(64)};
        site += once_in(8) ? any_number() : 8 * (1 + below(4));
    }
    size_t len = once_in(8) ? any_len(8) : count;
    struct buffer *chosen = bytes(WRITTEN, len);
    const struct linker_utils_calls *calls =
        INPUT(calls, SLICE(calls, given, struct linker_utils_call),
              SLICE(deltas, listed, struct linker_utils_delta));
    size_t *faulty = any_faulty();
    uint32_t can = CALL(calls_shrinkable, calls, faulty);
    expect_status(can, 0 OR(CALLS_NOT_SHRINKABLE));
    finish_faulty(faulty, can != LINKER_UTILS_OK, count);
    finish_buffers(false);
    uint32_t status = CALL(shrink_calls, calls, chosen->given, len, faulty);
    expect(status == (len != count ? LINKER_UTILS_DIFFERENT_LENGTHS : can),
           "`calls_shrinkable` and `shrink_calls` differ");
    finish_faulty(faulty, status == LINKER_UTILS_CALLS_NOT_SHRINKABLE, count);
    const uint8_t *is = filled(chosen);
    for (size_t i = 0; status == LINKER_UTILS_OK && i < count; i++) expect(is[i] <= 1, "no choice");
    /* it allocates for its speed, and returns the same out of memory */
    if (status == LINKER_UTILS_OK) allocations = 0;
    finish_with(status, 0 OR(DIFFERENT_LENGTHS) OR(CALLS_NOT_SHRINKABLE));
}

static void call_standard_shapes(void) {
    struct linker_utils_shapes *shapes = output(sizeof(struct linker_utils_shapes));
    uint32_t status = CALL(standard_shapes, any_of_enum(), shapes);
    expect(status != LINKER_UTILS_OK || (shapes->count <= 2 && shapes->longest == 8), "no shapes");
    finish_with(status, 0 OR(UNKNOWN_SHAPES));
}

/* Shapes of an architecture, some changed, or one that keeps so many bytes. */
static struct linker_utils_shapes any_shapes(bool is_riscv) {
    struct linker_utils_shapes shapes = {.longest = (uint32_t)below(9)};
    uint32_t name = (uint32_t)(is_riscv ? LINKER_UTILS_SHAPES_RISCV_CALL + below(3)
                                        : LINKER_UTILS_SHAPES_LOONGARCH_CALL36 + below(2));
    if (!once_in(8)) linker_utils_standard_shapes(name, &shapes);
    struct linker_utils_shape *shape = &shapes.shorter[below(2)];
    if (once_in(64)) shapes.count = (uint8_t)(once_in(2) ? below(4) : any());
    if (once_in(64)) shape->kept = (uint32_t)(once_in(2) ? below(10) : any_number());
    if (once_in(64)) shape->granularity = (uint32_t)(once_in(2) ? below(5) : any_number());
    if (once_in(64)) shape->max_backward = any_number();
    if (once_in(64)) shape->max_forward = any_number();
    return shapes;
}

/* Items of a run that usually ascend. */
static struct buffer *run_items(size_t count) {
    struct buffer *buffer = place(READ, count, sizeof(struct linker_utils_item));
    struct linker_utils_item *at = filled(buffer);
    bool is_wild = once_in(16), is_riscv = !once_in(3);
    uint64_t offset = once_in(16) ? any_number() : 4 * below(4);
    for (size_t i = 0; i < count; i++) {
        struct linker_utils_item item = {.offset = offset,
                                         .target = 4 * below(8 * count + 1),
                                         .alignment = (uint64_t)(once_in(16) ? 2 : 4) << below(4),
                                         .max_skip = 2 * below(16),
                                         .len = 8,
                                         .kind = LINKER_UTILS_ITEM_SITE,
                                         .shapes = any_shapes(is_riscv)};
        if (once_in(3)) {
            item.len = item.alignment > 2 ? (uint32_t)item.alignment - (once_in(4) ? 4 : 2)
                                      : 2 * (uint32_t)below(2);
            item.kind = once_in(4) ? (uint32_t)any() : (uint32_t)below(3);
        }
        if (is_wild || once_in(64)) {
            bool is_small = once_in(2);
            uint64_t changed = is_small ? below(40) : any_number();
            switch (below(6)) {
            case 0: item.offset = is_small ? offset - 1 + below(3) : changed; break;
            case 1: item.target = changed; break;
            case 2: item.alignment = changed; break;
            case 3: item.max_skip = changed; break;
            case 4: item.len = (uint32_t)changed; break;
            default: item.kind = (uint32_t)changed; break;
            }
        }
        at[i] = item;
        offset += item.len + (once_in(16) ? 2 : 4) * below(3);
    }
    return buffer;
}

#define ITEMS(buffer) SLICE(items, buffer, struct linker_utils_item)
#define FAULTS \
    OR(ITEMS_OVERLAP) OR(ENDS_TOO_HIGH) OR(TOO_MANY_SHAPES) OR(SHAPE_TOO_LONG) \
    OR(SHAPES_NOT_ASCENDING) OR(BAD_GRANULARITY) OR(BAD_REACH) OR(BAD_ALIGNMENT) OR(UNEVEN_SHAPE) \
    OR(MISALIGNED) OR(ALIGNMENT_BELOW_GRANULARITY) OR(UNEVEN_END) OR(TOO_FEW_NOPS) OR(UNEVEN_NOPS) \
    OR(MAY_BE_MISALIGNED) OR(TARGET_INSIDE)

/* `items_relaxable`, and `relax` where that says that it will do. */
static void call_relax(void) {
    size_t count = once_in(100) ? below(400) : any_len(4);
    struct buffer *items = run_items(count);
    uint64_t start = once_in(16) ? any_number() : 4 * below(8);
    bool is_other = once_in(8);
    size_t lens[4];
    for (size_t i = 0; i < 4; i++) lens[i] = is_other && once_in(3) ? any_len(8) : count + (i == 3);
    bool have_lens = lens[0] == count && lens[1] == count && lens[2] == count &&
                     lens[3] == count + 1;
    struct buffer *shapes = bytes(WRITTEN, lens[0]);
    struct buffer *kept = place(WRITTEN, lens[1], sizeof(uint64_t));
    struct buffer *places = place(WRITTEN, lens[2], sizeof(size_t));
    struct buffer *freed = place(WRITTEN, lens[3], sizeof(uint64_t));
    const struct linker_utils_run *run = INPUT(run, ITEMS(items), .start = start);
    const struct linker_utils_relaxed *relaxed =
        INPUT(relaxed, SLICE(shapes, shapes, uint8_t), SLICE(kept, kept, uint64_t),
              SLICE(places, places, size_t), SLICE(freed, freed, uint64_t));
    size_t *faulty = any_faulty();
    uint32_t can = CALL(items_relaxable, run, faulty);
    expect_status(can, 0 FAULTS);
    finish_faulty(faulty, can != LINKER_UTILS_OK, count);
    expect(allocations == 0, "allocates");
    finish_buffers(false);
    uint32_t status = CALL(relax, run, relaxed, faulty);
    uint32_t wanted = have_lens ? can : LINKER_UTILS_DIFFERENT_LENGTHS;
    expect(status == wanted, "`items_relaxable` and `relax` differ");
    finish_faulty(faulty, status != LINKER_UTILS_OK && status != LINKER_UTILS_DIFFERENT_LENGTHS,
                  count);
    const uint8_t *shape = filled(shapes);
    const uint64_t *stay = filled(kept), *before = filled(freed);
    const struct linker_utils_item *item = filled(items);
    uint64_t sum = 0;
    for (size_t i = 0; status == LINKER_UTILS_OK && i < count; i++) {
        expect(shape[i] <= 2 && stay[i] <= item[i].len && before[i] == sum, "no layout");
        sum += item[i].len - stay[i];
    }
    expect(status != LINKER_UTILS_OK || before[count] == sum, "loses another sum");
    finish_with(status, 0 OR(DIFFERENT_LENGTHS) FAULTS);
}

static void call_run_deltas(void) {
    size_t count = any_len(8);
    struct buffer *items = run_items(count);
    size_t kept_len = once_in(8) ? any_len(8) : count;
    struct buffer *kept = place(READ, kept_len, sizeof(uint64_t));
    uint64_t *stay = filled(kept);
    for (size_t i = 0; i < kept_len; i++) stay[i] = once_in(8) ? any_number() : below(12);
    size_t deltas_len = once_in(8) ? any_len(8) : count;
    struct buffer *lost = place(WRITTEN, deltas_len, sizeof(struct linker_utils_delta));
    size_t *len = output(sizeof(size_t));
    size_t losing = 0;
    const struct linker_utils_item *item = filled(items);
    for (size_t i = 0; i < count && i < kept_len; i++) losing += stay[i] < item[i].len;
    changes(lost, 0, losing * sizeof(struct linker_utils_delta));
    const struct linker_utils_run *run = INPUT(run, ITEMS(items));
    const struct linker_utils_relaxed *relaxed = INPUT(relaxed, SLICE(kept, kept, uint64_t));
    uint32_t status = CALL(run_deltas, run, relaxed, DELTAS(lost), len);
    bool is_ok = kept_len == count && deltas_len == count;
    expect(status == (is_ok ? LINKER_UTILS_OK : LINKER_UTILS_DIFFERENT_LENGTHS), "another status");
    expect(!is_ok || *len == losing, "another count of deltas");
    finish_with(status, 0 OR(DIFFERENT_LENGTHS));
}

/* Relocations of a section, of which most are in it. */
static struct buffer *run_relocations(size_t count, bool is_riscv) {
    struct buffer *given = place(READ, count, sizeof(struct linker_utils_rela));
    struct linker_utils_rela *at = filled(given);
    static const uint32_t types[2][5] = {{110, 71, 100, 72, 102}, {18, 19, 51, 43, 0}};
    uint64_t offset = 0;
    for (size_t i = 0; i < count; i++) {
        at[i] = (struct linker_utils_rela){
            .offset = once_in(32) ? any_number() : offset,
            .target = any_number(),
            .addend = once_in(8) ? (int64_t)any_number() : (int64_t)(2 * below(16)),
            .r_type = once_in(32) ? any_relocation_type() : types[is_riscv][below(5)],
            .has_symbol = (uint8_t)(once_in(2) ? 0 : any()),
            .has_target = (uint8_t)(once_in(4) ? 0 : any()),
            .may_compress = (uint8_t)(once_in(2) ? 0 : any()),
        };
        if (i > 0 && once_in(2)) at[i].r_type = types[is_riscv][2];
        if (once_in(2)) offset += 4 * below(3);
    }
    return given;
}

/* The items of a section: of its relocations alone, or of one that was rewritten. */
static void call_items(bool is_rewritten) {
    bool is_riscv = once_in(2);
    uint16_t machine = once_in(16) ? (uint16_t)any_number() : is_riscv ? LINKER_UTILS_RISCV
                                          : LINKER_UTILS_LOONGARCH64;
    size_t section_len = any_section_len(), relocations_len = any_len(8);
    struct buffer *section = bytes(READ, section_len);
    struct buffer *given = run_relocations(relocations_len, is_riscv);
    struct buffer *deleted = is_rewritten ? deletions(any_len(4)) : NULL;
    size_t deleted_len = deleted ? LEN(deleted, struct linker_utils_deletion) : 0;
    size_t count = relocations_len + deleted_len;
    size_t items_len = once_in(8) ? any_len(8) : count;
    struct buffer *items = place(WRITTEN, items_len, sizeof(struct linker_utils_item));
    size_t makers_len = once_in(8) ? any_len(8) : count;
    struct buffer *makers = place(WRITTEN, makers_len, sizeof(size_t));
    const struct linker_utils_section *in = INPUT(
        section, .bytes = section->given, .bytes_len = section_len,
        .base = once_in(8) ? any_number() : below(64), .deleted = deleted ? deleted->given : NULL,
        .deleted_len = deleted_len);
    struct buffer *to = place(WRITTEN, 1, sizeof(struct linker_utils_items));
    struct linker_utils_items *made = filled(to);
    *made = (struct linker_utils_items){ITEMS(items), SLICE(makers, makers, size_t),
                                        .items_used = any()};
    changes(to, offsetof(struct linker_utils_items, items_used), sizeof *made);
    size_t *faulty = any_faulty();
    uint32_t status =
        is_rewritten
            ? CALL(rewritten_items, machine, in, given->given, relocations_len, made, faulty)
            : CALL(section_items, machine, in, given->given, relocations_len, made, faulty);
    expect(!was_refused || status == LINKER_UTILS_OUT_OF_MEMORY, "tells nothing of memory");
    bool is_known = machine == LINKER_UTILS_RISCV || machine == LINKER_UTILS_LOONGARCH64;
    expect((status == LINKER_UTILS_UNKNOWN_ARCHITECTURE) == !is_known, "another machine");
    expect((status == LINKER_UTILS_DIFFERENT_LENGTHS) ==
               (is_known && (items_len != count || makers_len != count)), "another length");
    expect(status != LINKER_UTILS_OK || made->items_used <= count,
           "more items than relocations and deletions");
    if (status == LINKER_UTILS_OK) {
        changes(items, 0, made->items_used * sizeof(struct linker_utils_item));
        changes(makers, 0, made->items_used * sizeof(size_t));
    }
    bool overlap = status == LINKER_UTILS_ITEMS_OVERLAP;
    if (overlap) { /* nothing is said of them then */
        keep_written(items, items->len);
        keep_written(makers, makers->len);
    }
    finish_faulty(faulty, status == LINKER_UTILS_MALFORMED_RELOCATION || overlap ||
                              status == LINKER_UTILS_INVALID_DELETIONS,
                  status == LINKER_UTILS_INVALID_DELETIONS ? deleted_len : relocations_len);
    expect(live == 0, "keeps memory");
    allocations = 0;
    statuses allowed = 0 OR(UNKNOWN_ARCHITECTURE) OR(DIFFERENT_LENGTHS) OR(ENDS_TOO_HIGH)
                         OR(MALFORMED_RELOCATION);
    if (is_rewritten) allowed = allowed OR(INVALID_DELETIONS) OR(ITEMS_OVERLAP);
    finish_with(status, allowed);
}

static void call_section_items(void) {
    call_items(false);
}

static void call_rewritten_items(void) {
    call_items(true);
}

static void call_has_its_instructions(void) {
    struct buffer *section = bytes(READ, any_section_len());
    struct buffer *items = place(READ, 1, sizeof(struct linker_utils_item));
    uint64_t base = once_in(8) ? any_number() : 4 * below(4);
    uint16_t machine = any_machine();
    bool is_known = machine == LINKER_UTILS_RISCV || machine == LINKER_UTILS_LOONGARCH64;
    *(struct linker_utils_item *)filled(items) = (struct linker_utils_item){
        .offset = once_in(16) ? any_number() : base + any_offset(section->len),
        .target = any_number(),
        .len = once_in(16) ? (uint32_t)any_number() : 8,
        .kind = (uint32_t)(once_in(8) ? any() : 0),
        .shapes = any_shapes(machine == LINKER_UTILS_RISCV),
    };
    const struct linker_utils_section *in =
        INPUT(section, .bytes = section->given, .bytes_len = section->len, .base = base);
    uint32_t status = CALL(has_its_instructions, machine, in, items->given);
    expect((status == LINKER_UTILS_UNKNOWN_ARCHITECTURE) == !is_known, "another machine");
    finish_with(status, 0 OR(UNKNOWN_ARCHITECTURE) OR(NOT_ITS_INSTRUCTIONS));
}

/* A section of a run, items that mostly are calls and nops in it, and deltas that mostly are theirs. */
static void call_pack_run(void) {
    size_t section_len = any_section_len(), count = any_len(4), lost_len = 0;
    struct buffer *section = bytes(READ, section_len);
    struct buffer *items = place(READ, count, sizeof(struct linker_utils_item));
    struct linker_utils_item *item = filled(items);
    struct linker_utils_delta lost[4];
    uint64_t base = once_in(8) ? any_number() : 4 * below(4), offset = base, sum = 0;
    bool is_riscv = !once_in(3);
    for (size_t i = 0; i < count; i++) {
        bool is_call = !once_in(3);
        uint32_t len = is_call || once_in(2) ? 8 : 2 * (uint32_t)below(8);
        uint32_t kept = is_call ? (uint32_t)2 << below(3) : 2 * (uint32_t)below(5);
        if (once_in(16)) kept = (uint32_t)below(9);
        if (once_in(4)) offset += once_in(4) ? below(8) : 8;
        item[i] = (struct linker_utils_item){
            .offset = once_in(32) ? any_number() : offset,
            .target = once_in(8) ? any_number() : base + 2 * below(64),
            .alignment = 8,
            .len = once_in(32) ? (uint32_t)any_number() : len,
            .kind = is_call ? LINKER_UTILS_ITEM_SITE : 1 + (uint32_t)below(2),
            .shapes = any_shapes(is_riscv),
        };
        if (kept < len) {
            sum += len - kept;
            lost[lost_len++] = (struct linker_utils_delta){
                once_in(16) ? offset : offset + kept, sum, len - kept};
        }
        offset += len;
    }
    struct buffer *listed;
    if (once_in(4)) {
        listed = deltas(any_count());
    } else {
        listed = place(READ, lost_len, sizeof *lost);
        memcpy(filled(listed), lost, lost_len * sizeof *lost);
    }
    const struct linker_utils_run *run =
        INPUT(run, ITEMS(items), SLICE(deltas, listed, struct linker_utils_delta),
              .start = any_number());
    const struct linker_utils_section *of_len =
        INPUT(section, .bytes_len = section_len, .base = base);
    size_t wanted = CALL(packed_run_len, of_len, run);
    finish_buffers(false);
    bool is_high = section_len > UINT64_MAX - base;
    expect(!is_high || wanted == 0, "has a length above 2^64 - 1");
    size_t len = wanted > BUFFER_LEN || once_in(8) ? any_len(40) : wanted;
    struct buffer *packed = bytes(WRITTEN, len);
    uint16_t machine = once_in(4) ? any_machine()
                       : is_riscv ? LINKER_UTILS_RISCV
                                  : LINKER_UTILS_LOONGARCH64;
    bool is_packed = machine == LINKER_UTILS_RISCV || machine == LINKER_UTILS_LOONGARCH64;
    struct buffer *moved = relocations(WRITTEN, machine, section_len, 8);
    changes(moved, 0, 24 * (moved->len / 24));
    const struct linker_utils_section *in =
        INPUT(section, .bytes = section->given, .bytes_len = section_len, .base = base,
              .relocations = moved->given, .relocations_len = moved->len / 24);
    size_t *faulty = any_faulty();
    uint32_t status = CALL(pack_run, machine, in, run, packed->given, len, faulty);
    expect((status == LINKER_UTILS_UNKNOWN_ARCHITECTURE) == !is_packed, "another machine");
    expect((status == LINKER_UTILS_ENDS_TOO_HIGH) == (is_packed && is_high), "another end");
    expect((status == LINKER_UTILS_DIFFERENT_LENGTHS) == (is_packed && !is_high && len != wanted),
           "another length");
    finish_faulty(faulty,
                  status != LINKER_UTILS_OK && status != LINKER_UTILS_UNKNOWN_ARCHITECTURE &&
                      status != LINKER_UTILS_ENDS_TOO_HIGH &&
                      status != LINKER_UTILS_DIFFERENT_LENGTHS,
                  count + (status == LINKER_UTILS_DELETED_OUTSIDE));
    finish_with(status, 0 OR(UNKNOWN_ARCHITECTURE) OR(ENDS_TOO_HIGH) OR(DIFFERENT_LENGTHS)
                            OR(ITEMS_OVERLAP) OR(ITEM_OUT_OF_SECTION) OR(DELETED_OUTSIDE)
                            OR(NOT_ITS_FIRST_BYTES) OR(NOT_ITS_INSTRUCTIONS) OR(NO_SHAPE)
                            OR(TARGET_OUT_OF_REACH));
}

/* Known bits, most of them as the library returns them: of a value from bit 0, 2 or 12 up. */
static struct linker_utils_field_value any_field_value(void) {
    static const uint8_t limits[6] = {0, 2, 12, 16, 32, 64};
    struct linker_utils_field_value value;
    memset(&value, 0, sizeof value);
    value.bits = once_in(2) ? below(4) : any_number();
    value.rounding = once_in(2) ? 0 : any_number();
    value.first_bit = (uint8_t)(once_in(8) ? any() : limits[below(3)]);
    value.end_bit = (uint8_t)(once_in(8) ? any() : limits[2 + below(4)]);
    return value;
}

static void expect_field_value(const struct linker_utils_field_value *value) {
    expect(value->first_bit < value->end_bit && value->end_bit <= 64, "no known bits");
    unsigned count = value->end_bit - (unsigned)value->first_bit;
    expect(count == 64 || value->bits >> count == 0, "more bits than are known");
}

/* `operand`, and the mask of `forms_of`. */
static void call_operand(void) {
    uint16_t machine = any_machine();
    uint32_t form = any_of_enum();
    struct buffer *from = bytes(READ, any_len(16));
    int64_t *number = output(sizeof(int64_t));
    uint32_t forms = CALL(forms_of, machine, from->given, from->len);
    uint32_t status = CALL(operand, machine, form, from->given, from->len, number);
    expect((status == LINKER_UTILS_OK) == (form < 32 && forms >> form & 1), "another set of forms");
    finish_with(status, 0 NO_FORM OR(DOES_NOT_MATCH));
}

static void call_read_value(void) {
    uint16_t machine = any_machine();
    struct buffer *from = bytes(READ, any_len(16));
    struct linker_utils_field_value *value = output(sizeof *value);
    uint32_t status =
        CALL(read_value, machine, any_relocation_type(), from->given, from->len, value);
    if (status == LINKER_UTILS_OK) expect_field_value(value);
    finish_with(status, 0 NO_RELOCATION OR(TOO_SHORT) OR(HOLDS_NO_VALUE));
}

/* Of what was read, or of any known bits. */
static void call_solve(void) {
    uint16_t machine = any_machine();
    uint32_t r_type = any_relocation_type();
    struct linker_utils_field_value value = any_field_value();
    uint8_t word[8];
    for (size_t i = 0; i < sizeof word; i++) word[i] = (uint8_t)any();
    if (once_in(2)) linker_utils_read_value(machine, r_type, word, sizeof word, &value);
    const struct linker_utils_field_value *given = input(&value, sizeof value);
    struct buffer *operands = place(READ, 1, sizeof(struct linker_utils_operands));
    fill_operands(filled(operands));
    uint32_t *reference = output(sizeof *reference);
    struct linker_utils_field_value *address = output(sizeof *address);
    uint32_t status = CALL(solve, machine, r_type, given, operands->given, reference, address);
    if (status == LINKER_UTILS_OK) {
        expect(*reference <= LINKER_UTILS_REFERENCE_PLT_ENTRY, "no reference");
        expect_field_value(address);
    }
    finish_with(status, 0 NO_RELOCATION OR(BAD_FIELD_VALUE) OR(NO_ADDRESS));
}

static void call_join(void) {
    struct linker_utils_field_value high = any_field_value(), low = any_field_value();
    if (once_in(2)) low.end_bit = high.first_bit;
    const struct linker_utils_field_value *given = input(&high, sizeof high);
    const struct linker_utils_field_value *other = input(&low, sizeof low);
    struct linker_utils_field_value *whole = output(sizeof *whole);
    uint32_t status = CALL(join, given, other, whole);
    if (status == LINKER_UTILS_OK) {
        expect_field_value(whole);
        expect(whole->first_bit == 0 && whole->end_bit == high.end_bit, "not the halves' bits");
    }
    finish_with(status, 0 OR(BAD_FIELD_VALUE) OR(NOT_HALVES));
}

static void call_field_bits(void) {
    uint16_t machine = any_machine();
    struct buffer *from = bytes(READ, any_len(16));
    uint64_t *field = output(sizeof *field);
    uint32_t status =
        CALL(field_bits, machine, any_relocation_type(), from->given, from->len, field);
    finish_with(status, 0 NO_RELOCATION OR(TOO_SHORT));
}

/* A window and another that differs from it in few bits. */
static void call_same_but_for(void) {
    uint16_t machine = any_machine();
    uint32_t r_type = any_relocation_type();
    struct buffer *a = bytes(READ, any_len(16));
    struct buffer *b = bytes(READ, once_in(8) ? any_len(16) : a->len);
    uint8_t *from = filled(a), *to = filled(b);
    if (a->len == b->len && a->len > 0) memcpy(to, from, a->len);
    if (a->len == b->len && a->len > 0 && once_in(2)) to[below(b->len)] ^= (uint8_t)any();
    bool is_equal = a->len == b->len && memcmp(from, to, a->len) == 0;
    uint64_t field;
    bool is_known =
        linker_utils_field_bits(machine, r_type, a->given, a->len, &field) == LINKER_UTILS_OK;
    bool is_same = CALL(same_but_for, machine, r_type, a->given, a->len, b->given, b->len);
    expect(is_same ? is_known : !(is_known && is_equal), "another result");
    finish(true);
}

static void expect_recognised(const struct linker_utils_recognised *found) {
    expect(found->choice.modifier <= 1 && found->choice.deleted_len <= 6, "no choice's numbers");
    if (found->value.end_bit) expect_field_value(&found->value);
}

static void call_recognise_window(void) {
    uint16_t machine = any_machine();
    uint32_t r_type = any_relocation_type();
    struct buffer *original = bytes(READ, once_in(16) ? 60 + below(10) : any_len(24));
    uint64_t offset = any_offset(original->len);
    struct linker_utils_window_bounds *window = output(sizeof *window);
    const struct linker_utils_windows *windows =
        INPUT(windows, SLICE(original, original, uint8_t), .offset = offset);
    uint32_t status = CALL(recognise_window, machine, r_type, windows, window);
    expect(status != LINKER_UTILS_OK || window->len == 0 ||
               (window->back <= offset && offset - window->back + window->len <= original->len),
           "the window isn't in the bytes");
    finish_with(status, 0 OR(UNKNOWN_ARCHITECTURE) OR(WINDOW_TOO_LONG));
}

/* Windows that are the same except for a byte or a few that are deleted, or any two. */
static void call_recognised(bool is_chosen) {
    uint16_t machine = any_machine();
    uint32_t r_type = any_relocation_type();
    struct buffer *original = bytes(READ, once_in(16) ? 60 + below(10) : any_len(24));
    uint64_t offset = any_offset(original->len);
    size_t others_len = any_len(3);
    struct buffer *others = place(READ, others_len, sizeof(struct linker_utils_window_bits));
    struct linker_utils_window_bits *other = filled(others);
    for (size_t i = 0; i < others_len; i++) {
        other[i] = (struct linker_utils_window_bits){any_offset(original->len), any_number()};
    }
    size_t deleted = once_in(4) ? 2 * below(4) : 0;
    size_t linked_len = original->len < deleted ? 0 : original->len - deleted;
    struct buffer *linked = bytes(READ, linked_len);
    if (linked_len > 0 && once_in(2)) memcpy(filled(linked), filled(original), linked_len);
    struct buffer *facts = is_chosen ? any_facts() : NULL;
    size_t found_len = is_chosen ? 1 : once_in(8) ? any_len(8) : LINKER_UTILS_CANDIDATES;
    struct buffer *found = place(WRITTEN, found_len, sizeof(struct linker_utils_recognised));
    struct linker_utils_recognised *at = filled(found);
    size_t *count = is_chosen ? NULL : output(sizeof *count);
    const struct linker_utils_windows *windows =
        INPUT(windows, SLICE(original, original, uint8_t), .offset = offset,
              SLICE(others, others, struct linker_utils_window_bits),
              SLICE(linked, linked, uint8_t));
    if (is_chosen) {
        uint32_t status =
            CALL(recognise_chosen, machine, r_type, windows, facts->given, found->given);
        if (status == LINKER_UTILS_OK) expect_recognised(at);
        finish_with(status,
                    0 OR(UNKNOWN_ARCHITECTURE) OR(WINDOW_TOO_LONG) OR(LEAVES_OTHER_BYTES));
        return;
    }
    uint32_t status = CALL(recognise, machine, r_type, windows, found->given, found_len, count);
    if (status == LINKER_UTILS_OK) {
        expect(*count <= found_len, "more than there is room for");
        for (size_t i = 0; i < *count; i++) expect_recognised(&at[i]);
        changes(found, 0, *count * sizeof *at);
    }
    finish_with(status, 0 OR(UNKNOWN_ARCHITECTURE) OR(DIFFERENT_LENGTHS) OR(WINDOW_TOO_LONG));
}

static void call_destination(void) {
    uint16_t machine = any_machine();
    struct buffer *original = bytes(READ, once_in(16) ? 60 + below(10) : any_len(24));
    uint64_t offset = any_offset(original->len);
    struct buffer *made = place(READ, 1, sizeof(struct linker_utils_recognised));
    struct linker_utils_recognised *at = filled(made);
    *at = (struct linker_utils_recognised){
        .choice = {.rewrite = once_in(4) ? any_of_enum() : 0, .relocation = any_relocation_type(),
                   .opcode_len = (uint8_t)below(4)},
        .offset = offset,
        .value = {.bits = any_number(), .rounding = once_in(2) ? 0 : any_number(),
                  .first_bit = (uint8_t)below(66), .end_bit = (uint8_t)below(66)}};
    struct buffer *given = place(READ, 1, sizeof(struct linker_utils_operands));
    struct linker_utils_operands *operands = filled(given);
    *operands = (struct linker_utils_operands){
        .addend = (int64_t)any_number(), .place = any_number(), .got_base = any_number(),
        .tls_base = any_number(), .has_tls_base = once_in(2)};
    struct linker_utils_destination *found = output(sizeof *found);
    const struct linker_utils_windows *windows =
        INPUT(windows, SLICE(original, original, uint8_t), .offset = offset);
    uint32_t status = CALL(get_destination, machine, made->given, windows, given->given,
                           (uint8_t)any(), found);
    if (status == LINKER_UTILS_OK) {
        expect_field_value(&found->address);
        expect(found->reference <= LINKER_UTILS_REFERENCE_PLT_ENTRY && found->has_symbol <= 1 &&
                   (found->has_symbol || found->symbol == 0),
               "no destination's numbers");
    }
    finish_with(status, 0 OR(UNKNOWN_ARCHITECTURE) OR(WINDOW_TOO_LONG) OR(UNKNOWN_REWRITE)
                            OR(NO_ADDRESS));
}

static void call_recognise(void) {
    call_recognised(false);
}

static void call_recognise_chosen(void) {
    call_recognised(true);
}

static void (*const all[])(void) = {
    call_status_text, call_operands_of, call_section_of, call_version, call_window, call_write, call_read, call_apply, call_matches,
    call_choose, call_relocation_fits, call_is_unchanged, call_rewrite_window,
    call_next_modifier, call_relocation, call_relocation_name, call_value, call_reach, call_relocate,
    call_find, call_row_of, call_row_value, call_row_write, call_row_apply, call_row_reach,
    call_row_needs, call_row_choose, call_row_fits,
    call_relocate_all, call_needs, call_value_at, call_relocate_section, call_wrap_addends,
    call_relocate_resolved,
    call_survey,
    call_rewrite_section, call_decide_rewrites, call_make_rewrites, call_has_rewrites, call_survey_placed_section, call_snapshot_facts,
    call_relocate_rewritten_section,
    call_survey_toc_loads, call_rewrite_toc_loads,
    call_survey_global_pointer, call_rewrite_global_pointer, call_finish_gp_relaxation,
    call_rewrite_placed_section, call_dynamic_types, call_dynamic_name, call_dynamic_words,
    call_entry_words, call_origins, call_static_words, call_got, call_join_flags, call_write_relr,
    call_read_relr, call_read_crel, call_read_rela32, call_read_properties, call_merge_properties, call_write_properties,
    call_is_property_known, call_landing_property,
    call_output_facts, call_interpreter, call_address_section, call_entry_relocation,
    call_dynamic_entry, call_provided_symbol, call_save_restore_routines, call_provided_word, call_stub, call_write_stub,
    call_lazy_plt, call_write_lazy_header, call_write_lazy_entry, call_lazy_words, call_route_at,
    call_route_by_word,
    call_most_stubs, call_place_stubs, call_clui_rel_info, call_jal_site, call_jal_site_with, call_relax_call,
    call_tests, call_write_mov_sequence, call_write_address_sequence, call_write_ha_lo,
    call_u32_from_slice, call_u64_from_slice, call_read_u32, call_read_uleb128, call_write_uleb128,
    call_write_uleb128_pair,
    call_deltas_create, call_deltas_create_in_one_pass,
    call_deltas_merge, call_has_valid_deltas, call_deltas_total_deleted, call_translations,
    call_deltas_translate_all,
    call_deltas_heads, call_pack, call_shrink_calls, call_standard_shapes, call_relax, call_run_deltas,
    call_section_items, call_rewritten_items, call_has_its_instructions, call_pack_run,
    call_operand, call_read_value, call_solve, call_join, call_field_bits, call_same_but_for,
    call_recognise_window, call_recognise, call_recognise_chosen, call_destination,
};

int main(int count, char **arguments) {
    uint64_t calls = count > 1 ? strtoull(arguments[1], NULL, 10) : 1000000;
    seed = count > 2 ? strtoull(arguments[2], NULL, 10) : 1;
    uint64_t first = count > 3 ? strtoull(arguments[3], NULL, 10) : 0;
    printf("%" PRIu64 " calls with seed %" PRIu64 "\n", calls, seed);
    fflush(stdout);
    set_up();
    for (size_t i = 0; i < BLOCKS; i++) {
        blocks[i].pages = between_guards(BLOCK_LEN, PROT_READ | PROT_WRITE, -1);
        memset(blocks[i].pages, CANARY, BLOCK_LEN);
        expect(mprotect(blocks[i].pages, BLOCK_LEN, PROT_NONE) == 0, "no pages");
    }
    const int signals[] = {SIGSEGV, SIGBUS, SIGILL, SIGFPE, SIGABRT, SIGTRAP};
    for (size_t i = 0; i < sizeof signals / sizeof *signals; i++) signal(signals[i], on_signal);
    for (number = first; number - first < calls; number++) {
        state = seed;
        state = any() + number;
        all[below(sizeof all / sizeof *all)]();
    }
    /* each status is returned by some call */
    calling = "all calls";
    const char *unused = linker_utils_status_text(UINT32_MAX);
    for (uint32_t status = 0; calls >= 1000000 && status < STATUSES; status++) {
        const char *text = linker_utils_status_text(status);
        if (strcmp(text, unused) != 0 && returned[status] == 0) fail(text);
    }
    return 0;
}
