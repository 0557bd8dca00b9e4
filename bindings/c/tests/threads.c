/* SPDX-License-Identifier: MIT OR Apache-2.0 */
/* Calls of four threads at once, as the header allows them: they share what calls only read, and
 * write memory of their own and disjoint parts of one section. Then each relaxes an output section,
 * and, once all have, packs it into its part of the output. Each has to get what one thread alone
 * gets. `run` runs it under two race detectors, valgrind's helgrind and gcc's thread sanitizer. With
 * RACE defined all threads write to the same memory, which the detectors have to find. */
#define _POSIX_C_SOURCE 200112L /* barriers */
#include <elf.h>
#include <pthread.h>
#include <stdio.h>
#include <string.h>

#include "linker_utils.h"

#define THREADS 4
#define PART 256
#define DELETIONS 200
#define CALLS 40
#define LENGTH (CALLS * 16)

/* What the threads share. */
static struct linker_utils_relocation_entry entries[PART / 4];
static struct linker_utils_deletion list[DELETIONS], more[DELETIONS];
static struct linker_utils_delta deltas[DELETIONS];
static struct linker_utils_block_head heads[DELETIONS / 64 + 1];
static uint64_t queries[DELETIONS];
static uint8_t code[LENGTH];
static struct linker_utils_call calls[CALLS];
static struct linker_utils_rela relocations[3 * CALLS];
static struct linker_utils_link_facts facts;
static const uint8_t got_load[8] = {0x90, 0x48, 0x8b, 0x1d, 0x00, 0x00, 0x00, 0x00};

/* Of which each thread writes a part. */
static uint8_t section[THREADS * PART];

/* What a thread writes. */
struct results {
    uint64_t outputs[DELETIONS], inputs[DELETIONS], sums[8];
    struct linker_utils_delta merged[2 * DELETIONS], freed_list[3 * CALLS];
    uint8_t chosen[CALLS], packed[LENGTH];
    size_t items_len, makers[3 * CALLS], places[3 * CALLS], freed_len, count;
    struct linker_utils_item items[3 * CALLS];
    uint8_t shapes[3 * CALLS], packed_run[LENGTH];
    uint64_t kept[3 * CALLS], freed[3 * CALLS + 1];
    struct linker_utils_choice choice;
    struct linker_utils_recognised found[LINKER_UTILS_CANDIDATES];
    struct linker_utils_field_value value, address;
    uint32_t reference, failures;
};

static struct results results[THREADS + 1];

/* An output, of which a thread relaxes and packs a section: its part of each array. */
struct output {
    struct linker_utils_item items[THREADS][3 * CALLS];
    struct linker_utils_delta lost[THREADS][3 * CALLS];
    struct linker_utils_symbol symbols[THREADS][CALLS + 2];
    Elf64_Rela relas[THREADS][3 * CALLS];
    uint64_t kept[THREADS][3 * CALLS], freed[THREADS][3 * CALLS + 1], len[THREADS];
    size_t makers[THREADS][3 * CALLS], places[THREADS][3 * CALLS];
    size_t items_len[THREADS], lost_len[THREADS];
    uint8_t shapes[THREADS][3 * CALLS], bytes[THREADS * LENGTH];
};

static struct output output, alone;
static pthread_barrier_t all_relaxed;

static void run(uint8_t *part, struct results *to) {
    const uint16_t riscv = LINKER_UTILS_RISCV, x86_64 = LINKER_UTILS_X86_64;
    uint32_t failures = 0;
    size_t faulty;
#define EXPECT(call) failures += linker_utils_##call != LINKER_UTILS_OK
    const struct linker_utils_section of_part = linker_utils_section_of(part, PART);
    EXPECT(relocate_all(LINKER_UTILS_AARCH64, &of_part, entries, PART / 4, &faulty));

    const struct linker_utils_translation translation = {queries, DELETIONS, to->outputs, DELETIONS};
    EXPECT(deltas_translate_all(deltas, DELETIONS, &translation, NULL));
    for (size_t i = 0; i < DELETIONS; i++) {
        uint64_t input;
        EXPECT(deltas_output_to_input(deltas, DELETIONS, queries[i], &to->inputs[i]));
        EXPECT(deltas_output_to_input_by_heads(deltas, DELETIONS, heads, DELETIONS / 64 + 1,
                                               queries[i], &input));
        failures += input != to->inputs[i];
        to->sums[0] += linker_utils_deltas_input_to_output(deltas, DELETIONS, queries[i]);
    }
    to->sums[1] = linker_utils_deltas_total_deleted(deltas, DELETIONS);
    to->sums[2] = linker_utils_has_valid_deltas(deltas, DELETIONS);
    const struct linker_utils_merge merge = {more, DELETIONS, to->merged, 2 * DELETIONS};
    EXPECT(deltas_merge(deltas, DELETIONS, &merge, &faulty));

    struct linker_utils_calls jumps = {calls, CALLS, NULL, 0, LINKER_UTILS_LINK_OF_JALR};
    EXPECT(shrink_calls(&jumps, to->chosen, CALLS, &faulty));
    struct linker_utils_deletion behind[CALLS];
    struct linker_utils_delta of_jumps[CALLS];
    for (size_t i = 0; i < CALLS; i++) {
        failures += !to->chosen[i];
        behind[i].offset = calls[i].site + 4;
        behind[i].bytes = 4;
    }
    EXPECT(deltas_create(behind, CALLS, of_jumps, CALLS, &faulty));
    const struct linker_utils_section whole = linker_utils_section_of(code, LENGTH);
    jumps.deltas = of_jumps;
    jumps.deltas_len = CALLS;
    EXPECT(pack(&whole, &jumps, to->packed, linker_utils_packed_len(&whole, of_jumps, CALLS),
                &faulty));

    struct linker_utils_items made = {to->items, 3 * CALLS, to->makers, 3 * CALLS, 0};
    EXPECT(section_items(riscv, &whole, relocations, 3 * CALLS, &made, &faulty));
    const size_t items = made.items_used;
    struct linker_utils_run of_code = {0x10000, to->items, items, to->freed_list, 0};
    const struct linker_utils_relaxed relaxed = {to->shapes, items,     to->kept,   items,
                                                 to->freed,  items + 1, to->places, items};
    EXPECT(relax(&of_code, &relaxed, &faulty));
    EXPECT(run_deltas(&of_code, &relaxed, to->freed_list, items, &of_code.deltas_len));
    EXPECT(pack_run(riscv, &whole, &of_code, to->packed_run,
                    linker_utils_packed_run_len(&whole, &of_code), &faulty));
    to->items_len = items;
    to->freed_len = of_code.deltas_len;

    const struct linker_utils_section loaded = linker_utils_section_of((uint8_t *)got_load, 8);
    EXPECT(choose(x86_64, R_X86_64_REX_GOTPCRELX, &loaded, 4, &facts, &to->choice));
    uint8_t linked[8];
    uint64_t offset = 4;
    int64_t addend = -4;
    memcpy(linked, got_load, sizeof linked);
    const struct linker_utils_section of_linked = linker_utils_section_of(linked, 8);
    const struct linker_utils_windows windows = {got_load, 8, 4, NULL, 0, linked, 8};
    EXPECT(apply(x86_64, to->choice.rewrite, to->choice.opcode_len, &of_linked, &offset, &addend));
    EXPECT(recognise(x86_64, R_X86_64_REX_GOTPCRELX, &windows, to->found, LINKER_UTILS_CANDIDATES,
                     &to->count));
    failures += to->count == 0;
    EXPECT(read_value(x86_64, R_X86_64_PC32, linked + 4, 4, &to->value));
    EXPECT(solve(x86_64, R_X86_64_PC32, &to->value, &facts.operands, &to->reference, &to->address));
    to->failures += failures;
}

/* How many calls a section of the output has: the first n of the code. The last one is of the
 * next section's begin, and stays long. */
static size_t calls_of(size_t n) { return CALLS - 9 * n; }

static struct linker_utils_section section_of(size_t n) {
    return linker_utils_section_of(code, 16 * calls_of(n));
}

static struct linker_utils_run run_of(const struct output *in, size_t n, uint64_t start) {
    struct linker_utils_run part = {start, in->items[n], in->items_len[n], in->lost[n],
                                    in->lost_len[n]};
    return part;
}

static uint32_t relax_section(struct output *to, size_t n) {
    uint32_t failures = 0;
    const size_t count = 3 * calls_of(n);
    struct linker_utils_rela own[3 * CALLS];
    memcpy(own, relocations, sizeof own);
    own[count - 3].has_target = 0;
    for (size_t i = 0; i < count; i++) {
        const uint64_t target = i == count - 3 ? 0 : own[i].target / 16;
        own[i].has_target &= target < calls_of(n);
        to->relas[n][i].r_offset = own[i].offset;
        to->relas[n][i].r_info = ELF64_R_INFO(i == count - 3 ? CALLS + 1 : target + 1, own[i].r_type);
        to->relas[n][i].r_addend = own[i].addend;
    }
    const struct linker_utils_section whole = section_of(n);
    struct linker_utils_items made = {to->items[n], count, to->makers[n], count, 0};
    EXPECT(section_items(LINKER_UTILS_RISCV, &whole, own, count, &made, NULL));
    const size_t items = to->items_len[n] = made.items_used;
    const struct linker_utils_relaxed relaxed = {to->shapes[n], items,     to->kept[n],   items,
                                                 to->freed[n],  items + 1, to->places[n], items};
    struct linker_utils_run part = run_of(to, n, 0x10000);
    EXPECT(relax(&part, &relaxed, NULL));
    EXPECT(run_deltas(&part, &relaxed, to->lost[n], items, &part.deltas_len));
    to->lost_len[n] = part.deltas_len;
    to->len[n] = linker_utils_packed_run_len(&whole, &part);
    return failures;
}

/* The address of what was at an offset of a section, which begins at a multiple of 16. */
static uint64_t address_in(const struct output *in, size_t n, uint64_t offset) {
    uint64_t start = 0x10000;
    for (size_t i = 0; i < n; i++) start += (in->len[i] + 15) / 16 * 16;
    return start + linker_utils_deltas_input_to_output(in->lost[n], in->lost_len[n], offset);
}

static uint32_t pack_section(struct output *to, size_t n) {
    uint32_t failures = 0;
    const uint64_t start = address_in(to, n, 0);
    uint8_t *bytes = to->bytes + (start - 0x10000);
    uint64_t memory[3 * CALLS];
    for (size_t i = 0; i < CALLS; i++) to->symbols[n][i + 1].address = address_in(to, n, 16 * i);
    to->symbols[n][CALLS + 1].address = address_in(to, (n + 1) % THREADS, 0);
    const struct linker_utils_link link = {.machine = LINKER_UTILS_RISCV};
    const struct linker_utils_object object = {.values = to->symbols[n], .values_len = CALLS + 2};
    const struct linker_utils_run part = run_of(to, n, start);
    struct linker_utils_section packed = section_of(n);
    packed.relocations = to->relas[n];
    packed.relocations_len = 3 * calls_of(n);
    packed.address = start;
    EXPECT(pack_run(LINKER_UTILS_RISCV, &packed, &part, bytes, to->len[n], NULL));
    packed.bytes = bytes;
    packed.bytes_len = to->len[n];
    EXPECT(relocate_section(&link, &object, &packed, memory, 3 * CALLS, NULL));
    return failures;
}

static void *in_thread(void *index) {
#ifdef RACE
    size_t thread = 0 * *(size_t *)index;
#else
    size_t thread = *(size_t *)index;
#endif
    run(section + thread * PART, &results[thread]);
    results[thread].failures += relax_section(&output, thread);
    pthread_barrier_wait(&all_relaxed);
    results[thread].failures += pack_section(&output, thread);
    return NULL;
}

int main(void) {
    for (uint32_t i = 0; i < PART / 4; i++) {
        entries[i].offset = 4 * i;
        entries[i].value = 1024 - 4 * (int64_t)i;
        entries[i].r_type = R_AARCH64_CALL26;
    }
    for (uint32_t i = 0; i < DELETIONS; i++) {
        list[i].offset = 32 * i;
        list[i].bytes = 4;
        /* in no order, so that the merge sorts a copy */
        more[i].offset = 32 * (i * 7 % DELETIONS) + 16;
        more[i].bytes = 2;
        queries[i] = 20 * i;
    }
    size_t faulty, count = 0;
    if (linker_utils_deltas_create(list, DELETIONS, deltas, DELETIONS, &faulty)) return 1;
    if (linker_utils_deltas_heads(deltas, DELETIONS, heads, DELETIONS / 64 + 1)) return 1;
    /* auipc ra, 0; jalr ra; and nops to a multiple of 16 */
    static const uint8_t call[16] = {0x97, 0x00, 0x00, 0x00, 0xe7, 0x80, 0x00, 0x00,
                                     0x01, 0x00, 0x01, 0x00, 0x01, 0x00, 0x01, 0x00};
    for (uint32_t i = 0; i < CALLS; i++) {
        memcpy(code + 16 * i, call, sizeof call);
        calls[i].site = 16 * i;
        calls[i].target = 16 * ((i + 5) % CALLS);
        for (uint32_t kind = 0; kind < 3; kind++, count++) {
            static const uint32_t types[3] = {R_RISCV_CALL_PLT, R_RISCV_RELAX, R_RISCV_ALIGN};
            relocations[count].offset = 16 * i + (kind == 2 ? 8 : 0);
            relocations[count].target = calls[i].target;
            relocations[count].addend = kind == 2 ? 6 : 0;
            relocations[count].r_type = types[kind];
            relocations[count].has_symbol = kind == 0;
            relocations[count].has_target = kind == 0;
            relocations[count].may_compress = 1;
        }
    }
    facts.is_local = facts.is_pcrel_link_time_constant = facts.is_relaxable = facts.has_addresses = 1;
    facts.operands.symbol = 0x8000;
    facts.operands.addend = -4;
    facts.operands.place = 0x4000;

    static uint8_t part[PART];
    run(part, &results[THREADS]);
    for (size_t i = 0; i < THREADS; i++) results[THREADS].failures += relax_section(&alone, i);
    for (size_t i = 0; i < THREADS; i++) results[THREADS].failures += pack_section(&alone, i);
    if (pthread_barrier_init(&all_relaxed, NULL, THREADS)) return 1;
    pthread_t threads[THREADS];
    size_t indices[THREADS];
    for (size_t i = 0; i < THREADS; i++) {
        indices[i] = i;
        if (pthread_create(&threads[i], NULL, in_thread, &indices[i])) return 1;
    }
    for (size_t i = 0; i < THREADS; i++) pthread_join(threads[i], NULL);
#ifndef RACE
    for (size_t i = 0; i < THREADS; i++) {
        if (results[i].failures == 0 && !memcmp(&results[i], &results[THREADS], sizeof *results) &&
            !memcmp(section + i * PART, part, PART))
            continue;
        printf("thread %zu: %u calls failed, or another result\n", i, results[i].failures);
        return 1;
    }
    if (memcmp(&output, &alone, sizeof output)) {
        printf("sections that are relaxed side by side get other bytes\n");
        return 1;
    }
#endif
    return 0;
}
