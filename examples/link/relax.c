/* SPDX-License-Identifier: MIT OR Apache-2.0 */
/* What is deleted of RISC-V and LoongArch code: the second halves of calls and of addresses that
 * one instruction reaches, what thread-local offsets of 12 bits don't need, and the nops that an
 * alignment doesn't need. All sections are relaxed together, with the gaps between them, so that
 * each distance is known exactly. */
#include "link.h"

/* Of the run that is relaxed: its items, how many bytes of each stay, and of those of a section the
 * indexes of their relocations. */
static struct linker_utils_item *items;
static uint64_t *stay;
static size_t *makers, items_len;

/* What the library reads of a relocation: its target, if that is in the same run. Between a
 * symbol in code and what is some bytes after it code may become shorter. */
static struct linker_utils_rela seen(const struct section *s, const Elf64_Rela *r) {
    const struct symbol *to = symbol_at(s, r);
    const struct output *o = to->is_imported && is_defined(to) ? NULL : to->output;
    bool is_in_run = relaxes && o && o->run == s->output->run && !(o->flags & SHF_TLS) &&
                     !(o->shrinks && r->r_addend);
    uint64_t offset = (o && to->offset == END ? o->len : to->offset) + (uint64_t)r->r_addend;
    return (struct linker_utils_rela){
        .offset = r->r_offset, .target = is_in_run ? o->base + offset : 0, .addend = r->r_addend,
        .r_type = type_of(r), .has_symbol = ELF64_R_SYM(r->r_info) > 0,
        .has_target = is_in_run && offset <= o->len, .may_compress = s->object->is_compressed};
}

/* Ends with an error of a relocation, if there is one with this index, or of a whole section. */
static void check_items(const struct section *s, size_t at, uint32_t status) {
    if (at < s->relocations_len) check(s, &s->relocations[at], status);
    if (status) fail("%s can't be relaxed: %s", s->output->name, linker_utils_status_text(status));
}

/* Adds the items of a section of code to those of its run, after the alignment before it. */
static void add_items(struct section *s) {
    static struct linker_utils_rela *relocations; /* of one section after another */
    static size_t room;
    size_t all = s->relocations_len, most = all + s->deleted_len, at = SIZE_MAX;
    struct linker_utils_section here = section_of(s);
    progress("relaxing", s->object);
    if (s->gap)
        items[items_len++] = alignment_item(here.base - s->gap, s->gap + code_unit(), s->gap);
    relocations = grow(relocations, all, &room, sizeof *relocations);
    for (size_t i = 0; i < all; i++) {
        expect_symbol(s, &s->relocations[i]);
        relocations[i] = seen(s, &s->relocations[i]);
    }
    struct linker_utils_items made = {items + items_len, most, makers + items_len, most, 0};
    uint32_t status = linker_utils_rewritten_items(machine | class_bit(), &here, relocations, all,
                                                   &made, &at);
    check_items(s, at, status);
    s->first_item = (uint32_t)items_len;
    s->items_len = (uint32_t)made.items_used;
    items_len += made.items_used;
}

/* Writes code anew: what becomes shorter, and without what it loses, with what is left of the gaps
 * between its sections. Their relocations go to where their bytes are. Items that lose nothing are
 * left out: their bytes stay as they are. */
static void pack_output(struct output *o) {
    struct linker_utils_run part = o->run->is;
    uint8_t *packed = zeros(o->len, 1);
    uint64_t from = 0, to = 0, start = address_of(o, 0);
    for (struct section *s = o->first; s; s = s->behind) {
        struct linker_utils_section here = section_of(s);
        size_t first = s->first_item, last = first;
        for (size_t i = first; i < first + s->items_len; i++)
            if (stay[i] != items[i].len) makers[last] = makers[i], items[last++] = items[i];
        part.items = items + first, part.items_len = last - first;
        uint64_t at = address_of(o, s->offset) - start;
        size_t len = linker_utils_packed_run_len(&here, &part), faulty = SIZE_MAX;
        memcpy(packed + to, o->bytes + from, at - to);
        uint32_t status = linker_utils_pack_run(machine | class_bit(), &here, &part, packed + at, len,
                                                &faulty);
        check_items(s, faulty < part.items_len ? makers[first + faulty] : SIZE_MAX, status);
        from = s->offset + s->len;
        s->offset = at, s->len = len;
        to = at + len;
    }
    free(o->bytes);
    o->bytes = packed, o->len = to;
}

/* Relaxes the sections of a run. */
static void relax_run(struct run *run) {
    size_t room = outputs_len + 1, at = SIZE_MAX;
    uint64_t end = 0, unit = code_unit();
    EACH_OUTPUT(o)
        for (const struct section *s = o->first; s; s = s->behind)
            room += s->relocations_len + s->deleted_len + 1;
    items = zeros(room, sizeof *items), makers = zeros(room, sizeof *makers);
    items_len = 0;
    EACH_OUTPUT(o) {
        if (o->run != run) continue;
        if (o->before.len) items[items_len++] = o->before;
        for (struct section *s = o->first; s; s = s->behind) add_items(s);
        if (o->base + o->len > end) end = o->base + o->len;
    }
    /* one more at the end, which says the unit of the code where there is no site */
    items[items_len++] = (struct linker_utils_item){
        .offset = end, .target = end, .len = (uint32_t)unit, .kind = LINKER_UTILS_ITEM_SITE,
        .shapes = {.shorter = {{.max_forward = 1, .granularity = (uint32_t)unit}},
                   .longest = (uint32_t)unit, .count = 1}};
    size_t len = items_len;
    stay = zeros(len, sizeof *stay);
    run->is.items = items, run->is.items_len = len;
    struct linker_utils_relaxed relaxed = {zeros(len, 1), len, stay, len, zeros(len + 1, 8),
                                           len + 1, zeros(len, sizeof(size_t)), len};
    uint32_t status = linker_utils_relax(&run->is, &relaxed, &at);
    EACH_SECTION(s)
        if (status && s->output && s->output->run == run && at - s->first_item < s->items_len)
            check_items(s, makers[at], status);
    if (status) fail("the code can't be relaxed: %s", linker_utils_status_text(status));
    free(relaxed.places), free(relaxed.freed), free(relaxed.shapes);
    struct linker_utils_delta *deltas = zeros(len, sizeof *deltas);
    expect_ok(linker_utils_run_deltas(&run->is, &relaxed, deltas, len, &len));
    run->is.deltas = deltas, run->is.deltas_len = len;
    run->heads_len = linker_utils_deltas_block_count(deltas, len);
    run->heads = zeros(run->heads_len, sizeof *run->heads);
    expect_ok(linker_utils_deltas_heads(deltas, len, run->heads, run->heads_len));
    EACH_OUTPUT(o) if (o->run == run && o->shrinks) pack_output(o);
    free(items), free(makers), free(stay);
}

/* Relaxes all code. */
void relax(void) {
    uint32_t phase = LINKER_UTILS_PHASE_TLS_LOCAL_EXEC;
    EACH_OBJECT(o) {
        if (o->is_threaded && (shrinks || (has_short_offsets && relaxes)))
            rewrite_object(o, phase, phase);
        rewrite_object(o, NEAR, NEAR);
    }
    EACH_OUTPUT(o) if (shrinks && !o->run->is.deltas) relax_run(o->run);
    set_addresses();
    EACH_OUTPUT(o) {
        uint64_t align = o->flags & SHF_TLS && o->address == tls.image ? tls.align : o->align;
        uint64_t wanted = o->is_placed ? o->place : o->address;
        if (wanted % align || wanted != o->address)
            fail("section %s can't be at 0x%" PRIx64, o->name, wanted);
    }
}
