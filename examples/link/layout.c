/* SPDX-License-Identifier: MIT OR Apache-2.0 */
/* Which sections the linked file has, what is in them, and where they are. */
#include "link.h"

/* Adds a section to the linked file. */
static struct output *add_output(struct output made) {
    if (outputs_len == MOST_OUTPUTS) fail("too many sections");
    made.align = 1;
    return outputs[outputs_len++] = keep(&made, sizeof made);
}

/* The section of the linked file that a section of an object goes into. */
struct output *output_of(const char *name) {
    static const char *const kinds[] = {
        ".text", ".rodata", ".data", ".data.rel.ro", ".bss",         ".sdata",       ".sbss",
        ".tdata", ".tbss",  ".gcc_except_table",     ".init_array.", ".fini_array."};
    const char *kind = name; /* the last that matches; with a priority the name is its own */
    unsigned priority = UINT16_MAX + 1;
    for (size_t i = 0, len; i < sizeof kinds / sizeof *kinds; i++) {
        if (!*name || name[1] != kinds[i][1] || strncmp(name, kinds[i], len = strlen(kinds[i])))
            continue;
        if (kinds[i][len - 1] == '.') priority = (unsigned)strtoul(name + len, NULL, 10);
        else if (!name[len] || name[len] == '.') kind = kinds[i];
    }
    EACH_OUTPUT(o) if (o->name == kind) return o;
    EACH_OUTPUT(o) if (!strcmp(o->name, kind)) return o;
    return add_output((struct output){.name = kind, .priority = priority});
}

static unsigned rank_of(const struct output *o) {
    static const struct {
        const char *name;
        unsigned rank;
    } ranks[] = {{".preinit_array", RANK_ARRAYS}, {".init_array", RANK_ARRAYS + 1},
                 {".fini_array", RANK_ARRAYS + 2}, {".data.rel.ro", RANK_RELOCATED},
                 {".dynamic", RANK_RELOCATED}, {".got", RANK_GOT},
                 {".sdata", RANK_SMALL_DATA}, {".sbss", RANK_BSS}, {".bss", RANK_BSS}};
    char words[LINKER_UTILS_NAME_SIZE + 1] = {0}; /* where compilers keep addresses */
    size_t len;
    if (o == headers) return RANK_HEADERS;
    if (o->flags & SHF_EXECINSTR) return RANK_CODE;
    if (o->flags & SHF_TLS) return o->has_bytes ? RANK_TLS : RANK_TLS_BSS;
    if (!linker_utils_address_section(machine, (uint8_t *)words, sizeof words - 1, &len) &&
        !strcmp(o->name, words))
        return RANK_ADDRESSES;
    for (unsigned i = 0; i < sizeof ranks / sizeof *ranks; i++)
        if (!strncmp(o->name, ranks[i].name, strlen(ranks[i].name))) return ranks[i].rank;
    return !(o->flags & SHF_WRITE) ? RANK_FIXED : o->has_bytes ? RANK_DATA : RANK_BSS;
}

static int by_address(const void *left, const void *right) {
    const struct output *a = *(struct output *const *)left, *b = *(struct output *const *)right;
    int by = order(a->address, b->address);
    if (!by) by = order(a->rank, b->rank);
    if (!by) by = order(a->priority, b->priority);
    if (!by) by = strcmp(a->name, b->name);
    return by ? by : order(a->part, b->part);
}

/* Sorts the sections by their addresses, so far as these are known. */
void sort_outputs(void) {
    EACH_OUTPUT(o) o->rank = rank_of(o);
    qsort(outputs, outputs_len, sizeof *outputs, by_address);
}

/* The offset of new room at a section's end. Gaps in code have instructions that trap, or zeros, as
 * ld.lld's; where code shrinks they are as long as may be needed. */
uint64_t make_room(struct output *o, uint64_t align, uint64_t len) {
    uint64_t start = o->len, offset = start, unit = o->shrinks && start ? code_unit() : MOST_ALIGN;
    if (align & (align - 1) || align > MOST_ALIGN) fail("section %s can't be aligned so", o->name);
    o->gap = align > unit ? align - unit : 0;
    if (align) offset = o->gap ? round_up(start, unit) + o->gap : round_up(start, align);
    if (len > MOST_BYTES || offset + len > MOST_BYTES) fail("section %s is too large", o->name);
    if (align > o->align) o->align = align;
    o->len = offset + len;
    if (!o->has_bytes) return offset;
    o->bytes = grow(o->bytes, o->len, &o->room, 1);
    for (uint64_t i = start; i < offset && o->flags & SHF_EXECINSTR; i++)
        o->bytes[i] = linker_utils_filler(machine, i);
    return offset;
}

/* Adds bytes at a section's end, and returns where they are. */
uint64_t append(struct output *o, uint64_t align, const void *bytes, uint64_t len) {
    uint64_t at = make_room(o, align, len);
    if (len) memcpy(o->bytes + at, bytes, len);
    return at;
}

uint32_t add_name(struct output *o, const char *text) {
    if (!o->len) make_room(o, 1, 1); /* the first is empty */
    return (uint32_t)append(o, 1, text, strlen(text) + 1);
}

/* The part of a section into which code of a length goes. Where thunks may be needed another one
 * begins after so much code as each branch reaches across. */
static struct output *part_for(struct output *o, uint64_t len) {
    struct linker_utils_stub stub;
    while (o->behind) o = o->behind;
    if (!o->room || o->room + len <= MOST_PART ||
        linker_utils_get_stub(machine, LINKER_UTILS_STUB_JUMP, &stub))
        return o;
    return o->behind = add_output((struct output){.name = o->name, .priority = o->priority,
                                                  .part = o->part + 1, .whole = o->whole ? o->whole : o});
}

/* Says which section a section goes into, and what that one is like. */
void add_section(struct section *s) {
    const Elf64_Shdr *head = s->head;
    has_code_on_stack |= head->sh_flags & SHF_EXECINSTR && !strcmp(s->name, ".note.GNU-stack");
    if (!(head->sh_flags & SHF_ALLOC) || head->sh_type == SHT_NOTE || s->is_discarded) return;
    bool has_bytes = head->sh_type != SHT_NOBITS, is_code = head->sh_flags & SHF_EXECINSTR;
    struct output *o = s->output = output_of(s->name);
    if (o->is_own || (!has_bytes && (s->table || o == frames)))
        fail_of(s->object, "a section %s is not supported", s->name);
    if (o->flags && (o->flags ^ head->sh_flags) & SHF_TLS)
        fail_of(s->object, "%s is thread-local, and elsewhere it is not", s->name);
    if (is_code) o = s->output = part_for(o, head->sh_size);
    o->flags |= head->sh_flags;
    o->has_bytes |= has_bytes;
    o->shrinks |= shrinks && has_bytes && is_code && !(head->sh_flags & SHF_TLS);
    s->len = head->sh_size;
    if (has_bytes) o->room += s->len + head->sh_addralign % MOST_ALIGN;
    uint64_t rows = o == frames ? read_frames(s, s->object->bytes + head->sh_offset, NULL) : 0;
    if (rows) make_room(index_of, 4, 8 * rows + (index_of->len ? 0 : 12));
}

/* Adds a part to the end of a section. */
void add_part_of(struct output *o, struct section *s, uint64_t align) {
    s->offset = make_room(o, align, s->len);
    s->gap = (uint32_t)o->gap;
    if (!o->shrinks) return;
    *(o->last ? &o->last->behind : &o->first) = s;
    o->last = s;
}

/* Copies a section to where it goes. The unwind information has no gaps: they would end it. */
void copy_section(struct section *s) {
    struct output *o = s->output;
    if (!o) return;
    add_part_of(o, s, o == frames ? 1 : s->head->sh_addralign);
    if (s->head->sh_type != SHT_NOBITS && s->len)
        memcpy(o->bytes + s->offset, s->object->bytes + s->head->sh_offset, s->len);
    if (s->table) read_relocations(s);
}

/* An alignment, of so many bytes, whose offset is that in its run. */
struct linker_utils_item alignment_item(uint64_t at, uint64_t align, uint64_t len) {
    return (struct linker_utils_item){.offset = at, .target = at, .alignment = align,
                                      .len = (uint32_t)len, .kind = LINKER_UTILS_ITEM_ALIGNMENT};
}

/* Where the next section goes: its offset in a run, and the least and the greatest address that it
 * may have once code is shorter. And what those before it are. */
struct place {
    struct run *run;
    uint64_t at, low, high;
    const struct output *last; /* that isn't empty */
};

static struct run runs[MOST_OUTPUTS];
static const struct output *first_tls; /* null where there is no thread-local storage */

static void begin_run(struct place *p, uint64_t address) {
    struct run *run = p->run ? p->run + 1 : runs;
    *run = (struct run){.is = {.start = address}};
    *p = (struct place){.run = run, .low = address, .high = address, .last = p->last};
}

static void skip(struct place *p, uint64_t len) {
    p->at += len, p->low += len, p->high += len;
}

/* Aligns the next section. After code that becomes shorter this is an alignment of the run, with
 * as many bytes as it may need. */
static void align_next(struct place *p, struct output *o, uint64_t align) {
    uint64_t unit = code_unit(), len = round_up(p->low, align) - p->low;
    if (p->low != p->high) {
        uint64_t address = p->run->is.start + p->at;
        if (align < unit) align = unit;
        len = round_up(address + align - unit, unit) - address;
        o->before = alignment_item(p->at, align, len);
    }
    p->at += len;
    p->low = round_up(p->low, align), p->high = round_up(p->high, align);
}

/* Puts the next section at its address. After code that becomes shorter an alignment comes first,
 * which ends at one address wherever the code ends. Where there is no room for one, another run
 * begins. */
static void place_next(struct place *p, struct output *o) {
    uint64_t align = code_unit();
    while (align <= p->high - p->low) align *= 2;
    uint64_t end = o->place & ~(align - 1);
    if (p->low != p->high && end >= p->high && align < UINT32_MAX / 2) {
        skip(p, end - p->high);
        align_next(p, o, align);
    }
    if (!p->run || p->low != p->high || p->high > o->place) begin_run(p, o->place);
    skip(p, o->place - p->high);
}

/* Puts the next section after those before it. One with other permissions begins a new page, at
 * the same offset in the page as the one before it ends. The first that isn't protected begins one
 * too. */
static void place_behind(struct place *p, struct output *o) {
    uint64_t page = linker_utils_page(machine), align = o->flags & SHF_TLS ? tls.align : o->align;
    bool is_other = o->len && (o->flags ^ p->last->flags) & (SHF_WRITE | SHF_EXECINSTR);
    bool is_first_data = is_dynamic && o->len && p->last->rank < RANK_DATA && o->rank >= RANK_DATA;
    if (!p->run) begin_run(p, linked.is_fixed ? BASE : 0);
    if (is_other) skip(p, page);
    if (p->last->is_placed) align = MOST_ALIGN;
    align_next(p, o, is_first_data && page > align ? page : align);
}

/* Places the sections, first those that the command line places. Thread-local storage has no gaps
 * except for its alignments. */
void place_outputs(void) {
    struct place p = {.last = headers};
    first_tls = NULL, tls.len = 0, tls.align = 1;
    EACH_OUTPUT(o) {
        bool is_array = o->rank >= RANK_ARRAYS && o->rank < RANK_RELOCATED;
        if (is_array && o->align < word_len()) o->align = word_len(); /* so that there is no gap between them */
        const struct output *whole = o->whole ? o->whole : o;
        o->address = whole->is_placed ? whole->place : UINT64_MAX;
        if (o->flags & SHF_TLS && o->align > tls.align) tls.align = o->align;
    }
    sort_outputs();
    EACH_OUTPUT(o) {
        bool is_tls = o->flags & SHF_TLS;
        o->before.len = 0;
        if (o->is_placed && o->place > UINT64_MAX / 4)
            fail("section %s can't be at 0x%" PRIx64, o->name, o->place);
        if (is_tls && first_tls) {
            o->run = first_tls->run;
            o->base = first_tls->base + round_up(tls.len, o->align);
            if (o->is_placed || (o->has_bytes && (p.run != o->run || p.at > o->base)))
                fail("section %s can't be apart from %s", o->name, first_tls->name);
            if (o->has_bytes) skip(&p, o->base - p.at);
        } else {
            if (o->is_placed) place_next(&p, o);
            else place_behind(&p, o);
            o->run = p.run, o->base = p.at;
            if (is_tls) first_tls = o;
        }
        if (o->len) p.last = o;
        if (is_tls) tls.len = o->base + o->len - first_tls->base;
        if (is_tls && !o->has_bytes) continue;
        skip(&p, o->len);
        if (o->shrinks) p.low -= o->len;
    }
    set_addresses();
}

/* The address of what was at an offset of a run. */
static uint64_t address_in(const struct run *run, uint64_t offset) {
    const struct linker_utils_run *is = &run->is;
    return is->start + linker_utils_deltas_input_to_output_by_heads(
                           is->deltas, is->deltas_len, run->heads, run->heads_len, offset);
}

/* Sets the addresses of the sections, by what the runs lose. */
void set_addresses(void) {
    const struct output *last = outputs[outputs_len - 1];
    EACH_OUTPUT(o) {
        const struct output *from = o->flags & SHF_TLS ? first_tls : o;
        o->address = address_in(from->run, from->base) + (o->base - from->base);
    }
    uint64_t of_dynamic = dynamic ? dynamic->address : 0;
    expect_ok(linker_utils_get_got(machine, got->address, of_dynamic, &known_got));
    linked.got_base = known_got.base;
    linked.module_entry = module.entries ? address_of(got, module.entries->offset) : 0;
    const struct symbol *pointer = named("__global_pointer$");
    if (relaxes && relaxes_near && pointer->output)
        linked.global_pointer = address_of(pointer->output, pointer->offset);
    span = last->address + last->len - outputs[0]->address;
    tls.image = first_tls ? first_tls->address : 0;
    /* (where code is still to become shorter the image isn't aligned so far) */
    expect_ok(linker_utils_get_origins(machine, 0, tls.len, tls.align, &tls.origins));
    linked.thread_origin = tls.origins.thread_pointer += tls.image;
    linked.module_origin = tls.origins.module_block += tls.image;
    linked.has_tls = tls.len > 0;
    bool is_at_pointer = tls.has_base && linked.is_executable;
    uint64_t base = is_at_pointer ? linked.thread_origin : linked.module_origin;
    if (module_base) module_base->offset = base;
}

uint64_t address_of(const struct output *o, uint64_t offset) {
    if (!o) return offset;
    if (offset == END) return o->address + o->len;
    return o->shrinks && o->run ? address_in(o->run, o->base + offset) : o->address + offset;
}
