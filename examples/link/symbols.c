/* SPDX-License-Identifier: MIT OR Apache-2.0 */
/* Which definition a name has, which members of archives are needed for that, and the symbols that
 * the linker itself defines. */
#include "link.h"

/* The global symbols by their names, in at most half of the cells. */
static struct cell {
    struct symbol *symbol;
    uint32_t hash;
} *cells;
static size_t cells_len, named_len;

/* Whether a rewrite may take where a symbol is: in the linked file, or, of a weak thread-local
 * variable that nothing defines, at the thread pointer. */
bool is_here(const struct symbol *s) {
    if (!is_defined(s)) return is_thread_local(s) && is_undefined_weak(s);
    return s->output || s == module_base || s->elf.st_shndx != SHN_ABS;
}

/* Where the cell of a hash is, if no other is in its way. */
static size_t first_of(uint32_t hash) {
    uint32_t mixed = hash * 2654435769; /* 2^32 over the golden ratio */
    return (mixed ^ mixed >> 15) & (cells_len - 1);
}

/* The hash of a name, as `.gnu.hash` has it. Its cell is read ahead. */
uint32_t hash_of(const char *name) {
    uint32_t hash = 5381;
    for (; *name; name++) hash = hash * 33 + (unsigned char)*name;
    if (cells) __builtin_prefetch(&cells[first_of(hash)]);
    return hash;
}

/* The cell of a name, or an empty one for it. No name is as that of no symbol. */
static struct cell *cell_of(const char *name, uint32_t hash) {
    size_t at = first_of(hash);
    while (cells[at].symbol && (!name || cells[at].hash != hash ||
                                strcmp(cells[at].symbol->name, name)))
        at = (at + 1) & (cells_len - 1);
    return &cells[at];
}

/* The global symbol of a name, whether an object mentions it or not. */
struct symbol *named_by(const char *name, uint32_t hash) {
    if (2 * named_len >= cells_len) {
        struct cell *before = cells, *end = before + cells_len;
        cells_len = cells_len ? 4 * cells_len : 1 << 12;
        cells = zeros(cells_len, sizeof *cells);
        for (struct cell *c = before; c < end; c++) if (c->symbol) *cell_of(NULL, c->hash) = *c;
        free(before);
    }
    struct cell *cell = cell_of(name, hash);
    if (cell->symbol) return cell->symbol;
    named_len++;
    *cell = (struct cell){take(1, sizeof *cell->symbol), hash};
    cell->symbol->name = name;
    return cell->symbol;
}

struct symbol *named(const char *name) { return named_by(name, hash_of(name)); }

/* Which of two mentions of a symbol counts: the higher, and else the first. That of no object is
 * the least. A definition in a discarded section counts less than any other, but no member is
 * loaded for it. */
int rank(const struct symbol *s) {
    bool is_weak = bind_of(s) == STB_WEAK;
    uint16_t at = s->elf.st_shndx;
    if (at == SHN_UNDEF) return s->object ? !is_weak : -1;
    if (at < SHN_LORESERVE && s->object->sections[at].is_discarded) return 2;
    return at == SHN_COMMON ? 4 : is_weak ? 3 : 5;
}

/* Adds to a global symbol what one more object says of it. Loads the member that defines it, if one
 * is needed now and an archive has it. */
void resolve(struct symbol *known, struct symbol *s) {
    int before = rank(known), after = rank(s);
    bool is_tls = is_thread_local(s);
    if (before >= 0 && is_thread_local(known) != is_tls)
        fail_of(s->object, "'%s' is %sthread-local, and in %s it is%s", s->name,
                is_tls ? "" : "not ", known->object->path, is_tls ? " not" : "");
    if (before == 5 && after == 5)
        fail_of(s->object, "duplicate symbol '%s', also in %s", s->name, known->object->path);
    if (before == 4 && after == 4) { /* the larger size, and the larger alignment */
        uint64_t a = known->elf.st_value, b = s->elf.st_value;
        known->elf.st_value = s->elf.st_value = a > b ? a : b;
        after += s->elf.st_size > known->elf.st_size;
    }
    unsigned seen = visibility_of(known), own = visibility_of(s);
    if (after > before) known->elf = s->elf, known->object = s->object;
    /* of visibilities the stricter one counts: 0 is the least */
    known->elf.st_other &= (uint8_t)~3;
    known->elf.st_other |= (uint8_t)(seen && (!own || seen < own) ? seen : own);
    if (before < 1 && after == 1 && known->archive) load_member(known->archive, known->offset);
}

/* Whether a member of an archive is linked that defines a symbol: an object or a library refers to
 * it, not only weakly, and no object defines it. */
bool is_needed(const struct symbol *s) {
    return rank(s) == 1 || (rank(s) < 1 && s->is_required);
}

/* A symbol of an archive's index. The first archive that has it counts. A member that is needed
 * already is loaded. */
void offer(const char *name, struct object *a, uint64_t member) {
    struct symbol *s = named(name);
    if (s->archive || s->library) return;
    s->archive = a, s->offset = member;
    if (is_needed(s)) load_member(a, member);
}

/* Puts a symbol after the others, once. */
void list_symbol(struct symbol *s) {
    static struct symbol **end = &symbols;
    if (s->is_listed) return;
    s->is_listed = true;
    symbols_len++;
    *end = s, end = &s->later;
}

/* A symbol at an offset of a section, if an object refers to it and none defines it; else null. */
static struct symbol *define(const char *name, struct output *output, uint64_t offset) {
    struct symbol *s = cells ? cell_of(name, hash_of(name))->symbol : NULL;
    if (!s || !s->object || is_defined(s)) return NULL;
    s->elf.st_shndx = SHN_ABS;
    if (is_dynamic) s->elf.st_other = STV_HIDDEN;
    s->output = output, s->offset = offset;
    got->has_bytes |= output == got;
    return s;
}

/* The symbols at both ends of a section: `__init_array_start` and `__init_array_end` of
 * `.init_array`, or `__start_NAME` and `__stop_NAME` of a section NAME. */
static void define_end(struct output *o, bool is_end) {
    char name[300];
    const char *text = o->name + (*o->name == '.');
    int len = (int)strcspn(text, "."); /* without a priority */
    snprintf(name, sizeof name, "__%.*s_%s", len < 200 ? len : 200, text, is_end ? "end" : "start");
    define(name, o, is_end ? END : 0);
    snprintf(name, sizeof name, "__%s_%.200s", is_end ? "stop" : "start", o->name);
    define(name, o, is_end ? END : 0);
}

/* The functions of runs of code that objects refer to, and those after them in the run: that of a
 * number goes on to that of the next, and the last one to the instructions after it. */
static void define_runs(void) {
    uint8_t prefix[LINKER_UTILS_NAME_SIZE];
    char name[LINKER_UTILS_NAME_SIZE + 16];
    struct linker_utils_save_restore_routines run;
    size_t len = 0, most = sizeof prefix;
    for (size_t i = 0; !linker_utils_get_save_restore_routines(machine, i, prefix, most, &len, &run); i++) {
        bool is_made = false;
        for (uint32_t at = 0, word; at < run.len; at++) {
            uint32_t function = at / run.spacing;
            snprintf(name, sizeof name, "%.*s%u", (int)len, (char *)prefix, run.first + function);
            bool begins = at % run.spacing == 0 && function < run.count;
            struct symbol *s = begins ? define(name, stubs, stubs->len) : NULL;
            if (s) is_made = s->is_saver = true;
            if (is_made && !linker_utils_provided_word(machine, i, at, &word))
                append(stubs, sizeof word, &word, sizeof word);
        }
    }
}

/* A thread-local symbol without a section, at the thread pointer or at the module's origin. */
static void define_base(const char *name, bool is_at_pointer) {
    struct symbol *base = define(name, NULL, 0);
    if (!base) return;
    module_base = base, tls.has_base = is_at_pointer;
    base->elf.st_info = ELF64_ST_INFO(STB_GLOBAL, STT_TLS);
    base->elf.st_other = STV_HIDDEN;
}

/* The symbols that linkers provide for the machine. */
static void define_provided(void) {
    struct linker_utils_provided_symbol is;
    char name[LINKER_UTILS_NAME_SIZE + 1];
    uint8_t *text = (uint8_t *)name;
    size_t most = sizeof name - 1, len = 0;
    for (size_t i = 0; !linker_utils_get_provided_symbol(machine, i, text, most, &len, &is); i++) {
        name[len] = 0;
        bool is_in_data = is.place == LINKER_UTILS_PLACE_SMALL_DATA;
        if (is.place == LINKER_UTILS_PLACE_THREAD_LOCAL) define_base(name, true);
        else define(name, is_in_data ? output_of(".sdata") : got, is.offset);
    }
}

/* Those at the end of the last section up to a rank, or at the begin of the headers. */
static void define_ends(void) {
    static const struct {
        const char *name;
        unsigned rank;
    } ends[] = {{"_etext", RANK_CODE}, {"etext", RANK_CODE}, {"_edata", RANK_BSS - 1},
                {"edata", RANK_BSS - 1}, {"_end", RANK_BSS}, {"end", RANK_BSS}, {"__ehdr_start", 0},
                {"__executable_start", 0}, {"__dso_handle", 0}}; /* of each module another one */
    for (size_t i = 0; i < sizeof ends / sizeof *ends; i++) {
        struct output *last = headers;
        EACH_OUTPUT(o) if (o->rank <= ends[i].rank) last = o;
        if (ends[i].rank || headers->len) define(ends[i].name, last, ends[i].rank ? END : 0);
    }
}

void define_symbols(void) {
    output_of(".preinit_array"), output_of(".init_array"), output_of(".fini_array");
    output_of(".sdata");
    define_runs();
    define("__bss_start", bss, 0);
    sort_outputs();
    EACH_OUTPUT(o) define_end(o, false); /* the first counts */
    for (size_t i = outputs_len; i > 0; i--) define_end(outputs[i - 1], true);
    define("_GLOBAL_OFFSET_TABLE_", got, 0);
    if (dynamic) define("_DYNAMIC", dynamic, 0);
    define_provided();
    define_base("_TLS_MODULE_BASE_", false); /* also for other machines, as in ld.lld */
    define_ends();
}

/* Places the symbols that objects define, and the sections with these. Common symbols are the first
 * in `.bss`, as in ld.lld. One is far whose offset is about a GiB or more, or as much below 0, or
 * whose thread-local storage is as long. Where a GiB may be too little for the linked file, 32 bits
 * may not hold each distance. */
void place_symbols(void) {
    uint64_t most = INT32_MAX / 2 - MOST_ALIGN;
    EACH_SYMBOL(s)
        if (s->elf.st_shndx == SHN_COMMON)
            s->output = bss, s->offset = make_room(bss, s->elf.st_value, s->elf.st_size);
    EACH_SECTION(s) copy_section(s);
    place_outputs();
    linked.has_near_symbols = span < INT32_MAX / 2;
    EACH_SYMBOL(s) {
        uint16_t at = s->elf.st_shndx;
        if (s->output) continue;
        s->offset = s->elf.st_value;
        if (!at || at >= s->object->sections_len) continue;
        s->output = s->object->sections[at].output, s->offset += s->object->sections[at].offset;
        if (s->elf.st_value + most > 2 * most || (tls.len > most && is_thread_local(s)))
            s->is_far = has_far_symbols = true;
    }
}
