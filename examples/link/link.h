/* SPDX-License-Identifier: MIT OR Apache-2.0 */
/* A small linker over the library, for RISC-V, AArch64, LoongArch, PowerPC64 (ELFv2, little-endian)
 * and x86-64, none of which it knows. It reads relocatable ELF objects, archives of them and
 * shared libraries, and writes an executable that begins at `_start`, static or for a dynamic
 * linker, or a shared library. main.c has the steps; each other file is one part:
 *
 * - objects.c: objects, archives and groups
 * - symbols.c: which definition a name has, and what the linker itself defines
 * - libraries.c: what shared libraries define
 * - layout.c: which sections the linked file has, and where they are
 * - rewrite.c: what the library chooses in each phase
 * - properties.c: notes of what objects say of all of their code
 * - entries.c: what relocations require: the GOT, stubs and thunks
 * - dynamic.c: what the dynamic linker reads and fills
 * - relax.c: what is deleted of code
 * - relocate.c: the values of all relocations
 * - frames.c: the table of unwind information
 * - output.c: the file with its symbols
 * - class32.c: files of ELFCLASS32, whose tables all others read as those of ELFCLASS64
 *
 * Relocations stay as objects have them, ELF's own, in a copy of each section's: the library reads
 * and rewrites them there. The first error ends the linker, and of memory it frees only what is
 * large. */
#ifndef LINK_H
#define LINK_H

#include <elf.h>
#include <inttypes.h>
#include <stdio.h>
#include <stdlib.h>
#include <string.h>

#include "linker_utils.h"

/* what all files share is defined in main.c, and declared in the others */
#ifndef SHARED
#define SHARED extern
#endif

#define MOST_ALIGN UINT64_C(0x10000)    /* of a section */
#define BASE UINT64_C(0x400000)         /* where the file's header is, if no section is placed */
#define HEADERS UINT64_C(0x400)         /* room for the headers there */
#define MOST_BYTES UINT64_C(0x40000000) /* of a file and of a section */
#define MOST_PART UINT64_C(0x1000000)   /* of code, between places for thunks */
#define MOST_OUTPUTS 256                /* sections of the linked file, but for those of symbols */
#ifndef BLOCK
#define BLOCK ((size_t)1 << 20)         /* of memory; with 0 each use of it is by itself */
#endif
#define MOST_VERSIONS 0x7fff            /* of a library: above is the mark of hidden ones */
#define END UINT64_MAX                  /* the offset of a section's end, wherever that will be */

/* the order of the sections of the linked file; there are three kinds of arrays, and after the GOT
 * is what is of addresses as it */
enum { RANK_HEADERS, RANK_FIXED, RANK_CODE, RANK_TLS, RANK_TLS_BSS, RANK_ARRAYS, RANK_RELOCATED = 8,
       RANK_GOT, RANK_ADDRESSES, RANK_DATA, RANK_SMALL_DATA, RANK_BSS };

/* in place of a phase: high parts of addresses near the global pointer are deleted; once all
 * addresses are final the low parts that stay get their base */
enum { NEAR = 100, FROM_POINTER };

/* each section of the linked file, each that objects have, and each symbol, in their order */
#define EACH_OUTPUT(o) for (struct output *o, **o##_at = outputs; (o = *o##_at); o##_at++)
#define EACH_OBJECT(o) for (struct object *o = objects; o; o = o->next)
#define EACH_LIBRARY(l) for (struct object *l = libraries; l; l = l->next)
#define EACH_SECTION_OF(o, s) \
    for (struct section *s = (o)->sections; s < (o)->sections + (o)->sections_len; s++)
#define EACH_SECTION(s) EACH_OBJECT(s##_of) EACH_SECTION_OF(s##_of, s)
#define EACH_SYMBOL(s) for (struct symbol *s = symbols; s; s = s->later)
#define EACH_RELOCATION(s, r) \
    for (Elf64_Rela *r = s->relocations; r < s->relocations + s->relocations_len; r++)

/* ends with an error; of a file, or where something doesn't hold of it; of a section of it; and of
 * a relocation of that */
#define fail(...) (fprintf(stderr, __VA_ARGS__), end_line("\n"), exit(1))
#define fail_of(o, ...) (fprintf(stderr, "%s: ", (o)->path), fail(__VA_ARGS__))
#define demand(o, holds, otherwise) ((holds) ? (void)0 : fail_of(o, otherwise))
#define fail_in(s, ...) \
    (fprintf(stderr, "%s: %s: ", (s)->object->path, (s)->name), fail(__VA_ARGS__))
#define fail_at(s, r, ...) (print_place(s, r), fail(__VA_ARGS__))

/* a struct with these fields, for good */
#define NEW(type, ...) keep(&(type){__VA_ARGS__}, sizeof(type))

/* the length of one of ELF's structs in all files */
#define SIZE_OF(type) (is_narrow ? sizeof(Elf32_##type) : sizeof(Elf64_##type))

/* the bytes of a section in the linked file */
#define BYTES_OF(s) (s)->output->bytes + (s)->offset, (s)->len

/* Sections that are relaxed together, one after the other from `start` on: all of the linked file,
 * as far as the addresses of the command line allow it. Their offsets in it count from before bytes
 * are deleted. */
struct run {
    struct linker_utils_run is;
    struct linker_utils_block_head *heads; /* of the deltas */
    size_t heads_len;
};

/* A section of the linked file, or a part of it: long code has thunks between its parts, and one
 * header. Offsets in it count from before bytes are deleted. */
struct output {
    const char *name;
    uint64_t flags, align, len, element; /* of an element, where there is more than one byte */
    /* by the command line; at last, or if all bytes stayed; and in the file */
    uint64_t place, address, in_file;
    uint8_t *bytes;
    size_t room;
    /* in the file; by the command line; code that relaxes; the linker's own, of no object */
    bool has_bytes, is_placed, shrinks, is_own;
    uint16_t index;                      /* of its header; 0 where it has none */
    uint32_t type, info;                 /* in its header, as these two; of ordinary bytes if 0 */
    unsigned rank, priority, part;       /* its place among the others */
    const struct output *link;
    struct output *whole, *behind;       /* of a part: the first one, and the next */
    struct run *run;
    uint64_t base, gap; /* its offset in the run; where it shrinks the alignment before its end */
    struct linker_utils_item before; /* the alignment before it; of length 0 where there is none */
    struct section *first, *last;        /* of its parts, where it shrinks */
};

/* A version of a library. */
struct version {
    const char *name;
    uint32_t hash;
    uint16_t number; /* in the linked file; 0 where it needs none */
};

/* An object, an archive or a shared library. After an object's own symbols are those that
 * relocations get, with entries of the GOT for an addend each, or a thunk. A symbol of a library is
 * null where nothing can refer to it. */
struct object {
    struct object *next, *below; /* and in the stack of those that are being read */
    const char *path, *names;    /* of symbols, or an archive's of members */
    const uint8_t *bytes;
    const Elf64_Shdr *heads;
    struct section *sections;    /* one for each head */
    const struct section *table; /* of its symbols; null: none */
    const Elf64_Sym *mentions;   /* of its symbols, as it says itself */
    struct symbol **symbols;     /* as all objects say */
    int64_t *addends;            /* of these; null where all are 0 */
    struct linker_utils_facts_snapshot *facts; /* of these, as rewrites were chosen by them */
    size_t len, sections_len, symbols_len, mentions_len, resolved_len, symbols_room, addends_room;
    size_t facts_len, facts_room, names_len;
    bool is_threaded, is_compressed; /* it has thread-local symbols; the shortest instructions */
    bool *is_loaded;               /* of an archive, by half of a member's offset */
    const char *name;              /* of a library, as programs name it */
    uint32_t name_at;              /* in the linked file */
    struct version *versions;      /* by number */
    const struct section *numbers; /* of its symbols' versions; null where it has none */
};

/* A section of an object, or code that the linker adds. Offsets of relocations count from it. */
struct section {
    struct object *object; /* null where the linker itself adds it */
    const char *name;
    const Elf64_Shdr *head, *table; /* of its relocations: null where it has none */
    struct output *output;          /* null where it is left out */
    struct section *behind;         /* the next one in code that shrinks */
    uint64_t offset, len;           /* in the output */
    Elf64_Rela *relocations;
    struct linker_utils_deletion *deleted; /* by rewrites, in their order */
    bool *kept_words; /* by relocations of words of addresses: which have to stay */
    uint32_t relocations_len, deleted_len, first_item, items_len, gap; /* before it, in such code */
    /* SHF_EXCLUDE, or of a group that an earlier object has too; loads of addresses in the GOT;
     * ULEB128 numbers that are added to */
    bool is_discarded, has_loads, has_numbers;
};

/* Its first 64 bytes are what each pass over all symbols reads. `needs_stub`: it is an indirect
 * function. `is_imported`, `is_exported`: other files define it or may replace it, or may see it.
 * `is_canonical`: its stub is its address in all files. `has_group`: an object has a group of its
 * name. `is_saver`: it is of `define_runs`. `is_far`: 32 bits may not hold each distance to it.
 * `is_required`: a library refers to it, not only weakly. */
struct symbol {
    struct output *output; /* null where the address is absolute, and where nothing defines it */
    uint64_t offset;       /* in the output; until it is placed that of the member in its archive */
    Elf64_Sym elf;
    struct symbol *later;  /* as objects mention them */
    struct entry *entries; /* in the GOT */
    uint32_t dynamic;      /* in the table of dynamic symbols */
    uint16_t version;      /* in its library */
    bool is_listed : 1, needs_stub : 1, is_thunk : 1, is_imported : 1, is_exported : 1;
    bool is_copied : 1, has_stub : 1, is_canonical : 1, has_group : 1, is_saver : 1, is_far : 1;
    bool is_required : 1;
    uint32_t hash;               /* of a dynamic one's name */
    const struct object *object; /* null where only an index of an archive names it */
    const char *name;
    struct object *archive;  /* which can define it; null where none can */
    uint64_t stub;           /* to a function of another file, where `has_stub` */
    struct symbol *thunks;   /* to it */
    struct object *library;  /* the first that defines it; null where none does */
    const Elf64_Sym *there;  /* as that has it */
};

/* An entry of the GOT. */
struct entry {
    struct entry *next; /* of its symbol */
    int64_t addend;     /* on AArch64 and PowerPC64 the entry is of S + A */
    uint64_t offset;
    uint32_t class;     /* `enum linker_utils_entry_class` */
};

/* What the library says of each type of relocations, computed once; the row has a name then. */
SHARED struct kind {
    struct linker_utils_row row;
    struct linker_utils_requirements needs[2]; /* with the addend 1; of a thread-local symbol */
    uint32_t role;                             /* `enum linker_utils_role`, at a ULEB128 number */
    bool is_direct[256]; /* by `st_other`: a branch that reaches needs no thunk */
} kinds[2048];

/* The TLS segment: where its image is, its length and alignment, and what offsets count from. */
SHARED struct tls {
    uint64_t image, len, align;
    struct linker_utils_origins origins;
    bool has_base; /* whether `module_base` is at the thread pointer, or at the module's origin */
} tls;

SHARED uint16_t machine;
SHARED bool is_narrow; /* files are of ELFCLASS32 */
/* `e_flags` of all objects; the kind of stubs to the address in a word, by whether code is protected */
SHARED uint32_t machine_flags, load_kind;
/* whether a dynamic linker loads the linked file, whether the machine's code may become shorter,
 * whether instructions are rewritten that need not be, whether PowerPC64's local-exec is, which
 * ld.lld leaves, and RISC-V's addresses near the global pointer; whether an object says that code is
 * on the stack */
SHARED bool is_dynamic, shrinks, relaxes, has_short_offsets, relaxes_near, has_code_on_stack;
SHARED bool has_far_symbols;
SHARED struct linker_utils_link linked; /* its addresses so far as these are known */
SHARED struct linker_utils_dynamic_types types;
SHARED struct linker_utils_got known_got; /* likewise */
SHARED const char *own_name;         /* of a shared library, by `-soname`; null where it has none */
SHARED struct object *objects, *libraries; /* in the order in which they are read */
/* all that objects mention, in their order; `_TLS_MODULE_BASE_`, null where no object requires it;
 * and what has the entry of the GOT that is the module's, if any */
SHARED struct symbol *symbols, *module_base, module;
/* all, and null after them; those of the linker; and those of these that are null where there are
 * none */
SHARED struct output *outputs[MOST_OUTPUTS + 3];
SHARED struct output *headers, *got, *stubs, *slots, *rela, *frames, *index_of, *bss, *note;
SHARED struct output *relr, *interpreter, *dynamic, *dynsym, *dynstr, *hash_table, *versym, *verneed;
SHARED size_t symbols_len, outputs_len;
SHARED uint64_t span; /* the length of the linked file's addresses */
SHARED struct linker_utils_unrelaxable_groups *kept; /* which groups of the last object stay */

static inline int order(uint64_t a, uint64_t b) { return a < b ? -1 : a > b; }

static inline uint64_t round_up(uint64_t at, uint64_t align) {
    return (at + align - 1) & ~(align - 1);
}

/* By the number that each begins with. */
static inline int by_number(const void *left, const void *right) {
    return order(*(const uint64_t *)left, *(const uint64_t *)right);
}

static inline unsigned bind_of(const struct symbol *s) { return ELF64_ST_BIND(s->elf.st_info); }
static inline unsigned stt_of(const struct symbol *s) { return ELF64_ST_TYPE(s->elf.st_info); }
static inline unsigned visibility_of(const struct symbol *s) { return s->elf.st_other & 3; }
static inline bool is_defined(const struct symbol *s) { return s->elf.st_shndx != SHN_UNDEF; }
static inline bool is_thread_local(const struct symbol *s) { return stt_of(s) == STT_TLS; }
static inline bool is_ifunc(const struct symbol *s) {
    return stt_of(s) == STT_GNU_IFUNC && is_defined(s) && !s->is_imported;
}
static inline bool is_undefined_weak(const struct symbol *s) {
    return !is_defined(s) && bind_of(s) == STB_WEAK && !s->is_imported;
}

static inline uint32_t type_of(const Elf64_Rela *r) { return ELF64_R_TYPE(r->r_info); }

/* The symbol of a relocation of a section. */
#define symbol_at(s, r) ((s)->object->symbols[ELF64_R_SYM((r)->r_info)])

/* How many bytes a word with an address has. */
static inline uint64_t word_len(void) { return SIZE_OF(Addr); }
static inline uint16_t class_bit(void) { return is_narrow ? LINKER_UTILS_CLASS32 : 0; }

/* How many bytes the shortest instruction has. */
static inline uint64_t code_unit(void) { return linker_utils_code_unit(machine, machine_flags); }

/* Reads ahead the symbol of a relocation that comes soon. */
static inline void expect_symbol(const struct section *s, const Elf64_Rela *r) {
    if (r + 8 < s->relocations + s->relocations_len) __builtin_prefetch(symbol_at(s, r + 8));
}

/* Has a relocation do nothing. */
static inline void drop(Elf64_Rela *r) { r->r_info = ELF64_R_INFO(ELF64_R_SYM(r->r_info), 0); }

/* main.c */
void progress(const char *step, const struct object *o), end_line(const char *end);
void expect_ok(uint32_t status);
void *zeros(uint64_t count, size_t size), *take(uint64_t count, size_t size);
void *grow(void *array, size_t need, size_t *room, size_t size);
void *keep(const void *value, size_t size);
/* objects.c */
void read_heads(struct object *o, uint16_t type, const char *otherwise);
const char *text_at(const struct section *s, uint64_t at);
const void *table_of(const struct object *o, const Elf64_Shdr *head, size_t size, size_t *len);
void read_file(const char *path), load_member(struct object *a, uint64_t offset);
/* libraries.c */
void read_library(struct object file), find_version(struct symbol *s);
/* symbols.c */
uint32_t hash_of(const char *name);
struct symbol *named(const char *name), *named_by(const char *name, uint32_t hash);
void offer(const char *name, struct object *a, uint64_t member), list_symbol(struct symbol *s);
void resolve(struct symbol *known, struct symbol *s), define_symbols(void), place_symbols(void);
int rank(const struct symbol *s);
bool is_here(const struct symbol *s), is_needed(const struct symbol *s);
/* layout.c */
struct output *output_of(const char *name);
uint64_t make_room(struct output *o, uint64_t align, uint64_t len);
uint64_t append(struct output *o, uint64_t align, const void *bytes, uint64_t len);
uint64_t address_of(const struct output *o, uint64_t offset);
uint32_t add_name(struct output *o, const char *text);
struct linker_utils_item alignment_item(uint64_t at, uint64_t align, uint64_t len);
void add_section(struct section *s), copy_section(struct section *s), sort_outputs(void);
void add_part_of(struct output *o, struct section *s, uint64_t align);
void place_outputs(void), set_addresses(void);
/* relocate.c */
void print_place(const struct section *s, const Elf64_Rela *r);
void check(const struct section *s, const Elf64_Rela *r, uint32_t status);
void read_relocations(struct section *s);
struct kind *ask_kind(const struct section *s, const Elf64_Rela *r, struct kind *kind);
static inline struct kind *kind_of(const struct section *s, const Elf64_Rela *r) {
    struct kind *kind = &kinds[type_of(r) < 2048 ? type_of(r) : 2047];
    return *kind->row.name ? kind : ask_kind(s, r, kind);
}
/* What a relocation requires. The addend of its entry is its own, or 0. */
static inline struct linker_utils_requirements needs_of(const struct section *s,
                                                        const Elf64_Rela *r) {
    struct linker_utils_requirements needs = kind_of(s, r)->needs[is_thread_local(symbol_at(s, r))];
    needs.entry_addend *= r->r_addend;
    return needs;
}
struct linker_utils_symbol known_symbol(const struct symbol *s, int64_t addend);
struct linker_utils_section section_of(const struct section *s);
void relocate_section(struct section *s, const struct linker_utils_object *known);
/* rewrite.c */
void rewrite_object(struct object *o, uint32_t first, uint32_t last), relocate(void);
/* entries.c */
void require(struct object *o), make_entries(void), write_entries(void), write_stubs(void);
bool add_thunks(void);
uint64_t add_slot(struct symbol *s, uint32_t type);
/* dynamic.c */
void bind_symbols(void), make_imports(void), make_dynamic(void);
void import(struct section *s, Elf64_Rela *r, const struct linker_utils_requirements *needs);
void add_row(struct output *o, uint64_t offset, uint32_t type, struct symbol *s, int64_t addend);
void fill_entry(struct symbol *s, const struct entry *e);
bool write_dynamic(void);
/* class32.c */
/* the entries of a file's table as those of ELFCLASS64, and those as a file has them */
#define CONVERSIONS_OF(type) \
    const void *wide_##type(const void *, size_t count), *cut_##type(const void *, size_t count);
CONVERSIONS_OF(Ehdr) CONVERSIONS_OF(Shdr) CONVERSIONS_OF(Phdr) CONVERSIONS_OF(Sym)
/* properties.c, relax.c, frames.c, output.c */
uint64_t read_frames(const struct section *s, const uint8_t *bytes, uint8_t *rows);
void merge_properties(const char *flag), relax(void), index_frames(void);
Elf64_Sym symbol_of(const struct symbol *s, uint32_t name);
void write_file(const char *path, uint64_t entry, bool has_symbols);

#endif
