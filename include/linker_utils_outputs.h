/* SPDX-License-Identifier: MIT OR Apache-2.0 */
/* Further calls of linker_utils.h, which includes this file, on outputs: what a linker adds to one,
 * packed relative relocations, program properties, lazy PLTs, and places of stubs. */
#ifndef LINKER_UTILS_OUTPUTS_H
#define LINKER_UTILS_OUTPUTS_H

#ifndef LINKER_UTILS_H
#error "Include linker_utils.h."
#endif

/* ---- Outputs: what a linker adds to one, by architecture. Each call takes O(1), except for copies
 * of texts. */

/* The types of the dynamic relocations that a linker emits. */
struct linker_utils_dynamic_types {
    uint32_t word; /* a word with S + A */
    uint32_t relative; /* a word with the load address plus A */
    uint32_t glob_dat; /* a word of the GOT with S: `word` where the psABI has no type of its own */
    uint32_t jump_slot; /* a word of the PLT's GOT with S */
    uint32_t copy; /* a copy of a variable of a shared library */
    uint32_t irelative; /* a word with what the function at the load address plus A returns */
    uint32_t module_number; /* a word with the number of the symbol's module */
    uint32_t module_offset; /* a word with the symbol's offset in the block of its module */
    uint32_t thread_offset; /* a word with the symbol's offset from the thread pointer */
    uint32_t descriptor; /* a TLS descriptor, of two words; 0 where the psABI has none */
};

/* The dynamic relocations of an architecture. */
LINKER_UTILS_MUST_USE uint32_t linker_utils_get_dynamic_types(
    uint16_t machine, struct linker_utils_dynamic_types *types);

/* Writes the name of one of these types, as "R_X86_64_RELATIVE". LINKER_UTILS_UNKNOWN_RELOCATION;
 * LINKER_UTILS_TOO_SHORT. */
LINKER_UTILS_MUST_USE static inline uint32_t linker_utils_dynamic_name(
    uint16_t machine, uint32_t r_type, uint8_t *name, size_t name_len, size_t *name_used);

/* The types of the dynamic relocations of a GOT entry's words; 0 for a word that has none, whose
 * value is known when the output is linked. */
struct linker_utils_word_types {
    uint32_t first; /* the type of a TLS descriptor writes both words */
    uint32_t second;
};

/* The dynamic relocations of an entry of a class, by `enum linker_utils_entry_class`. `is_bound`:
 * its symbol's definition is in this output and no other can take its place. `is_executable`: the
 * output is a position-independent executable, and not a shared library. In a shared library the
 * second word of a bound symbol's LINKER_UTILS_ENTRY_MODULE_OFFSET has its offset from
 * `module_block` of `struct linker_utils_origins`. LINKER_UTILS_UNKNOWN_ENTRY_CLASS. */
LINKER_UTILS_MUST_USE uint32_t linker_utils_dynamic_words(
    uint16_t machine, uint32_t entry_class, bool is_bound, bool is_executable,
    struct linker_utils_word_types *words);

/* How many words of 8 bytes an entry of a class has; 0 of a number that is no class. */
uint64_t linker_utils_get_entry_words(uint32_t entry_class);

/* `e_flags` of two objects that are linked. The order of objects doesn't matter.
 * LINKER_UTILS_DIFFERENT_FLAGS where the psABI keeps the two apart, as RISC-V's lp64 and lp64d, or
 * where one of them has a bit that the psABI doesn't define. */
LINKER_UTILS_MUST_USE uint32_t linker_utils_join_flags(
    uint16_t machine, uint32_t first, uint32_t second, uint32_t *joined);

/* `e_flags` of an output, from those that `linker_utils_join_flags` made of its objects:
 * PowerPC64's objects may leave the version of the ABI open, and an output says that it is 2. Those
 * of a machine that isn't known stay. */
uint32_t linker_utils_output_flags(uint16_t machine, uint32_t joined);

/* The largest page, in bytes, for which an output has to be right. */
uint64_t linker_utils_page(uint16_t machine);

/* How many bytes the shortest instruction of an output with such `e_flags` has. */
uint64_t linker_utils_code_unit(uint16_t machine, uint32_t flags);

/* The byte at an offset of a gap in code, which counts from a multiple of 4. */
uint8_t linker_utils_filler(uint16_t machine, uint64_t offset);

/* Writes the path of the dynamic linker in glibc for an output with such `e_flags`.
 * LINKER_UTILS_NOT_PROVIDED where glibc has none for them; LINKER_UTILS_TOO_SHORT. */
LINKER_UTILS_MUST_USE static inline uint32_t linker_utils_interpreter(
    uint16_t machine, uint32_t flags, uint8_t *path, size_t path_len, size_t *path_used);

/* What an output's dynamic section says to the dynamic linker; all 0 for nothing. */
struct linker_utils_dynamic_facts {
    uint64_t first_entry; /* the address of the lazy PLT's first entry, after its head */
    /* Bits that an output of PowerPC64 has: PPC64_OPT_TLS if its calls of `__tls_get_addr` go by
     * `__tls_get_addr_opt`; PPC64_OPT_MULTI_TOC if it has more than one TOC; PPC64_OPT_LOCALENTRY
     * if calls of shared libraries' functions don't save the TOC pointer. */
    uint64_t options;
    bool has_lazy_plt;
    bool has_landing_plt;   /* indirect branches may go to the PLT's entries, as IBT and BTI want */
    bool has_signed_plt;    /* the PLT's entries authenticate what they load (`-z pac-plt`) */
    bool has_variant_calls; /* a jump slot's symbol has STO_AARCH64_VARIANT_PCS, or RISC-V's bit */
};

/* The entry with an index, from 0 on, of those that the dynamic section has by the psABI:
 * DT_AARCH64_BTI_PLT, DT_AARCH64_PAC_PLT, DT_AARCH64_VARIANT_PCS; DT_RISCV_VARIANT_CC;
 * DT_PPC64_GLINK, DT_PPC64_OPT. LINKER_UTILS_NOT_PROVIDED from their number on. */
struct linker_utils_dynamic_entry {
    uint64_t tag;
    uint64_t value;
};
LINKER_UTILS_MUST_USE uint32_t linker_utils_get_dynamic_entry(
    uint16_t machine, const struct linker_utils_dynamic_facts *facts, size_t index,
    struct linker_utils_dynamic_entry *entry);

/* A symbol that a linker defines if an object refers to it. */
struct linker_utils_provided_symbol {
    uint64_t offset; /* how many bytes above its place */
    uint32_t place; /* `enum linker_utils_symbol_place` */
};

/* The symbol with an index, from 0 on: its name, and where it is. LINKER_UTILS_NOT_PROVIDED where
 * there is none with this index or above; LINKER_UTILS_TOO_SHORT. */
LINKER_UTILS_MUST_USE static inline uint32_t linker_utils_get_provided_symbol(
    uint16_t machine, size_t index, uint8_t *name, size_t name_len, size_t *name_used,
    struct linker_utils_provided_symbol *symbol);

/* Functions that compilers call and linkers provide, which save or restore registers, in one run of
 * code. They take registers that stubs change, so that branches have to reach them directly: a
 * linker may place a run more than once. */
struct linker_utils_save_restore_routines {
    uint64_t len; /* how many instructions of 4 bytes the run has */
    /* The number in the first function's name. That with a number n begins 4 * `spacing` * (n -
     * `first`) bytes after the run's start. */
    uint32_t first;
    uint32_t count;   /* how many functions there are */
    uint32_t spacing; /* how many instructions, from 1 on, a function begins before the next */
};

/* The run with an index, from 0 on. `prefix` is the functions' names without the number, which
 * stands after it in decimal. LINKER_UTILS_NOT_PROVIDED where there is none with this index or
 * above; LINKER_UTILS_TOO_SHORT. */
LINKER_UTILS_MUST_USE static inline uint32_t linker_utils_get_save_restore_routines(
    uint16_t machine, size_t index, uint8_t *prefix, size_t prefix_len, size_t *prefix_used,
    struct linker_utils_save_restore_routines *run);

/* The instruction at an index of the run with an index. LINKER_UTILS_NOT_PROVIDED where either is
 * too large. */
LINKER_UTILS_MUST_USE uint32_t linker_utils_provided_word(
    uint16_t machine, size_t run, uint64_t index, uint32_t *word);

/* ---- Packed relative relocations: the words of a section of type SHT_RELR, each of 8 bytes. The
 * dynamic linker adds the load address to the 8 bytes at each address that they relocate. An even
 * word is an address. An odd word is a bitmap of the 63 words of 8 bytes that begin 8 bytes above
 * the address before it, or after those of the bitmap before it. Both calls take O(n). */

/* Writes the words that relocate `addresses` to the beginning of `words`: no fewer words relocate
 * the same. `needed` becomes how many they are, with LINKER_UTILS_TOO_SHORT too. Of the first
 * address that is no multiple of 8 LINKER_UTILS_UNALIGNED_ADDRESS, or that isn't above the one
 * before it LINKER_UTILS_NOT_ASCENDING; LINKER_UTILS_TOO_SHORT, of `words`. */
LINKER_UTILS_MUST_USE static inline uint32_t linker_utils_write_relr(
    const uint64_t *addresses, size_t addresses_len, uint64_t *words, size_t words_len,
    size_t *needed);

/* Writes the addresses that `words` relocate to the beginning of `addresses`, in the order of the
 * words. `needed` becomes how many they are, with LINKER_UTILS_TOO_SHORT too; SIZE_MAX if those are
 * more. LINKER_UTILS_NO_ADDRESS, where the first word is a bitmap. Of the first word that isn't
 * well-formed LINKER_UTILS_UNALIGNED_ADDRESS, if it is even, or LINKER_UTILS_TOO_LARGE.
 * LINKER_UTILS_TOO_SHORT, of `addresses`. */
LINKER_UTILS_MUST_USE static inline uint32_t linker_utils_read_relr(
    const uint64_t *words, size_t words_len, uint64_t *addresses, size_t addresses_len,
    size_t *needed);

/* ---- Program properties: the notes of `.note.gnu.property` (Linux extensions to the generic ABI),
 * with `namesz` 4, `n_type` 5 and the name "GNU". The output's properties are those of the first
 * input, merged with themselves and then with those of each other input, in any order. An input
 * without the section has none. In `number` is what the call returns: with LINKER_UTILS_OK, and
 * with LINKER_UTILS_TOO_SHORT, how many there are or have to be. */

/* A property of a note. */
struct linker_utils_property {
    uint32_t kind;    /* its type, `pr_type` */
    uint64_t value;   /* 0 of a type without a value, or without a rule */
    uint64_t version; /* the value's second 8 bytes, which only AArch64's PAuth has; else 0 */
};

/* Whether a type has a rule by which its values go together. `linker_utils_merge_properties` drops
 * others, which a linker may report. False where the library has no such machine. */
bool linker_utils_is_property_known(uint16_t machine, uint32_t kind);

/* The bit of a property that says that indirect branches go only to instructions that are there for
 * them: x86-64's IBT or AArch64's BTI. The output's property has it if all inputs' have it, or if
 * the linker adds it to them (`-z force-ibt` and `-z force-bti`). Then the output takes
 * LINKER_UTILS_STUB_LANDING_LOAD, or a lazy PLT of a form for such code. */
struct linker_utils_landing_property {
    uint64_t bit;  /* as a mask of the property's value */
    uint32_t kind; /* the property's type */
};

/* What says that the architecture's code is so protected. LINKER_UTILS_NOT_PROVIDED where it has no
 * such code. O(1). */
LINKER_UTILS_MUST_USE uint32_t linker_utils_get_landing_property(
    uint16_t machine, struct linker_utils_landing_property *landing);

/* Writes the properties of a section's `notes` to the beginning of `properties`. Of the first note
 * or property that isn't well-formed, with its offset in `number`, LINKER_UTILS_NOT_PROPERTIES,
 * LINKER_UTILS_CUT_OFF, LINKER_UTILS_WRONG_SIZE, or LINKER_UTILS_NOT_ASCENDING, where its type
 * isn't above the one before it; LINKER_UTILS_TOO_SHORT, of `properties`. O(n). */
LINKER_UTILS_MUST_USE static inline uint32_t linker_utils_read_properties(
    uint16_t machine, const uint8_t *notes, size_t notes_len,
    struct linker_utils_property *properties, size_t properties_len, size_t *number);

/* The properties of two inputs, or of all inputs so far and of one more. Of several of one type in
 * a list the first counts. */
struct linker_utils_property_inputs {
    const struct linker_utils_property *first; size_t first_len;
    const struct linker_utils_property *second; size_t second_len;
};

/* Writes what the properties of two inputs make to the beginning of `properties`, with ascending
 * types: the order of inputs doesn't matter. LINKER_UTILS_DIFFERENT_VALUES, with the type in
 * `number`; LINKER_UTILS_TOO_SHORT, of `properties`. O(n^2). */
LINKER_UTILS_MUST_USE static inline uint32_t linker_utils_merge_properties(
    uint16_t machine, const struct linker_utils_property_inputs *property_inputs,
    struct linker_utils_property *properties, size_t properties_len, size_t *number);

/* Writes the note of `properties` to the beginning of `note`, and its length to `number`: a
 * multiple of 8, and 0 of no properties. LINKER_UTILS_TOO_LARGE, with 2^27 properties or more; of
 * the first that can't be written LINKER_UTILS_NOT_ASCENDING, with its index in `number`, or with
 * its type LINKER_UTILS_UNKNOWN_PROPERTY or LINKER_UTILS_DOES_NOT_FIT; LINKER_UTILS_TOO_SHORT, of
 * `note`. O(n). */
LINKER_UTILS_MUST_USE static inline uint32_t linker_utils_write_properties(
    uint16_t machine, const struct linker_utils_property *properties, size_t properties_len,
    uint8_t *note, size_t note_len, size_t *number);

/* ---- Lazy PLTs: functions of other outputs that the dynamic linker looks up at their first
 * call. */

/* A lazy PLT of an architecture: its header, and after it an entry for each function. An entry
 * jumps to the address that its word of `.got.plt` has. That is the function's only once the
 * dynamic linker has looked it up; until then the word leads on to the header, which jumps to the
 * dynamic linker. */
struct linker_utils_lazy_plt {
    uint64_t header_len;   /* in bytes */
    uint64_t entry_len;    /* in bytes */
    uint64_t alignment;    /* what addresses of both are multiples of */
    uint64_t header_words; /* how many words `.got.plt` has before those of entries */
};

/* The lazy PLT of an architecture in a form, by `enum linker_utils_lazy_form`. AArch64's entries
 * have 24 bytes in all forms but LINKER_UTILS_LAZY_PLAIN. LINKER_UTILS_UNKNOWN_STUB where the
 * architecture has none of the form. */
LINKER_UTILS_MUST_USE uint32_t linker_utils_get_lazy_plt(
    uint16_t machine, uint32_t form, struct linker_utils_lazy_plt *plt);

/* Writes the header that stands at the address `header`, of the `.got.plt` at `words`, to the
 * beginning of `bytes`. PowerPC64's is `__glink_PLTresolve`, and its `.got.plt` is the section
 * `.plt`. LINKER_UTILS_UNKNOWN_STUB; LINKER_UTILS_TOO_SHORT; and where `words` are out of reach
 * the status of the first such field, as `linker_utils_relocate`. */
LINKER_UTILS_MUST_USE static inline uint32_t linker_utils_write_lazy_header(
    uint16_t machine, uint32_t form, uint64_t header, uint64_t words, uint8_t *bytes,
    size_t bytes_len);

/* What an entry is written from. */
struct linker_utils_lazy_entry {
    uint64_t address; /* its own address */
    uint64_t word;    /* the address of its word in `.got.plt` */
    uint64_t header;  /* the header's address */
    uint64_t index;   /* the index of its relocation in `.rela.plt` */
};

/* Writes an entry to the beginning of `bytes`. The errors of `linker_utils_write_lazy_header`. */
LINKER_UTILS_MUST_USE static inline uint32_t linker_utils_write_lazy_entry(
    uint16_t machine, uint32_t form, const struct linker_utils_lazy_entry *entry, uint8_t *bytes,
    size_t bytes_len);

/* What the word with an index at the start of `.got.plt` holds in each form, by the addresses of
 * `.dynamic` and of the header. LINKER_UTILS_NOT_PROVIDED where that is no word before those of
 * entries. */
LINKER_UTILS_MUST_USE uint32_t linker_utils_lazy_header_word(
    uint16_t machine, size_t index, uint64_t dynamic, uint64_t header, uint64_t *word);

/* What the word of the entry at an address holds until the dynamic linker has looked up the
 * function, by the addresses of the header and of `.dynamic`. PowerPC64's the dynamic linker puts
 * there itself, from DT_PPC64_GLINK, which is 32 below the first entry: in an output its section
 * has no contents. 0 where the architecture has none of the form. */
uint64_t linker_utils_lazy_entry_word(uint16_t machine, uint32_t form, uint64_t entry,
                                      uint64_t header, uint64_t dynamic);

/* ---- Routes by types: when `linker_utils_route_at` goes by a stub.
 *
 * - Directly, where its value can be written, and on PowerPC64 the TOC pointer is as the function
 *   and the caller expect. It goes to the symbol's `stub`, if that isn't 0, else to the symbol, on
 *   PowerPC64 to its local entry point.
 * - By a stub of the kind LINKER_UTILS_STUB_JUMP where it doesn't reach, and may go by one:
 *   R_AARCH64_CALL26 and R_AARCH64_JUMP26, R_LARCH_B26, R_PPC64_REL24 and R_PPC64_REL24_NOTOC.
 *   RISC-V's and x86-64's calls reach as far as a stub would. No stub leads to what nothing
 *   defines.
 * - On PowerPC64 by such a stub also at R_PPC64_REL24 to a function whose bits 5 to 7 of `st_other`
 *   are 1. At R_PPC64_REL24_NOTOC it is one where they are above 1. R_PPC64_REL14 to the former is
 *   LINKER_UTILS_NO_ROOM.
 *
 * A function of another output, and an indirect one, is for `linker_utils_route_by_word`: at
 * R_PPC64_REL24 its stub stores the TOC pointer. Where a stub does so the route's `entry` is 0 and
 * the stub's isn't, and `ld 2,24(1)` has to be in place of the `nop` after the branch. */

/* ---- Places of stubs between sections, so that each branch reaches its target or a stub of it. */

/* A branch that may need a stub. What it reaches may lie `max_backward` bytes below it, and less
 * than `max_forward` bytes above it. */
struct linker_utils_branch {
    uint64_t offset;
    size_t target; /* an index of the table of targets */
    uint64_t max_backward;
    uint64_t max_forward;
};

/* What each stub is like. */
struct linker_utils_stub_shape {
    uint64_t len;          /* in bytes */
    uint64_t unit;         /* the stubs at a boundary take a multiple of this, in bytes */
    uint64_t max_backward; /* how far below the stub its target may lie */
    uint64_t max_forward;  /* the target lies less than this above the stub */
};

/* The branches, and where stubs may be. Offsets are those of a run of sections, or their addresses
 * before there are stubs. What is at a boundary is after its stubs. */
struct linker_utils_branches {
    const struct linker_utils_branch *branches; size_t branches_len;
    const uint64_t *targets; size_t targets_len; /* the offset of each */
    const uint64_t *boundaries; size_t boundaries_len; /* between sections, ascending */
};

/* A stub that is placed. */
struct linker_utils_placed_stub {
    uint64_t place;  /* where it is, with the stubs before it */
    size_t boundary; /* the index of the boundary at which it stands */
    size_t target;   /* the index of its target */
};

/* The stubs, and what becomes of branches and boundaries. */
struct linker_utils_placement {
    /* The first `stubs_used` elements, of at least `linker_utils_most_stubs`. */
    struct linker_utils_placed_stub *stubs; size_t stubs_len;
    size_t stubs_used;
    size_t *ways; size_t ways_len; /* of each branch its stub's index, or SIZE_MAX for its target */
    /* For each boundary how many bytes of stubs are before those at it, and then how many in all.
     * What was at an offset is so much higher as this says for the first boundary above it. */
    uint64_t *before; size_t before_len;
};

/* How many stubs there are at most for n branches: two for each, but at most SIZE_MAX. */
size_t linker_utils_most_stubs(size_t branches_len);

/* Places stubs at boundaries between sections. Where the offsets of branches ascend, more of them
 * share a stub. Each stub has a branch that goes by it. At a boundary a target has at most three:
 * one next to branches before it, one next to branches after it, and one of branches farther away.
 *
 * The first that applies of these, with the first index of it: LINKER_UTILS_DIFFERENT_LENGTHS where
 * `ways_len` isn't `branches_len`, or `before_len` isn't `boundaries_len` + 1;
 * LINKER_UTILS_SHORT_MEMORY where `stubs_len` is below `linker_utils_most_stubs(branches_len)`;
 * LINKER_UTILS_STUB_WITHOUT_LENGTH; LINKER_UTILS_NOT_ASCENDING, where the boundary after the one at
 * the index `faulty` is below it; LINKER_UTILS_NO_TARGET, of the branch at `faulty`;
 * LINKER_UTILS_CODE_TOO_LONG; LINKER_UTILS_OUT_OF_MEMORY; LINKER_UTILS_NO_BOUNDARY, of the branch
 * at `faulty`; LINKER_UTILS_STUB_TOO_FAR, of the target at `faulty`. A few passes of O((n + s) log
 * b) for n branches, s stubs and b boundaries. It allocates. */
LINKER_UTILS_MUST_USE static inline uint32_t linker_utils_place_stubs(
    const struct linker_utils_branches *branches, const struct linker_utils_stub_shape *shape,
    struct linker_utils_placement *placement, size_t *faulty);

/* ---- Calls on PowerPC64 (64-bit ELF V2 ABI for Power, "Function Call Linkage Protocols" and
 * "Symbol Values").
 *
 * A function may have two entry points. The global one is at the symbol's value, and is entered
 * with its own address in r12, from which it makes its TOC pointer in r2. The local one is entered
 * with the TOC pointer in r2. Bits 5 to 7 of `st_other`, as a number v, say where it is:
 *   0       at the global one. The function neither uses nor changes r2.
 *   1       at the global one. The function doesn't use r2, and may have changed it on return.
 *   2 to 6  2^v bytes past the global one: 4, 8, 16, 32 or 64.
 *   7       reserved
 * Which address a call takes as `symbol`, and what has to be after the call:
 * - R_PPC64_REL24 and R_PPC64_REL14: the caller has its TOC pointer in r2, and expects it there on
 *   return. For a function of the same output with the same TOC and v other than 1 the address is
 *   that of the local entry point. The `nop` after the call, if there is one, stays then. Else it
 *   is that of a stub, which stores r2 at r1 + 24 and enters the function. It goes through the PLT
 *   with the doubleword there in r12, or where v is 1 directly. Then the `nop` after the call has
 *   to become `ld 2,24(1)`, which `linker_utils_choose` at the R_PPC64_REL24 says where
 *   `may_change_toc` is set. If no `nop` is there, as after the `b` of a tail call, the rewrite is
 *   NO_OP, the stub can't be used, and linkers report an error.
 * - R_PPC64_REL24_NOTOC: the caller keeps nothing in r2, and no `nop` is after. For a function of
 *   the same output with v 0 or 1 the address is its own. With v from 2 up it is that of a stub
 *   that sets r12 to the global entry point, by its own place, and goes there. Through the PLT it
 *   sets r12 to the doubleword there. Neither stub stores r2.
 * - R_PPC64_PLT16_HA, R_PPC64_PLT16_LO_DS, R_PPC64_PLT_PCREL34 and its _NOTOC load the doubleword
 *   of `.plt` themselves. `plt_entry` is its address, without which they have no value, and no stub
 *   is needed. R_PPC64_PLTSEQ and R_PPC64_PLTCALL, and their _NOTOC, mark the other instructions of
 *   such a call, and the `ld 2,24(1)` is in the object.
 * - `bl __tls_get_addr` has R_PPC64_TLSGD or R_PPC64_TLSLD and then R_PPC64_REL24 or
 *   R_PPC64_REL24_NOTOC at the same offset. After a rewrite of the former the latter is skipped. A
 *   call whose argument a prefixed instruction computes has R_PPC64_REL24_NOTOC. Where that is the
 *   relocation after it, R_PPC64_TLSGD or R_PPC64_TLSLD is chosen with `is_relaxable`. */

#endif
