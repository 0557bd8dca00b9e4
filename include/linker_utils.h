/* SPDX-License-Identifier: MIT OR Apache-2.0
 * The verified core of a linker, for C99 and C++11, or later, on little-endian hosts of 64 bits. It
 * has the calls of a link in the order in which a linker makes them. Examples are in docs/MANUAL.md
 * and `bindings/c`. Further calls, and what is particular to single relocation types, are in
 * linker_utils_relocations.h, linker_utils_rewriting.h, linker_utils_relaxing.h,
 * linker_utils_outputs.h and linker_utils_reading.h. Statuses, other numbers and the tables of
 * choices are in linker_utils_lists.h, and inline functions in linker_utils_inline.h. All these are
 * included. For constants and names of all relocation types include linker_utils_types.h.
 *
 * What holds for every call:
 * - `machine` is ELF's `e_machine`, and `r_type` the low 32 bits of `r_info`. Bit 0 is the lowest.
 * - A call that returns `uint32_t` returns an `enum linker_utils_status`, except for
 *   `linker_utils_find`, `linker_utils_output_flags`, `linker_utils_forms_of` and
 *   `linker_utils_uleb128_role`: LINKER_UTILS_OK, or the first that applies of the errors that its
 *   comment names. Compilers warn where it isn't used. No other call fails.
 * - Of a machine that isn't known a status is LINKER_UTILS_UNKNOWN_ARCHITECTURE, before all others,
 *   and another result false or 0, unless the call says otherwise. Two calls don't read the machine
 *   of a `link`: `linker_utils_snapshot_facts` and `linker_utils_finish_gp_relaxation`.
 * - An error leaves all unchanged, unless the call says otherwise, but for `faulty`, which may be
 *   null. If the error is about one entry of an array, its index is written there; else nothing is.
 * - A slice is a pointer, null or not where the count after it is 0. No other pointer is null. All
 *   are aligned. What a call only writes need not be initialised.
 * - In a struct that a call reads 0 says that nothing is known, or that there is none. Facts of
 *   type `uint8_t` hold where they aren't 0; the library writes 1 and 0.
 * - All memory is the caller's: no call keeps a pointer. Only a call that may return
 *   LINKER_UTILS_OUT_OF_MEMORY allocates, and `linker_utils_deletions_mergeable`: these aren't for
 *   signal handlers, nor for a forked child of a process with threads.
 * - There is no global state. Threads may call at once and share what calls only read. What a call
 *   writes overlaps nothing else that it takes, and no other thread uses it meanwhile.
 * - With such arguments each call is defined, whatever the numbers and the bytes.
 */
#ifndef LINKER_UTILS_H
#define LINKER_UTILS_H

#include <stdbool.h>
#include <stddef.h>
#include <stdint.h>

#include "linker_utils_lists.h"

#define LINKER_UTILS_VERSION "0.1.0"
#define LINKER_UTILS_VERSION_NUMBER 100 /* 10000 * major + 100 * minor + patch, for `#if` */

#ifdef __cplusplus
extern "C" {
#endif

/* ---- The library and relocation types: which library a program has, and looking a type up. */

/* A constant sentence in English for each status, and another for all other numbers. */
static inline const char *linker_utils_status_text(uint32_t status);

/* The version of the library that the program runs with, as LINKER_UTILS_VERSION. */
const char *linker_utils_version(void);

/* Whether it is the archive that the prover's kit built, and not rustc's of the same source. */
bool linker_utils_is_proved(void);

/* The handle of a relocation type, which a linker may store in place of the machine and the type; 0
 * of a type without a meaning. `linker_utils_row_of` returns all that is known of it. */
uint32_t linker_utils_find(uint16_t machine, uint32_t r_type);

/* ---- Values and writes: of one relocation. LINKER_UTILS_UNKNOWN_RELOCATION is the first error. */

/* What a relocation's value is computed from, in the letters of
 * `enum linker_utils_relocation_kind`. Only what its formula names is read. "Values by types" in
 * linker_utils_relocations.h says which addresses these are of some types. */
struct linker_utils_operands {
    uint64_t symbol; /* S; of a thread-local symbol its address in the TLS segment's image */
    int64_t addend; /* A */
    uint64_t place; /* P: the address of the field */
    uint64_t got_entry; /* GOT + G, GD, LD, IE or DESC: the address of the entry that it requires */
    uint64_t got_base; /* GOT */
    uint64_t plt_entry; /* L: the PLT entry's address */
    uint64_t symbol_size; /* Z */
    uint64_t tls_base; /* what a thread-local offset counts from (`linker_utils_get_origins`) */
    bool has_got_entry; /* there is such an entry */
    bool has_plt_entry; /* else L is S, but PowerPC64's PLT16_* and PLT_PCREL34* require one */
    bool has_tls_base; /* the output has a TLS segment */
};

/* The operands S, A and P, and zeros. */
static inline struct linker_utils_operands linker_utils_operands_of(
    uint64_t symbol, int64_t addend, uint64_t place);

/* The value of a relocation: its formula, modulo 2^64 and read in two's complement.
 * LINKER_UTILS_NO_ENTRY or LINKER_UTILS_NO_TLS_BASE for what the formula has and there isn't;
 * LINKER_UTILS_NO_VALUE. */
LINKER_UTILS_MUST_USE uint32_t linker_utils_value(
    uint16_t machine, uint32_t r_type, const struct linker_utils_operands *operands,
    int64_t *value);

/* Writes a value to the bytes that `dest` begins with: to whole bytes its lowest bytes, lowest
 * first; in an instruction the bits that the relocation takes. All other bits are unchanged.
 * Relocations that add or subtract start from the existing number, and one without a value writes
 * nothing. "Writes by types" in linker_utils_relocations.h has what is particular to some types.
 * LINKER_UTILS_UNSUPPORTED of a pair at a ULEB128 number, for which there is
 * `linker_utils_write_uleb128_pair`, and of R_LARCH_CALL30, since no manual says how far its pair
 * goes; LINKER_UTILS_TOO_SHORT; LINKER_UTILS_MISALIGNED; LINKER_UTILS_OUT_OF_REACH. */
LINKER_UTILS_MUST_USE static inline uint32_t linker_utils_relocate(
    uint16_t machine, uint32_t r_type, int64_t value, uint8_t *dest, size_t dest_len);

/* ---- Sections: the values of all relocations of a section, by what a linker knows of symbols. */

/* A link: the machine, and what a linker knows of the output, addresses once they are known. */
struct linker_utils_link {
    uint64_t got_base; /* GOT (`linker_utils_get_got`) */
    uint64_t thread_origin; /* `thread_pointer` of `struct linker_utils_origins` */
    uint64_t module_origin; /* `module_block` of `struct linker_utils_origins` */
    uint64_t module_entry; /* the address of the output's LINKER_UTILS_ENTRY_MODULE */
    uint64_t global_pointer; /* RISC-V's `__global_pointer$`, for the calls of that name */
    uint16_t machine;
    bool has_tls; /* the output has a TLS segment, so that there are the two origins */
    bool is_executable; /* position-independent or not */
    bool is_fixed; /* it is always loaded at the address that it is linked for */
    bool has_near_symbols; /* code, GOT and symbols but absolute ones lie within 2 GiB - 64 KiB */
};

/* An object: arrays by the indexes of symbols that its relocations name (`r_sym`). Index 0 is no
 * symbol: all of its element is 0. Surveys write `unrelaxable_groups`. */
struct linker_utils_object {
    const struct linker_utils_symbol_facts *facts; size_t facts_len; /* once names are resolved */
    const struct linker_utils_symbol *values; size_t values_len; /* once addresses are known */
    struct linker_utils_unrelaxable_groups *unrelaxable_groups; size_t unrelaxable_groups_len;
    struct linker_utils_facts_snapshot *facts_snapshot; size_t facts_snapshot_len;
    bool *kept_high_parts; size_t kept_high_parts_len; /* by `.._survey_global_pointer` */
};

/* A section of an object. Only calls that rewrite, relocate or replace write its bytes, and only
 * those that rewrite or pack its relocations: for others both may be constants, by a cast. */
struct linker_utils_section {
    uint8_t *bytes; size_t bytes_len;
    void *relocations; size_t relocations_len; /* the file's `Elf64_Rela`s, at any alignment */
    uint64_t address; /* of the first byte, from which `r_offset` counts */
    uint64_t base; /* its input offset in a run that is relaxed */
    const struct linker_utils_deletion *deleted; size_t deleted_len; /* as rewrites list it */
    const struct linker_utils_resolved *resolved; size_t resolved_len; /* of each relocation */
};

/* A section of these bytes, and zeros. */
static inline struct linker_utils_section linker_utils_section_of(uint8_t *bytes, size_t bytes_len);

/* What a linker knows of a symbol once addresses are known. An entry that there isn't has the
 * address 0. A symbol with entries for several addends is several symbols of the array. */
struct linker_utils_symbol {
    uint64_t address; /* S; of a thread-local symbol its address in the TLS segment's image */
    uint64_t size; /* Z: `st_size` */
    uint64_t stub; /* of the stub or PLT entry by which branches go; 0 if they go to `address` */
    uint64_t address_entry; /* of its LINKER_UTILS_ENTRY_ADDRESS */
    uint64_t thread_entry; /* of its LINKER_UTILS_ENTRY_THREAD_OFFSET */
    uint64_t module_entry; /* of its LINKER_UTILS_ENTRY_MODULE_OFFSET */
    uint64_t descriptor; /* of its LINKER_UTILS_ENTRY_DESCRIPTOR */
    int64_t entry_addend; /* the addend of these four entries */
    uint8_t other; /* `st_other`, of which PowerPC64's branches take the local entry point */
    bool is_thread_local; /* STT_TLS */
    bool is_undefined_weak; /* weak, and nothing defines it: `address` isn't read */
};

/* How many elements of `memory` a section needs to be relocated: one for each relocation. */
static inline size_t linker_utils_relocate_memory(const struct linker_utils_section *section);

/* Writes the values of a section's relocations, or none; one without a value writes nothing. Fields
 * overlap only where they compose ("Sections by types" in linker_utils_relocations.h). `memory` may
 * be anything afterwards. O(n) for n relocations that ascend, and O(log n) for each low part of
 * RISC-V; else O(n log n), and O(n). LINKER_UTILS_SHORT_MEMORY where `memory_len` is below
 * `linker_utils_relocate_memory`. Then `faulty` is the first relocation that can't be written, by
 * an error of `linker_utils_value_at`; LINKER_UTILS_NOT_ALIGNED; LINKER_UTILS_NEEDS_STUB;
 * LINKER_UTILS_OUT_OF_REACH of LoongArch's parts of 32 bits; LINKER_UTILS_OVERLAPS;
 * LINKER_UTILS_OTHER_LENGTH; an error of `linker_utils_relocate`, LINKER_UTILS_TOO_SHORT also of an
 * offset past the end; an error of `linker_utils_write_uleb128_pair`. */
LINKER_UTILS_MUST_USE static inline uint32_t linker_utils_relocate_section(
    const struct linker_utils_link *link, const struct linker_utils_object *object,
    const struct linker_utils_section *section, uint64_t *memory, size_t memory_len,
    size_t *faulty);

/* ---- Needs: what relocations require of a linker, and what the entries of the GOT hold. */

/* What a relocation requires. */
struct linker_utils_requirements {
    int64_t entry_addend; /* of the entry; not 0 only on AArch64 and PowerPC64 */
    uint32_t entry_class; /* of the entry of the GOT, by `enum linker_utils_entry_class` */
    uint8_t is_branch; /* its value goes into a branch, conditional or not */
    uint8_t may_use_stub; /* a stub or a PLT entry may serve as its target */
    uint8_t stub_only_if_undefined; /* none is made for it of a symbol that the output defines */
    uint8_t is_word; /* it is a word of 8 bytes with S + A, which a dynamic linker can write too */
    uint8_t depends_on_load; /* what is written depends on where the output is loaded */
};

/* What a relocation requires, by whether its symbol is STT_TLS. Ask for the type that it has after
 * early rewrites. RISC-V's TLS descriptors are rewritten later: a group that isn't kept requires no
 * entry. LINKER_UTILS_UNKNOWN_RELOCATION. */
LINKER_UTILS_MUST_USE uint32_t linker_utils_needs(
    uint16_t machine, uint32_t r_type, int64_t addend, bool is_thread_local,
    struct linker_utils_requirements *required);

/* What offsets of thread-local symbols count from, as addresses in the TLS segment's image. */
struct linker_utils_origins {
    uint64_t thread_pointer; /* an offset from the thread pointer: the address it stands for */
    uint64_t module_block; /* an offset in the module's TLS block */
};

/* Both, modulo 2^64, by `p_vaddr`, `p_memsz` and `p_align` of PT_TLS. The last may be 0 for 1. */
LINKER_UTILS_MUST_USE uint32_t linker_utils_get_origins(
    uint16_t machine, uint64_t image, uint64_t image_len, uint64_t alignment,
    struct linker_utils_origins *origins);

/* The GOT. */
struct linker_utils_got {
    uint64_t base; /* what offsets from the GOT count from */
    uint64_t header; /* its first word, if that isn't an entry */
    uint8_t has_header; /* whether the first word isn't an entry */
};

/* What a linker knows of the GOT by its address and `_DYNAMIC`'s, 0 where there is none. */
LINKER_UTILS_MUST_USE uint32_t linker_utils_get_got(
    uint16_t machine, uint64_t address, uint64_t dynamic, struct linker_utils_got *got);

/* The words of an entry of the GOT; the second is 0 where it has one. */
struct linker_utils_entry_words {
    uint64_t first; uint64_t second;
};

/* What an entry's words hold in a static executable, module 1, by the symbol's address, S + A where
 * the entry is of S + A. LINKER_UTILS_UNKNOWN_ENTRY_CLASS, also of LINKER_UTILS_ENTRY_DESCRIPTOR.
 * For dynamic relocations there is `linker_utils_dynamic_words` (linker_utils_outputs.h). */
LINKER_UTILS_MUST_USE uint32_t linker_utils_static_words(
    uint32_t entry_class, uint64_t address, const struct linker_utils_origins *origins,
    struct linker_utils_entry_words *words);

/* ---- Rewriting: the instructions of a section in one call, in each of four phases.
 *
 * A group is the relocations of one kind and one symbol in an object, whatever their addends; of
 * local-dynamic TLS all of an object. It is rewritten as a whole or kept. So each section of code
 * of an object is surveyed, which notes the kept groups in `unrelaxable_groups`, and then each is
 * rewritten, with the same facts and addresses. Each phase has an array of its own, of zeros at
 * first. Once addresses are known the calls with `placed` do so for each later phase, in the order
 * of `enum linker_utils_phase`. Relocations become those after the rewrite; of one that goes the
 * type becomes 0. `linker_utils_relocate_rewritten_section` tests that the facts still hold. */

/* What a linker knows of a symbol once names are resolved. */
struct linker_utils_symbol_facts {
    bool is_local; /* defined in this output, and no other definition can replace it at run time */
    bool is_ifunc; /* STT_GNU_IFUNC */
    bool is_absolute; /* SHN_ABS */
    bool is_undefined_weak; /* weak, and nothing defines it at run time: its address is 0 */
    bool is_tls_get_addr; /* it is `__tls_get_addr` */
    uint8_t other; /* `st_other`, of which PowerPC64 reads what a call does with the TOC pointer */
};

/* What rewriting a section writes. After an error both arrays may be anything. */
struct linker_utils_rewritten {
    /* What became of each relocation: at least as many. Further elements are unchanged. */
    struct linker_utils_decision *decisions; size_t decisions_len;
    /* What is to be deleted: the first `deleted_used` elements. Further ones are unchanged. */
    struct linker_utils_deletion *deleted; size_t deleted_len;
    size_t deleted_used;
};

/* Notes the groups that are kept, since a relocation of this section is of them and has no rewrite.
 * An offset in the module's TLS block that stands in data counts from the block: where the object
 * has one that is loaded, set `local_dynamic` at index 0. A group without an element is kept.
 * O(n). */
LINKER_UTILS_MUST_USE static inline uint32_t linker_utils_survey(
    const struct linker_utils_link *link, const struct linker_utils_object *object,
    const struct linker_utils_section *section);

/* Rewrites the instructions of a section of code, before addresses are known. No byte is deleted. A
 * relocation of a symbol that isn't in `facts` isn't rewritten. O(n) for n relocations that ascend;
 * each one that is out of order adds O(n). LINKER_UTILS_SHORT_MEMORY where there are fewer
 * decisions than relocations. Then `faulty` is the first with LINKER_UTILS_NOT_SURVEYED; or with
 * LINKER_UTILS_OVERLAPS, since the bytes of its rewrite overlap or lie below those of one before
 * it. LINKER_UTILS_OVERLAPS of the first that isn't taken along and has its field in the bytes of a
 * rewrite. */
LINKER_UTILS_MUST_USE static inline uint32_t linker_utils_rewrite_section(
    const struct linker_utils_link *link, const struct linker_utils_object *object,
    const struct linker_utils_section *section, const struct linker_utils_rewritten *rewritten,
    size_t *faulty);

/* `linker_utils_survey` in a phase once addresses are known: groups with a distance out of reach or
 * an instruction without a mark (R_RISCV_RELAX and the like) are kept too.
 * LINKER_UTILS_UNKNOWN_PHASE; LINKER_UTILS_FACTS_CONTRADICT. */
LINKER_UTILS_MUST_USE static inline uint32_t linker_utils_survey_placed_section(
    const struct linker_utils_link *link, const struct linker_utils_object *object,
    const struct linker_utils_section *section, uint32_t phase);

/* `linker_utils_rewrite_section` in a phase once addresses are known. All decisions are written
 * anew. The addresses are those by which values are written later, or differ by less than the reach
 * that is left. What is to be deleted ascends, is apart from each other and from what is rewritten,
 * and is still there; only LINKER_UTILS_PHASE_TLS_LOCAL_EXEC has any, at most one per relocation.
 * LINKER_UTILS_UNKNOWN_PHASE; LINKER_UTILS_FACTS_CONTRADICT of the symbol `faulty`; the errors of
 * `linker_utils_rewrite_section`; LINKER_UTILS_SHORT_MEMORY where `deleted` has fewer elements than
 * there are deletions. */
LINKER_UTILS_MUST_USE static inline uint32_t linker_utils_rewrite_placed_section(
    const struct linker_utils_link *link, const struct linker_utils_object *object,
    const struct linker_utils_section *section, uint32_t phase,
    struct linker_utils_rewritten *rewritten, size_t *faulty);

struct linker_utils_choice; struct linker_utils_link_facts;

/* The rewrite that a linker may make at one relocation, of any type, by the tables of choices. It
 * is NO_OP and the same relocation where no entry applies, or the bytes, those of the object, are
 * another instruction. Both structs are in linker_utils_rewriting.h. Which relocations are chosen
 * alike, before the first of them is rewritten, says docs/CHOICES.md; the calls above do so. */
LINKER_UTILS_MUST_USE static inline uint32_t linker_utils_choose(
    uint16_t machine, uint32_t r_type, const struct linker_utils_section *section, uint64_t offset,
    const struct linker_utils_link_facts *facts, struct linker_utils_choice *choice);

/* Makes a rewrite at an offset, and sets the offset and the addend to those of the relocation that
 * is then written. LINKER_UTILS_UNKNOWN_REWRITE; LINKER_UTILS_CANNOT_APPLY. */
LINKER_UTILS_MUST_USE static inline uint32_t linker_utils_apply(
    uint16_t machine, uint32_t rewrite, uint8_t opcode_len,
    const struct linker_utils_section *section, uint64_t *offset, int64_t *addend);

/* ---- Relaxing and packing: calls and addresses of RISC-V and LoongArch that become shorter. A run
 * is one section or several, in one space of input offsets. Its items are sites, which are
 * instructions that can become shorter or are deleted, and alignments. */

/* Bytes of an input section that are deleted. */
struct linker_utils_deletion {
    uint64_t offset;
    uint32_t bytes;
};

/* A deletion, with the sum of the bytes that it and all at lower offsets delete. The calls below
 * are defined for any array, but only of one that the library wrote are results specified. */
struct linker_utils_delta {
    uint64_t input_offset;
    uint64_t cumulative_deleted;
    uint32_t bytes_deleted;
};

/* A relocation of a section, and what it refers to in a run. */
struct linker_utils_rela {
    uint64_t offset; /* r_offset, in the section */
    uint64_t target; /* the input offset in the run that it refers to: S + A, or the PLT entry */
    int64_t addend; /* r_addend */
    uint32_t r_type;
    uint8_t has_symbol; /* 0 where r_sym is 0 */
    uint8_t has_target; /* `target` is in the run, and no byte between S and S + A may be deleted */
    uint8_t may_compress; /* EF_RISCV_RVC is in `e_flags` of its object, not of the output */
};

/* The items of a section: the first `items_used` elements of both. Further ones are unchanged. */
struct linker_utils_items {
    struct linker_utils_item *items; size_t items_len;
    size_t *makers; size_t makers_len; /* the index of the relocation that makes the item */
    size_t items_used;
};

/* Writes the items that the relocations of a section make after it is rewritten ("Items by types"
 * in linker_utils_relaxing.h), and its `deleted`. The maker of a deletion is `relocations_len` and
 * its index. `items_len` and `makers_len` are `relocations_len` and `deleted_len` together.
 * LINKER_UTILS_DIFFERENT_LENGTHS; LINKER_UTILS_ENDS_TOO_HIGH where `base` and `bytes_len` add up to
 * 2^64 or more; LINKER_UTILS_MALFORMED_RELOCATION; LINKER_UTILS_INVALID_DELETIONS of the deletion
 * `faulty`; LINKER_UTILS_ITEMS_OVERLAP of a relocation whose item begins below the end of an
 * earlier one's or has deleted bytes, which may change both arrays. */
LINKER_UTILS_MUST_USE static inline uint32_t linker_utils_rewritten_items(
    uint16_t machine, const struct linker_utils_section *section,
    const struct linker_utils_rela *relocations, size_t relocations_len,
    struct linker_utils_items *items, size_t *faulty);

/* A run, or of `linker_utils_pack_run` what lies in one section of it. */
struct linker_utils_run {
    uint64_t start; /* the run's address */
    const struct linker_utils_item *items; size_t items_len;
    const struct linker_utils_delta *deltas; size_t deltas_len; /* what the run loses */
};

/* What relaxing a run chooses, for each item; `freed` has one element more. */
struct linker_utils_relaxed {
    uint8_t *shapes; size_t shapes_len; /* the index of a site's shape */
    uint64_t *kept; size_t kept_len; /* how many of the item's bytes are kept, from the first on */
    uint64_t *freed; size_t freed_len; /* how many bytes those before it lose, and last all */
    size_t *places; size_t places_len; /* room for the work */
};

/* Chooses for each item how many bytes stay, so that each site reaches its target and each
 * alignment is exact. LINKER_UTILS_DIFFERENT_LENGTHS; the errors of `linker_utils_items_relaxable`.
 * O(n log n) for n items, and then usually fewer than ten rounds of O(n). */
LINKER_UTILS_MUST_USE static inline uint32_t linker_utils_relax(
    const struct linker_utils_run *run, const struct linker_utils_relaxed *relaxed, size_t *faulty);

/* Writes the deltas of what a run loses, one for each item that loses bytes, and their count to
 * `len`; further elements are unchanged. LINKER_UTILS_DIFFERENT_LENGTHS where `kept_len` or
 * `deltas_len` isn't `items_len`. */
LINKER_UTILS_MUST_USE static inline uint32_t linker_utils_run_deltas(
    const struct linker_utils_run *run, const struct linker_utils_relaxed *relaxed,
    struct linker_utils_delta *deltas, size_t deltas_len, size_t *len);

/* The output offset of what is at an input offset: how many kept bytes are below it. For an offset
 * inside a deletion it is the offset of what follows the deletion. O(log n). */
static inline uint64_t linker_utils_deltas_input_to_output(
    const struct linker_utils_delta *deltas, size_t deltas_len, uint64_t input_offset);

/* How many bytes `linker_utils_pack_run` writes of a section; 0 where `base` and `bytes_len` add up
 * to 2^64 or more. O(log n) for n deltas. */
static inline size_t linker_utils_packed_run_len(
    const struct linker_utils_section *section, const struct linker_utils_run *run);

/* Writes the bytes of a section that stay, with its sites and nops written anew, and moves its
 * relocations, as "Packed by types" in linker_utils_relaxing.h says. `items` are those of the run
 * that lie in the section and lose bytes, in order, and any others there.
 * LINKER_UTILS_ENDS_TOO_HIGH as above; LINKER_UTILS_DIFFERENT_LENGTHS where `packed_len` isn't
 * `linker_utils_packed_run_len`; of the first item that can't be written, `faulty`,
 * LINKER_UTILS_ITEMS_OVERLAP, LINKER_UTILS_ITEM_OUT_OF_SECTION, LINKER_UTILS_DELETED_OUTSIDE (also
 * with `items_len`, of bytes after the last item), LINKER_UTILS_NOT_ITS_FIRST_BYTES,
 * LINKER_UTILS_NOT_ITS_INSTRUCTIONS, LINKER_UTILS_NO_SHAPE, LINKER_UTILS_TARGET_OUT_OF_REACH. */
LINKER_UTILS_MUST_USE static inline uint32_t linker_utils_pack_run(
    uint16_t machine, const struct linker_utils_section *section,
    const struct linker_utils_run *run, uint8_t *packed, size_t packed_len, size_t *faulty);

/* ---- Stubs and PLTs: how branches go that don't reach their target, or to another output.
 * linker_utils_outputs.h has lazy PLTs, and `linker_utils_place_stubs` between sections. */

/* How a branch goes to its target. */
struct linker_utils_route {
    uint64_t target; /* what the stub goes to, as `linker_utils_write_stub` takes it */
    uint64_t entry; /* the offset at which the branch enters the stub */
    uint32_t kind; /* the stub's, by `enum linker_utils_stub_kind` */
    uint8_t is_by_stub; /* 0: it goes directly, and all others are 0 */
};

/* How the branch of the relocation at an index goes to its symbol: directly, or by a stub of the
 * kind LINKER_UTILS_STUB_JUMP ("Routes by types" in linker_utils_outputs.h). With the address at
 * which it enters the stub as the symbol's `stub`, and an addend of 0, it goes directly if it
 * reaches that. LINKER_UTILS_TOO_SHORT where there is no relocation at the index;
 * LINKER_UTILS_NO_SYMBOL; LINKER_UTILS_NOT_A_BRANCH; LINKER_UTILS_NO_ENTRY; LINKER_UTILS_NO_ROOM;
 * an error of `linker_utils_relocate`, where no stub may serve it. */
LINKER_UTILS_MUST_USE static inline uint32_t linker_utils_route_at(
    const struct linker_utils_link *link, const struct linker_utils_object *object,
    const struct linker_utils_section *section, size_t index, struct linker_utils_route *route);

/* How it goes to the function of another output, or the indirect one, whose address the word at
 * `word` has: by a stub of the kind LINKER_UTILS_STUB_LOAD. LINKER_UTILS_TOO_SHORT as above;
 * LINKER_UTILS_NOT_A_BRANCH; LINKER_UTILS_NO_ROOM. */
LINKER_UTILS_MUST_USE static inline uint32_t linker_utils_route_by_word(
    uint16_t machine, uint64_t word, const struct linker_utils_section *section, size_t index,
    struct linker_utils_route *route);

/* A stub of an architecture. */
struct linker_utils_stub {
    uint64_t len; /* in bytes */
    uint64_t entry; /* the offset at which a call enters that needs no TOC pointer stored */
};

/* The stub of a kind. LINKER_UTILS_UNKNOWN_STUB where the architecture has none. */
LINKER_UTILS_MUST_USE uint32_t linker_utils_get_stub(
    uint16_t machine, uint32_t kind, struct linker_utils_stub *stub);

/* Writes the stub of a kind that stands at the address `place` to the beginning of `bytes`: to the
 * address in the word at `target`, or to `target`. With LINKER_UTILS_STUB_TOC_LOAD and `_TOC_FAR`
 * `place` is the TOC pointer. It changes only registers that a function may change, in which no
 * argument is. In protected code indirect branches go to a LINKER_UTILS_STUB_LANDING_LOAD.
 * LINKER_UTILS_UNKNOWN_STUB; LINKER_UTILS_TOO_SHORT; an error of `linker_utils_relocate`. */
LINKER_UTILS_MUST_USE static inline uint32_t linker_utils_write_stub(
    uint16_t machine, uint32_t kind, uint64_t place, uint64_t target, uint8_t *bytes,
    size_t bytes_len);

/* ---- Reading back: values and addresses, from linked bytes. linker_utils_reading.h has which
 * rewrite was made. LINKER_UTILS_UNKNOWN_RELOCATION is the first error. */

/* What is known of a number of 64 bits, a value in two's complement or an address: bits of its sum
 * with `rounding`, modulo 2^64. Where bits 0 to 63 are known the number is `bits - rounding`. */
struct linker_utils_field_value {
    uint64_t bits; /* the known bits, the first of them at bit 0, and no others */
    uint64_t rounding; /* what was added to the number before its bits were taken */
    uint8_t first_bit; /* which bits are known: `first_bit` and up, below `end_bit` */
    uint8_t end_bit;
};

/* What is known of a relocation's value from the bytes that begin with its field: bits that
 * whatever value `linker_utils_relocate` wrote there has. LINKER_UTILS_TOO_SHORT;
 * LINKER_UTILS_HOLDS_NO_VALUE of a relocation without bytes, of one that adds or subtracts, of one
 * at a ULEB128 number, and of R_LARCH_CALL30. */
LINKER_UTILS_MUST_USE static inline uint32_t linker_utils_read_value(
    uint16_t machine, uint32_t r_type, const uint8_t *bytes, size_t bytes_len,
    struct linker_utils_field_value *value);

/* What is known of the address that a value comes from: the inverse of `linker_utils_value`. Of the
 * operands only `place`, `got_base` and `tls_base` are read, as the formula has them. `reference`
 * is which address it is, by `enum linker_utils_reference`. LINKER_UTILS_BAD_FIELD_VALUE where
 * `value` isn't one that the library returns; LINKER_UTILS_NO_ADDRESS, of which "Addresses by
 * types" in linker_utils_reading.h has the causes, an offset without `has_tls_base` among them. */
LINKER_UTILS_MUST_USE uint32_t linker_utils_solve(
    uint16_t machine, uint32_t r_type, const struct linker_utils_field_value *value,
    const struct linker_utils_operands *operands, uint32_t *reference,
    struct linker_utils_field_value *address);

#include "linker_utils_relocations.h"
#include "linker_utils_rewriting.h"
#include "linker_utils_relaxing.h"
#include "linker_utils_outputs.h"
#include "linker_utils_reading.h"
#include "linker_utils_inline.h"

#ifdef __cplusplus
}
#endif

#endif
