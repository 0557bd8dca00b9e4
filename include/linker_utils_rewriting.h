/* SPDX-License-Identifier: MIT OR Apache-2.0 */
/* Further calls of linker_utils.h, which includes this file, on rewrites: what surveys note,
 * whether facts still hold, words of addresses, RISC-V's global pointer, and rewrites one by
 * one. */
#ifndef LINKER_UTILS_REWRITING_H
#define LINKER_UTILS_REWRITING_H

#ifndef LINKER_UTILS_H
#error "Include linker_utils.h."
#endif

/* ---- Groups and decisions: what surveys and rewrites of sections write.
 *
 * The relocations of one label of RISC-V in a section are a group too, which needs no survey. Where
 * a relocation has no rewrite, its instruction is none that a rewrite is meant for, or its symbol
 * may be of another file. Or what the rewrite takes along isn't there. Each survey, also one of the
 * calls below, only adds to what is kept. Bytes that are deleted after addresses are known only
 * make distances shorter. What is left a linker may rewrite by `linker_utils_choose`. */

/* Which groups of a symbol are kept. The element at index 0 is of all of the object: it has
 * local-dynamic TLS, and what is kept whichever symbol it is of. No call tests that 32 bits hold
 * LoongArch's offsets. */
struct linker_utils_unrelaxable_groups {
    bool initial_exec; /* loads of an offset from the thread pointer; in its phase all with one */
    bool general_dynamic; /* calls for the address of a thread-local variable */
    bool local_dynamic; /* calls for the address of the module's TLS block, and offsets in it */
    bool descriptor; /* TLS descriptors */
    bool got_load; /* loads of the GOT by halves; in the last phase addresses by the TOC pointer */
};

/* What becomes of a relocation and of its instruction. All except `fate` is 0 where the instruction
 * isn't rewritten. With LINKER_UTILS_FATE_REWRITTEN `linker_utils_decide_rewrites` writes a number
 * of the bytes that are rewritten into `symbol`. */
struct linker_utils_decision {
    /* With LINKER_UTILS_FATE_REWRITTEN_WITH_SYMBOL what the relocation gets first; else 0. */
    int64_t addend;
    uint32_t symbol;
    uint32_t rewrite; /* by the machine's enum of rewrites */
    uint32_t relocation; /* the relocation's type after it */
    uint16_t machine; /* whose rewrite it is */
    uint8_t fate; /* `enum linker_utils_fate` */
    uint8_t opcode_len; /* as in `struct linker_utils_choice` */
};

/* Whether an architecture has rewrites in a phase. In one without them a linker surveys and
 * rewrites nothing: each relocation would stay. False of a phase that isn't known. */
bool linker_utils_has_rewrites(uint16_t machine, uint32_t phase);

/* ---- Kept decisions: for a linker that maps its inputs read-only, decides while it scans them,
 * and rewrites the copies in the output. */

/* Decides what `linker_utils_rewrite_section` would do, with its errors, and writes `decisions`
 * alone. Other threads may decide other sections at the same time. No decision depends on an
 * address, or has LINKER_UTILS_FATE_REWRITTEN_WITH_SYMBOL. A branch is rewritten by its symbol's
 * facts alone, so that a linker may still choose a stub as the target of one that keeps its
 * relocation. */
LINKER_UTILS_MUST_USE static inline uint32_t linker_utils_decide_rewrites(
    const struct linker_utils_link *link, const struct linker_utils_object *object,
    const struct linker_utils_section *section, const struct linker_utils_rewritten *rewritten,
    size_t *faulty);

/* Makes these decisions in a copy of the section and of its relocations, which then are what
 * `linker_utils_rewrite_section` leaves. It is called before values are written and before the
 * section is packed, with the relocations that were decided on. Where they and the bytes are
 * unchanged, it succeeds. Any bytes are decisions. With an error nothing is written.
 * LINKER_UTILS_SHORT_MEMORY where there are fewer decisions than relocations. Else `faulty` is the
 * first relocation that can't be rewritten. LINKER_UTILS_DOES_NOT_MATCH: the bytes to rewrite
 * aren't those that were decided on, or its rewrite is meant for other instructions, or deletes
 * bytes after the section. Each change of one byte is noticed, and any where no more than four are
 * rewritten. LINKER_UTILS_OVERLAPS: the bytes of its rewrite overlap or lie below those of one
 * before it. */
LINKER_UTILS_MUST_USE static inline uint32_t linker_utils_make_rewrites(
    const struct linker_utils_section *section, const struct linker_utils_rewritten *rewritten,
    size_t *faulty);

/* ---- Kept facts: values that are written only where choices of rewrites would read the same. */

/* What choices read of a symbol and of the output; 0 where nothing is kept. */
struct linker_utils_facts_snapshot {
    uint16_t bits;
};

/* Keeps in `facts_snapshot` what choices read of the output and of each symbol of an object. A
 * linker calls it with the facts that it passes to `linker_utils_survey` and
 * `linker_utils_rewrite_section`. LINKER_UTILS_DIFFERENT_LENGTHS where `facts_snapshot_len` isn't
 * `facts_len`. */
LINKER_UTILS_MUST_USE static inline uint32_t linker_utils_snapshot_facts(
    const struct linker_utils_link *link, const struct linker_utils_object *object);

/* Writes the values of a section whose instructions were rewritten, as
 * `linker_utils_relocate_section`, or none of them. The facts are those that hold now, and
 * `facts_snapshot` those of `linker_utils_snapshot_facts` when rewrites were chosen. So a symbol
 * that was local then, and isn't any more, doesn't get code that bypasses its entry of the GOT.
 *
 * LINKER_UTILS_SHORT_MEMORY; LINKER_UTILS_FACTS_CONTRADICT, and `faulty` is the symbol's index;
 * LINKER_UTILS_FACTS_CHANGED, and `faulty` is the first relocation of whose symbol other facts are
 * kept, or none; LINKER_UTILS_NEEDS_STUB, and `faulty` is the first R_PPC64_REL24 of a symbol of
 * another file without a stub; else the errors of `linker_utils_relocate_section`. `memory` may be
 * anything afterwards. */
LINKER_UTILS_MUST_USE static inline uint32_t linker_utils_relocate_rewritten_section(
    const struct linker_utils_link *link, const struct linker_utils_object *object,
    const struct linker_utils_section *section, uint64_t *memory, size_t memory_len,
    size_t *faulty);

/* ---- Words of addresses: PowerPC64's `.toc`, which compilers fill as a linker fills the GOT. */

/* Writes the name of the section of objects in which compilers keep addresses, as the GOT does:
 * PowerPC64's `.toc`. It stands beside the GOT. Nothing changes its words, so that a linker may
 * have instructions compute such an address. LINKER_UTILS_NOT_PROVIDED where there is none;
 * LINKER_UTILS_TOO_SHORT. */
LINKER_UTILS_MUST_USE static inline uint32_t linker_utils_address_section(
    uint16_t machine, uint8_t *name, size_t name_len, size_t *name_used);

/* The type of the relocation that an instruction would have if its address were in an entry of the
 * GOT. `r_type` is the type where that is in a word of this section. By `entry_type`
 * `linker_utils_choose` says whether the instruction can compute the address. Some instruction that
 * refers to a word may not: then none of that word is rewritten, so that a linker tests each first.
 * LINKER_UTILS_NOT_PROVIDED of other types. */
LINKER_UTILS_MUST_USE uint32_t linker_utils_entry_relocation(
    uint16_t machine, uint32_t r_type, uint32_t *entry_type);

/* A section of addresses of an object, and which of its words are kept. */
struct linker_utils_words {
    uint64_t address; /* the section's */
    const void *relocations; size_t relocations_len; /* as a section's, ascending by offset */
    bool *kept; size_t kept_len; /* by relocation: whether its word is kept */
};

/* Notes in `kept` which words of an object's section of addresses stay, by one of its sections of
 * code. A word stays where an instruction loads its address and can't compute it. It is none that
 * the rewrite is meant for, or the address may be of another file, isn't fixed or is out of reach.
 * A relocation is of the word at the address that it refers to, whichever its symbol. Where an
 * architecture has no such section nothing is noted. It takes a search in log n steps for each
 * load. LINKER_UTILS_FACTS_CONTRADICT. */
LINKER_UTILS_MUST_USE static inline uint32_t linker_utils_survey_toc_loads(
    const struct linker_utils_link *link, const struct linker_utils_object *object,
    const struct linker_utils_section *section, const struct linker_utils_words *words);

/* Has the instructions of a section of code compute the addresses that they load from such words:
 * all that load a word, or none. Their relocations become those after it. The fate of these is
 * LINKER_UTILS_FATE_REWRITTEN_WITH_SYMBOL: they get the symbol and the addend of the word's
 * relocation. Nothing is deleted. LINKER_UTILS_FACTS_CONTRADICT of the symbol `faulty`; the errors
 * of `linker_utils_rewrite_section`, which leave what they leave there. */
LINKER_UTILS_MUST_USE static inline uint32_t linker_utils_rewrite_toc_loads(
    const struct linker_utils_link *link, const struct linker_utils_object *object,
    const struct linker_utils_section *section, const struct linker_utils_words *words,
    const struct linker_utils_rewritten *rewritten, size_t *faulty);

/* ---- The global pointer: RISC-V's addresses near it, or near 0, without their high parts. */

/* Notes in `kept_high_parts` which symbols of an object keep the high parts of their address, by
 * one of its sections of code. RISC-V's `lui` and `auipc` aren't needed where an address is within
 * 2 KiB of the global pointer, from 2,048 below it to 2,047 above it, or of 0. Each low part then
 * takes x3 or x0 as its base (psABI, "Global-pointer Relaxation" and "Zero-page Relaxation"). A
 * symbol stays where a relocation of its high or low parts isn't marked by R_RISCV_RELAX, isn't in
 * reach, or isn't of such an instruction. All stay in an output that isn't an executable with a
 * fixed address, and those of a section whose relocations don't ascend by offset.
 *
 * Survey once addresses are known, and before code gets shorter. For other machines nothing is
 * noted. LINKER_UTILS_FACTS_CONTRADICT. */
LINKER_UTILS_MUST_USE static inline uint32_t linker_utils_survey_global_pointer(
    const struct linker_utils_link *link, const struct linker_utils_object *object,
    const struct linker_utils_section *section);

/* Has the high parts go of the symbols that don't stay by `kept_high_parts`. The bytes stay until
 * what is listed in `deleted` is deleted, as for `linker_utils_rewritten_items`. The relocation of
 * a high part gets the type 0. A low part's relocation gets the symbol and the addend of the
 * address. Its type becomes 47 or 48, which `elf.h` names R_RISCV_GPREL_I and R_RISCV_GPREL_S. No
 * other call takes these: each requires `linker_utils_finish_gp_relaxation`.
 *
 * It may only be called where x3 is `global_pointer` wherever this code runs, and never changes.
 * What sets x3 has to be without marks, as the C libraries have it. `deleted` needs an element for
 * each high part. The errors, and what they leave, are those of
 * `linker_utils_rewrite_placed_section` but LINKER_UTILS_UNKNOWN_PHASE. LINKER_UTILS_OVERLAPS is
 * returned where two instructions that go or get another base share a byte, or a relocation's field
 * has a byte of one that goes. */
LINKER_UTILS_MUST_USE static inline uint32_t linker_utils_rewrite_global_pointer(
    const struct linker_utils_link *link, const struct linker_utils_object *object,
    const struct linker_utils_section *section, struct linker_utils_rewritten *rewritten,
    size_t *faulty);

/* Writes the base of each low part that `linker_utils_rewrite_global_pointer` left without one,
 * once addresses are final and before values are written. It is x0 where 12 bits hold the address,
 * and else x3. The relocation gets the type R_RISCV_LO12_I or R_RISCV_LO12_S, and an addend that is
 * less by what the base has. LINKER_UTILS_OUT_OF_REACH where neither reaches the address of the
 * relocation with the index `faulty`, its symbol isn't in the table, or its instruction isn't in
 * the section: then nothing changes. It never comes where the symbol and the global pointer are in
 * one run (`linker_utils_relax`), since no distance gets longer there. */
LINKER_UTILS_MUST_USE static inline uint32_t linker_utils_finish_gp_relaxation(
    const struct linker_utils_link *link, const struct linker_utils_object *object,
    const struct linker_utils_section *section, size_t *faulty);

/* ---- Rewrites one by one: what a linker knows, and the rewrite that it chooses. */

/* What a linker knows of a relocation's symbol and of its output when it chooses a rewrite. */
struct linker_utils_link_facts {
    /* The symbol is defined in this output, and no other definition can replace it at run time. */
    uint8_t is_local;
    uint8_t is_ifunc; /* The symbol is an indirect function, STT_GNU_IFUNC. */
    /* The symbol is undefined and weak, and nothing defines it at run time: its address is 0. */
    uint8_t is_undefined_weak;
    /* The symbol's address is the same wherever the output is loaded. It is for an absolute symbol
     * and an undefined weak one, and for any in an output that is always loaded at one address. */
    uint8_t has_fixed_address;
    /* So is the distance from the code to the symbol. It is for any symbol of the output, and for
     * an absolute one only in an output that is always loaded at one address. */
    uint8_t is_pcrel_link_time_constant;
    uint8_t is_executable; /* The output is an executable, position-independent or not. */
    /* x86-64: the sequence that computed the base of local-dynamic TLS for this relocation was
     * rewritten to local-exec, so that the base is the thread pointer. */
    uint8_t has_local_exec_base;
    uint8_t may_compress; /* RISC-V: the code may use instructions of the C extension. */
    uint8_t is_relaxable; /* R_RISCV_RELAX, R_LARCH_RELAX or R_PPC64_REL24_NOTOC is there too. */
    /* RISC-V: the high part whose label an R_RISCV_PCREL_LO12_I names has R_RISCV_GOT_HI20. */
    uint8_t has_got_high_part;
    /* RISC-V: the load from the GOT may be relaxed: R_RISCV_RELAX is at the offset of the
     * R_RISCV_GOT_HI20 and at that of every R_RISCV_PCREL_LO12_I that names its label. */
    uint8_t is_label_relaxable;
    /* PowerPC64: an `addis` has set the register through which the instruction gets the high part
     * of its address. Only instructions whose relocation is of the same symbol and addend read it.
     * Linkers assume this, as the ABI requires of compilers. */
    uint8_t toc_base_is_exclusive;
    /* PowerPC64: the function that is called may return with another TOC pointer in register 2,
     * since it is called through a PLT entry or its symbol's st_other says so. */
    uint8_t may_change_toc;
    /* The addresses in `operands` are known. Where they are not, a rewrite that depends on a
     * distance is not chosen; another is, and its value may turn out to be out of reach. */
    uint8_t has_addresses;
    /* Each relocation of the sequence that this one is part of can be rewritten
     * (`linker_utils_relocation_fits`). Where its instructions may be apart, none of them is
     * rewritten without it. docs/CHOICES.md says which relocations are asked. */
    uint8_t group_fits;
    /* The code is of a file of ELFCLASS32. RISC-V's then has c.jal. */
    uint8_t is_class32;
    /* Those of the relocation before the rewrite. The addend is always read. `got_entry` is that of
     * the relocation after it: of a rewrite to initial-exec TLS that of the offset from the thread
     * pointer. */
    struct linker_utils_operands operands;
};

/* A rewrite, and what becomes of the relocations. */
struct linker_utils_choice {
    uint32_t rewrite; /* By the machine's enum of rewrites; its NO_OP where none is chosen. */
    uint32_t relocation; /* The type of the relocation that is then written. */
    uint32_t modifier; /* What happens to the next one, by `enum linker_utils_modifier`. */
    /* How many bytes are to be deleted after the rewrite, and where they begin from the offset on;
     * both 0 where none are. */
    uint32_t deleted_len;
    uint64_t deleted_start;
    /* Where another relocation is, in bytes from the offset on, whose instruction the rewrite
     * changes too, and the type that it has then. Whatever relocation is at that offset gets that
     * type, and not the one that its own choice names. So its value may be written before the
     * rewrite or after it. Both are 0 where there is none. */
    int64_t other_offset;
    uint32_t other_relocation;
    uint8_t has_other; /* whether there is another */
    uint8_t opcode_len; /* that of the rewrite */
    /* Where `modifier` says that a relocation is skipped: how many bytes on from the offset it is.
     * On x86-64 the field of the call is there, or that of the `movabs` of its address; on
     * PowerPC64 and RISC-V it is at the same offset. Else 0. */
    uint8_t skipped_offset;
};

/* ---- Choices: what `linker_utils_choose` returns, and what is chosen alike.
 *
 * `linker_utils_matches` of the rewrite that is chosen returns LINKER_UTILS_OK. NO_OP and another
 * relocation are possible: the `adrp` of a pair. The relocations of a pair or sequence are chosen
 * by the same facts, except for `place`, before one of them is rewritten. Which these are, and what
 * a linker ensures of them, says docs/CHOICES.md by architecture. */

/* Whether the relocation of type `r_type` can be rewritten if each other one of its sequence can:
 * whether `linker_utils_choose` changes something by these facts and `group_fits`. A linker calls
 * it for each relocation of the sequence before it chooses, with the facts that it chooses by, and
 * sets `group_fits` for all of them if all fit. */
static inline bool linker_utils_relocation_fits(
    uint16_t machine, uint32_t r_type, const struct linker_utils_section *section, uint64_t offset,
    const struct linker_utils_link_facts *facts);

/* ---- Rewrites by number: what they write, and whether an instruction is one that they are meant
 * for.
 *
 * A machine, a number of its enum of rewrites and `opcode_len` name a rewrite; `opcode_len` matters
 * only to those of x86-64 that are marked. The offset is that of the instruction's relocation.
 * LINKER_UTILS_UNKNOWN_REWRITE is the first error. */

/* LINKER_UTILS_OK where the bytes at an offset of a section are an instruction, or a sequence of
 * some, that the rewrite is meant for, by opcodes and registers, otherwise
 * LINKER_UTILS_DOES_NOT_MATCH. Where it returns LINKER_UTILS_OK, so does `linker_utils_can_apply`.
 * Whether the rewrite is right for the symbol and the value is the caller's to test
 * (`linker_utils_hi20_fits_clui`). Any bytes of the section match REPLACE_WITH_NOP,
 * REPLACE_WITH_LONG_NOP and DELETE, and NO_OP matches anywhere. */
LINKER_UTILS_MUST_USE static inline uint32_t linker_utils_matches(
    uint16_t machine, uint32_t rewrite, uint8_t opcode_len,
    const struct linker_utils_section *section, uint64_t offset);

/* LINKER_UTILS_OK where `linker_utils_apply` at this offset would return that, otherwise
 * LINKER_UTILS_CANNOT_APPLY. It tests whether the bytes to be rewritten are in the section, and for
 * LINKER_UTILS_AARCH64_REWRITE_MOVK_XN and LINKER_UTILS_AARCH64_REWRITE_LDR_TO_ADD the word there.
 * It does not test whether the instruction is one that the rewrite is meant for:
 * `linker_utils_matches` does. */
LINKER_UTILS_MUST_USE static inline uint32_t linker_utils_can_apply(
    uint16_t machine, uint32_t rewrite, uint8_t opcode_len,
    const struct linker_utils_section *section, uint64_t offset);

/* Whether a choice at the relocation of type `r_type` leaves both as they are: the rewrite is
 * NO_OP, and the relocation after it has the same type. The choice of another instruction may still
 * change this relocation, as `has_other` there says. False of another machine's rewrite. */
bool linker_utils_is_unchanged(uint16_t machine, uint32_t r_type,
                               const struct linker_utils_choice *choice);

/* Whether the relocation has a type that one skipped after a rewrite has. They are R_RISCV_RELAX
 * and, of a call of `__tls_get_addr` in a sequence, R_PPC64_REL24, R_PPC64_REL24_NOTOC,
 * R_X86_64_PLT32, R_X86_64_PC32, R_X86_64_GOTPCREL, R_X86_64_GOTPCRELX and R_X86_64_PLTOFF64. */
bool linker_utils_may_be_skipped(uint16_t machine, uint32_t r_type);

/* The window of a rewrite: the bytes of a section that it writes at an offset. */
struct linker_utils_window_bounds {
    uint64_t back; /* How many bytes before the offset it begins. */
    uint64_t len; /* How many bytes it has; 0 where the rewrite writes none, as NO_OP. */
};

/* The bytes that `linker_utils_apply` writes at an offset: all others stay. Two rewrites whose
 * windows have a byte in common write over each other. On x86-64 the field of the relocation after
 * a rewrite may lie after the window. A general-dynamic TLS sequence has 16 bytes, which are the
 * window's 12 and the field's 4. */
LINKER_UTILS_MUST_USE uint32_t linker_utils_rewrite_window(
    uint16_t machine, uint32_t rewrite, uint8_t opcode_len,
    struct linker_utils_window_bounds *window);

/* What happens to the next relocation, by `enum linker_utils_modifier`. */
LINKER_UTILS_MUST_USE uint32_t linker_utils_next_modifier(
    uint16_t machine, uint32_t rewrite, uint8_t opcode_len, uint32_t *modifier);

#endif
