/* SPDX-License-Identifier: MIT OR Apache-2.0 */
/* Further calls of linker_utils.h, which includes this file, on relocations: what a type means,
 * calls by its handle, what is particular to some types, and the immediates of instructions. */
#ifndef LINKER_UTILS_RELOCATIONS_H
#define LINKER_UTILS_RELOCATIONS_H

#ifndef LINKER_UTILS_H
#error "Include linker_utils.h."
#endif

/* ---- Relocation types, and what they mean. LINKER_UTILS_UNKNOWN_RELOCATION is the first error. */

/* What a relocation means. `linker_utils_value` and `linker_utils_relocate` apply it in these
 * steps, with <elf.h>'s names of the relocation's fields:
 * 1. Add `bias` to the address that the formula of `kind` begins with: S + A, or the GOT entry's,
 *    with A where `struct linker_utils_operands` says so.
 * 2. Round the addresses that `mask` names down to their page, and compute the value v by the
 *    formula.
 * 3. Where `has_range` is 1, v has to be `min` or above, and below `max`. v has to be a multiple of
 *    `alignment`.
 * 4. Where `is_bits` is 0, write the low `byte_size` bytes of v at `r_offset`, lowest first. Where
 *    it is 1, take the bits of v from `first_bit` up, below `end_bit`, as a number. Write that with
 *    `linker_utils_write` and the form to the window that begins at `r_offset`, with `negative` set
 *    where v itself is below 0.
 * The range is that of v; `linker_utils_reach` is what can be written. */
struct linker_utils_relocation_info {
    uint32_t kind; /* `enum linker_utils_relocation_kind` */
    /* The form of the instruction that the bits go into, by the machine's enum. 0 for bytes. */
    uint32_t form;
    uint32_t mask; /* `enum linker_utils_mask` */
    uint16_t machine; /* The machine, `enum linker_utils_architecture`. 0 for bytes. */
    /* 1 where bits of the value go into an instruction, 0 where it goes into whole bytes. */
    uint8_t is_bits;
    uint8_t byte_size; /* How many bytes. 0 for bits. */
    /* The value's bits that are taken: `first_bit` and up, below `end_bit`. 0 for bytes. */
    uint8_t first_bit;
    uint8_t end_bit;
    /* 1 where only values from `min` up, below `max`, are allowed. 0 where all values are; `min`
     * and `max` are 0 then. */
    uint8_t has_range;
    uint8_t thunkable; /* whether a thunk may replace a target that is out of range */
    /* 1 where the addend is in the section, 0 where it is in the relocation. */
    uint8_t implicit_addend;
    int64_t min;
    int64_t max;
    uint64_t alignment; /* What the value has to be a multiple of; 1 for any value. */
    uint64_t bias; /* What is added first; 0 where nothing is. */
};

/* What a relocation means, by `e_machine` and ELF's relocation type. */
LINKER_UTILS_MUST_USE uint32_t linker_utils_relocation(
    uint16_t machine, uint32_t r_type, struct linker_utils_relocation_info *info);

/* Bytes that hold each text of a call: a name of a relocation, symbol or section, or a path. A call
 * writes a text to the first bytes that it takes, without a NUL, and its length to `.._used`.
 * LINKER_UTILS_TOO_SHORT where there are fewer bytes. */
#define LINKER_UTILS_NAME_SIZE 64

/* Writes the relocation's name in its psABI, as "R_X86_64_PC32". LINKER_UTILS_UNKNOWN_RELOCATION of
 * a type without a name; LINKER_UTILS_TOO_SHORT. */
LINKER_UTILS_MUST_USE static inline uint32_t linker_utils_relocation_name(
    uint16_t machine, uint32_t r_type, uint8_t *name, size_t name_len, size_t *name_used);

/* Whether the relocation requires a GOT entry: its value depends on where the symbol's GOT entry,
 * its entries for TLS or its TLS descriptor are, `got_entry` of `struct linker_utils_operands`. A
 * relocation that only counts from the GOT's address, as R_X86_64_GOTOFF64 and R_PPC64_TOC16,
 * requires none. Nor does one whose symbol labels the high part of a RISC-V pair, as
 * R_RISCV_TLSDESC_LOAD_LO12: the high part does. False of an unknown type. */
bool linker_utils_asks_for_got(uint16_t machine, uint32_t r_type);

/* Whether a PLT entry may serve as the relocation's target. Its value depends on `plt_entry` of
 * `struct linker_utils_operands`, or it is the value of a branch, conditional or not, which only
 * goes to the address. Where the formula of a branch has S in place of L, as that of R_PPC64_REL24,
 * pass the entry's address as `symbol`. For functions that another file may define, RISC-V
 * compilers use only R_RISCV_CALL, R_RISCV_CALL_PLT and R_RISCV_PLT32 of these. False for
 * R_X86_64_PC32, which loads have too, and of an unknown type. */
bool linker_utils_may_use_plt(uint16_t machine, uint32_t r_type);

/* What R_RISCV_HI20 means at a `c.lui`, which LINKER_UTILS_RISCV_REWRITE_HI20_TO_C_LUI leaves. */
void linker_utils_clui_rel_info(struct linker_utils_relocation_info *info);

/* The values of a relocation that can be written. */
struct linker_utils_relocation_reach {
    int64_t min; /* the least value; 0 where all can be written, as `max` */
    int64_t max; /* the first above the greatest */
    uint8_t has_range; /* 1 where only values from `min` up, below `max`, can be written */
};

/* The values that `linker_utils_relocate` writes: those that the machine reads back unchanged from
 * the instruction, or from its pair, and that pass the psABI's overflow check. They are those of
 * the range in `struct linker_utils_relocation_info`, except for these:
 * - RISC-V's HI20 and LO12 and calls: from -2^31 - 0x800 up, below 2^31 - 0x800
 * - R_LARCH_CALL36: from -2^37 - 0x20000 up, below 2^37 - 0x20000
 * - PowerPC64's _HA, of the biased value, and _HI: from -2^31 up, below 2^31
 * - AArch64's MOVW relocations of G0, G1 and G2 that set a signed value: from -2^16, -2^32 or -2^48
 *   up, below 2^16, 2^32 or 2^48
 * - R_RISCV_RVC_LUI: from -0x20800 up, below 0x1f800. Of these -0x800 up, below 0x800, can't be
 *   written, since the ISA reserves the immediate 0 of `c.lui`: LINKER_UTILS_OUT_OF_REACH
 * - R_X86_64_GOT32, R_RISCV_PLT32 and R_RISCV_GOT32_PCREL: from -2^31 up, below 2^31
 *
 * A relocation without a range takes a part of every value: R_AARCH64_ADR_PREL_PG_HI21_NC writes 0
 * for 2^33. */
LINKER_UTILS_MUST_USE uint32_t linker_utils_reach(
    uint16_t machine, uint32_t r_type, struct linker_utils_relocation_reach *reach);

/* ---- Rows: calls of one relocation by a handle, which is looked up once.
 *
 * The handle of `linker_utils_find` depends on the machine and the type alone, so that a linker may
 * keep it in a file. Each call does what the call of the same name does by machine and type, with
 * the same errors. First of these is LINKER_UTILS_UNKNOWN_RELOCATION of a number that is no handle,
 * as 0. */

/* What a relocation means and requires. */
struct linker_utils_row {
    uint64_t alignment; /* what each value has to be a multiple of */
    struct linker_utils_relocation_reach reach; /* which values can be written */
    /* What it requires with the addend 1, of a symbol that isn't thread-local. */
    struct linker_utils_requirements needs;
    uint32_t r_type;
    /* The formula of its value, by `enum linker_utils_relocation_kind`. Its pages and what is added
     * first are `mask` and `bias` of `linker_utils_relocation`. */
    uint32_t kind;
    uint16_t machine;
    uint8_t window; /* how many bytes a write writes */
    uint8_t may_use_plt; /* whether `linker_utils_may_use_plt` is true */
    uint8_t is_relative; /* whether its value is relative to the place */
    char name[40]; /* in its psABI, with a NUL after it */
};

/* What a relocation means and requires. */
LINKER_UTILS_MUST_USE uint32_t linker_utils_row_of(uint32_t handle, struct linker_utils_row *row);

/* `linker_utils_value`. */
LINKER_UTILS_MUST_USE uint32_t linker_utils_row_value(
    uint32_t handle, const struct linker_utils_operands *operands, int64_t *value);

/* `linker_utils_relocate`. */
LINKER_UTILS_MUST_USE static inline uint32_t linker_utils_row_write(
    uint32_t handle, int64_t value, uint8_t *dest, size_t dest_len);

/* Both: the value is computed and written. Where it isn't, the status is that of
 * `linker_utils_row_value` or of `linker_utils_row_write`. */
LINKER_UTILS_MUST_USE static inline uint32_t linker_utils_row_apply(
    uint32_t handle, const struct linker_utils_operands *operands, uint8_t *dest, size_t dest_len);

/* `linker_utils_reach`. */
LINKER_UTILS_MUST_USE uint32_t linker_utils_row_reach(
    uint32_t handle, struct linker_utils_relocation_reach *reach);

/* `linker_utils_needs`. */
LINKER_UTILS_MUST_USE uint32_t linker_utils_row_needs(
    uint32_t handle, int64_t addend, bool is_thread_local,
    struct linker_utils_requirements *required);

/* `linker_utils_choose`, of a type with a row. */
LINKER_UTILS_MUST_USE static inline uint32_t linker_utils_row_choose(
    uint32_t handle, const struct linker_utils_section *section, uint64_t offset,
    const struct linker_utils_link_facts *facts, struct linker_utils_choice *choice);

/* `linker_utils_relocation_fits`. False of a number that is no handle. */
static inline bool linker_utils_row_fits(
    uint32_t handle, const struct linker_utils_section *section, uint64_t offset,
    const struct linker_utils_link_facts *facts);

/* ---- Values by types: what operands and values are of some types.
 *
 * - S and P of RISC-V's PCREL_LO12_*: S is the address that the high part at the label refers to.
 *   That is the symbol's or, for R_RISCV_GOT_HI20, R_RISCV_TLS_GOT_HI20 and R_RISCV_TLS_GD_HI20,
 *   the GOT entry's. A and P are those of the high part, as for TLSDESC_*_LO12. By its own place a
 *   value is wrong, without an error.
 * - S of R_X86_64_GOTPC32 and R_X86_64_GOTPC64: the GOT's address.
 * - S of R_PPC64_REL24: the function's local entry point, or the stub that calls it ("Calls on
 *   PowerPC64" in linker_utils_outputs.h).
 * - P of LoongArch's halves of 64-bit addresses: the address of the relocated instruction, not that
 *   of the `pcalau12i`.
 * - The entry of the GOT: for an instruction of AArch64 or PowerPC64 the entry of S + A, and A
 *   isn't added to its address. For R_AARCH64_GOTPCREL32, and on the other architectures, it is the
 *   entry of S, and A is added. R_LARCH_GOT_PC_LO12 for a TLS symbol whose high half is
 *   R_LARCH_TLS_GD_PC_HI20 or R_LARCH_TLS_LD_PC_HI20 takes the entry of that high half.
 * - What offsets from the thread pointer count from: on AArch64 the TLS image's address less 16,
 *   rounded down to the segment's alignment. On RISC-V and LoongArch it is the image's address
 *   rounded down so, on PowerPC64 that plus 0x7000, and on x86-64 the image's end rounded up.
 * - What offsets in the module's TLS block count from: the image's address, aligned or not; plus
 *   0x8000 on PowerPC64, and plus 0x800 on RISC-V.
 * - The value of LoongArch's page of a GOT entry: the page of the entry's address plus A plus
 *   0x800, since a bias is added before pages are rounded down.
 * - The value of R_RISCV_SET_ULEB128 and R_LARCH_ADD_ULEB128: S + A, though their kind is
 *   LINKER_UTILS_KIND_RELATIVE. */

/* The value of the relocation at an index, as `linker_utils_value`, with the operands that the
 * relocation takes.
 * - A branch goes to the symbol's stub, if it has one. On PowerPC64 a branch to the symbol itself
 *   goes to the local entry point.
 * - A low part of RISC-V takes the operands of the high part at the label that its symbol is, and
 *   its own addend isn't read.
 * - A branch to an undefined weak symbol goes to the next instruction on AArch64, and on RISC-V and
 *   PowerPC64 to itself. What else is relative to the place is then 0 on AArch64. The offset of
 *   such a thread-local symbol is the addend, also without a TLS segment.
 * - Each of a pair at a ULEB128 number, and of R_RISCV_ADD32 and its like, has a value of its own.
 *
 * LINKER_UTILS_TOO_SHORT where there is no relocation at the index;
 * LINKER_UTILS_UNKNOWN_RELOCATION; LINKER_UTILS_NO_SYMBOL where the index of its symbol, or of its
 * high part's, isn't below `values_len`; LINKER_UTILS_NO_HIGH_PART; LINKER_UTILS_NO_ENTRY;
 * LINKER_UTILS_NO_TLS_BASE; LINKER_UTILS_NO_VALUE. O(1); a low part of n relocations O(log n) where
 * they ascend. */
LINKER_UTILS_MUST_USE static inline uint32_t linker_utils_value_at(
    const struct linker_utils_link *link, const struct linker_utils_object *object,
    const struct linker_utils_section *section, size_t index, int64_t *value);

/* ---- Writes by types: what is particular to writes of some types.
 *
 * - Relocations of 6 bits keep the upper 2 bits of their byte.
 * - In an instruction, the bits that the form only ORs need not be 0 before. The opcode of MOVN and
 *   MOVZ is written too, by the value's sign; their shift has to be the first of the relocation's
 *   bits. MOVN and MOVZ of 32 bits (bit 31 is 0) keep their size. A MOVK there stays a MOVK, with
 *   the value's bits as they are.
 * - A `jirl` at R_LARCH_PCALA_LO12 gets bits 2 to 17 of the low 12 bits of the value, which are
 *   read in two's complement, and accepts only multiples of 4.
 * - A PowerPC64 instruction of DQ-form (lq, lxv, stxv, lxvp, stxvp) at a relocation of DS-form
 *   keeps its low 4 bits, and accepts only multiples of 16. */

/* ---- Sections by types: what `linker_utils_relocate_section` tests.
 *
 * The bytes that a relocation writes are its field; one without a value has none. Relocations whose
 * fields overlap have to compose. They are at one offset, and change the number that those before
 * them set or change, as R_RISCV_ADD32 and R_RISCV_SUB32 do. Or they are a pair at a ULEB128
 * number, next to each other; LINKER_UTILS_UNSUPPORTED of one that isn't of a pair. The texts of
 * LINKER_UTILS_NOT_ALIGNED, LINKER_UTILS_NEEDS_STUB and LINKER_UTILS_OTHER_LENGTH say which code
 * would be wrong with its value, and isn't written. LINKER_UTILS_OUT_OF_REACH is also of
 * LoongArch's *_HI20 whose value isn't a number of 32 bits in two's complement, without a *64*_LO20
 * of its symbol and addend. A linker that removes the nops of an alignment itself sets the
 * relocation's type to 0. */

/* What a linker knows of the symbol of one relocation, with the stub and the entry of the GOT that
 * serve this relocation. */
struct linker_utils_resolved {
    /* S, of a thread-local symbol its address in the TLS segment's image; of R_X86_64_SIZE32 and
     * R_X86_64_SIZE64 Z, the symbol's size; of a merged string its address less the addend. */
    uint64_t address;
    uint64_t entry; /* of the entry that `linker_utils_needs` requires, of S, of S + A or of the
                     * module (local-dynamic); 0 if there is none */
    uint64_t stub; /* of the stub or PLT entry by which a branch goes; 0 if it goes to `address` */
    uint8_t other; /* `st_other`, of which PowerPC64's branches take the local entry point */
    /* Weak, and nothing defines it: `address` is read of a symbol's size and of a label alone. */
    bool is_undefined_weak;
    /* Nothing is written, as where a dynamic relocation takes its place. Of a high part of RISC-V
     * the rest is still read for its low parts. Not read of a pair at a ULEB128 number. */
    bool is_left_out;
};

/* Writes the values of a section's relocations as `linker_utils_relocate_section` does, by the
 * section's `resolved` in place of an object's symbols: an element for each relocation. A low part
 * of RISC-V reads its own, for the label's address, and that of its high part's relocation. The
 * field of a relocation that is left out counts: LINKER_UTILS_OVERLAPS of one that overlaps it, and
 * LINKER_UTILS_TOO_SHORT where it isn't in the section. LINKER_UTILS_NO_SYMBOL of a relocation
 * that has a value, without an element. */
LINKER_UTILS_MUST_USE static inline uint32_t linker_utils_relocate_resolved(
    const struct linker_utils_link *link, const struct linker_utils_section *section,
    uint64_t *memory, size_t memory_len, size_t *faulty);

/* A relocation of a section. */
struct linker_utils_relocation_entry {
    uint64_t offset; /* The offset in the section of the first byte that is written. */
    int64_t value; /* The value, as `linker_utils_value` returns it. */
    uint32_t r_type; /* The relocation's type. */
};

/* Applies several relocations of a section, in order. It stops at the first that is rejected,
 * `faulty`, by an error of `linker_utils_relocate`: those before it are written. An offset past the
 * section's end is LINKER_UTILS_TOO_SHORT whatever the type, even if
 * LINKER_UTILS_UNKNOWN_RELOCATION or LINKER_UTILS_UNSUPPORTED applies too. */
LINKER_UTILS_MUST_USE static inline uint32_t linker_utils_relocate_all(
    uint16_t machine, const struct linker_utils_section *section,
    const struct linker_utils_relocation_entry *relocations, size_t relocations_len,
    size_t *faulty);

/* ---- Compact relocations: sections of type SHT_CREL (0x40000014), which clang writes with
 * `-Wa,--crel`. */

/* Writes the relocations of such a section's bytes, `crel`, to the beginning of `relas`, n of 24
 * bytes, as a `section` has them. `number` becomes how many they are, with LINKER_UTILS_TOO_SHORT
 * too. `has_addends` becomes 0 where addends are in the bytes that relocations are at, as with
 * SHT_REL, and 0 in `relas`. LINKER_UTILS_CUT_OFF and LINKER_UTILS_TOO_LARGE, of the header;
 * LINKER_UTILS_TOO_SHORT, of `relas`, for which no more is read; LINKER_UTILS_CUT_OFF and
 * LINKER_UTILS_TOO_LARGE, of the first relocation that isn't well-formed. With these two `number`
 * is the offset of a LEB128 number, or the section's end. O(n). */
LINKER_UTILS_MUST_USE static inline uint32_t linker_utils_read_crel(
    const uint8_t *crel, size_t crel_len, void *relas, size_t relas_len, size_t *number,
    uint8_t *has_addends);

/* ---- RV32: files of ELFCLASS32 with EM_RISCV. Their relocations have RISC-V's types, and all
 * other calls take them as those of RV64, with addresses below 2^32. What may make `c.jal` has to
 * know the class: calls that relax and pack runs take LINKER_UTILS_CLASS32 beside the machine, and
 * the facts of `linker_utils_choose` have `is_class32`. Of other machines
 * LINKER_UTILS_UNKNOWN_ARCHITECTURE. */

/* Copies the relocations of such a file's section, n of 12 bytes (`Elf32_Rela`), to the first of
 * `relas`, of 24 bytes each, as a `section` has them. `rela32_len` counts bytes, of which those
 * after the last whole one count for nothing. LINKER_UTILS_TOO_SHORT, of `relas`. O(n). */
LINKER_UTILS_MUST_USE static inline uint32_t linker_utils_read_rela32(
    uint16_t machine, const uint8_t *rela32, size_t rela32_len, void *relas, size_t relas_len);

/* Adds a multiple of 2^32 to the addend of each of a section's n relocations whose value is tested,
 * once addresses are known, since distances are modulo 2^32. The value then is the least from
 * `min` of `linker_utils_reach` on that is the same modulo 2^32. `linker_utils_relocate_section`
 * then writes each pair of instructions, and each branch that reaches its target so. A second call
 * changes nothing. O(n). */
LINKER_UTILS_MUST_USE static inline uint32_t linker_utils_wrap_addends(
    const struct linker_utils_link *link, const struct linker_utils_object *object,
    const struct linker_utils_section *section);

/* ---- Needs by types: what `struct linker_utils_requirements` says of some.
 *
 * - `entry_addend`: AArch64 and PowerPC64 have an entry for each S + A. It is 0 of
 *   LINKER_UTILS_ENTRY_MODULE.
 * - `entry_class`: of PowerPC64's calls that load the function's address themselves, as
 *   R_PPC64_PLT16_LO_DS, the entry is a word with that address.
 * - `stub_only_if_undefined`: else the relocation goes to the definition, or to the entry that
 *   another one made.
 * - `depends_on_load`: if that is a multiple of 4 KiB beside where it was linked for. Not of halves
 *   of a difference, as R_RISCV_ADD32 and _SUB32. */

/* ---- Forms: values in the immediates of instructions.
 *
 * A machine and a number of its enum of forms name a form. A form has a window: the bytes of the
 * instruction, or of the pair, little-endian. Its value is a number of as many bits as the enums of
 * forms in linker_utils_lists.h say. It is in the instruction's own unit: for `bl` a distance in
 * words of 4 bytes. `struct linker_utils_relocation_info` says how a relocation's value becomes the
 * form's value. x86-64 has no forms: LINKER_UTILS_UNKNOWN_ARCHITECTURE. The next error is
 * LINKER_UTILS_UNKNOWN_FORM. */

/* The length in bytes of a form's window. */
LINKER_UTILS_MUST_USE uint32_t linker_utils_window(uint16_t machine, uint32_t form, size_t *window);

/* LINKER_UTILS_OK where `linker_utils_write` of the value to these bytes would return that.
 * Otherwise LINKER_UTILS_TOO_SHORT where there are fewer bytes than the window, or
 * LINKER_UTILS_DOES_NOT_FIT where the value has more bits than the form. */
LINKER_UTILS_MUST_USE static inline uint32_t linker_utils_fits(
    uint16_t machine, uint32_t form, uint64_t value, const uint8_t *bytes, size_t bytes_len);

/* Writes a value into the instruction that `dest` begins with, and changes no other bit. `negative`
 * is the value's sign, which matters only to LINKER_UTILS_AARCH64_FORM_MOVNZ.
 *
 * Some bits are only ORed: a bit that is 1 before stays 1. They have to be 0 before. These are all
 * bits of AArch64's forms, except for LINKER_UTILS_AARCH64_FORM_MOVNZ and
 * LINKER_UTILS_AARCH64_FORM_MACH_O_LOW12, and the upper 4 of a branch's 16 bits at
 * LINKER_UTILS_LOONGARCH64_FORM_SHIFT10. `linker_utils_relocate` clears them first.
 * LINKER_UTILS_TOO_SHORT, LINKER_UTILS_DOES_NOT_FIT. */
LINKER_UTILS_MUST_USE static inline uint32_t linker_utils_write(
    uint16_t machine, uint32_t form, uint64_t value, bool negative, uint8_t *dest, size_t dest_len);

/* Reads the value in the instruction that `bytes` begins with, modulo 2^64, and whether the form
 * says that it is negative. LINKER_UTILS_TOO_SHORT. */
LINKER_UTILS_MUST_USE static inline uint32_t linker_utils_read(
    uint16_t machine, uint32_t form, const uint8_t *bytes, size_t bytes_len, uint64_t *value,
    uint8_t *negative);

/* The number that the machine makes of the immediate of the instruction that the bytes begin with,
 * into `number`: with its sign, and times what it counts. So distances and offsets are in bytes,
 * and what an instruction adds, moves or compares is that number, in two's complement of 64 bits.
 * PowerPC64's `b .-4` has -4, AArch64's `ldr x0, [x1, 0x7ff8]` 0x7ff8, and RISC-V's
 * `lui a0, 0x12345` 0x12345000. Of a form of 8 bytes it is what both instructions add up to, where
 * the base of the second is the destination of the first. `linker_utils_read` returns the value as
 * `linker_utils_write` takes it, whose sign and unit are the form's.
 *
 * LINKER_UTILS_DOES_NOT_MATCH where the bytes don't begin with an instruction of the form, by its
 * opcode in the architecture's manual. */
LINKER_UTILS_MUST_USE static inline uint32_t linker_utils_operand(
    uint16_t machine, uint32_t form, const uint8_t *bytes, size_t bytes_len, int64_t *number);

/* The forms of the instruction that the bytes begin with, and of both where it and the next one are
 * a pair. Bit k stands for the form with number k. It calls `linker_utils_operand` of each form. 0
 * where no form is there, and of x86-64. */
static inline uint32_t linker_utils_forms_of(uint16_t machine, const uint8_t *bytes,
                                             size_t bytes_len);

/* ---- Sequences of instructions, and ULEB128 numbers. */

/* AArch64: writes the four instructions, in 16 bytes, that load a number into register `rd`.
 * LINKER_UTILS_TOO_SHORT, LINKER_UTILS_BAD_REGISTER. */
LINKER_UTILS_MUST_USE static inline uint32_t linker_utils_write_mov_sequence(
    uint8_t *dest, size_t dest_len, uint32_t rd, uint64_t value);

/* LoongArch: makes the five instructions in 20 bytes (pcalau12i, addi.d from $zero, lu32i.d,
 * lu52i.d, add.d) compute the address `target`, with the first at `pc`. Opcodes and registers are
 * unchanged. LINKER_UTILS_TOO_SHORT. */
LINKER_UTILS_MUST_USE static inline uint32_t linker_utils_write_address_sequence(
    uint8_t *dest, size_t dest_len, uint64_t pc, uint64_t target);

/* LoongArch: the number whose bits 32 to 51 and 52 to 63 complete the address `s`, relative to
 * `pc`, which is the address of the first instruction plus 8. */
uint64_t linker_utils_highest_relocation_with_bias(uint64_t s, uint64_t pc);

/* PowerPC64: writes a value into a pair of D-form instructions, its adjusted high half into `ha`
 * and its low half into `lo`. LINKER_UTILS_TOO_SHORT where one has fewer than 4 bytes. */
LINKER_UTILS_MUST_USE static inline uint32_t linker_utils_write_ha_lo(
    uint8_t *ha, size_t ha_len, uint8_t *lo, size_t lo_len, uint64_t value);

/* What a relocation does with the ULEB128 number at its place, as `enum linker_utils_role` says:
 * LINKER_UTILS_ROLE_SETS, LINKER_UTILS_ROLE_ADDS or LINKER_UTILS_ROLE_SUBTRACTS.
 * LINKER_UTILS_ROLE_NONE of any other. */
uint32_t linker_utils_uleb128_role(uint16_t machine, uint32_t r_type);

/* Writes a value over the ULEB128 number that `dest` begins with, in as many bytes. All except for
 * the last are at least 0x80, so that a smaller value is padded with zeros. The following bytes are
 * unchanged. LINKER_UTILS_ULEB128_ENDED and LINKER_UTILS_ULEB128_TOO_LARGE, both for the existing
 * number; LINKER_UTILS_DOES_NOT_FIT. */
LINKER_UTILS_MUST_USE static inline uint32_t linker_utils_write_uleb128(
    uint8_t *dest, size_t dest_len, uint64_t value);

/* Writes what two relocations make of the ULEB128 number that `dest` begins with, in as many bytes:
 * `r_type` is the type of the first, and `first` and `second` are their values, S + A. With
 * R_RISCV_SET_ULEB128 and R_RISCV_SUB_ULEB128 it is the difference of both. With
 * R_LARCH_ADD_ULEB128 and R_LARCH_SUB_ULEB128 it is the existing number plus that, modulo 2^64.
 * LINKER_UTILS_UNKNOWN_RELOCATION where the type is none that sets or adds; the errors of
 * `linker_utils_write_uleb128`. A difference below 0 fits ten bytes alone. */
LINKER_UTILS_MUST_USE static inline uint32_t linker_utils_write_uleb128_pair(
    uint16_t machine, uint32_t r_type, uint8_t *dest, size_t dest_len, uint64_t first,
    uint64_t second);

/* ---- Readers of numbers. */

/* The little-endian number of the first 4 bytes. LINKER_UTILS_TOO_SHORT. */
LINKER_UTILS_MUST_USE static inline uint32_t linker_utils_u32_from_slice(
    const uint8_t *bytes, size_t bytes_len, uint32_t *value);

/* The little-endian number of the first 8 bytes. LINKER_UTILS_TOO_SHORT. */
LINKER_UTILS_MUST_USE static inline uint32_t linker_utils_u64_from_slice(
    const uint8_t *bytes, size_t bytes_len, uint64_t *value);

/* The little-endian number of the first 4 bytes, and how many bytes it took: 4.
 * LINKER_UTILS_TOO_SHORT. */
LINKER_UTILS_MUST_USE static inline uint32_t linker_utils_read_u32(
    const uint8_t *bytes, size_t bytes_len, uint32_t *value, size_t *consumed);

/* The ULEB128 number that the bytes begin with, and how many bytes it took: at most 10.
 * LINKER_UTILS_ULEB128_ENDED, LINKER_UTILS_ULEB128_TOO_LARGE. */
LINKER_UTILS_MUST_USE static inline uint32_t linker_utils_read_uleb128(
    const uint8_t *bytes, size_t bytes_len, uint64_t *value, size_t *consumed);

#endif
