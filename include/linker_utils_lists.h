/* SPDX-License-Identifier: MIT OR Apache-2.0 */
/* The lists of linker_utils.h, which includes this file: the statuses, and the numbers of
 * architectures, kinds of relocations, forms, rewrites and others. After the rewrites are the
 * tables of choices. */
#ifndef LINKER_UTILS_LISTS_H
#define LINKER_UTILS_LISTS_H

#if defined(__BYTE_ORDER__) && __BYTE_ORDER__ != __ORDER_LITTLE_ENDIAN__
#error "linker_utils.h is for little-endian hosts: relocations are those of the file, as they stand"
#endif
#if SIZE_MAX < UINT64_MAX
#error "linker_utils.h is for hosts of 64 bits: the library is proved for lengths of 64 bits"
#endif

/* What a call returns: names, numbers and `linker_utils_status_text`. 11 and 16 are unused. */
#define LINKER_UTILS_STATUSES(STATUS) \
    STATUS(OK, 0, "Success.") \
    STATUS(UNKNOWN_ARCHITECTURE, 1, \
           "No architecture has this machine number, or the call isn't for this architecture.") \
    STATUS(UNKNOWN_FORM, 2, "The architecture has no form with this number.") \
    STATUS(UNKNOWN_REWRITE, 3, "The architecture has no rewrite with this number.") \
    STATUS(UNKNOWN_RELOCATION, 4, \
           "The architecture has no relocation of this type, or its meaning is not known.") \
    STATUS(TOO_SHORT, 5, "There are fewer bytes than the call reads or writes.") \
    STATUS(DOES_NOT_FIT, 6, \
           "The value does not fit the form, the existing ULEB128 number or the type of " \
           "properties.") \
    STATUS(CANNOT_APPLY, 7, "The rewrite cannot be applied there.") \
    STATUS(BAD_REGISTER, 8, "The register is not one of 0 to 30.") \
    STATUS(OUT_OF_SECTION, 9, \
           "The four bytes at the site, or the eight where the `jalr`'s register is linked, are " \
           "not in the section, or the target is past its end.") \
    STATUS(SITE_DELETED, 10, "One of the four bytes at the site is deleted.") \
    STATUS(ODD_DISTANCE, 12, "The distance is odd.") \
    STATUS(TOO_FAR, 13, "The distance is out of the range of `jal`.") \
    STATUS(INVALID_DELETIONS, 14, \
           "The deletions do not strictly ascend, one reaches past the next, or one ends past " \
           "2^64 - 1 or past the section.") \
    STATUS(NOT_MERGEABLE, 15, \
           "Two deletions overlap or begin at one offset, or one ends past 2^64 - 1.") \
    STATUS(TOO_LARGE, 17, \
           "The input offset, or a bitmap's address, would be past 2^64 - 1, a number of compact " \
           "relocations has more than 64 bits, or a note would be too long.") \
    STATUS(NOT_ASCENDING, 18, \
           "The queries, or the boundaries, decrease somewhere, or the addresses or types do not " \
           "ascend.") \
    STATUS(DIFFERENT_LENGTHS, 19, "An output array does not have the length that the call takes.") \
    STATUS(OUT_OF_MEMORY, 20, "`malloc` or `realloc` returned null.") \
    STATUS(ULEB128_ENDED, 21, "The bytes end before the ULEB128 number does.") \
    STATUS(ULEB128_TOO_LARGE, 22, "The tenth byte of the ULEB128 number is neither 0 nor 1.") \
    STATUS(UNKNOWN_LINK_REGISTER, 23, "No link register of a call has this number.") \
    STATUS(CALLS_NOT_APART, 24, "A call's site is less than 4 above that of the call before it.") \
    STATUS(NOT_A_CALL, 25, \
           "The eight bytes at the site are not an `auipc` and a `jalr` whose base is its " \
           "register.") \
    STATUS(CALLS_NOT_SHRINKABLE, 26, "`linker_utils_calls_shrinkable` does not accept a call.") \
    STATUS(MISALIGNED, 27, "The value is not a multiple of the relocation's alignment.") \
    STATUS(OUT_OF_REACH, 28, "The value is out of the relocation's reach.") \
    STATUS(NO_VALUE, 29, "A relocation of this type has no value.") \
    STATUS(UNSUPPORTED, 30, \
           "The relocation is one of a pair that computes a ULEB128 number, or R_LARCH_CALL30.") \
    STATUS(DOES_NOT_MATCH, 31, \
           "The bytes there are not an instruction that the rewrite is meant for, or that has " \
           "the form.") \
    STATUS(UNKNOWN_SHAPES, 32, "No shapes have this number.") \
    STATUS(MALFORMED_RELOCATION, 33, \
           "The relocation is not one that the psABI allows there.") \
    STATUS(ITEMS_OVERLAP, 34, "The item begins below the end of the item before it.") \
    STATUS(ENDS_TOO_HIGH, 35, \
           "The address after the item, or after the section, is above 2^64 - 1.") \
    STATUS(TOO_MANY_SHAPES, 36, "The site has more than two short shapes.") \
    STATUS(SHAPE_TOO_LONG, 37, "A shape keeps more bytes than the site has.") \
    STATUS(SHAPES_NOT_ASCENDING, 38, \
           "A short shape keeps no fewer bytes than the next shape.") \
    STATUS(BAD_GRANULARITY, 39, \
           "The granularity of a short shape is not a power of two, or not a multiple of the " \
           "next one's.") \
    STATUS(BAD_REACH, 40, \
           "A short shape does not reach its own offset, or reaches farther than the next short " \
           "one.") \
    STATUS(BAD_ALIGNMENT, 41, "The alignment is not a power of two.") \
    STATUS(UNEVEN_SHAPE, 42, \
           "A shape frees bytes that are not a multiple of the run's granularity.") \
    STATUS(ALIGNMENT_BELOW_GRANULARITY, 43, \
           "The alignment is not a multiple of the run's granularity, and may keep other nops " \
           "in other layouts.") \
    STATUS(UNEVEN_END, 44, \
           "The address after the nops is not a multiple of the run's granularity, and the " \
           "alignment may keep other nops in other layouts.") \
    STATUS(TOO_FEW_NOPS, 45, \
           "The alignment has a limit, and there are fewer nops than it less the granularity, " \
           "and fewer than may stay.") \
    STATUS(UNEVEN_NOPS, 46, \
           "The alignment has a limit, and its nops are not a multiple of the run's " \
           "granularity.") \
    STATUS(TARGET_INSIDE, 47, "The target is strictly inside the bytes that an item may lose.") \
    STATUS(HOLDS_NO_VALUE, 48, "The relocation's field does not hold bits of its value.") \
    STATUS(BAD_FIELD_VALUE, 49, \
           "No bits are known, or some above bit 63, or there are more bits than are known.") \
    STATUS(NO_ADDRESS, 50, \
           "The relocation's value has no address, or the address is a page's and known from " \
           "below bit 12, or no address is before the first bitmap.") \
    STATUS(NOT_HALVES, 51, \
           "The low half does not have all bits below those of the high half, without rounding.") \
    STATUS(WINDOW_TOO_LONG, 52, "The original bytes are more than 64.") \
    STATUS(ITEM_OUT_OF_SECTION, 53, "The item is not in the section.") \
    STATUS(NOT_ITS_FIRST_BYTES, 54, "The bytes of the item that stay are not its first ones.") \
    STATUS(NOT_ITS_INSTRUCTIONS, 55, \
           "The instructions of the site are not those that its shapes stand for.") \
    STATUS(NO_SHAPE, 56, \
           "No instruction, or no nops, have as many bytes as stay of the item.") \
    STATUS(TARGET_OUT_OF_REACH, 57, \
           "The instruction of as many bytes as stay does not reach the target: it is too far, " \
           "or its distance is not a multiple of what the instruction counts in.") \
    STATUS(LEAVES_OTHER_BYTES, 58, "The rewrite that is chosen leaves other bytes.") \
    STATUS(MAY_BE_MISALIGNED, 59, \
           "The alignment has no limit, and in some layout more nops may be needed than there " \
           "are.") \
    STATUS(DELETED_OUTSIDE, 60, \
           "Bytes before the item, or after the last one, are deleted that are of no item.") \
    STATUS(NO_SYMBOL, 61, \
           "The relocation's symbol, or that of its high part, is not in the table.") \
    STATUS(NO_ENTRY, 62, \
           "The relocation requires an entry of the GOT, and there is none of its class with its " \
           "addend.") \
    STATUS(NO_HIGH_PART, 63, \
           "No high part is at the label that the symbol of the relocation is.") \
    STATUS(OVERLAPS, 64, \
           "The relocation's field overlaps that of one before it, and the two do not compose.") \
    STATUS(SHORT_MEMORY, 65, "The memory has fewer elements than the call needs.") \
    STATUS(NOT_SURVEYED, 66, \
           "The relocation cannot be rewritten, though its group does not stay: the section was " \
           "surveyed with other facts, or not at all.") \
    STATUS(UNKNOWN_ENTRY_CLASS, 67, \
           "No class of entries of the GOT has this number, or a static executable has no such " \
           "entry.") \
    STATUS(DIFFERENT_FLAGS, 68, \
           "The psABI keeps objects with these `e_flags` apart, or does not define a bit of " \
           "them.") \
    STATUS(NOT_PROVIDED, 69, \
           "The architecture has none with this index, or glibc has none for these `e_flags`.") \
    STATUS(UNKNOWN_STUB, 70, \
           "No kind of stubs has this number, or the architecture has no stub of the kind.") \
    STATUS(UNKNOWN_PHASE, 71, "No phase of rewrites has this number.") \
    STATUS(NOT_A_BRANCH, 72, \
           "No stub may serve the relocation: it is not that of a branch, or has no known meaning.") \
    STATUS(NO_ROOM, 73, \
           "A stub has to store the TOC pointer, and nothing after the branch restores it.") \
    STATUS(STUB_WITHOUT_LENGTH, 74, "A stub has no bytes, or the unit of stubs is 0.") \
    STATUS(NO_TARGET, 75, "The index of the branch's target is not in the table.") \
    STATUS(CODE_TOO_LONG, 76, \
           "An offset is not below 2^62, or the bytes of two stubs for each branch and one more, " \
           "with a unit for each boundary, are not.") \
    STATUS(NO_BOUNDARY, 77, \
           "The branch reaches neither its target nor a boundary for a stub.") \
    STATUS(STUB_TOO_FAR, 78, "A stub of the target does not reach it.") \
    STATUS(FACTS_CHANGED, 79, \
           "The facts of the relocation's symbol, or of the output, are not those that were kept.") \
    STATUS(NOT_ALIGNED, 80, \
           "The code after the nops of an alignment is not aligned: the section was not packed.") \
    STATUS(NEEDS_STUB, 81, \
           "The function may return with another TOC pointer, and its symbol has no stub that " \
           "keeps the caller's.") \
    STATUS(OTHER_LENGTH, 82, \
           "The instruction there is shorter or longer than the one that the relocation is for.") \
    STATUS(FACTS_CONTRADICT, 83, \
           "The facts and the values of a symbol contradict each other: it is local, and undefined " \
           "and weak, or `other` is not the same.") \
    STATUS(NO_TLS_BASE, 84, \
           "The value counts from an origin of thread-local offsets, and the output has no TLS " \
           "segment.") \
    STATUS(UNALIGNED_ADDRESS, 85, "An address is not a multiple of 8.") \
    STATUS(NOT_PROPERTIES, 86, "What begins at the offset is not a note of properties.") \
    STATUS(CUT_OFF, 87, \
           "The section ends at the offset, or in the note or number, or the note in the property, " \
           "that begins there.") \
    STATUS(WRONG_SIZE, 88, "The property at the offset has another size than its type.") \
    STATUS(DIFFERENT_VALUES, 89, \
           "The inputs have different values of the property of the type.") \
    STATUS(UNKNOWN_PROPERTY, 90, "The type of the property has no rule.")

enum linker_utils_status {
#define LINKER_UTILS_STATUS(name, number, text) LINKER_UTILS_##name = number,
    LINKER_UTILS_STATUSES(LINKER_UTILS_STATUS)
#undef LINKER_UTILS_STATUS
};

#ifndef LINKER_UTILS_MUST_USE
/* Begins the declaration of each call that returns a status: compilers warn where the status isn't
 * used. A program that doesn't want this defines it as nothing before it includes the header. */
#if (defined(__cplusplus) && __cplusplus >= 201703L) || \
    (defined(__STDC_VERSION__) && __STDC_VERSION__ >= 202000L)
#define LINKER_UTILS_MUST_USE [[nodiscard]]
#elif defined(__GNUC__)
#define LINKER_UTILS_MUST_USE __attribute__((warn_unused_result))
#else
#define LINKER_UTILS_MUST_USE
#endif
#endif

/* The architectures, by `e_machine` in the ELF header of their files. */
enum linker_utils_architecture {
    LINKER_UTILS_PPC64 = 21, /* 64-bit Power, little-endian (ELFv2) */
    LINKER_UTILS_X86_64 = 62,
    LINKER_UTILS_AARCH64 = 183, /* little-endian */
    LINKER_UTILS_RISCV = 243, /* RV64, with or without the C extension */
    LINKER_UTILS_LOONGARCH64 = 258
};

/* ---- Values: what relocations are computed from. */

/* What a relocation's value is computed from. The letters are those of the psABIs:
 *   S    the symbol's address
 *   A    the addend
 *   P    the address of the field, where the relocation is
 *   V    the existing number in the field
 *   L    the address of the symbol's PLT entry, or S where it has none
 *   GOT  the address that GOT offsets count from: that of `_GLOBAL_OFFSET_TABLE_`, and on PowerPC64
 *        that of `.TOC.`, which is 0x8000 past the beginning of the GOT
 *   G    the offset from GOT of the symbol's GOT entry, whose address is thus GOT + G
 *   Z    the symbol's size
 *   GD, LD, IE, DESC   the address of the symbol's GOT entries for general-dynamic, local-dynamic
 *        and initial-exec TLS, and of its TLS descriptor
 *   DTPREL, TPREL   the offset in the module's TLS block, and from the thread pointer, with the
 *        constants that the psABI subtracts (0x8000 and 0x7000 on PowerPC64)
 * In instructions of AArch64 and PowerPC64, G, GD, LD, IE and DESC are of the entry of S + A, and
 * A is not added again.
 * HIGHEST is `linker_utils_highest_relocation_with_bias` of an address and PC, which is the address
 * of the sequence's first instruction, pcalau12i, plus 8. */
enum linker_utils_relocation_kind {
    LINKER_UTILS_KIND_NONE = 0, /* no value: nothing is written */
    LINKER_UTILS_KIND_ABSOLUTE = 1, /* S + A */
    /* S + A, of which the instruction takes bits of the offset in the page */
    LINKER_UTILS_KIND_ABSOLUTE_LOW_PART = 2,
    LINKER_UTILS_KIND_ABSOLUTE_SET = 3, /* S + A */
    /* S + A in the low 6 bits of the byte, whose upper 2 bits are unchanged */
    LINKER_UTILS_KIND_ABSOLUTE_SET_WORD6 = 4,
    LINKER_UTILS_KIND_ABSOLUTE_ADDITION = 5, /* V + S + A */
    /* V + S + A in the low 6 bits of the byte, whose upper 2 bits are unchanged */
    LINKER_UTILS_KIND_ABSOLUTE_ADDITION_WORD6 = 6,
    LINKER_UTILS_KIND_ABSOLUTE_SUBTRACTION = 7, /* V - S - A */
    /* V - S - A in the low 6 bits of the byte, whose upper 2 bits are unchanged */
    LINKER_UTILS_KIND_ABSOLUTE_SUBTRACTION_WORD6 = 8,
    /* (S + A of the R_RISCV_SET_ULEB128 before it, at the same offset) - S - A, as a ULEB128 number
     * of the same length; the R_RISCV_SET_ULEB128 itself writes nothing */
    LINKER_UTILS_KIND_PAIR_SUBTRACTION_ULEB128_RISC_V = 9,
    /* V + (S + A of the R_LARCH_ADD_ULEB128 before it, at the same offset) - S - A, as a ULEB128
     * number of the same length; the R_LARCH_ADD_ULEB128 itself writes nothing */
    LINKER_UTILS_KIND_PAIR_SUBTRACTION_ULEB128_LOONG_ARCH = 10,
    LINKER_UTILS_KIND_RELATIVE = 11, /* S + A - P */
    /* the value of another relocation: that of the auipc at address S, which the symbol labels. It
     * is computed with that relocation's S, A and P; the form takes its low 12 bits. */
    LINKER_UTILS_KIND_RELATIVE_RISC_V_LOW12 = 12,
    LINKER_UTILS_KIND_RELATIVE_LOONG_ARCH_HIGH = 13, /* HIGHEST(S + A, PC) */
    LINKER_UTILS_KIND_GOT_RELATIVE = 14, /* GOT + G + A - P */
    LINKER_UTILS_KIND_GOT_RELATIVE_LOONG_ARCH64 = 15, /* HIGHEST(GOT + G + A, PC) */
    LINKER_UTILS_KIND_GOT_REL_GOT_BASE = 16, /* G + A */
    LINKER_UTILS_KIND_GOT = 17, /* GOT + G + A */
    LINKER_UTILS_KIND_SYM_REL_GOT_BASE = 18, /* S + A - GOT */
    LINKER_UTILS_KIND_PLT_REL_GOT_BASE = 19, /* L + A - GOT */
    LINKER_UTILS_KIND_PLT_RELATIVE = 20, /* L + A - P */
    LINKER_UTILS_KIND_SYMBOL_SIZE = 21, /* Z + A */
    /* no value: A says how many bytes of nops there are, of which the linker keeps those that the
     * alignment needs (`linker_utils_section_items`) */
    LINKER_UTILS_KIND_ALIGNMENT = 22,
    LINKER_UTILS_KIND_TLS_GD = 23, /* GD + A - P */
    LINKER_UTILS_KIND_TLS_GD_GOT = 24, /* GD + A */
    LINKER_UTILS_KIND_TLS_GD_GOT_BASE = 25, /* GD + A - GOT */
    LINKER_UTILS_KIND_TLS_LD = 26, /* LD + A - P */
    LINKER_UTILS_KIND_TLS_LD_GOT = 27, /* LD + A */
    LINKER_UTILS_KIND_TLS_LD_GOT_BASE = 28, /* LD + A - GOT */
    LINKER_UTILS_KIND_DTP_OFF = 29, /* DTPREL(S + A) */
    LINKER_UTILS_KIND_GOT_TP_OFF = 30, /* IE + A - P */
    LINKER_UTILS_KIND_GOT_TP_OFF_GOT = 31, /* IE + A */
    LINKER_UTILS_KIND_GOT_TP_OFF_GOT_BASE = 32, /* IE + A - GOT */
    LINKER_UTILS_KIND_GOT_TP_OFF_LOONG_ARCH64 = 33, /* HIGHEST(IE + A, PC) */
    LINKER_UTILS_KIND_TP_OFF = 34, /* TPREL(S + A) */
    LINKER_UTILS_KIND_TLS_DESC = 35, /* DESC + A - P */
    LINKER_UTILS_KIND_TLS_DESC_GOT = 36, /* DESC + A */
    LINKER_UTILS_KIND_TLS_DESC_GOT_BASE = 37, /* DESC + A - GOT */
    LINKER_UTILS_KIND_TLS_DESC_LOONG_ARCH64 = 38, /* HIGHEST(DESC + A, PC) */
    LINKER_UTILS_KIND_TLS_DESC_CALL = 39 /* no value: it marks the call through a TLS descriptor */
};

/* Which addresses of the formula are rounded down to their page of 4 KiB. */
enum linker_utils_mask {
    LINKER_UTILS_MASK_NONE = 0,
    LINKER_UTILS_MASK_SYMBOL_PLUS_ADDEND_AND_POSITION = 1, /* S + A, and P */
    /* the GOT entry's address (GOT + G, GD, LD, IE or DESC) with what is added to it, and P */
    LINKER_UTILS_MASK_GOT_ENTRY_AND_POSITION = 2,
    LINKER_UTILS_MASK_GOT_BASE = 3 /* GOT */
};

/* What a relocation of a ULEB128 number does with its value, S + A. There are two relocations for
 * one number. `linker_utils_write_uleb128_pair` writes the result of both: that of the first may
 * need more bytes than the number has. */
enum linker_utils_role {
    /* it is not a relocation of a ULEB128 number, or its machine or type is unknown */
    LINKER_UTILS_ROLE_NONE = 0,
    LINKER_UTILS_ROLE_SETS = 1, /* The value is the number that the second subtracts from. */
    LINKER_UTILS_ROLE_ADDS = 2, /* The value is added to the existing number. */
    LINKER_UTILS_ROLE_SUBTRACTS = 3 /* The value is subtracted from the result of the first. */
};

/* ---- Forms: the immediates of instructions. */

/* AArch64 (Arm Architecture Reference Manual for A-profile, DDI 0487). All windows are of 4 bytes.
 * Except for MOVNZ and MACH_O_LOW12, the value's bits are only ORed with the existing ones, which
 * have to be 0 before. */
enum linker_utils_aarch64_form {
    LINKER_UTILS_AARCH64_FORM_ADR = 0, /* adr, in bytes, and adrp, in pages of 4 KiB: 21 bits */
    LINKER_UTILS_AARCH64_FORM_MOVKZ = 1, /* movk, movz: 16 bits */
    LINKER_UTILS_AARCH64_FORM_MOVNZ = 2, /* movn or movz, by the sign, which sets the opcode */
    LINKER_UTILS_AARCH64_FORM_LDR = 3, /* ldr of a literal: 19 bits, in words of 4 bytes */
    LINKER_UTILS_AARCH64_FORM_LDR_REGISTER = 4, /* ldr (immediate): 12 bits, in the access size */
    LINKER_UTILS_AARCH64_FORM_ADD = 5, /* add of an immediate: 12 bits */
    LINKER_UTILS_AARCH64_FORM_LD_ST = 6, /* loads and stores: 12 bits, in the access size */
    LINKER_UTILS_AARCH64_FORM_TST_BR = 7, /* tbz, tbnz: 14 bits, in words of 4 bytes */
    LINKER_UTILS_AARCH64_FORM_BCOND = 8, /* b.cond, cbz, cbnz: 19 bits, in words of 4 bytes */
    LINKER_UTILS_AARCH64_FORM_JUMP_CALL = 9, /* b, bl: 26 bits, in words of 4 bytes */
    LINKER_UTILS_AARCH64_FORM_MACH_O_LOW12 = 10 /* add, loads and stores: offset in a page, bytes */
};

/* RISC-V (RISC-V unprivileged ISA, "Immediate Encoding Variants"). Every value fits: only the bits
 * that the instruction holds are taken. */
enum linker_utils_riscv_form {
    LINKER_UTILS_RISCV_FORM_U_TYPE = 0, /* lui, auipc: bits 12 to 31 of the value + 0x800 */
    LINKER_UTILS_RISCV_FORM_I_TYPE = 1, /* addi, loads, jalr: bits 0 to 11 */
    LINKER_UTILS_RISCV_FORM_S_TYPE = 2, /* stores: bits 0 to 11 */
    LINKER_UTILS_RISCV_FORM_B_TYPE = 3, /* branches: bits 1 to 12 */
    LINKER_UTILS_RISCV_FORM_J_TYPE = 4, /* jal: bits 1 to 20 */
    LINKER_UTILS_RISCV_FORM_CB_TYPE = 5, /* c.beqz, c.bnez, of 2 bytes: bits 1 to 8 */
    LINKER_UTILS_RISCV_FORM_CJ_TYPE = 6, /* c.j, of 2 bytes: bits 1 to 11 */
    LINKER_UTILS_RISCV_FORM_CLUI_TYPE = 7, /* c.lui, of 2 bytes: bits 12 to 17, rounded likewise */
    LINKER_UTILS_RISCV_FORM_UI_TYPE = 8 /* a U_TYPE and then an I_TYPE, of 8 bytes */
};

/* LoongArch (LoongArch Reference Manual, volume 1). */
enum linker_utils_loongarch64_form {
    LINKER_UTILS_LOONGARCH64_FORM_SHIFT5 = 0, /* 20 bits from bit 5 up: pcalau12i, lu12i.w */
    LINKER_UTILS_LOONGARCH64_FORM_SHIFT10 = 1, /* 12 or 16 bits from bit 10 up: addi.d, beq */
    LINKER_UTILS_LOONGARCH64_FORM_BRANCH26 = 2, /* b, bl: 26 bits, in words of 4 bytes */
    LINKER_UTILS_LOONGARCH64_FORM_BRANCH21 = 3, /* beqz, bnez: 21 bits, in words of 4 bytes */
    LINKER_UTILS_LOONGARCH64_FORM_CALL30 = 4, /* a pair of 8 bytes */
    LINKER_UTILS_LOONGARCH64_FORM_CALL36 = 5 /* pcaddu18i and jirl, 8 bytes: in words of 4 bytes */
};

/* PowerPC64 (Power ISA, "Instruction Formats"). */
enum linker_utils_ppc64_form {
    LINKER_UTILS_PPC64_FORM_D = 0, /* bits 0 to 15 */
    LINKER_UTILS_PPC64_FORM_DS = 1, /* bits 2 to 15, in bytes */
    LINKER_UTILS_PPC64_FORM_BRANCH14 = 2, /* bc: bits 2 to 15, in bytes */
    LINKER_UTILS_PPC64_FORM_BRANCH24 = 3, /* b, bl: bits 2 to 25, in bytes */
    LINKER_UTILS_PPC64_FORM_PREFIXED = 4, /* paddi, pld, 8 bytes: bits 16 to 33, then 0 to 15 */
    LINKER_UTILS_PPC64_FORM_D_UNSIGNED = 5 /* ori, oris: bits 0 to 15, without a sign */
};

/* ---- Rewrites: instructions in place of others. */

enum linker_utils_aarch64_rewrite {
    /* Leaves the instruction as it is; only the kind of its relocation changes. */
    LINKER_UTILS_AARCH64_REWRITE_NO_OP = 0,
    LINKER_UTILS_AARCH64_REWRITE_REPLACE_WITH_NOP = 1, /* Writes `nop`. */
    LINKER_UTILS_AARCH64_REWRITE_MOVZ_X0_LSL16 = 2, /* Writes `movz x0, #0, lsl #16`. */
    LINKER_UTILS_AARCH64_REWRITE_MOVK_X0 = 3, /* Writes `movk x0, #0`. */
    /* Writes `movz xN, #0, lsl #16`, with the old instruction's destination register. */
    LINKER_UTILS_AARCH64_REWRITE_MOVZ_XN_LSL16 = 4,
    /* Writes `movk xN, #0`, with the old instruction's destination register. Requires that this is
     * also its source register, bits 5 to 9. */
    LINKER_UTILS_AARCH64_REWRITE_MOVK_XN = 5,
    LINKER_UTILS_AARCH64_REWRITE_ADRP_TO_ADR = 6, /* Turns `adrp` into `adr`: clears bit 31. */
    LINKER_UTILS_AARCH64_REWRITE_ADRP_X0 = 7, /* Writes `adrp x0` of distance 0. */
    LINKER_UTILS_AARCH64_REWRITE_LDR_X0 = 8, /* Writes `ldr x0, [x0]`. */
    /* Turns `add` into `adr`: clears bits 24, 27 and 31. The immediate is unchanged, and
     * LINKER_UTILS_AARCH64_FORM_ADR only ORs a value into them: the caller clears bits 5 to 23, 29
     * and 30 before that write. */
    LINKER_UTILS_AARCH64_REWRITE_ADD_TO_ADR = 9,
    /* Turns `ldr` with an unsigned offset into `adr`: clears bits 24, 27 and 31. The immediate's
     * old bits are unchanged, as are bits 22, 29 and 30 of the opcode, which are immediate bits of
     * `adr`: the caller clears bits 5 to 23, 29 and 30 before it writes
     * LINKER_UTILS_AARCH64_FORM_ADR. */
    LINKER_UTILS_AARCH64_REWRITE_LDR_TO_ADR = 10,
    /* Turns LDR (immediate), 64 bits with an unsigned offset, into ADD (immediate). Bits 0 to 20
     * are unchanged. Requires such an instruction. */
    LINKER_UTILS_AARCH64_REWRITE_LDR_TO_ADD = 11,
    /* Turns `adrp`, 4 bytes before the offset, and `add` into `nop` and `adr` of distance 0, with
     * the `adrp`'s destination register. The relocation of the `adrp` is then `R_AARCH64_NONE`
     * (`other_relocation`). */
    LINKER_UTILS_AARCH64_REWRITE_ADRP_ADD_TO_NOP_ADR = 12
};

enum linker_utils_riscv_rewrite {
    /* Leaves the instruction as it is; only the kind of its relocation changes. */
    LINKER_UTILS_RISCV_REWRITE_NO_OP = 0,
    /* Writes two `c.nop` in place of four bytes. Requires the C extension. */
    LINKER_UTILS_RISCV_REWRITE_REPLACE_WITH_NOP = 1,
    /* Turns the `auipc` of an `auipc` and `jalr` pair into a `jal` of distance 0 with the `auipc`'s
     * destination register (RISC-V ELF psABI, "Function Call Relaxation"). The caller deletes the
     * `jalr` after it. If the `jalr` links another register than the `auipc`'s, as in `tail f`,
     * that is not the call's jump: `matches` is the test. */
    LINKER_UTILS_RISCV_REWRITE_CALL_TO_JAL = 2,
    /* Turns the first two bytes of a `lui` into a `c.lui` of immediate 0 with the `lui`'s
     * destination register. The caller deletes the two bytes after it. */
    LINKER_UTILS_RISCV_REWRITE_HI20_TO_C_LUI = 3,
    /* Leaves a `lui` whose immediate is 0 as it is; the caller deletes it. */
    LINKER_UTILS_RISCV_REWRITE_HI20_DELETE = 4,
    /* Clears bits 15 to 19: the source register of the instruction that adds the low part becomes
     * x0. */
    LINKER_UTILS_RISCV_REWRITE_LO12_RS1_TO_ZERO = 5,
    /* Turns the `auipc` of a tail call, whose `jalr` links no register, into a `jal x0` of distance
     * 0. The caller deletes the `jalr` after it. */
    LINKER_UTILS_RISCV_REWRITE_TAIL_TO_JAL = 6,
    /* Turns the first two bytes of a tail call into a `c.j` of distance 0. Requires the C
     * extension. The caller deletes the six bytes after it. */
    LINKER_UTILS_RISCV_REWRITE_TAIL_TO_C_J = 7,
    /* Leaves the instruction as it is; the caller deletes its four bytes. */
    LINKER_UTILS_RISCV_REWRITE_DELETE = 8,
    /* Writes one nop of four bytes, `addi x0, x0, 0`, in place of an instruction. */
    LINKER_UTILS_RISCV_REWRITE_REPLACE_WITH_LONG_NOP = 9,
    /* Makes x4, the thread pointer, the source register of the instruction that adds the low part
     * of an offset: bits 15 to 19. */
    LINKER_UTILS_RISCV_REWRITE_BASE_TO_TP = 10,
    /* Turns the `addi a0` of a TLS descriptor into `lui a0` of 0 (RISC-V ELF psABI, "TLS
     * Descriptors -> Local Exec Relaxation"). */
    LINKER_UTILS_RISCV_REWRITE_ADDI_TO_LUI = 11,
    /* Turns it into `auipc a0` of 0 ("TLS Descriptors -> Initial Exec Relaxation"). */
    LINKER_UTILS_RISCV_REWRITE_ADDI_TO_AUIPC = 12,
    /* Turns the `jalr t0` of a TLS descriptor into `addi a0, a0, 0`. */
    LINKER_UTILS_RISCV_REWRITE_CALL_TO_ADDI = 13,
    LINKER_UTILS_RISCV_REWRITE_CALL_TO_ADDI_ZERO = 14, /* Turns it into `addi a0, x0, 0`. */
    LINKER_UTILS_RISCV_REWRITE_CALL_TO_LD = 15, /* Turns it into `ld a0, 0(a0)`. */
    /* Turns `ld` into `addi`, with both of its registers and its immediate. */
    LINKER_UTILS_RISCV_REWRITE_LD_TO_ADDI = 16,
    /* Turns `c.lui` into `c.li` of 0, with its destination register: the ISA reserves the immediate
     * 0 of `c.lui`, which a high part of 0 would need ("Integer Constant-Generation
     * Instructions"). */
    LINKER_UTILS_RISCV_REWRITE_C_LUI_TO_C_LI = 17,
    /* Turns `auipc` into `lui` of 0, with its destination register. */
    LINKER_UTILS_RISCV_REWRITE_AUIPC_TO_LUI = 18,
    /* Turns `ld` into `addi` of 0 and x0, with its destination register. */
    LINKER_UTILS_RISCV_REWRITE_LD_TO_ADDI_ZERO = 19,
    /* Turns the first two bytes of a call whose `jalr` links x1 into a `c.jal` of distance 0.
     * Requires RV32 and the C extension: code of RV64 has `c.addiw` of these bits. The caller
     * deletes the six bytes after it. */
    LINKER_UTILS_RISCV_REWRITE_CALL_TO_C_JAL = 20
};

enum linker_utils_loongarch64_rewrite {
    /* Leaves the instruction as it is; only the kind of its relocation changes. */
    LINKER_UTILS_LOONGARCH64_REWRITE_NO_OP = 0,
    LINKER_UTILS_LOONGARCH64_REWRITE_REPLACE_WITH_NOP = 1, /* Turns the instruction into `nop`. */
    /* Turns `ld.d` into `addi.d`. Bits 0 to 21 are unchanged. */
    LINKER_UTILS_LOONGARCH64_REWRITE_LD_TO_ADDI = 2,
    /* Turns `addi.d` into `ld.d`. Bits 0 to 21 are unchanged. */
    LINKER_UTILS_LOONGARCH64_REWRITE_ADDI_TO_LD = 3,
    /* Turns the `pcalau12i` of a pair into `pcaddi` of distance 0, with its destination register.
     * The pair's second instruction is deleted for its own relocation. */
    LINKER_UTILS_LOONGARCH64_REWRITE_PCALA_TO_PCADDI = 4,
    /* Turns the `pcaddu18i` of a call, whose `jirl` links `ra`, into `bl` of distance 0. The caller
     * deletes the `jirl` after it. */
    LINKER_UTILS_LOONGARCH64_REWRITE_CALL_TO_BL = 5,
    /* Turns the `pcaddu18i` of a tail call, whose `jirl` links no register, into `b` of distance 0.
     * The caller deletes the `jirl` after it. */
    LINKER_UTILS_LOONGARCH64_REWRITE_CALL_TO_B = 6,
    /* Turns `pcalau12i` into `lu12i.w` of 0, with its destination register. */
    LINKER_UTILS_LOONGARCH64_REWRITE_PCALA_TO_LU12I = 7,
    /* Turns `addi.d` or `ld.d` into `ori` of 0, with both of its registers. */
    LINKER_UTILS_LOONGARCH64_REWRITE_LOW_TO_ORI = 8,
    /* Turns `addi.d` or `ld.d` into `ori` of 0 from `zero`, with its destination register. */
    LINKER_UTILS_LOONGARCH64_REWRITE_LOW_TO_ORI_ZERO = 9,
    /* Makes `tp` the source register of the instruction that adds the low part of an offset. */
    LINKER_UTILS_LOONGARCH64_REWRITE_BASE_TO_TP = 10,
    /* Leaves the instruction as it is; the caller deletes it. */
    LINKER_UTILS_LOONGARCH64_REWRITE_DELETE = 11,
    /* Leaves the `addi.d` of a pair, which adds to its own destination register, as it is; the
     * caller deletes it. */
    LINKER_UTILS_LOONGARCH64_REWRITE_DELETE_ADDI = 12
};

/* Those of a call stand for 8 bytes, the call and the `nop` after it. CALL_TO_ADDI, CALL_TO_ADD and
 * CALL_TO_ADDI4096 move the offset 4 bytes on, to the instruction after the `nop` that they leave;
 * the next relocation, R_PPC64_REL24 of the call, is skipped. BRANCH_TO_NOP and BRANCH_TO_ADD are
 * of a call with R_PPC64_REL24_NOTOC, which is skipped too, and stand for its 4 bytes. ADD_TO_MOVE
 * and INDEXED_TO_DIRECT begin one byte before the offset. */
enum linker_utils_ppc64_rewrite {
    /* Leaves the instruction as it is; only the kind of its relocation changes. */
    LINKER_UTILS_PPC64_REWRITE_NO_OP = 0,
    LINKER_UTILS_PPC64_REWRITE_ADDIS_TO_NOP = 1, /* Writes `nop` in place of `addis rT,2`. */
    /* Makes register 2, the TOC pointer, the base of an instruction: bits 16 to 20. */
    LINKER_UTILS_PPC64_REWRITE_BASE_TO_TOC = 2,
    LINKER_UTILS_PPC64_REWRITE_LD_TO_ADDI = 3, /* Turns `ld rT,x(rA)` into `addi rT,rA,0`. */
    /* Turns `pld rT`, relative to the instruction, into `paddi rT,0,0,1`. */
    LINKER_UTILS_PPC64_REWRITE_PLD_TO_PADDI = 4,
    /* Turns `ld rT` into `addis rT,13,0`, which adds to the thread pointer. */
    LINKER_UTILS_PPC64_REWRITE_LD_TO_ADDIS_THREAD = 5,
    LINKER_UTILS_PPC64_REWRITE_ADD_TO_ADDI = 6, /* Turns `add rT,rA,13` into `addi rT,rA,0`. */
    /* Turns an indexed load or store, as `lwzx rT,rA,13`, into that with a displacement, as `lwz
     * rT,0(rA)`. */
    LINKER_UTILS_PPC64_REWRITE_INDEXED_TO_D = 7,
    /* Turns `ldx`, `stdx` or `lwax` into `ld`, `std` or `lwa`, whose displacement is in whole
     * words. */
    LINKER_UTILS_PPC64_REWRITE_INDEXED_TO_DS = 8,
    LINKER_UTILS_PPC64_REWRITE_ADDI_TO_ADDIS_THREAD = 9, /* Turns `addi rT` into `addis rT,13,0`. */
    LINKER_UTILS_PPC64_REWRITE_ADDI_TO_LD = 10, /* Turns `addi rT,rA` into `ld rT,0(rA)`. */
    /* Turns the call of `__tls_get_addr` and the `nop` after it into `nop` and `addi 3,3,0`. The
     * offset is then that of the `addi`, 4 bytes on. */
    LINKER_UTILS_PPC64_REWRITE_CALL_TO_ADDI = 11,
    /* Turns the call of `__tls_get_addr` and the `nop` after it into `nop` and `add 3,3,13`. The
     * offset is then that of the `add`, 4 bytes on. */
    LINKER_UTILS_PPC64_REWRITE_CALL_TO_ADD = 12,
    /* Turns the call of `__tls_get_addr` and the `nop` after it into `nop` and `addi 3,3,4096`. The
     * offset is then that of the `addi`, 4 bytes on. */
    LINKER_UTILS_PPC64_REWRITE_CALL_TO_ADDI4096 = 13,
    /* Turns the `nop` after a call into `ld 2,24(1)`, which restores the TOC pointer. The offset is
     * that of the call, which stays. */
    LINKER_UTILS_PPC64_REWRITE_NOP_TO_RESTORE_TOC = 14,
    /* Leaves `addis rT,2` as it is; only the kind of its relocation changes. */
    LINKER_UTILS_PPC64_REWRITE_KEEP_ADDIS = 15,
    /* Turns `addis 2,12`, at the entry of a function, into `lis 2,0`. */
    LINKER_UTILS_PPC64_REWRITE_ADDIS_TO_LIS = 16,
    /* Writes `addi 2,2,0` after that. The addend is then 0. */
    LINKER_UTILS_PPC64_REWRITE_ADDI_AFTER_LIS = 17,
    /* Writes `nop` in place of `addis rT,13`. */
    LINKER_UTILS_PPC64_REWRITE_ADDIS_THREAD_TO_NOP = 18,
    /* Makes register 13, the thread pointer, the base of an instruction: bits 16 to 20. */
    LINKER_UTILS_PPC64_REWRITE_BASE_TO_THREAD = 19,
    /* Turns `pld rT`, relative to the instruction, into `paddi rT,13,0`, which adds to the thread
     * pointer. */
    LINKER_UTILS_PPC64_REWRITE_PLD_TO_PADDI_THREAD = 20,
    /* Turns `add rT,rA,13` into `mr rT,rA`, or into `nop` where rT is rA. The offset is that of the
     * instruction's second byte, where `R_PPC64_TLS` of prefixed code stands. */
    LINKER_UTILS_PPC64_REWRITE_ADD_TO_MOVE = 21,
    /* Turns an indexed load or store, as `lwzx rT,rA,13` or `ldx rT,rA,13`, into that with the
     * displacement 0, as `lwz rT,0(rA)` or `ld rT,0(rA)`. The offset is that of the second byte. */
    LINKER_UTILS_PPC64_REWRITE_INDEXED_TO_DIRECT = 22,
    /* Turns `paddi rT`, relative to the instruction, into `paddi rT,13,0`. */
    LINKER_UTILS_PPC64_REWRITE_PADDI_TO_PADDI_THREAD = 23,
    /* Turns `paddi rT`, relative to the instruction, into `pld rT,0,1`. */
    LINKER_UTILS_PPC64_REWRITE_PADDI_TO_PLD = 24,
    /* Turns `paddi rT`, relative to the instruction, into `paddi rT,13,4096`. */
    LINKER_UTILS_PPC64_REWRITE_PADDI_TO_PADDI4096 = 25,
    /* Writes `nop` in place of a call of `__tls_get_addr` by `R_PPC64_REL24_NOTOC`. */
    LINKER_UTILS_PPC64_REWRITE_BRANCH_TO_NOP = 26,
    /* Writes `add 3,3,13` in place of a call of `__tls_get_addr` by `R_PPC64_REL24_NOTOC`. */
    LINKER_UTILS_PPC64_REWRITE_BRANCH_TO_ADD = 27
};

/* Where `opcode_len` is marked it is the count of the instruction's bytes before the field: 2
 * without a prefix, 3 with REX, 4 with REX2 and 6 with EVEX. The relocation of the field afterwards
 * is in the tables of choices below. */
enum linker_utils_x86_64_rewrite {
    /* Turns `mov x@GOTPCREL(%rip), %reg` into `lea x(%rip), %reg`. */
    LINKER_UTILS_X86_64_REWRITE_MOV_INDIRECT_TO_LEA = 0,
    /* Turns `mov x@GOTPCREL(%rip), %reg` into `mov $x, %reg`, where no prefix names the
     * register. */
    LINKER_UTILS_X86_64_REWRITE_MOV_INDIRECT_TO_ABSOLUTE = 1,
    /* opcode_len: turns `mov x@GOTPCREL(%rip), %reg` into `mov $x, %reg`. */
    LINKER_UTILS_X86_64_REWRITE_REX_MOV_INDIRECT_TO_ABSOLUTE = 2,
    /* opcode_len: turns `add x@GOTPCREL(%rip), %reg` into `add $x, %reg`. */
    LINKER_UTILS_X86_64_REWRITE_REX_ADD_INDIRECT_TO_ABSOLUTE = 3,
    /* opcode_len: turns `sub x@GOTPCREL(%rip), %reg` into `sub $x, %reg`. */
    LINKER_UTILS_X86_64_REWRITE_REX_SUB_INDIRECT_TO_ABSOLUTE = 4,
    /* opcode_len: turns `cmp x@GOTPCREL(%rip), %reg` into `cmp $x, %reg`. */
    LINKER_UTILS_X86_64_REWRITE_REX_CMP_INDIRECT_TO_ABSOLUTE = 5,
    /* Turns `call *x@GOTPCREL(%rip)` into `addr32 call x`. */
    LINKER_UTILS_X86_64_REWRITE_CALL_INDIRECT_TO_RELATIVE = 6,
    /* Turns `jmp *x@GOTPCREL(%rip)` into `jmp x; nop`. The offset becomes 1 less. */
    LINKER_UTILS_X86_64_REWRITE_JMP_INDIRECT_TO_RELATIVE = 7,
    /* Leaves the instruction as it is; only the kind of its relocation changes. */
    LINKER_UTILS_X86_64_REWRITE_NO_OP = 8,
    /* Turns a general-dynamic TLS sequence into a local-exec one. */
    LINKER_UTILS_X86_64_REWRITE_TLS_GD_TO_LOCAL_EXEC = 9,
    /* Turns the large code model's general-dynamic TLS sequence into a local-exec one. */
    LINKER_UTILS_X86_64_REWRITE_TLS_GD_TO_LOCAL_EXEC_LARGE = 10,
    /* Turns a local-dynamic TLS sequence into a local-exec one. */
    LINKER_UTILS_X86_64_REWRITE_TLS_LD_TO_LOCAL_EXEC = 11,
    /* Turns a local-dynamic TLS sequence whose call goes through the GOT into a local-exec one. */
    LINKER_UTILS_X86_64_REWRITE_TLS_LD_TO_LOCAL_EXEC_NO_PLT = 12,
    /* Turns the large code model's local-dynamic TLS sequence into a local-exec one. */
    LINKER_UTILS_X86_64_REWRITE_TLS_LD_TO_LOCAL_EXEC64 = 13,
    /* Turns a general-dynamic TLS sequence into an initial-exec one. */
    LINKER_UTILS_X86_64_REWRITE_TLS_GD_TO_INITIAL_EXEC = 14,
    /* opcode_len: turns the `lea` of a TLS descriptor into `mov $x, %reg`. */
    LINKER_UTILS_X86_64_REWRITE_TLS_DESC_TO_LOCAL_EXEC = 15,
    /* Turns the `lea` of a TLS descriptor into `mov x@GOTTPOFF(%rip), %reg`. */
    LINKER_UTILS_X86_64_REWRITE_TLS_DESC_TO_INITIAL_EXEC = 16,
    /* Turns the call through a TLS descriptor into a `nop` of two bytes. */
    LINKER_UTILS_X86_64_REWRITE_SKIP_TLS_DESC_CALL = 17,
    /* opcode_len: turns `adc x@GOTPCREL(%rip), %reg` into `adc $x, %reg`. */
    LINKER_UTILS_X86_64_REWRITE_REX_ADC_INDIRECT_TO_ABSOLUTE = 18,
    /* opcode_len: turns `and x@GOTPCREL(%rip), %reg` into `and $x, %reg`. */
    LINKER_UTILS_X86_64_REWRITE_REX_AND_INDIRECT_TO_ABSOLUTE = 19,
    /* opcode_len: turns `or x@GOTPCREL(%rip), %reg` into `or $x, %reg`. */
    LINKER_UTILS_X86_64_REWRITE_REX_OR_INDIRECT_TO_ABSOLUTE = 20,
    /* opcode_len: turns `sbb x@GOTPCREL(%rip), %reg` into `sbb $x, %reg`. */
    LINKER_UTILS_X86_64_REWRITE_REX_SBB_INDIRECT_TO_ABSOLUTE = 21,
    /* opcode_len: turns `xor x@GOTPCREL(%rip), %reg` into `xor $x, %reg`. */
    LINKER_UTILS_X86_64_REWRITE_REX_XOR_INDIRECT_TO_ABSOLUTE = 22,
    /* opcode_len: turns `test %reg, x@GOTPCREL(%rip)` into `test $x, %reg`. */
    LINKER_UTILS_X86_64_REWRITE_REX_TEST_INDIRECT_TO_ABSOLUTE = 23
};

/* What happens to the next relocation: the entry after the rewritten instruction's own in the order
 * of the section's relocations. For RISC-V that is the R_RISCV_RELAX of the same offset, for
 * PowerPC64 and x86-64 the call of `__tls_get_addr` that belongs to the sequence. `skipped_offset`
 * of `struct linker_utils_choice` says where that has to be: skip the one there, and no other. */
enum linker_utils_modifier {
    LINKER_UTILS_MODIFIER_NORMAL = 0,
    LINKER_UTILS_MODIFIER_SKIP_NEXT_RELOCATION = 1
};

/* ---- The tables of choices, made by tools/generate.
 * The first entry of a relocation is chosen whose instructions are at its offset and whose
 * conditions hold, and else NO_OP and the same relocation, as for any relocation that isn't listed.
 * Conditions are on struct linker_utils_link_facts, and on values by these words:
 * - R in reach: the value of the relocation R, after the rewrite, is known and can be written.
 * - R in a..b: that value is known, and is from a up, below b.
 * - R at -4: that value of a place 4 bytes before.
 * - if known: it holds too where no address is known (has_addresses). In calls for sections a
 *   distance is then fixed only by has_near_symbols of the output.
 * - S + A in 12 bits: the sum is known, and is a number of 12 bits in two's complement.
 * docs/CHOICES.md also names the instructions.
 *
 * AArch64, with the prefixes R_AARCH64_ and LINKER_UTILS_AARCH64_REWRITE_:
 *   ADD_ABS_LO12_NC              ADRP_ADD_TO_NOP_ADR  ADR_PREL_LO21                (1)
 *   JUMP26                       REPLACE_WITH_NOP     NONE                         (2)
 *   CALL26                       REPLACE_WITH_NOP     NONE                         (2)
 *   ADR_GOT_PAGE                 NO_OP                ADR_PREL_PG_HI21             (3)
 *   LD64_GOT_LO12_NC             LDR_TO_ADD           ADD_ABS_LO12_NC              (4)
 *   TLSIE_ADR_GOTTPREL_PAGE21    MOVZ_XN_LSL16        TLSLE_MOVW_TPREL_G1          (5)
 *   TLSIE_LD64_GOTTPREL_LO12_NC  MOVK_XN              TLSLE_MOVW_TPREL_G0_NC       (5)
 *   TLSDESC_ADR_PAGE21           MOVZ_X0_LSL16        TLSLE_MOVW_TPREL_G1          (6)
 *                                ADRP_X0              TLSIE_ADR_GOTTPREL_PAGE21    (7)
 *   TLSDESC_LD64_LO12            MOVK_X0              TLSLE_MOVW_TPREL_G0_NC       (6)
 *                                LDR_X0               TLSIE_LD64_GOTTPREL_LO12_NC  (8)
 *   TLSDESC_ADD_LO12             REPLACE_WITH_NOP     NONE                         (9)
 *   TLSDESC_CALL                 REPLACE_WITH_NOP     NONE                         (10)
 *   (1) is_pcrel_link_time_constant, ADR_PREL_LO21 in reach
 *   (2) is_undefined_weak
 *   (3) is_local, not is_ifunc, is_pcrel_link_time_constant, ADR_PREL_PG_HI21 in reach if known
 *   (4) is_local, not is_ifunc, is_pcrel_link_time_constant, ADR_PREL_PG_HI21 at -4 in reach if
 *       known
 *   (5) is_local, not is_ifunc, is_executable, group_fits, TLSLE_MOVW_TPREL_G1 in reach if known
 *   (6) is_local, not is_ifunc, is_executable, TLSLE_MOVW_TPREL_G1 in reach if known
 *   (7) is_executable, TLSIE_ADR_GOTTPREL_PAGE21 in reach if known
 *   (8) is_executable, TLSIE_ADR_GOTTPREL_PAGE21 at -4 in reach if known
 *   (9) is_executable, and either is_local and not is_ifunc and TLSLE_MOVW_TPREL_G1 in reach if
 *       known, or TLSIE_ADR_GOTTPREL_PAGE21 at -8 in reach if known
 *   (10) is_executable, and either is_local and not is_ifunc and TLSLE_MOVW_TPREL_G1 in reach if
 *       known, or TLSIE_ADR_GOTTPREL_PAGE21 at -12 in reach if known
 *
 * RISC-V, with the prefixes R_RISCV_ and LINKER_UTILS_RISCV_REWRITE_:
 *   CALL, CALL_PLT     TAIL_TO_C_J            RVC_JUMP      (1)
 *                      CALL_TO_C_JAL          RVC_JUMP      (2)
 *                      TAIL_TO_JAL            JAL           (3)
 *                      CALL_TO_JAL            JAL           (3)
 *   GOT_HI20           DELETE                 NONE          (4)
 *                      NO_OP                  PCREL_HI20    (5)
 *                      AUIPC_TO_LUI           HI20          (6)
 *   PCREL_LO12_I       LD_TO_ADDI_ZERO        LO12_I        (7)
 *                      LD_TO_ADDI             PCREL_LO12_I  (8)
 *                      LD_TO_ADDI             LO12_I        (9)
 *   HI20               HI20_DELETE            NONE          (10)
 *                      HI20_TO_C_LUI          RVC_LUI       (11)
 *   LO12_I, LO12_S     LO12_RS1_TO_ZERO       the same      (10)
 *   TPREL_HI20         DELETE                 NONE          (12)
 *   TPREL_LO12_I       BASE_TO_TP             TPREL_LO12_I  (12)
 *   TPREL_LO12_S       BASE_TO_TP             TPREL_LO12_S  (12)
 *   TPREL_ADD          DELETE                 NONE          (12)
 *   RVC_LUI            C_LUI_TO_C_LI          NONE          (13)
 *   TLSDESC_HI20       DELETE                 NONE          (14)
 *                      REPLACE_WITH_LONG_NOP  NONE          (15)
 *                      DELETE                 NONE          (16)
 *                      REPLACE_WITH_LONG_NOP  NONE          (17)
 *   TLSDESC_LOAD_LO12  DELETE                 NONE          (14)
 *                      REPLACE_WITH_LONG_NOP  NONE          (15)
 *                      DELETE                 NONE          (16)
 *                      REPLACE_WITH_LONG_NOP  NONE          (17)
 *   TLSDESC_ADD_LO12   DELETE                 NONE          (18)
 *                      REPLACE_WITH_LONG_NOP  NONE          (19)
 *                      ADDI_TO_LUI            TPREL_HI20    (15)
 *                      ADDI_TO_AUIPC          TLS_GOT_HI20  (17)
 *   TLSDESC_CALL       CALL_TO_ADDI_ZERO      TPREL_LO12_I  (19)
 *                      CALL_TO_ADDI           TPREL_LO12_I  (15)
 *                      CALL_TO_LD             PCREL_LO12_I  (17)
 *   (1) is_pcrel_link_time_constant, may_compress, is_relaxable, plt_entry is symbol, RVC_JUMP in
 *       reach
 *   (2) is_pcrel_link_time_constant, may_compress, is_relaxable, plt_entry is symbol, is_class32,
 *       RVC_JUMP in reach
 *   (3) is_pcrel_link_time_constant, is_relaxable, plt_entry is symbol, JAL in reach
 *   (4) is_local, not is_ifunc, has_fixed_address, is_relaxable, is_label_relaxable, addend 0, S +
 *       A in 12 bits
 *   (5) is_local, not is_ifunc, is_pcrel_link_time_constant, is_label_relaxable, addend 0,
 *       PCREL_HI20 in reach if known
 *   (6) is_local, not is_ifunc, has_fixed_address, is_label_relaxable, addend 0, HI20 in reach
 *   (7) is_local, not is_ifunc, has_fixed_address, is_relaxable, is_label_relaxable,
 *       has_got_high_part, addend 0, S + A in 12 bits
 *   (8) is_local, not is_ifunc, is_pcrel_link_time_constant, is_label_relaxable, has_got_high_part,
 *       addend 0, PCREL_HI20 in reach if known
 *   (9) is_local, not is_ifunc, has_fixed_address, is_label_relaxable, has_got_high_part, addend 0,
 *       HI20 in reach
 *   (10) has_fixed_address, is_relaxable, S + A in 12 bits
 *   (11) has_fixed_address, may_compress, is_relaxable, RVC_LUI in reach
 *   (12) is_relaxable, TPREL_LO12_I in -0x800..0x800
 *   (13) has_fixed_address, S + A in 12 bits
 *   (14) is_local, not is_ifunc, is_executable, is_relaxable, addend 0, TPREL_HI20 in reach if
 *       known
 *   (15) is_local, not is_ifunc, is_executable, addend 0, TPREL_HI20 in reach if known
 *   (16) is_executable, is_relaxable, TLS_GOT_HI20 in reach if known
 *   (17) is_executable, TLS_GOT_HI20 in reach if known
 *   (18) is_local, not is_ifunc, is_executable, is_relaxable, addend 0, TPREL_HI20 in reach if
 *       known, TPREL_LO12_I in -0x800..0x800
 *   (19) is_local, not is_ifunc, is_executable, addend 0, TPREL_HI20 in reach if known,
 *       TPREL_LO12_I in -0x800..0x800
 *
 * LoongArch, with the prefixes R_LARCH_ and LINKER_UTILS_LOONGARCH64_REWRITE_:
 *   PCALA_HI20        PCALA_TO_PCADDI   PCREL20_S2           (1)
 *   PCALA_LO12        DELETE            NONE                 (2)
 *   GOT_PC_HI20       PCALA_TO_PCADDI   PCREL20_S2           (3)
 *                     NO_OP             PCALA_HI20           (4)
 *   GOT_PC_LO12       DELETE            NONE                 (5)
 *                     LD_TO_ADDI        PCALA_LO12           (6)
 *                     DELETE_ADDI       NONE                 (7)
 *   TLS_IE_PC_HI20    REPLACE_WITH_NOP  NONE                 (8)
 *                     PCALA_TO_LU12I    TLS_LE_HI20          (9)
 *   TLS_IE_PC_LO12    LOW_TO_ORI_ZERO   TLS_LE_LO12          (8)
 *                     LOW_TO_ORI        TLS_LE_LO12          (9)
 *   TLS_LD_PC_HI20    PCALA_TO_PCADDI   TLS_LD_PCREL20_S2    (10)
 *   TLS_GD_PC_HI20    PCALA_TO_PCADDI   TLS_GD_PCREL20_S2    (11)
 *   CALL36            CALL_TO_B         B26                  (12)
 *                     CALL_TO_BL        B26                  (12)
 *   TLS_DESC_PC_HI20  DELETE            NONE                 (13)
 *                     REPLACE_WITH_NOP  NONE                 (8)
 *                     PCALA_TO_LU12I    TLS_LE_HI20          (9)
 *                     NO_OP             TLS_IE_PC_HI20       (14)
 *                     PCALA_TO_PCADDI   TLS_DESC_PCREL20_S2  (15)
 *   TLS_DESC_PC_LO12  LOW_TO_ORI_ZERO   TLS_LE_LO12          (8)
 *                     LOW_TO_ORI        TLS_LE_LO12          (9)
 *                     ADDI_TO_LD        TLS_IE_PC_LO12       (16)
 *                     DELETE            NONE                 (17)
 *   TLS_DESC_LD       DELETE            NONE                 (18)
 *                     REPLACE_WITH_NOP  NONE                 (16)
 *   TLS_DESC_CALL     DELETE            NONE                 (18)
 *                     REPLACE_WITH_NOP  NONE                 (16)
 *   TLS_LE_HI20_R     DELETE            NONE                 (19)
 *   TLS_LE_ADD_R      DELETE            NONE                 (19)
 *   TLS_LE_LO12_R     BASE_TO_TP        TLS_LE_LO12_R        (19)
 *   (1) is_pcrel_link_time_constant, is_relaxable, PCREL20_S2 in reach
 *   (2) is_pcrel_link_time_constant, is_relaxable, PCREL20_S2 at -4 in reach
 *   (3) is_local, not is_ifunc, is_pcrel_link_time_constant, is_relaxable, addend 0, PCREL20_S2 in
 *       reach
 *   (4) is_local, not is_ifunc, is_pcrel_link_time_constant, addend 0, PCALA_HI20 in
 *       -0x80000000..0x80000000 if known
 *   (5) is_local, not is_ifunc, is_pcrel_link_time_constant, is_relaxable, addend 0, PCREL20_S2 at
 *       -4 in reach
 *   (6) is_local, not is_ifunc, is_pcrel_link_time_constant, addend 0, PCALA_HI20 at -4 in
 *       -0x80000000..0x80000000 if known
 *   (7) is_relaxable, group_fits, TLS_GD_PCREL20_S2 at -4 in reach
 *   (8) is_local, not is_ifunc, is_executable, group_fits, addend 0, TLS_LE_LO12 in 0x0..0x1000
 *   (9) is_local, not is_ifunc, is_executable, group_fits, addend 0, TLS_LE_HI20 in
 *       -0x80000000..0x80000000 if known
 *   (10) is_relaxable, group_fits, TLS_LD_PCREL20_S2 in reach
 *   (11) is_relaxable, group_fits, TLS_GD_PCREL20_S2 in reach
 *   (12) is_pcrel_link_time_constant, is_relaxable, B26 in reach
 *   (13) is_local, not is_ifunc, is_executable, is_relaxable, group_fits, addend 0, TLS_LE_LO12 in
 *       0x0..0x1000
 *   (14) is_executable, group_fits, TLS_IE_PC_HI20 in -0x80000000..0x80000000 if known
 *   (15) is_relaxable, TLS_DESC_PCREL20_S2 in reach
 *   (16) is_executable, group_fits
 *   (17) is_relaxable, TLS_DESC_PCREL20_S2 at -4 in reach
 *   (18) is_executable, is_relaxable, group_fits
 *   (19) is_relaxable, TLS_LE_LO12_R in -0x800..0x800
 *
 * PowerPC64, with the prefixes R_PPC64_ and LINKER_UTILS_PPC64_REWRITE_:
 *   REL24                        NOP_TO_RESTORE_TOC     REL24              (1)
 *   GOT16_HA                     KEEP_ADDIS             TOC16_HA           (2)
 *   TOC16_LO                     BASE_TO_TOC            TOC16              (3)
 *   TOC16_HA                     ADDIS_TO_NOP           NONE               (3)
 *   GOT16_LO_DS                  LD_TO_ADDI             TOC16_LO           (2)
 *   TOC16_LO_DS                  BASE_TO_TOC            TOC16_DS           (3)
 *   TLS                          ADD_TO_ADDI            TPREL16_LO         (4)
 *                                INDEXED_TO_D           TPREL16_LO         (4)
 *                                INDEXED_TO_DS          TPREL16_LO_DS      (5)
 *                                ADD_TO_MOVE            NONE               (6)
 *                                INDEXED_TO_DIRECT      NONE               (6)
 *   TPREL16_LO                   BASE_TO_THREAD         TPREL16            (7)
 *   TPREL16_HA                   ADDIS_THREAD_TO_NOP    NONE               (7)
 *   GOT_TLSGD16                  ADDI_TO_ADDIS_THREAD   TPREL16_HA         (4)
 *                                ADDI_TO_LD             GOT_TPREL16_DS     (8)
 *   GOT_TLSGD16_LO               ADDI_TO_ADDIS_THREAD   TPREL16_HA         (4)
 *                                ADDI_TO_LD             GOT_TPREL16_LO_DS  (9)
 *   GOT_TLSGD16_HA               ADDIS_TO_NOP           NONE               (4)
 *                                KEEP_ADDIS             GOT_TPREL16_HA     (9)
 *   GOT_TLSLD16, GOT_TLSLD16_LO  ADDI_TO_ADDIS_THREAD   NONE               (10)
 *   GOT_TLSLD16_HA               ADDIS_TO_NOP           NONE               (10)
 *   GOT_TPREL16_DS, GOT_TPREL16_LO_DS
 *                                LD_TO_ADDIS_THREAD     TPREL16_HA         (4)
 *   GOT_TPREL16_HA               ADDIS_TO_NOP           NONE               (4)
 *   TPREL16_LO_DS                BASE_TO_THREAD         TPREL16_DS         (7)
 *   TLSGD                        BRANCH_TO_NOP          NONE               (11)
 *                                BRANCH_TO_ADD          NONE               (12)
 *                                CALL_TO_ADDI           TPREL16_LO         (4)
 *                                CALL_TO_ADD            NONE               (9)
 *   TLSLD                        BRANCH_TO_NOP          NONE               (12)
 *                                CALL_TO_ADDI4096       NONE               (10)
 *   GOT_PCREL34                  PLD_TO_PADDI           PCREL34            (13)
 *   GOT_TLSGD_PCREL34            PADDI_TO_PADDI_THREAD  TPREL34            (6)
 *                                PADDI_TO_PLD           GOT_TPREL_PCREL34  (10)
 *   GOT_TLSLD_PCREL34            PADDI_TO_PADDI4096     NONE               (10)
 *   GOT_TPREL_PCREL34            PLD_TO_PADDI_THREAD    TPREL34            (6)
 *   REL16_LO                     ADDI_AFTER_LIS         ADDR16_LO          (14)
 *   REL16_HA                     ADDIS_TO_LIS           ADDR16_HA          (15)
 *   (1) may_change_toc
 *   (2) is_local, not is_ifunc, is_pcrel_link_time_constant, TOC16_HA in reach if known
 *   (3) toc_base_is_exclusive, TOC16 in reach
 *   (4) is_local, not is_ifunc, is_executable, group_fits, TPREL16_HA in reach if known
 *   (5) is_local, not is_ifunc, is_executable, group_fits, TPREL16_HA in reach if known,
 *       TPREL16_LO_DS in reach if known
 *   (6) is_local, not is_ifunc, is_executable, group_fits, TPREL34 in reach if known
 *   (7) is_local, not is_ifunc, is_executable, toc_base_is_exclusive, group_fits, TPREL16 in reach
 *   (8) is_executable, group_fits, GOT_TPREL16_DS in reach if known
 *   (9) is_executable, group_fits, GOT_TPREL16_HA in reach if known
 *   (10) is_executable, group_fits
 *   (11) is_local, not is_ifunc, is_executable, is_relaxable, group_fits, TPREL34 in reach if known
 *   (12) is_executable, is_relaxable, group_fits
 *   (13) is_local, not is_ifunc, is_pcrel_link_time_constant, PCREL34 in reach if known
 *   (14) is_local, not is_ifunc, has_fixed_address, group_fits, addend 4, ADDR16_HA in reach if
 *       known
 *   (15) is_local, not is_ifunc, has_fixed_address, group_fits, addend 0, ADDR16_HA in reach if
 *       known
 *
 * x86-64, with the prefixes R_X86_64_ and LINKER_UTILS_X86_64_REWRITE_:
 *   GOTPCREL      MOV_INDIRECT_TO_LEA            PC32      (1)
 *   DTPOFF64      NO_OP                          TPOFF64   (2)
 *   TLSGD         TLS_GD_TO_LOCAL_EXEC           TPOFF32   (3)
 *                 TLS_GD_TO_LOCAL_EXEC_LARGE     TPOFF32   (3)
 *                 TLS_GD_TO_INITIAL_EXEC         GOTTPOFF  (4)
 *   TLSLD         TLS_LD_TO_LOCAL_EXEC           NONE      (5)
 *                 TLS_LD_TO_LOCAL_EXEC_NO_PLT    NONE      (5)
 *                 TLS_LD_TO_LOCAL_EXEC64         NONE      (5)
 *   DTPOFF32      NO_OP                          TPOFF32   (6)
 *   GOTTPOFF (n = 3), CODE_4_GOTTPOFF (n = 4), CODE_6_GOTTPOFF (n = 6)
 *                 REX_ADD_INDIRECT_TO_ABSOLUTE   TPOFF32   (7)
 *                 REX_MOV_INDIRECT_TO_ABSOLUTE   TPOFF32   (7)
 *   GOTPC32_TLSDESC (n = 3), CODE_4_GOTPC32_TLSDESC (n = 4)
 *                 TLS_DESC_TO_LOCAL_EXEC         TPOFF32   (3)
 *                 TLS_DESC_TO_INITIAL_EXEC       GOTTPOFF  (4)
 *   TLSDESC_CALL  SKIP_TLS_DESC_CALL             NONE      (8)
 *   GOTPCRELX     REX_ADD_INDIRECT_TO_ABSOLUTE   32        (9)
 *                 REX_OR_INDIRECT_TO_ABSOLUTE    32        (9)
 *                 REX_ADC_INDIRECT_TO_ABSOLUTE   32        (9)
 *                 REX_SBB_INDIRECT_TO_ABSOLUTE   32        (9)
 *                 REX_AND_INDIRECT_TO_ABSOLUTE   32        (9)
 *                 REX_SUB_INDIRECT_TO_ABSOLUTE   32        (9)
 *                 REX_XOR_INDIRECT_TO_ABSOLUTE   32        (9)
 *                 REX_CMP_INDIRECT_TO_ABSOLUTE   32        (9)
 *                 REX_TEST_INDIRECT_TO_ABSOLUTE  32        (9)
 *                 MOV_INDIRECT_TO_ABSOLUTE       32        (10)
 *                 MOV_INDIRECT_TO_LEA            PC32      (1)
 *                 CALL_INDIRECT_TO_RELATIVE      PC32      (1)
 *                 JMP_INDIRECT_TO_RELATIVE       PC32      (1)
 *   REX_GOTPCRELX (n = 3), CODE_4_GOTPCRELX (n = 4), CODE_6_GOTPCRELX (n = 6)
 *                 REX_ADD_INDIRECT_TO_ABSOLUTE   32S       (11)
 *                 REX_OR_INDIRECT_TO_ABSOLUTE    32S       (11)
 *                 REX_ADC_INDIRECT_TO_ABSOLUTE   32S       (11)
 *                 REX_SBB_INDIRECT_TO_ABSOLUTE   32S       (11)
 *                 REX_AND_INDIRECT_TO_ABSOLUTE   32S       (11)
 *                 REX_SUB_INDIRECT_TO_ABSOLUTE   32S       (11)
 *                 REX_XOR_INDIRECT_TO_ABSOLUTE   32S       (11)
 *                 REX_CMP_INDIRECT_TO_ABSOLUTE   32S       (11)
 *                 REX_TEST_INDIRECT_TO_ABSOLUTE  32S       (11)
 *                 REX_MOV_INDIRECT_TO_ABSOLUTE   32S       (12)
 *                 MOV_INDIRECT_TO_LEA            PC32      (1)
 *   (1) is_local, not is_ifunc, is_pcrel_link_time_constant, addend -4, PC32 in reach if known
 *   (2) is_executable, has_local_exec_base, TPOFF64 in reach if known
 *   (3) is_local, not is_ifunc, is_executable, group_fits, addend -4, TPOFF32 in reach if known
 *   (4) is_executable, group_fits, addend -4, GOTTPOFF in reach if known
 *   (5) is_executable, group_fits, addend -4
 *   (6) is_executable, has_local_exec_base, TPOFF32 in reach if known
 *   (7) is_local, not is_ifunc, is_executable, addend -4, TPOFF32 in reach if known
 *   (8) is_executable, group_fits
 *   (9) has_fixed_address, addend -4, 32 in reach if known, and either is_local and not is_ifunc,
 *       or is_undefined_weak
 *   (10) has_fixed_address, addend -4, 32 in reach, and either is_local and not is_ifunc, or
 *       is_undefined_weak
 *   (11) has_fixed_address, addend -4, 32S in reach if known, and either is_local and not is_ifunc,
 *       or is_undefined_weak
 *   (12) has_fixed_address, addend -4, 32S in reach, and either is_local and not is_ifunc, or
 *       is_undefined_weak
 *
 * End of the tables of choices. */

/* ---- Others. */

/* What an entry of the GOT holds, of S + `entry_addend`. */
enum linker_utils_entry_class {
    LINKER_UTILS_ENTRY_NONE = 0, /* no entry is required */
    LINKER_UTILS_ENTRY_ADDRESS = 1, /* a word: the address */
    LINKER_UTILS_ENTRY_THREAD_OFFSET = 2, /* a word: the offset from the thread pointer */
    /* two words: the module's number and the offset in its TLS block */
    LINKER_UTILS_ENTRY_MODULE_OFFSET = 3,
    LINKER_UTILS_ENTRY_MODULE = 4, /* two words: the module's number and 0; one serves all */
    LINKER_UTILS_ENTRY_DESCRIPTOR = 5 /* two words: a TLS descriptor */
};

/* When rewrites are made: what a linker has to know before. */
enum linker_utils_phase {
    LINKER_UTILS_PHASE_PRE_LAYOUT = 0, /* before addresses are known */
    /* once offsets from the thread pointer are known: RISC-V's and LoongArch's `lui` and `add` of
     * one of 12 bits are to be deleted, and PowerPC64's `addis` of one of 16 bits becomes a `nop`.
     * RISC-V's TLS descriptors become offsets. */
    LINKER_UTILS_PHASE_TLS_LOCAL_EXEC = 1,
    /* once addresses are known: AArch64's and RISC-V's loads of an address from the GOT become its
     * computation */
    LINKER_UTILS_PHASE_GOT_TO_PC_REL = 2,
    /* after these: AArch64's `adrp` and `add` become `nop` and `adr`, and PowerPC64's `addis` of a
     * distance from the TOC pointer becomes a `nop` */
    LINKER_UTILS_PHASE_SHORT_PC_REL = 3
};

/* What becomes of a relocation and of its instruction. */
enum linker_utils_fate {
    LINKER_UTILS_FATE_KEPT = 0, /* both stay as they are */
    LINKER_UTILS_FATE_REWRITTEN = 1,
    /* the relocation goes: the rewrite at the one before or at the next one takes it along */
    LINKER_UTILS_FATE_CONSUMED = 2,
    /* the instruction is rewritten, and the relocation gets another symbol and addend: those of the
     * high part whose label was its symbol, or of the word that it loaded */
    LINKER_UTILS_FATE_REWRITTEN_WITH_SYMBOL = 3
};

/* Where a symbol is that linkers define. */
enum linker_utils_symbol_place {
    /* thread-local: at the TLS image in a shared library, and in an executable at the address that
     * the thread pointer stands for. An executable's object that refers to it may have no
     * local-dynamic TLS that stays: its offsets would still count from the image. */
    LINKER_UTILS_PLACE_THREAD_LOCAL = 0,
    LINKER_UTILS_PLACE_GOT = 1,
    LINKER_UTILS_PLACE_SMALL_DATA = 2 /* the section `.sdata` */
};

/* Stubs that a linker adds to code. */
enum linker_utils_stub_kind {
    /* It jumps to the address that a word of 8 bytes has: to a function of another output, whose
     * address the dynamic linker puts there, or to what an indirect function returns. */
    LINKER_UTILS_STUB_LOAD = 0,
    LINKER_UTILS_STUB_JUMP = 1, /* to its target, which branches may not reach */
    /* To its target wherever that is, by the address in its last 8 bytes. In an output whose load
     * address isn't fixed that address takes a dynamic relocation. */
    LINKER_UTILS_STUB_FAR = 2,
    LINKER_UTILS_STUB_FAR_RELATIVE = 3, /* the same by a distance, for any load address */
    /* LINKER_UTILS_STUB_LOAD for protected code: it begins with an instruction to which indirect
     * branches may go, x86-64's `endbr64` or AArch64's `bti c`. */
    LINKER_UTILS_STUB_LANDING_LOAD = 4,
    /* PowerPC64: LINKER_UTILS_STUB_LOAD by the TOC pointer in r2, which it stores at first. */
    LINKER_UTILS_STUB_TOC_LOAD = 5,
    /* PowerPC64: to a function of this output with the same TOC, wherever that is, by the TOC
     * pointer and a word of `.branch_lt` with the function's address. */
    LINKER_UTILS_STUB_TOC_FAR = 6,
    /* PowerPC64: LINKER_UTILS_STUB_LOAD and LINKER_UTILS_STUB_JUMP by a prefixed instruction of
     * Power10. They stand at multiples of 16. */
    LINKER_UTILS_STUB_PREFIXED_LOAD = 7,
    LINKER_UTILS_STUB_PREFIXED_JUMP = 8
};

/* Forms of a lazy PLT, by how code is protected: where indirect branches may go, and whether
 * addresses in words are authenticated. */
enum linker_utils_lazy_form {
    LINKER_UTILS_LAZY_PLAIN = 0, /* for code that isn't protected */
    /* What words lead to at first begins with an instruction to which indirect branches may go. On
     * AArch64 it is the header, with `bti c` (ld.lld's `-z force-bti`). On x86-64 it is the entry,
     * with `endbr64` (`-z force-ibt`). There calls go to a LINKER_UTILS_STUB_LANDING_LOAD to the
     * word of the entry, which is the entry of `.plt.sec`. */
    LINKER_UTILS_LAZY_LANDING = 1,
    /* AArch64: the same, and the entry begins with `bti c`. So do ld.lld's whose address is the
     * function's in other outputs, those of indirect functions, and those that a stub goes to. */
    LINKER_UTILS_LAZY_LANDING_ENTRY = 2,
    /* AArch64: the entry authenticates the address that its word has, with `autia1716`
     * (`-z pac-plt`). */
    LINKER_UTILS_LAZY_AUTHENTICATED = 3,
    LINKER_UTILS_LAZY_AUTHENTICATED_LANDING = 4, /* the same, with the header of 1 */
    LINKER_UTILS_LAZY_AUTHENTICATED_LANDING_ENTRY = 5 /* the same, with `bti c` as 2 */
};

/* Which address a relocation's value is computed from, in the letters of `enum
 * linker_utils_relocation_kind`. */
enum linker_utils_reference {
    LINKER_UTILS_REFERENCE_SYMBOL = 0, /* S + A */
    /* the GOT entry's, of TLS too, plus A where it is added */
    LINKER_UTILS_REFERENCE_GOT_ENTRY = 1,
    LINKER_UTILS_REFERENCE_PLT_ENTRY = 2 /* L + A */
};

/* Which register the jump that replaces a call links. */
enum linker_utils_link_register {
    LINKER_UTILS_LINK_OF_AUIPC = 0, /* that of the `auipc`, as `linker_utils_relax_call` */
    LINKER_UTILS_LINK_OF_JALR = 1 /* that of the `jalr`, as linkers do */
};

/* The shapes of an architecture's instructions, by number. */
enum linker_utils_shapes_name {
    LINKER_UTILS_SHAPES_RISCV_CALL = 0, /* auipc and jalr: jal */
    LINKER_UTILS_SHAPES_RISCV_TAIL_C = 1, /* if it links x0, or x1 on RV32: c.j or c.jal; jal */
    LINKER_UTILS_SHAPES_RISCV_CALL_WITHOUT_C = 2, /* both where the C extension isn't used: jal */
    LINKER_UTILS_SHAPES_LOONGARCH_CALL36 = 3, /* pcaddu18i and jirl: b, bl */
    LINKER_UTILS_SHAPES_LOONGARCH_PCALA = 4 /* pcalau12i and addi.d of one register: pcaddi */
};

/* What an item is. Every other number stands for a limited alignment, too. The library writes only
 * these three. */
enum linker_utils_item_kind {
    LINKER_UTILS_ITEM_SITE = 0,
    LINKER_UTILS_ITEM_ALIGNMENT = 1,
    LINKER_UTILS_ITEM_LIMITED_ALIGNMENT = 2
};

#endif
