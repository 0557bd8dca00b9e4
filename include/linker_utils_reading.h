/* SPDX-License-Identifier: MIT OR Apache-2.0 */
/* Further calls of linker_utils.h, which includes this file, on linked bytes: what stands in
 * fields, halves of addresses, and which rewrite was made. */
#ifndef LINKER_UTILS_READING_H
#define LINKER_UTILS_READING_H

#ifndef LINKER_UTILS_H
#error "Include linker_utils.h."
#endif

/* ---- Bits by types: what `linker_utils_read_value` returns.
 *
 * - Of an instruction they are what the machine reads: bits from `first_bit` of the relocation up.
 *   They are known up to bit 63 where `linker_utils_reach` leaves one choice, as a sign does. They
 *   are known down to bit 0 where the value's alignment says that those below are 0.
 * - RISC-V's lui, auipc and c.lui have the upper bits of the value plus 0x800, the `rounding`. The
 *   other half has the low 12 bits of the value. Of the pair of R_RISCV_CALL and R_LARCH_CALL36 all
 *   bits are known.
 * - The value of PowerPC64's and LoongArch's adjusted high halves has their `bias` in it, so that
 *   the rounding is 0: `linker_utils_solve` takes the bias off.
 * - MOVN and MOVZ have 16 bits and the sign; a MOVK has 16 bits.
 * - A `jirl` at R_LARCH_PCALA_LO12 has bits 2 to 11, and bits 0 and 1 are 0.
 * - Whole bytes have the low bits of the value; the field of R_RISCV_SET6 has 6. */

/* ---- Addresses by types: what `linker_utils_solve` returns.
 *
 * With these operands an address has the bits of `address` exactly where its value has those of
 * `value`, and the same bits are known. The bias of the relocation is taken off. Where bit 0 is
 * known the rounding is 0. Where the formula takes the page of the address, bits 12 and up are
 * known. The rounding then is the bias less the page of the place or of the GOT. Of
 * R_RISCV_PCREL_LO12_* the place is the high part's.
 *
 * LINKER_UTILS_BAD_FIELD_VALUE where no bits are known, or some above bit 63, or `bits` has others.
 * LINKER_UTILS_NO_ADDRESS:
 * - of a relocation without a value or without bytes, and of one that is computed from a size, adds
 *   or subtracts, or is at a ULEB128 number;
 * - of an offset of a TLS symbol without `has_tls_base`;
 * - of LoongArch's upper halves of 64-bit addresses;
 * - where the formula takes the page of the address and `value` is known from below bit 12. */

/* What is known of an address from both halves of a pair, as `linker_utils_solve` returns them:
 * adrp and add, auipc and addi, addis and addi, pcalau12i and addi.d. A number has the bits of
 * `whole` exactly where it has those of both. They are bit 0 up to the last of the high half, and
 * the rounding is 0.
 *
 * LINKER_UTILS_BAD_FIELD_VALUE of either half, as in `linker_utils_solve`. LINKER_UTILS_NOT_HALVES
 * unless the low half has bits 0 up to the first of the high half, and no rounding. */
LINKER_UTILS_MUST_USE uint32_t linker_utils_join(
    const struct linker_utils_field_value *high, const struct linker_utils_field_value *low,
    struct linker_utils_field_value *whole);

/* Which bits of the bytes that begin with a relocation's field `linker_utils_relocate` may change,
 * into `bits`. Bit 0 is the lowest of the first byte, bit 8 that of the second. All others are the
 * same after each write. Of an instruction they are the bits of its form, and for
 * LINKER_UTILS_AARCH64_FORM_MOVNZ those of the opcode that it sets.
 * LINKER_UTILS_UNKNOWN_RELOCATION; LINKER_UTILS_TOO_SHORT where there are fewer bytes than the
 * field has. */
LINKER_UTILS_MUST_USE static inline uint32_t linker_utils_field_bits(
    uint16_t machine, uint32_t r_type, const uint8_t *bytes, size_t bytes_len, uint64_t *bits);

/* Whether two windows of the same length, which begin with a relocation's field, differ in bits of
 * the field only. False of an unknown type, and where the lengths differ, or the field isn't in the
 * windows. */
static inline bool linker_utils_same_but_for(uint16_t machine, uint32_t r_type, const uint8_t *a,
                                             size_t a_len, const uint8_t *b, size_t b_len);

/* ---- Recognising: which rewrite a linker made. These calls take any type. */

/* Bits of a window: some of the eight bytes from an offset on. */
struct linker_utils_window_bits {
    uint64_t offset; /* of the first of the bytes, in the original window */
    uint64_t bits; /* bit 0 is the lowest of that byte, bit 8 that of the next */
};

/* Bytes around a relocation in an object and in the linked file. Both windows may begin before it,
 * at the same place. After a rewrite that deletes bytes the linked one has fewer. */
struct linker_utils_windows {
    const uint8_t *original; size_t original_len; /* at most 64, but to ask for the window */
    uint64_t offset; /* the relocation's in the original bytes */
    /* Bits that other relocations write (`linker_utils_field_bits`), also one that is skipped; all
     * of an instruction that another one rewrites or deletes. */
    const struct linker_utils_window_bits *others; size_t others_len;
    const uint8_t *linked; size_t linked_len;
};

/* A rewrite that leaves the linked bytes, and what stands in the field of the relocation after
 * it. */
struct linker_utils_recognised {
    struct linker_utils_choice choice; /* as `linker_utils_choose` returns it */
    uint64_t offset; /* of the relocation's field in the linked bytes */
    /* What is known of the relocation's value from that field, as `linker_utils_read_value` returns
     * it. `end_bit` is 0 where nothing is known: the relocation holds no value. */
    struct linker_utils_field_value value;
};

/* How many rewrites a relocation may have at most, NO_OP among them. */
#define LINKER_UTILS_CANDIDATES 6

/* The window that `linker_utils_recognise` wants in the original bytes, at most 64, around the
 * relocation. It is the least one in which that call finds each rewrite that it finds in all of
 * these bytes. So it has the bytes that the rewrites write and delete, those that
 * `linker_utils_matches` reads, and the fields of the relocations after them. What other
 * relocations write there is to be named in `others`. A rewrite whose bytes aren't all given isn't
 * counted: give 16 before the offset and 44 from there on, or those that there are. On PowerPC64
 * the first is to be at a multiple of 4 in its section. Where no rewrite has its bytes there the
 * status is LINKER_UTILS_OK, and `back` and `len` are 0. LINKER_UTILS_WINDOW_TOO_LONG. */
LINKER_UTILS_MUST_USE static inline uint32_t linker_utils_recognise_window(
    uint16_t machine, uint32_t r_type, const struct linker_utils_windows *windows,
    struct linker_utils_window_bounds *window);

/* Writes which rewrites, and relocations after them, a linker may have made at a relocation. They
 * are those after which the original bytes differ from the linked ones only in the field of the
 * relocation after it and in `others`. `count` is how many there are; the elements of `found` from
 * there on are unchanged. Nothing needs to be known of the symbol: so several are returned where
 * their bytes are the same, as where only the relocation changes.
 *
 * - `linker_utils_recognise_window` is the window to give. In a wider one other bytes differ, and
 *   nothing is found unless `others` names them.
 * - A rewrite is among them only where `linker_utils_matches` returns LINKER_UTILS_OK of it and the
 *   field is in the window. What `linker_utils_choose` returns is one of them, whatever the facts,
 *   where it leaves the linked bytes so.
 *
 * LINKER_UTILS_DIFFERENT_LENGTHS where `found_len` is not LINKER_UTILS_CANDIDATES.
 * LINKER_UTILS_WINDOW_TOO_LONG. Where nothing is found the status is LINKER_UTILS_OK, and `count`
 * is 0. A type that the library doesn't know has NO_OP only. */
LINKER_UTILS_MUST_USE static inline uint32_t linker_utils_recognise(
    uint16_t machine, uint32_t r_type, const struct linker_utils_windows *windows,
    struct linker_utils_recognised *found, size_t found_len, size_t *count);

/* Writes what `linker_utils_choose` returns by these facts, if it leaves the linked bytes, as
 * `linker_utils_recognise` says. LINKER_UTILS_WINDOW_TOO_LONG. LINKER_UTILS_LEAVES_OTHER_BYTES. */
LINKER_UTILS_MUST_USE static inline uint32_t linker_utils_recognise_chosen(
    uint16_t machine, uint32_t r_type, const struct linker_utils_windows *windows,
    const struct linker_utils_link_facts *facts, struct linker_utils_recognised *found);

/* Where a recognised relocation leads. */
struct linker_utils_destination {
    struct linker_utils_field_value address; /* of S + A, L + A, or the GOT entry's */
    int64_t addend; /* A, of the relocation after the rewrite */
    uint64_t symbol; /* S, or L of a relocation that goes by an entry of the PLT; or 0 */
    uint32_t reference; /* which address it is: `enum linker_utils_reference` */
    /* 1 where `symbol` is known. It isn't of an entry of the GOT, nor where not all bits of the
     * address are, as of a half of it. */
    uint8_t has_symbol;
};

/* Where a relocation leads that `linker_utils_recognise` or `linker_utils_recognise_chosen` found
 * with the same original bytes and offset. Of the operands the addend is that before the rewrite,
 * and the place is the address of the field in the linked file; which others are read
 * `linker_utils_solve` says. `st_other` is the symbol's, and is read of a branch of PowerPC64 only:
 * `symbol` is lower by the distance of the local entry point that it says. With 0 it is the
 * branch's target, that entry point or a stub. LINKER_UTILS_WINDOW_TOO_LONG;
 * LINKER_UTILS_UNKNOWN_REWRITE; LINKER_UTILS_NO_ADDRESS of a relocation without a value, of one
 * that `linker_utils_solve` has no address for, and of a rewrite that isn't meant for what is
 * there. */
LINKER_UTILS_MUST_USE static inline uint32_t linker_utils_get_destination(
    uint16_t machine, const struct linker_utils_recognised *made,
    const struct linker_utils_windows *windows, const struct linker_utils_operands *operands,
    uint8_t st_other, struct linker_utils_destination *destination);

#endif
