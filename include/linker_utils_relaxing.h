/* SPDX-License-Identifier: MIT OR Apache-2.0 */
/* Further calls of linker_utils.h, which includes this file, on code that becomes shorter:
 * deletions, items of runs, what relaxing and packing do by types, and RISC-V's calls that become
 * jumps. */
#ifndef LINKER_UTILS_RELAXING_H
#define LINKER_UTILS_RELAXING_H

#ifndef LINKER_UTILS_H
#error "Include linker_utils.h."
#endif

/* ---- Deletions, and the offsets of what stays. */

/* Writes the deltas of the deletions, one for each. LINKER_UTILS_INVALID_DELETIONS as
 * `linker_utils_deletions_valid`; LINKER_UTILS_DIFFERENT_LENGTHS where `deltas_len` isn't
 * `deletions_len`. */
LINKER_UTILS_MUST_USE static inline uint32_t linker_utils_deltas_create(
    const struct linker_utils_deletion *deletions, size_t deletions_len,
    struct linker_utils_delta *deltas, size_t deltas_len, size_t *faulty);

/* Whether `linker_utils_deltas_create` takes the deletions: their offsets strictly ascend, none
 * reaches past the offset of the next, and each ends at 2^64 - 1 or below. Else
 * LINKER_UTILS_INVALID_DELETIONS, and `faulty` is the first that ends past that or isn't past the
 * one before it. */
LINKER_UTILS_MUST_USE static inline uint32_t linker_utils_deletions_valid(
    const struct linker_utils_deletion *deletions, size_t deletions_len, size_t *faulty);

/* As `linker_utils_deltas_create`, but it tests each deletion when it writes its delta, so that it
 * reads the deletions once. After LINKER_UTILS_INVALID_DELETIONS the deltas may be anything, unless
 * `deltas_len` is not `deletions_len`. */
LINKER_UTILS_MUST_USE static inline uint32_t linker_utils_deltas_create_in_one_pass(
    const struct linker_utils_deletion *deletions, size_t deletions_len,
    struct linker_utils_delta *deltas, size_t deltas_len, size_t *faulty);

/* The offset in the input section of the kept byte at an output offset. LINKER_UTILS_TOO_LARGE.
 * O(log n). */
LINKER_UTILS_MUST_USE static inline uint32_t linker_utils_deltas_output_to_input(
    const struct linker_utils_delta *deltas, size_t deltas_len, uint64_t output_offset,
    uint64_t *input_offset);

/* Whether the deltas are valid: they list deletions that `linker_utils_deltas_create` accepts, each
 * with the sum of the bytes up to it. O(n). */
static inline bool linker_utils_has_valid_deltas(const struct linker_utils_delta *deltas,
                                                 size_t deltas_len);

/* The sum of the bytes of all deletions. */
static inline uint64_t linker_utils_deltas_total_deleted(const struct linker_utils_delta *deltas,
                                                         size_t deltas_len);

/* LINKER_UTILS_OK where `linker_utils_deltas_merge` takes the additional deletions, in any order.
 * Each ends at 2^64 - 1 or below. Of any two, old or additional, one has the lower offset and does
 * not reach past the other's. LINKER_UTILS_INVALID_DELETIONS where the deltas list no valid
 * deletions, LINKER_UTILS_NOT_MERGEABLE. k additional deletions that ascend or descend take one
 * pass besides the searches in the deltas. It doesn't allocate for those, nor for 1,024 or fewer.
 * Others are sorted, in a copy of 16 bytes each. Without memory for the copy they take up to k
 * searches for each longer run that ascends or descends, and for each 1,024 others. These are
 * sorted on the stack, in 16 KB. */
LINKER_UTILS_MUST_USE static inline uint32_t linker_utils_deletions_mergeable(
    const struct linker_utils_delta *deltas, size_t deltas_len,
    const struct linker_utils_deletion *additional, size_t additional_len);

/* Further deletions, and room for the deltas of these and of the old ones. */
struct linker_utils_merge {
    const struct linker_utils_deletion *additional; size_t additional_len;
    struct linker_utils_delta *merged; size_t merged_len;
};

/* Writes the deltas of the old and the additional deletions, sorted, one for each.
 * LINKER_UTILS_DIFFERENT_LENGTHS where `merged_len` is not the count of both.
 * LINKER_UTILS_INVALID_DELETIONS where the deltas list no valid deletions, and `faulty` is the
 * first delta at fault. LINKER_UTILS_NOT_MERGEABLE, and `faulty` is the first additional deletion
 * that overlaps an old or an earlier additional one, or ends past 2^64 - 1.
 * LINKER_UTILS_OUT_OF_MEMORY where they can be merged, but no copy of them can be allocated. It
 * doesn't allocate where the additional deletions ascend and can be merged. Else it sorts a copy of
 * them, of 8 bytes each, and where 8 bytes are too few or can't be allocated, of 16 bytes each. To
 * find the first that can't be merged, it allocates further copies, of the first of them. Where an
 * allocation fails, those deletions are tested as `linker_utils_deletions_mergeable` tests them. */
LINKER_UTILS_MUST_USE static inline uint32_t linker_utils_deltas_merge(
    const struct linker_utils_delta *deltas, size_t deltas_len,
    const struct linker_utils_merge *merge, size_t *faulty);

/* Input offsets, and room for an output offset of each. */
struct linker_utils_translation {
    const uint64_t *queries; size_t queries_len;
    uint64_t *outputs; size_t outputs_len;
};

/* The output offset of each of the queries, which may not decrease, in one walk through the deltas:
 * O(n + q). LINKER_UTILS_DIFFERENT_LENGTHS. LINKER_UTILS_NOT_ASCENDING, and `faulty` is the first
 * query that is less than the one before it. */
LINKER_UTILS_MUST_USE static inline uint32_t linker_utils_deltas_translate_all(
    const struct linker_utils_delta *deltas, size_t deltas_len,
    const struct linker_utils_translation *translation, size_t *faulty);

/* ---- Heads: searches among many deltas are faster with the heads of their blocks, an array in
 * addition to the deltas. Each call is defined for any heads. Its result is specified for those
 * that `linker_utils_deltas_heads` wrote for the same deltas, and for any whose number isn't that
 * of the blocks. */

/* The first delta of a block of 64: its input offset, and its output offset, which is that minus
 * the bytes of all deletions before it. */
struct linker_utils_block_head {
    uint64_t input_offset;
    uint64_t output_offset;
};

/* How many blocks of 64 the deltas have; the last may be shorter. */
static inline size_t linker_utils_deltas_block_count(const struct linker_utils_delta *deltas,
                                                     size_t deltas_len);

/* Writes the heads of the deltas' blocks, one for each. LINKER_UTILS_DIFFERENT_LENGTHS where
 * `heads_len` is not `linker_utils_deltas_block_count`. */
LINKER_UTILS_MUST_USE static inline uint32_t linker_utils_deltas_heads(
    const struct linker_utils_delta *deltas, size_t deltas_len,
    struct linker_utils_block_head *heads, size_t heads_len);

/* `linker_utils_deltas_input_to_output` with the heads of the deltas' blocks. If there are not as
 * many heads as blocks, it ignores them. The search takes O(log n). */
static inline uint64_t linker_utils_deltas_input_to_output_by_heads(
    const struct linker_utils_delta *deltas, size_t deltas_len,
    const struct linker_utils_block_head *heads, size_t heads_len, uint64_t input_offset);

/* `linker_utils_deltas_output_to_input` with the heads, likewise. LINKER_UTILS_TOO_LARGE. */
LINKER_UTILS_MUST_USE static inline uint32_t linker_utils_deltas_output_to_input_by_heads(
    const struct linker_utils_delta *deltas, size_t deltas_len,
    const struct linker_utils_block_head *heads, size_t heads_len, uint64_t output_offset,
    uint64_t *input_offset);

/* ---- Items: the parts of a run that relaxation may shorten.
 *
 * Sites are instructions that can become shorter where they reach their target, and alignments are
 * nops. What lies between two sections can be an alignment whose nops no file has. Before a section
 * that is aligned to n, a multiple of the run's granularity, it may have the nops up to the next
 * multiple of n and n more. Deletions that are decided already are sites with one shape. An output
 * address is `start` and an output offset. */

/* A form of a site's instructions. It reaches a target at an output offset that lies at most
 * `max_backward` below its own, or less than `max_forward` above it, or at it. The distance is a
 * multiple of `granularity`, a power of two. */
struct linker_utils_shape {
    uint64_t max_backward;
    uint64_t max_forward;
    uint32_t kept; /* how many of the site's bytes stay, from the first one on */
    uint32_t granularity;
};

/* The forms that the instructions of a site can have, by ascending length. The last one reaches
 * everything. {.longest = n} is a deletion that is decided already, of all but the first n
 * bytes. */
struct linker_utils_shapes {
    struct linker_utils_shape shorter[2]; /* of which the first `count` count */
    uint32_t longest; /* how many bytes stay where no other form reaches the target */
    uint8_t count; /* 0, 1 or 2 */
};

/* Writes the shapes that a number of `enum linker_utils_shapes_name` names.
 * LINKER_UTILS_UNKNOWN_SHAPES. */
LINKER_UTILS_MUST_USE uint32_t linker_utils_standard_shapes(
    uint32_t number, struct linker_utils_shapes *shapes);

/* A part of a run that relaxation may shorten. */
struct linker_utils_item {
    uint64_t offset; /* the input offset of its first byte */
    uint64_t target; /* of a site: the input offset that it has to reach; it means nothing where
                        there are no shorter shapes */
    uint64_t alignment; /* of an alignment: what the output address after it is a multiple of */
    uint64_t max_skip; /* of a limited alignment: how many bytes of nops may stay; where more are
                          needed, none stay */
    uint32_t len; /* how many bytes it has: of an alignment, its nops */
    uint32_t kind; /* by `enum linker_utils_item_kind` */
    struct linker_utils_shapes shapes; /* of a site: what it can become */
};

/* ---- Items by types: which items relocations make.
 *
 * None makes a site whose `has_target` is 0. That is so where its target isn't in the run, where
 * bytes between S and S + A may be deleted, or where the instructions are to stay as they are.
 * RISC-V's call of a weak function that nothing defines goes to itself: with its own input offset
 * as target it becomes short too.
 *
 * RISC-V: R_RISCV_CALL and R_RISCV_CALL_PLT make a site where R_RISCV_RELAX is the next relocation,
 * at the same offset, and the target is in the run. The bytes have to be an auipc and a jalr of one
 * register, which isn't x0. It can become jal, and where `may_compress` is set two bytes: c.j where
 * the jalr links x0, and RV32's c.jal where it links x1. R_RISCV_ALIGN makes an alignment without a
 * limit to the next power of two above its addend, which is how many bytes of nops there are,
 * unless it is 0.
 *
 * An alignment may have fewer nops than it may need at an even address, as the 12 bytes for
 * `.balign 16` in code without the C extension. Then no call before it becomes two bytes long, back
 * to the alignment before that. None becomes jal where the nops are enough only at multiples of
 * more than 4.
 *
 * LoongArch, where R_LARCH_RELAX is the relocation that has to be next: R_LARCH_CALL36 makes a site
 * if the bytes are a pcaddu18i and a jirl of one register that links ra or none. R_LARCH_PCALA_HI20
 * makes one if R_LARCH_PCALA_LO12 of the next instruction comes after its R_LARCH_RELAX, with the
 * same target and an R_LARCH_RELAX too. The bytes have to be a pcalau12i and an addi.d of one
 * register. R_LARCH_ALIGN makes an alignment, unless there are no nops. Without a symbol its addend
 * is how many bytes of nops there are, and they align to the next power of two above it. With a
 * symbol the lowest 8 bits of the addend are the exponent of two of what they align to, 4 bytes
 * more than the nops. The others are its limit: how many bytes of nops may be kept. Without a
 * symbol, and where these are 0 or no fewer than the nops, the alignment has no limit.
 *
 * LINKER_UTILS_MALFORMED_RELOCATION: the relocation lies after the section's end, or is a call's
 * (of LoongArch's an R_LARCH_CALL36) with less than eight bytes there. Or it is an R_RISCV_ALIGN
 * whose addend isn't a multiple of 2 from 0 up, below 2^32, of bytes in the section. Or it is an
 * R_LARCH_ALIGN whose addend is below 0 or whose exponent is below 2 or above 32. It also is one
 * whose nops aren't a multiple of 4, reach past the section's end or have 2^32 bytes or more. */

/* Is added to EM_RISCV of files of ELFCLASS32 for `linker_utils_section_items`, `_rewritten_items`,
 * `_has_its_instructions` and `_pack_run`: a call may become c.jal, which RV64 lacks. */
#define LINKER_UTILS_CLASS32 0x8000

/* Writes the items that the relocations of a section that wasn't rewritten make, in their order.
 * `items_len` and `makers_len` are `relocations_len`, since a relocation makes at most one item.
 * LINKER_UTILS_DIFFERENT_LENGTHS; LINKER_UTILS_ENDS_TOO_HIGH where `base` and `bytes_len` add up to
 * 2^64 or more; LINKER_UTILS_MALFORMED_RELOCATION of the first malformed one. */
LINKER_UTILS_MUST_USE static inline uint32_t linker_utils_section_items(
    uint16_t machine, const struct linker_utils_section *section,
    const struct linker_utils_rela *relocations, size_t relocations_len,
    struct linker_utils_items *items, size_t *faulty);

/* ---- Rewritten sections: what `linker_utils_rewritten_items` takes and writes.
 *
 * The section's bytes, its relocations and its `deleted` are as `linker_utils_rewrite_section` and
 * `linker_utils_rewrite_placed_section` left them: deleted bytes are still there, and a relocation
 * of type 0 makes no item. A deletion is a site with one shape, of no bytes. So
 * `linker_utils_relax` counts distances over it, `linker_utils_run_deltas` lists it, and
 * `linker_utils_pack_run` leaves its bytes out. The items ascend, and none begins below the end of
 * the one before it. LINKER_UTILS_INVALID_DELETIONS is of the first deletion that begins below the
 * end of the one before it or ends past the section. A target inside deleted bytes is no error
 * there, but LINKER_UTILS_TARGET_INSIDE of `linker_utils_relax`. */

/* ---- Choices of shapes: how `linker_utils_relax` makes them.
 *
 * Each site has its shortest shape at first. Then the run is laid out, where an alignment keeps
 * exactly the bytes that it then needs. Each site that is out of reach by that layout has its next
 * shape; again, until none is. Where one still is after 64 such rounds, the choice is the greatest
 * where every alignment keeps all. No site has a longer shape than it would need if every alignment
 * kept all of its nops. Without alignments the choice is the greatest.
 *
 * `shapes_len`, `kept_len` and `places_len` are `items_len`, and `freed_len` is one more. After 64
 * rounds come sweeps of O(n). Where sites become long one because of the next in one direction, one
 * sweep each way finds all of them. The deltas of `linker_utils_run_deltas` are valid for items as
 * `linker_utils_items_relaxable` accepts them. */

/* Whether `linker_utils_relax` accepts the items of a run: the statuses from
 * LINKER_UTILS_ITEMS_OVERLAP on say what is required of them. The run's granularity is the greatest
 * of its short shapes, and 1 where there are none.
 *
 * The status is the first fault of the first faulty item, which is `faulty`, in the order of these
 * statuses: LINKER_UTILS_MISALIGNED is after LINKER_UTILS_UNEVEN_SHAPE, and
 * LINKER_UTILS_MAY_BE_MISALIGNED the last. Those from LINKER_UTILS_UNEVEN_SHAPE on are returned
 * only where no item has one of those before. O(n log n) for n items.
 *
 * LINKER_UTILS_MISALIGNED: an R_LARCH_CALL36, with its shapes, whose target is not a multiple of 4
 * bytes away.
 *
 * LINKER_UTILS_MAY_BE_MISALIGNED: an alignment without a limit needs as many nops as it is itself
 * less the granularity. Fewer are accepted, as many as it less w, a power of two, where w divides
 * the address of the first nop in every layout. It does where it divides the alignment without a
 * limit before it, or `start`, and the bytes from there, and what lies between loses only multiples
 * of w. So the start of a section is an item, too: an alignment.
 *
 * LINKER_UTILS_ALIGNMENT_BELOW_GRANULARITY and LINKER_UTILS_UNEVEN_END aren't of an alignment whose
 * nops are the same in every layout. It has no limit, divides the granularity, and has exactly the
 * nops that its input address needs, or a multiple of the granularity more. */
LINKER_UTILS_MUST_USE static inline uint32_t linker_utils_items_relaxable(
    const struct linker_utils_run *run, size_t *faulty);

/* Whether a site is eight bytes of a section, of instructions that can have its shapes. Of RISC-V
 * they are an auipc and a jalr with those of LINKER_UTILS_SHAPES_RISCV_CALL, or with those of
 * LINKER_UTILS_SHAPES_RISCV_TAIL_C where they link x0, or x1 on RV32. Of LoongArch they are a
 * pcaddu18i and a jirl with those of LINKER_UTILS_SHAPES_LOONGARCH_CALL36, or a pcalau12i and an
 * addi.d of one register with those of LINKER_UTILS_SHAPES_LOONGARCH_PCALA. An alignment has no
 * instructions to be tested; a site with one shape has none of these shapes. Where this is so of
 * each site that `linker_utils_relax` made shorter, `linker_utils_pack_run` rejects none of them
 * for its reach.
 *
 * LINKER_UTILS_NOT_ITS_INSTRUCTIONS where it isn't so. O(1). */
LINKER_UTILS_MUST_USE static inline uint32_t linker_utils_has_its_instructions(
    uint16_t machine, const struct linker_utils_section *section,
    const struct linker_utils_item *item);

/* ---- Packed by types: what `linker_utils_pack_run` writes.
 *
 * How many bytes of an item stay, which have to be its first ones, says what is written. Addresses
 * are modulo 2^64, and targets may lie anywhere in the run.
 * - RISC-V: in place of a call, which is an auipc and a jalr, c.j where 2 bytes stay and the jalr
 *   links x0, or RV32's c.jal where it links x1. Where 4 stay it is jal with the link register of
 *   the jalr, and where 8 stay the call with R_RISCV_CALL_PLT applied. In place of nops as many
 *   bytes of nop, and at most one c.nop at the end.
 * - LoongArch: where 4 bytes stay, b in place of a pcaddu18i and a jirl that links none, and bl in
 *   place of those that link ra. In place of a pcalau12i and an addi.d it is pcaddi with the
 *   register of the addi.d. Where 8 stay, the two with R_LARCH_CALL36, or R_LARCH_PCALA_HI20 and
 *   R_LARCH_PCALA_LO12, applied. In place of nops andi zero, zero, 0, of 4 bytes. Each goes from
 *   the address where its site goes to the one where the target goes, or makes that address; a call
 *   with R_RISCV_CALL_PLT leaves out bit 0 of it. What stays of a site with one shape isn't
 *   changed.
 *
 * The section's relocations become those of the packed section, as `linker_utils_relocate_section`
 * takes them: each goes to the offset where its place goes. That of a site which became shorter
 * gets the type of the one instruction: R_RISCV_JAL or R_RISCV_RVC_JUMP of a call, R_LARCH_B26 of
 * R_LARCH_CALL36, and R_LARCH_PCREL20_S2 of R_LARCH_PCALA_HI20. The others at the start of such a
 * site, those of alignments among the items, and those whose byte is deleted, as
 * R_LARCH_PCALA_LO12, get the type 0. All others keep their type, and each its symbol and addend.
 * One after the section's end is unchanged.
 *
 * Only LINKER_UTILS_ITEMS_OVERLAP, LINKER_UTILS_ITEM_OUT_OF_SECTION and
 * LINKER_UTILS_DELETED_OUTSIDE can be of a site with one shape. LINKER_UTILS_DELETED_OUTSIDE where
 * bytes before the item are deleted that are of no item: an item is missing. For k items, m
 * relocations and n deltas it takes O((k + m) log n + m log k). Beside that it takes a step for
 * each byte of the section and each delta in it. */

/* ---- RISC-V calls that become jumps (RISC-V ELF psABI, "Function Call Relaxation"), and the tests
 * for shorter instructions. */

/* Replaces the `auipc` at a site of a section by a `jal` over a distance in bytes, with the
 * `auipc`'s destination register. LINKER_UTILS_OUT_OF_SECTION, LINKER_UTILS_ODD_DISTANCE,
 * LINKER_UTILS_TOO_FAR. */
LINKER_UTILS_MUST_USE static inline uint32_t linker_utils_jal_site(
    const struct linker_utils_section *section, uint64_t site, int64_t distance);

/* Replaces the call at a site of a section by a `jal` over a distance in bytes, which links the
 * register that `link` chooses of `enum linker_utils_link_register`. The `jalr`'s is right for
 * every call, as for `tail f` and `call t0, f`. The eight bytes at the site then have to be an
 * `auipc` and a `jalr` whose base is its register. LINKER_UTILS_UNKNOWN_LINK_REGISTER.
 * LINKER_UTILS_OUT_OF_SECTION where the four bytes at the site or, with the `jalr`'s register, the
 * eight bytes are not in the section. LINKER_UTILS_NOT_A_CALL, LINKER_UTILS_ODD_DISTANCE,
 * LINKER_UTILS_TOO_FAR. */
LINKER_UTILS_MUST_USE static inline uint32_t linker_utils_jal_site_with(
    const struct linker_utils_section *section, uint64_t site, int64_t distance, uint32_t link);

/* As `linker_utils_jal_site`, in a section from which no byte has been removed yet: the distance is
 * that from the site's output offset to the target's. The target may be the section's end. A target
 * inside a deletion counts as what follows the deletion. LINKER_UTILS_OUT_OF_SECTION,
 * LINKER_UTILS_SITE_DELETED, LINKER_UTILS_ODD_DISTANCE, LINKER_UTILS_TOO_FAR. */
LINKER_UTILS_MUST_USE static inline uint32_t linker_utils_relax_call(
    const struct linker_utils_section *section, const struct linker_utils_delta *deltas,
    size_t deltas_len, uint64_t site, uint64_t target);

/* Whether the instructions at the site are `auipc` and `jalr` with one register as both
 * destinations and as the source of the `jalr`. Then a jump that links the `auipc`'s register links
 * the same one as the call. */
static inline bool linker_utils_is_plain_call(
    const struct linker_utils_section *section, uint64_t site);

/* Whether a distance in bytes is from -1048576 to 1048575. */
bool linker_utils_distance_fits_jal(int64_t distance);

/* Whether bits 12 to 31 of the value plus 0x800, modulo 2^64, are 0. */
bool linker_utils_hi20_is_zero(uint64_t value);

/* Whether `c.lui` holds the high part of a value. That is the value plus 0x800, modulo 2^64 and
 * read signed, divided by 4096 and rounded down: from -32 to 31 and not 0. */
bool linker_utils_hi20_fits_clui(uint64_t value);

/* Whether a register can be the destination of `c.lui`: neither x0 nor x2. */
bool linker_utils_rd_valid_for_clui(uint32_t rd);

/* ---- Packing by calls: the kept bytes of a section, with jumps in place of its calls. */

/* A RISC-V call: the offset in the input section of its `auipc`, and of what it calls. */
struct linker_utils_call {
    uint64_t site;
    uint64_t target;
};

/* Calls of a section, and what is deleted of it. */
struct linker_utils_calls {
    const struct linker_utils_call *calls; size_t calls_len;
    const struct linker_utils_delta *deltas; size_t deltas_len;
    uint32_t link; /* for `linker_utils_pack`, by `enum linker_utils_link_register` */
};

/* How many bytes of a section are kept: as many as `linker_utils_pack` writes. */
static inline size_t linker_utils_packed_len(
    const struct linker_utils_section *section, const struct linker_utils_delta *deltas,
    size_t deltas_len);

/* Writes the kept bytes of a section, in order. At each call's site a `jal` to the target's output
 * offset is written in place of the `auipc`. It links the register that `link` names. A deletion
 * that reaches past the section's end deletes up to there. LINKER_UTILS_UNKNOWN_LINK_REGISTER.
 * LINKER_UTILS_CALLS_NOT_APART, and `faulty` is the first call whose site is less than 4 above that
 * of the one before it. LINKER_UTILS_DIFFERENT_LENGTHS where `packed_len` is not
 * `linker_utils_packed_len`. If a call can't become a jump, `faulty` is the first such call, and
 * the status says why: LINKER_UTILS_OUT_OF_SECTION, as `linker_utils_jal_site_with`, also where the
 * target is past the section's end; LINKER_UTILS_SITE_DELETED, for the four bytes at the site;
 * LINKER_UTILS_NOT_A_CALL, LINKER_UTILS_ODD_DISTANCE, LINKER_UTILS_TOO_FAR. */
LINKER_UTILS_MUST_USE static inline uint32_t linker_utils_pack(
    const struct linker_utils_section *section, const struct linker_utils_calls *calls,
    uint8_t *packed, size_t packed_len, size_t *faulty);

/* ---- Shrinking: which calls can become jumps at once, each without the four bytes after its first
 * instruction. */

/* Whether `linker_utils_shrink_calls` accepts the calls. Their sites ascend by at least 8, and the
 * eight bytes at each site are kept. The deletions (site + 4, 4) can all be merged, and no target
 * is strictly inside one of them. LINKER_UTILS_CALLS_NOT_SHRINKABLE, and `faulty` is the first call
 * that isn't accepted together with those before it. */
LINKER_UTILS_MUST_USE static inline uint32_t linker_utils_calls_shrinkable(
    const struct linker_utils_calls *calls, size_t *faulty);

/* Writes 1 for each call that is chosen, and 0 for the others. The four bytes (site + 4, 4) of each
 * call of a choice are deleted. It is in reach if then the distance of each from its site to its
 * target is even and in the range of `jal`. The choice that is written is the greatest: every
 * choice in reach is part of it. The caller then merges its deletions, and packs the section with
 * its calls.
 *
 * LINKER_UTILS_DIFFERENT_LENGTHS where `chosen_len` is not `calls_len`.
 * LINKER_UTILS_CALLS_NOT_SHRINKABLE as `linker_utils_calls_shrinkable`. It takes 9 KiB of the
 * stack. For k calls and n deltas a test of a call takes O(log n + log k + k / 1024). All calls are
 * tested, up and down in turn, until none is dropped. Calls that turn around n times, each in reach
 * only with the one before, may be tested n times. `linker_utils_relax` is the call for a
 * linker. */
LINKER_UTILS_MUST_USE static inline uint32_t linker_utils_shrink_calls(
    const struct linker_utils_calls *calls, uint8_t *chosen, size_t chosen_len, size_t *faulty);

#endif
