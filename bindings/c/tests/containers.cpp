/* SPDX-License-Identifier: MIT OR Apache-2.0 */
/* What linker_utils.hpp does beside what the program containers.cpp shows: which containers spans
 * are made of, calls with empty ones, the entries that statuses are about, what is thrown, and that
 * lists of deltas are moved and freed. At last it takes the value of a call that failed, which has
 * to end the program. */
#include <elf.h>

#include <array>
#include <csignal>
#include <cstdio>
#include <cstdlib>
#include <cstring>
#include <list>
#include <string>
#include <vector>

#include "linker_utils.hpp"
#ifdef __cpp_lib_span
#include <span>
#endif

namespace lu = linker_utils;

#define EXPECT(condition) \
    ((condition) ? (void)0 : (std::printf("%d: %s\n", __LINE__, #condition), std::exit(1)))

/* Lists of deltas: how many there are, and whether there is no memory for another one. */
static int lists = 0;
static bool is_full = false;
void *operator new[](size_t size, const std::nothrow_t &) noexcept {
    return is_full ? nullptr : (lists++, std::malloc(size + 1));
}
void operator delete[](void *list) noexcept { lists--, std::free(list); }
void operator delete[](void *list, size_t) noexcept { lists--, std::free(list); }

template <class From, class To> constexpr bool converts = std::is_convertible_v<From, To>;
using vector = std::vector<uint8_t>;
static_assert(converts<vector &, lu::span<uint8_t>> && converts<vector &, lu::span<const uint8_t>>);
static_assert(converts<const vector &, lu::span<const uint8_t>>);
static_assert(!converts<const vector &, lu::span<uint8_t>>);
static_assert(converts<uint8_t (&)[4], lu::span<uint8_t>>);
static_assert(converts<std::array<uint8_t, 4> &, lu::span<uint8_t>>);
static_assert(converts<lu::span<uint8_t>, lu::span<const uint8_t>>);
static_assert(!converts<std::vector<uint16_t> &, lu::span<uint8_t>>);
static_assert(!converts<std::list<uint8_t> &, lu::span<uint8_t>>);
struct longer : linker_utils_deletion {};
static_assert(!converts<std::vector<longer> &, lu::span<linker_utils_deletion>>);
static_assert(converts<const std::vector<Elf64_Rela> &, lu::relas<const void>>);
static_assert(!converts<lu::outcome, bool>);
static_assert(!std::is_copy_constructible_v<lu::deltas>);
#ifdef __cpp_lib_span
static_assert(converts<std::span<uint8_t>, lu::span<uint8_t>>);
static_assert(converts<lu::span<uint8_t> &, std::span<uint8_t>>);
static_assert(converts<lu::span<const uint8_t>, std::span<const uint8_t>>);
static_assert(converts<const lu::deltas &, std::span<const linker_utils_delta>>);
#endif

static void empty_containers() {
    const vector none;
    vector room;
    std::vector<uint64_t> words;
    std::vector<size_t> places;
    linker_utils_link link{};
    link.machine = EM_RISCV;
    const lu::object object({});
    const lu::section section(room), constants = lu::section::of_constants(none);
    const lu::run run({});
    const linker_utils_link_facts facts{};
    const lu::row call(EM_AARCH64, R_AARCH64_CALL26);
    std::vector<Elf64_Rela> no_relas;
    EXPECT(lu::relocate_section(link, object, lu::section(room, no_relas), words));
    EXPECT(lu::survey(link, object, constants));
    EXPECT(lu::rewrite_section(link, object, section, {}));
    EXPECT(*lu::section_items(EM_RISCV, constants, {}, {}, places) == 0);
    uint64_t freed[1] = {1};
    EXPECT(lu::relax(run, room, words, places, freed) && freed[0] == 0);
    EXPECT(lu::deltas::create({})->size() == 0 && lu::deltas().merged({})->total_deleted() == 0);
    EXPECT(lu::packed_run_len(lu::section::of_constants(vector(7)), run) == 7);
    EXPECT(lu::pack_run(EM_RISCV, constants, lu::run({}, 0, *lu::deltas::of_run(run, words)), room));
    EXPECT(call.write(4, room).status == LINKER_UTILS_TOO_SHORT);
    EXPECT(call.apply(linker_utils_operands{}, room).status == LINKER_UTILS_TOO_SHORT);
    EXPECT(call.choose(constants, 0, facts)->relocation == R_AARCH64_CALL26);
    EXPECT(lu::name(EM_AARCH64, R_AARCH64_CALL26, {}).status == LINKER_UTILS_TOO_SHORT);
}

static void rows() {
    const lu::row call(EM_AARCH64, R_AARCH64_CALL26), none(EM_AARCH64, 1);
    EXPECT(call && !none && none.handle == 0 && lu::row(call.handle));
    EXPECT(none.value(linker_utils_operands{}).status == LINKER_UTILS_UNKNOWN_RELOCATION);
    EXPECT(std::string_view(call.facts()->name) == "R_AARCH64_CALL26");
    /* ELF for the Arm 64-bit Architecture: -2^27 up, below 2^27 */
    EXPECT(call.facts()->reach.min == -(1 << 27) && call.facts()->reach.max == 1 << 27);
    EXPECT(*call.value(linker_utils_operands_of(0x402000, 0, 0x401000)) == 0x1000);
    std::array<uint8_t, 4> bl = {0x00, 0x00, 0x00, 0x94};
    EXPECT(call.write(0x1000, bl) && bl[1] == 0x04);
    EXPECT(call.write(1 << 27, bl).status == LINKER_UTILS_OUT_OF_REACH && bl[1] == 0x04);
}

/* The index of the entry that a status is about. */
static void expect(const lu::outcome &ended, uint32_t status, size_t faulty) {
    if (ended.status == status && ended.faulty == faulty) return;
    std::printf("%u of %zu in place of %u of %zu\n", ended.status, ended.faulty, status, faulty);
    std::exit(1);
}

static void entries_are_named() {
    vector code(16), packed(16);
    /* x86-64: `mov x@gottpoff(%rip), %rax`, twice at one place */
    vector loads = {0x48, 0x8b, 0x05, 0, 0, 0, 0};
    std::vector<Elf64_Rela> relas(2, {3, ELF64_R_INFO(UINT64_C(1), R_X86_64_GOTTPOFF), -4});
    std::vector<linker_utils_symbol_facts> symbols(2);
    std::vector<linker_utils_unrelaxable_groups> kept(2);
    std::vector<linker_utils_decision> decisions(2);
    symbols[1].is_local = true;
    linker_utils_link link{};
    link.machine = EM_X86_64;
    link.is_executable = link.is_fixed = link.has_near_symbols = true;
    const lu::object object(symbols, {}, kept);
    const lu::section section(loads, relas);
    expect(lu::rewrite_section(link, object, section, decisions), LINKER_UTILS_OVERLAPS, 1);
    expect(lu::relocate_section(link, object, section, {}), LINKER_UTILS_SHORT_MEMORY,
           lu::no_index);
    std::vector<uint64_t> memory(2);
    expect(lu::relocate_section(link, object, section, memory), LINKER_UTILS_NO_SYMBOL, 0);
    /* RISC-V: 3 bytes of nops; and alignments that overlap, and lie past the section */
    const linker_utils_rela odd[] = {{0, 0, 4, R_RISCV_ALIGN, 0, 0, 0},
                                     {8, 0, 3, R_RISCV_ALIGN, 0, 0, 0}};
    std::vector<linker_utils_item> items(2);
    std::vector<size_t> makers(2), places(2);
    const lu::section in(code);
    expect(lu::section_items(EM_RISCV, in, odd, items, makers),
           LINKER_UTILS_MALFORMED_RELOCATION, 1);
    for (auto &item : items) item.kind = LINKER_UTILS_ITEM_ALIGNMENT, item.alignment = item.len = 8;
    std::vector<uint64_t> freed(3);
    vector shapes(2);
    const lu::run run(items);
    expect(lu::relax(run, shapes, memory, places, freed), LINKER_UTILS_ITEMS_OVERLAP, 1);
    items[1].offset = 12;
    expect(lu::pack_run(EM_RISCV, in, run, packed), LINKER_UTILS_ITEM_OUT_OF_SECTION, 1);
}

static void lists_are_moved() {
    const linker_utils_deletion gone[] = {{4, 4}, {16, 2}};
    lu::deltas first = lu::deltas::create(gone).value(), second;
    second = std::move(first);
    EXPECT(first.size() == 0 && first.input_to_output(18) == 18);
    EXPECT(second.size() == 2 && second.input_to_output(18) == 12);
    second = lu::deltas::create({gone, 1}).value();
    EXPECT(second.input_to_output(18) == 14 && *second.output_to_input(14) == 18);
    lu::deltas third(std::move(second));
    EXPECT(third.size() == 1 && second.data() == nullptr && lists == 1);
    is_full = true;
    EXPECT(lu::deltas::create(gone).status == LINKER_UTILS_OUT_OF_MEMORY);
    EXPECT(third.merged(gone).status == LINKER_UTILS_OUT_OF_MEMORY && third.size() == 1);
    is_full = false;
    expect(third.merged(gone), LINKER_UTILS_NOT_MERGEABLE, 0);
}

#ifdef __cpp_exceptions
template <class Call> void expect_thrown(uint32_t status, size_t faulty, Call call) {
    try {
        call();
    } catch (const std::runtime_error &thrown) {
        auto it = dynamic_cast<const lu::error *>(&thrown);
        EXPECT(it && it->status == status && it->faulty == faulty);
        EXPECT(it->what() == std::string(linker_utils_status_text(status)));
        return;
    }
    EXPECT(!"nothing is thrown");
}

static void values_throw() {
    const lu::row call(EM_AARCH64, R_AARCH64_CALL26);
    const linker_utils_deletion gone[] = {{0, 2}, {8, 9}, {16, 4}};
    vector bl(4), short_one(3);
    call.write(4, bl).value();
    expect_thrown(LINKER_UTILS_MISALIGNED, lu::no_index, [&] { call.write(2, bl).value(); });
    expect_thrown(LINKER_UTILS_TOO_SHORT, lu::no_index, [&] { call.write(4, short_one).value(); });
    expect_thrown(LINKER_UTILS_INVALID_DELETIONS, 2, [&] { lu::deltas::create(gone).value(); });
    const auto failed = lu::row(0).facts();
    expect_thrown(LINKER_UTILS_UNKNOWN_RELOCATION, lu::no_index, [&] { failed.value(); });
}
#else
static void values_throw() {}
#endif

int main() {
    empty_containers();
    rows();
    entries_are_named();
    lists_are_moved();
    values_throw();
    EXPECT(lists == 0);
    std::signal(SIGABRT, [](int) { std::_Exit(0); });
    lu::row(0).facts().value();
    return 1;
}
