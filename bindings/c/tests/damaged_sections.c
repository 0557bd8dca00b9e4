/* SPDX-License-Identifier: MIT OR Apache-2.0 */
/* Relocates damaged sections of objects, and compares with what calls for one relocation each do.
 *
 * usage: damaged_sections CASES SEED OBJECT...
 * Of each architecture that the objects are of it takes CASES sections, damages fields of relocations
 * and of symbols, their order, bytes and lengths, and calls `linker_utils_relocate_section`. With an error all
 * bytes of the section are unchanged. The error is that of the first relocation which
 * `linker_utils_value_at` or `linker_utils_relocate` rejects, or LINKER_UTILS_OVERLAPS of the first
 * whose field has bytes of the field of one before it, with which it doesn't compose; or that of an
 * alignment, a call or an instruction that would be wrong. Else the section
 * is what these calls make of it. `linker_utils_relocate_resolved` does the same by what the symbols
 * say of each relocation. Each buffer ends before an inaccessible page; with -DMALLOC they are blocks
 * of `malloc`, for valgrind, of which `memory` isn't initialised. */
#define _GNU_SOURCE
#include <elf.h>
#include <inttypes.h>
#include <stdio.h>
#include <stdlib.h>
#include <string.h>
#include <sys/mman.h>

#include "linker_utils.h"

#define START UINT64_C(0x400000)
#define GOT UINT64_C(0x480000)
#define MOST ((size_t)1 << 20)

static const char *reading = "";
static uint64_t seed, number;

static _Noreturn void fail(const char *what) {
    fprintf(stderr, "%s, seed %" PRIu64 ", case %" PRIu64 ": %s\n", reading, seed, number, what);
    exit(1);
}

static void expect(int holds, const char *what) {
    if (!holds) fail(what);
}

static uint64_t state;

static uint64_t below(uint64_t bound) { /* xorshift64 */
    state ^= state << 13;
    state ^= state >> 7;
    state ^= state << 17;
    return state % bound;
}

/* A buffer of so many bytes, whose pointer is null where there are none. */
static void *room(size_t slot, size_t len) {
    expect(len <= MOST, "a long section");
#ifdef MALLOC
    static void *blocks[7];
    free(blocks[slot]);
    return blocks[slot] = len ? malloc(len) : NULL;
#else
    static uint8_t *pages[7];
    if (!pages[slot]) {
        pages[slot] = mmap(NULL, MOST + 4096, PROT_READ | PROT_WRITE, MAP_PRIVATE | MAP_ANONYMOUS, -1, 0);
        expect(pages[slot] != MAP_FAILED && !mprotect(pages[slot] + MOST, 4096, PROT_NONE), "no pages");
    }
    return len ? pages[slot] + MOST - len : NULL;
#endif
}

/* A section with relocations, and the symbols of its object. */
struct input {
    const char *path;
    const uint8_t *bytes, *relocations;
    struct linker_utils_symbol *symbols;
    size_t len, relocations_len, symbols_len;
    uint64_t start;
    uint16_t machine;
};

static struct input inputs[10000];
static size_t inputs_len;

static void *take(size_t count, size_t size) {
    void *memory = calloc(count + 1, size);
    expect(memory != NULL, "out of memory");
    return memory;
}

/* What is known of an object's symbols: sections lie one after the other. */
static void read_object(const char *path) {
    FILE *file = fopen(path, "rb");
    reading = path;
    expect(file && !fseek(file, 0, SEEK_END), "can't be read");
    size_t len = (size_t)ftell(file);
    uint8_t *bytes = take(len, 1);
    rewind(file);
    expect(fread(bytes, 1, len, file) == len && !fclose(file), "can't be read");
    Elf64_Ehdr head;
    memcpy(&head, bytes, sizeof head);
    Elf64_Shdr *heads = take(head.e_shnum, sizeof *heads);
    memcpy(heads, bytes + head.e_shoff, head.e_shnum * sizeof *heads);
    uint64_t *starts = take(head.e_shnum, sizeof *starts), end = START;
    struct linker_utils_symbol *symbols = NULL;
    size_t symbols_len = 0;
    for (size_t i = 0; i < head.e_shnum; i++) {
        starts[i] = end;
        if (heads[i].sh_flags & SHF_ALLOC) end += (heads[i].sh_size + 63) / 64 * 64;
    }
    for (size_t i = 0; i < head.e_shnum; i++) {
        if (heads[i].sh_type != SHT_SYMTAB) continue;
        symbols_len = heads[i].sh_size / sizeof(Elf64_Sym);
        symbols = take(symbols_len, sizeof *symbols);
        for (size_t k = 1; k < symbols_len; k++) {
            Elf64_Sym elf;
            memcpy(&elf, bytes + heads[i].sh_offset + k * sizeof elf, sizeof elf);
            uint64_t entry = GOT + 16 * k;
            bool is_here = elf.st_shndx && elf.st_shndx < head.e_shnum;
            symbols[k].address = elf.st_value + (is_here ? starts[elf.st_shndx] : START);
            symbols[k].size = elf.st_size;
            symbols[k].other = elf.st_other;
            symbols[k].is_thread_local = ELF64_ST_TYPE(elf.st_info) == STT_TLS;
            symbols[k].is_undefined_weak = !elf.st_shndx && ELF64_ST_BIND(elf.st_info) == STB_WEAK;
            symbols[k].address_entry = symbols[k].thread_entry = entry;
            symbols[k].module_entry = symbols[k].descriptor = entry;
        }
    }
    for (size_t i = 0; i < head.e_shnum; i++) {
        if (heads[i].sh_type != SHT_RELA || heads[heads[i].sh_info].sh_type == SHT_NOBITS) continue;
        const Elf64_Shdr *of = &heads[heads[i].sh_info];
        expect(inputs_len < sizeof inputs / sizeof *inputs, "too many sections");
        struct input *input = &inputs[inputs_len++];
        input->path = path;
        input->bytes = bytes + of->sh_offset;
        input->relocations = bytes + heads[i].sh_offset;
        input->symbols = symbols;
        input->len = of->sh_size;
        input->relocations_len = heads[i].sh_size;
        input->symbols_len = symbols_len;
        input->start = starts[heads[i].sh_info];
        input->machine = head.e_machine;
    }
}

/* An extreme number, a small one, or any. */
static uint64_t extreme(void) {
    static const uint64_t numbers[] = {0, 1, 3, 0x7f, 0xfff, 0x8000, 0x7fffffff, 0x80000000,
                                       INT64_MAX, INT64_MIN, UINT64_MAX, UINT64_MAX - 7};
    uint64_t kind = below(4);
    return kind == 0 ? below(64) : kind == 1 ? below(UINT64_MAX) : numbers[below(12)];
}

/* Damages a field of a relocation: sets it anew, or moves it a little. */
static void damage_relocation(uint8_t *relocations, size_t len) {
    if (len < 24) return;
    uint64_t words[3], other[3];
    uint8_t *at = relocations + 24 * below(len / 24);
    memcpy(words, at, sizeof words);
    memcpy(other, relocations + 24 * below(len / 24), sizeof other);
    switch (below(8)) {
    case 0: words[0] = extreme(); break;
    case 1: words[0] += below(16) - 8; break;
    case 2: words[0] = other[0]; break;
    case 3: words[1] = (words[1] >> 32 << 32) | below(130); break;
    case 4: words[1] = (words[1] >> 32 << 32) | (uint32_t)other[1]; break;
    case 5: words[1] = (uint32_t)words[1] | extreme() << 32; break;
    case 6: words[1] = (uint32_t)words[1] | (other[1] >> 32 << 32); break;
    default: words[2] = extreme(); break;
    }
    memcpy(at, words, sizeof words);
}

static void damage_symbol(struct linker_utils_symbol *symbols, size_t len) {
    if (!len) return;
    struct linker_utils_symbol *symbol = &symbols[below(len)];
    switch (below(6)) {
    case 0: symbol->address = extreme(); break;
    case 1: symbol->address_entry = symbol->thread_entry = extreme(); break;
    case 2: symbol->entry_addend = (int64_t)extreme(); break;
    case 3: symbol->stub = extreme(); break;
    case 4: symbol->is_undefined_weak = !symbol->is_undefined_weak; break;
    default: symbol->is_thread_local = !symbol->is_thread_local; break;
    }
}

/* A section with what the calls are given. */
struct given {
    uint8_t *section, *relocations;
    struct linker_utils_symbol *symbols;
    size_t len, relocations_len, symbols_len;
    struct linker_utils_link link;
    uint64_t address;
};

static struct linker_utils_section section_of(const struct given *it) {
    return (struct linker_utils_section){
        .bytes = it->section, .bytes_len = it->len, .relocations = it->relocations,
        .relocations_len = it->relocations_len / 24, .address = it->address};
}

static struct linker_utils_object object_of(const struct given *it) {
    return (struct linker_utils_object){.values = it->symbols, .values_len = it->symbols_len};
}

static void relocation_at(const struct given *it, size_t i, uint64_t words[3]) {
    memcpy(words, it->relocations + 24 * i, 24);
}

static uint32_t value_at(const struct given *it, size_t i, int64_t *value) {
    const struct linker_utils_object object = object_of(it);
    const struct linker_utils_section section = section_of(it);
    return linker_utils_value_at(&it->link, &object, &section, i, value);
}

static uint32_t role_of(const struct given *it, size_t i, uint64_t offset) {
    uint64_t words[3];
    if (i >= it->relocations_len / 24) return 0;
    relocation_at(it, i, words);
    return words[0] == offset ? linker_utils_uleb128_role(it->link.machine, (uint32_t)words[1]) : 0;
}

/* How many bytes the field of a relocation has; 0 of one without a field. That of a ULEB128 number
 * ends with the number. */
static uint64_t field_len(const struct given *it, size_t i) {
    uint64_t words[3];
    struct linker_utils_relocation_info info;
    size_t len = 0;
    relocation_at(it, i, words);
    if (linker_utils_relocation(it->link.machine, (uint32_t)words[1], &info)) return 0;
    if (linker_utils_uleb128_role(it->link.machine, (uint32_t)words[1])) { /* at most ten bytes */
        while (len < 10 && words[0] < it->len && len < it->len - words[0])
            if (it->section[words[0] + len++] < 0x80) break;
        return len;
    }
    if (info.kind == LINKER_UTILS_KIND_NONE || info.kind == LINKER_UTILS_KIND_ALIGNMENT ||
        info.kind == LINKER_UTILS_KIND_TLS_DESC_CALL)
        return 0;
    len = info.byte_size;
    if (info.is_bits && linker_utils_window(info.machine, info.form, &len)) abort();
    return len;
}

static uint32_t kind_of(const struct given *it, size_t i) {
    uint64_t words[3];
    struct linker_utils_relocation_info info;
    relocation_at(it, i, words);
    return linker_utils_relocation(it->link.machine, (uint32_t)words[1], &info) ? 0 : info.kind;
}

/* Whether two relocations at one offset compose: the second adds to the number that the first sets or
 * changes, or subtracts from it, or they are a pair at a ULEB128 number. */
static bool composes(const struct given *it, size_t i, size_t k, uint64_t offset) {
    uint32_t before = kind_of(it, i), kind = kind_of(it, k), role = role_of(it, i, offset);
    if (role) return k == i + 1 && role != 3 && role_of(it, k, offset) == LINKER_UTILS_ROLE_SUBTRACTS;
    if (field_len(it, i) != field_len(it, k) || role_of(it, k, offset)) return false;
    if (kind == LINKER_UTILS_KIND_ABSOLUTE_ADDITION || kind == LINKER_UTILS_KIND_ABSOLUTE_SUBTRACTION)
        return before == LINKER_UTILS_KIND_ABSOLUTE_SET ||
               before == LINKER_UTILS_KIND_ABSOLUTE_ADDITION ||
               before == LINKER_UTILS_KIND_ABSOLUTE_SUBTRACTION;
    if (kind == LINKER_UTILS_KIND_ABSOLUTE_ADDITION_WORD6 ||
        kind == LINKER_UTILS_KIND_ABSOLUTE_SUBTRACTION_WORD6)
        return before == LINKER_UTILS_KIND_ABSOLUTE_SET_WORD6 ||
               before == LINKER_UTILS_KIND_ABSOLUTE_ADDITION_WORD6 ||
               before == LINKER_UTILS_KIND_ABSOLUTE_SUBTRACTION_WORD6;
    return false;
}

/* Whether a relocation's field has bytes of that of one before it with which it doesn't compose. */
static bool overlaps(const struct given *it, size_t k) {
    uint64_t words[3], len = field_len(it, k);
    relocation_at(it, k, words);
    uint64_t offset = words[0];
    for (size_t i = 0; i < k && len; i++) {
        uint64_t its_len = field_len(it, i);
        relocation_at(it, i, words);
        uint64_t between = words[0] > offset ? words[0] - offset : offset - words[0];
        if (its_len && between < (words[0] > offset ? len : its_len) &&
            !(between == 0 && composes(it, i, k, offset)))
            return true;
    }
    return false;
}

/* Whether what is after the nops of R_RISCV_ALIGN (43) or R_LARCH_ALIGN (102) is aligned, or needs more
 * bytes than a limit allows. */
static bool is_aligned(const struct given *it, const uint64_t *words) {
    uint32_t type = (uint32_t)words[1];
    bool is_stated = it->link.machine == EM_LOONGARCH && words[1] >> 32;
    if (type != (it->link.machine == EM_RISCV ? 43 : it->link.machine == EM_LOONGARCH ? 102 : UINT32_MAX)) return true;
    uint64_t place = it->address + words[0], power = 1, nops = words[2], most = 0;
    if (is_stated) {
        if (words[2] % 256 > 32) return false;
        power = UINT64_C(1) << words[2] % 256, most = words[2] / 256;
        nops = power < 4 ? 0 : power - 4;
    } else {
        while (power <= nops && power <= UINT32_MAX) power *= 2;
        if (power <= nops) return false;
    }
    return !((place + nops) % power) || (most && -place % power > most);
}

/* Whether R_PPC64_REL24 (10) has a symbol that says another TOC pointer, and no stub. */
static bool loses_toc(const struct given *it, const uint64_t *words) {
    const struct linker_utils_symbol *symbol = &it->symbols[words[1] >> 32];
    return it->link.machine == EM_PPC64 && (uint32_t)words[1] == 10 && !symbol->stub &&
           !symbol->is_undefined_weak && symbol->other >> 5 == 1;
}

/* Whether the bytes are an instruction as long as that of a relocation, as far as it shows. */
static bool has_length(const struct given *it, uint32_t type, const uint8_t *bytes) {
    if (it->link.machine == EM_PPC64) return type < 128 || type > 151 || bytes[3] >> 2 == 1;
    if (it->link.machine != EM_RISCV) return true;
    if (type >= 44 && type <= 46) return (bytes[0] & 3) != 3;
    return !((type >= 16 && type < 32) || (type >= 62 && type <= 64)) || (bytes[0] & 3) == 3;
}

/* The third relocation of LoongArch's sequences for 64 bits, by the first, and whether these are
 * relative to the place. */
static const struct {
    uint32_t high, upper;
    bool is_placed;
} SEQUENCES[] = {
    {67, 69, false}, {71, 73, true},  {75, 77, true},  {79, 81, false},   {83, 85, false},
    {87, 89, true},  {91, 93, false}, {95, 77, true},  {96, 81, false},   {97, 77, true},
    {98, 81, false}, {111, 113, true}, {115, 117, false}, {121, UINT32_MAX, false},
};

/* Whether a relocation begins such a sequence, has more than 32 signed bits, and lacks the third. */
static bool lacks_upper(const struct given *it, const uint64_t *words, int64_t value) {
    uint64_t other[3];
    if (it->link.machine != EM_LOONGARCH || value == (int32_t)value) return false;
    for (size_t k = 0; k < sizeof SEQUENCES / sizeof *SEQUENCES; k++) {
        if (SEQUENCES[k].high != (uint32_t)words[1]) continue;
        for (size_t i = 0; i < it->relocations_len / 24; i++) {
            relocation_at(it, i, other);
            if ((uint32_t)other[1] == SEQUENCES[k].upper && other[1] >> 32 == words[1] >> 32 &&
                other[2] == words[2] && (!SEQUENCES[k].is_placed || other[0] == words[0] + 8))
                return false;
        }
        return true;
    }
    return false;
}

/* Whether an instruction's base is the thread pointer, and it can't add the whole offset from it. */
static bool lacks_offset(const struct given *it, uint32_t type, int64_t value, const uint8_t *bytes) {
    uint32_t word = bytes[0] | bytes[1] << 8 | bytes[2] << 16 | (uint32_t)bytes[3] << 24;
    if (value >= -0x800 && value < 0x800) return false;
    if (it->link.machine == EM_RISCV) return (type == 30 || type == 31) && (word >> 15 & 31) == 4;
    return it->link.machine == EM_LOONGARCH && (type == 84 || type == 123) && (word >> 5 & 31) == 2;
}

/* Writes the values one by one, up to the first that is rejected. */
static uint32_t one_by_one(const struct given *it, uint8_t *section, size_t *at) {
    size_t count = it->relocations_len / 24;
    for (size_t i = 0; i < count; i++) {
        uint64_t words[3], number = 0;
        int64_t value = 0, subtracted = 0;
        *at = i;
        relocation_at(it, i, words);
        uint32_t status = value_at(it, i, &value), role = role_of(it, i, words[0]);
        if (status == LINKER_UTILS_NO_VALUE && !is_aligned(it, words)) return LINKER_UTILS_NOT_ALIGNED;
        if (status == LINKER_UTILS_NO_VALUE) continue;
        if (status) return status;
        if (loses_toc(it, words)) return LINKER_UTILS_NEEDS_STUB;
        if (lacks_upper(it, words, value)) return LINKER_UTILS_OUT_OF_REACH;
        bool is_inside = words[0] <= it->len;
        uint8_t *dest = is_inside && section ? section + words[0] : NULL;
        size_t len = is_inside ? it->len - words[0] : 0, used;
        bool begins = role == LINKER_UTILS_ROLE_SETS || role == LINKER_UTILS_ROLE_ADDS;
        if (begins && role_of(it, i + 1, words[0]) == LINKER_UTILS_ROLE_SUBTRACTS) {
            status = value_at(it, i + 1, &subtracted);
            *at = status ? i + 1 : i;
            if (status) return status;
            status = linker_utils_read_uleb128(dest, len, &number, &used);
            if (role == LINKER_UTILS_ROLE_SETS && !status) number = 0;
            number += (uint64_t)value - (uint64_t)subtracted;
            if (!status) status = linker_utils_write_uleb128(dest, len, number);
            if (status) return status;
            i++;
            continue;
        }
        if (len && len >= field_len(it, i) && !has_length(it, (uint32_t)words[1], dest))
            return LINKER_UTILS_OTHER_LENGTH;
        if (len >= 4 && lacks_offset(it, (uint32_t)words[1], value, dest))
            return LINKER_UTILS_OUT_OF_REACH;
        status = is_inside ? linker_utils_relocate(it->link.machine, (uint32_t)words[1], value, dest, len)
                           : LINKER_UTILS_TOO_SHORT;
        if (status) return status;
    }
    return LINKER_UTILS_OK;
}

/* The address of the entry that a relocation requires, of its symbol. */
static uint64_t entry_of(const struct given *it, const struct linker_utils_symbol *symbol,
                         const struct linker_utils_requirements *needs) {
    if (needs->entry_class == LINKER_UTILS_ENTRY_MODULE) return it->link.module_entry;
    if (needs->entry_addend != symbol->entry_addend) return 0;
    switch (needs->entry_class) {
    case LINKER_UTILS_ENTRY_ADDRESS: return symbol->address_entry;
    case LINKER_UTILS_ENTRY_THREAD_OFFSET: return symbol->thread_entry;
    case LINKER_UTILS_ENTRY_MODULE_OFFSET: return symbol->module_entry;
    default: return symbol->descriptor;
    }
}

/* The same by what the symbols say of each relocation, if each has one. */
static void relocate_by_array(const struct given *it, const uint8_t *was, uint32_t wanted, size_t first) {
    size_t count = it->relocations_len / 24, faulty = SIZE_MAX;
    struct linker_utils_section section = section_of(it);
    struct linker_utils_resolved *resolved = room(5, count * sizeof *resolved);
    for (size_t i = 0; i < count; i++) {
        uint64_t words[3];
        struct linker_utils_requirements needs = {0};
        relocation_at(it, i, words);
        if (words[1] >> 32 >= it->symbols_len) return;
        const struct linker_utils_symbol *symbol = &it->symbols[words[1] >> 32];
        uint32_t type = (uint32_t)words[1];
        bool is_size = it->link.machine == EM_X86_64 && (type == R_X86_64_SIZE32 || type == R_X86_64_SIZE64);
        (void)!linker_utils_needs(it->link.machine, type, (int64_t)words[2], symbol->is_thread_local, &needs);
        resolved[i] = (struct linker_utils_resolved){
            .address = is_size ? symbol->size : symbol->address, .entry = entry_of(it, symbol, &needs),
            .stub = symbol->stub, .other = symbol->other, .is_undefined_weak = symbol->is_undefined_weak};
    }
    section.bytes = room(6, it->len);
    section.resolved = resolved;
    section.resolved_len = count;
    if (it->len) memcpy(section.bytes, was, it->len);
    size_t memory_len = linker_utils_relocate_memory(&section);
    uint64_t *memory = room(3, memory_len * sizeof *memory);
    uint32_t status = linker_utils_relocate_resolved(&it->link, &section, memory, memory_len, &faulty);
    expect(status == wanted && faulty == first, "another status by an array");
    expect(!it->len || !memcmp(section.bytes, it->section, it->len), "other bytes by an array");
}

/* Relocates a section in one call and one by one. Returns the status. */
static uint32_t relocate(const struct given *it) {
    const struct linker_utils_object object = object_of(it);
    const struct linker_utils_section section = section_of(it);
    size_t memory_len = linker_utils_relocate_memory(&section);
    size_t faulty = SIZE_MAX, first = SIZE_MAX;
    uint64_t *memory = room(3, memory_len * sizeof *memory);
    uint8_t *copy = room(4, it->len);
    if (it->len) memcpy(copy, it->section, it->len);
    uint32_t wanted = one_by_one(it, copy, &first);
    uint8_t *was = take(it->len, 1);
    if (it->len) memcpy(was, it->section, it->len);
    size_t count = it->relocations_len / 24, overlapping = 0;
    while (overlapping < count && !overlaps(it, overlapping)) overlapping++;
    uint32_t status =
        linker_utils_relocate_section(&it->link, &object, &section, memory, memory_len, &faulty);
    bool is_kept = !it->len || !memcmp(was, it->section, it->len);
    bool is_same = !it->len || !memcmp(copy, it->section, it->len);
    relocate_by_array(it, was, status, faulty);
    free(was);
    if (status == LINKER_UTILS_OK) {
        expect(wanted == LINKER_UTILS_OK && faulty == SIZE_MAX, "an error one by one");
        expect(overlapping == count, "fields overlap");
        expect(is_same, "other bytes than one by one");
        return status;
    }
    expect(is_kept, "writes, and returns an error");
    expect(faulty < count, "no index");
    if (status == LINKER_UTILS_OVERLAPS) {
        expect(faulty == overlapping, "another field overlaps one before it");
        expect(wanted == LINKER_UTILS_OK || faulty <= first, "not the first error");
    } else {
        expect(status == wanted && faulty == first, "another error than one by one");
        expect(faulty <= overlapping, "a field before it overlaps another");
    }
    return status;
}

/* Relocations the other way round, or some of them exchanged. */
static void reorder(uint8_t *relocations, size_t len) {
    size_t count = len / 24;
    bool is_reversed = below(2);
    for (size_t i = 0, swaps = is_reversed || !count ? count / 2 : 1 + below(count); i < swaps; i++) {
        uint8_t *one = relocations + 24 * (is_reversed ? i : below(count)), was[24];
        uint8_t *other = relocations + 24 * (is_reversed ? count - 1 - i : below(count));
        memcpy(was, one, sizeof was);
        memmove(one, other, sizeof was);
        memcpy(other, was, sizeof was);
    }
}

/* A copy of a section, damaged in so many places. */
static struct given damaged(const struct input *input, size_t places) {
    struct given it = {.len = input->len, .relocations_len = input->relocations_len,
                       .symbols_len = input->symbols_len, .address = input->start,
                       .link = {.machine = input->machine, .got_base = GOT, .thread_origin = START,
                                .module_origin = START, .module_entry = GOT,
                                .has_tls = !places || below(8)}};
    bool cuts = places && below(8) == 0;
    if (cuts) it.len = below(it.len + 1);
    if (cuts && below(2)) it.relocations_len = below(it.relocations_len + 1);
    if (cuts && below(2)) it.symbols_len = below(it.symbols_len + 1);
    it.section = room(0, it.len);
    it.relocations = room(1, it.relocations_len);
    it.symbols = room(2, it.symbols_len * sizeof *it.symbols);
    if (it.len) memcpy(it.section, input->bytes, it.len);
    if (it.relocations_len) memcpy(it.relocations, input->relocations, it.relocations_len);
    if (it.symbols_len) memcpy(it.symbols, input->symbols, it.symbols_len * sizeof *it.symbols);
    for (size_t i = 0; (!places || below(4)) && i < it.relocations_len / 24; i++) /* not packed */
        if (kind_of(&it, i) == LINKER_UTILS_KIND_ALIGNMENT) memset(it.relocations + 24 * i + 8, 0, 4);
    if (places && below(4) == 0) reorder(it.relocations, it.relocations_len);
    for (size_t i = 0; i < places; i++) {
        if (below(4)) damage_relocation(it.relocations, it.relocations_len);
        else damage_symbol(it.symbols, it.symbols_len);
        if (it.len && below(4) == 0) it.section[below(it.len)] = (uint8_t)extreme();
    }
    return it;
}

int main(int count, char **arguments) {
    uint64_t cases = count > 2 ? strtoull(arguments[1], NULL, 10) : 0;
    seed = count > 2 ? strtoull(arguments[2], NULL, 10) : 0;
    for (int i = 3; i < count; i++) read_object(arguments[i]);
    expect(cases && inputs_len, "usage: damaged_sections CASES SEED OBJECT...");
    static const uint16_t machines[] = {EM_X86_64, EM_AARCH64, EM_RISCV, EM_PPC64, LINKER_UTILS_LOONGARCH64};
    for (size_t m = 0; m < sizeof machines / sizeof *machines; m++) {
        uint64_t returned[128] = {0}, whole = 0;
        size_t of[sizeof inputs / sizeof *inputs], of_len = 0;
        for (size_t i = 0; i < inputs_len; i++)
            if (inputs[i].machine == machines[m]) of[of_len++] = i;
        expect(of_len > 0, "no section of an architecture");
        for (size_t i = 0; i < of_len; i++) { /* as they are except for alignments */
            reading = inputs[of[i]].path;
            struct given it = damaged(&inputs[of[i]], 0);
            whole += relocate(&it) == LINKER_UTILS_OK;
        }
        for (number = 0; number < cases; number++) {
            state = (seed + 1) * UINT64_C(0x9e3779b97f4a7c15) + number * UINT64_C(0xbf58476d1ce4e5b9) + m;
            below(2), below(2);
            const struct input *input = &inputs[of[below(of_len)]];
            reading = input->path;
            struct given it = damaged(input, 1 + below(4));
            returned[relocate(&it) & 127]++;
        }
        printf("%u: %" PRIu64 " of %zu sections as they are; damaged:", machines[m], whole, of_len);
        for (size_t i = 0; i < 128; i++)
            if (returned[i]) printf(" %zu %" PRIu64, i, returned[i]);
        printf("\n");
        expect(2 * whole >= of_len && 4 * returned[0] <= 3 * cases, "sections are not as they should be");
    }
    return 0;
}
