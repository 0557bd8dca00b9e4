/* SPDX-License-Identifier: MIT OR Apache-2.0 */
/* Faults in the archive's functions, which hostile.c has to find. The environment's FAULT says
 * which of them is there. The linker has to be given --wrap for each function of FUNCTION. */
#include <stdlib.h>

#include "linker_utils.h"

#define FUNCTION(result, name, ...) \
    result __real_linker_utils_##name(__VA_ARGS__); \
    result __wrap_linker_utils_##name(__VA_ARGS__); \
    result __wrap_linker_utils_##name(__VA_ARGS__)

static void *volatile kept;

static bool is_there(int fault) {
    const char *chosen = getenv("FAULT");
    return chosen && atoi(chosen) == fault;
}

/* 1: reads the byte past the last. */
FUNCTION(uint32_t, read_nonnull, uint16_t machine, uint32_t form, const uint8_t *bytes,
         size_t bytes_len, uint64_t *value, uint8_t *negative) {
    if (is_there(1)) *(volatile const uint8_t *)(bytes + bytes_len);
    return __real_linker_utils_read_nonnull(machine, form, bytes, bytes_len, value, negative);
}

/* 2: writes, and then returns an error. */
FUNCTION(uint32_t, write_nonnull, uint16_t machine, uint32_t form, uint64_t value, bool negative,
         uint8_t *dest, size_t dest_len) {
    uint32_t status =
        __real_linker_utils_write_nonnull(machine, form, value, negative, dest, dest_len);
    if (is_there(2) && status == LINKER_UTILS_DOES_NOT_FIT) dest[0] ^= 1;
    return status;
}

/* 3: writes a NUL after the name. */
FUNCTION(uint32_t, relocation_name_nonnull, uint16_t machine, uint32_t r_type, uint8_t *name,
         size_t name_len, size_t *name_used) {
    uint32_t status =
        __real_linker_utils_relocation_name_nonnull(machine, r_type, name, name_len, name_used);
    if (is_there(3) && status == LINKER_UTILS_OK) name[*name_used] = 0;
    return status;
}

/* 4: writes to what it only reads, and puts the old byte back. */
FUNCTION(bool, is_plain_call_nonnull, const uint8_t *section, size_t section_len, uint64_t site) {
    if (is_there(4) && section_len > 0) {
        volatile uint8_t *first = (uint8_t *)(uintptr_t)section;
        uint8_t was = *first;
        *first = 0;
        *first = was;
    }
    return __real_linker_utils_is_plain_call_nonnull(section, section_len, site);
}

/* 5: an index where the status speaks of no entry. 6: reads a delta past the last. */
FUNCTION(uint32_t, deltas_translate_all_nonnull, const struct linker_utils_delta *deltas,
         size_t deltas_len, const uint64_t *queries, size_t queries_len, uint64_t *outputs,
         size_t outputs_len, size_t *faulty) {
    uint32_t status = __real_linker_utils_deltas_translate_all_nonnull(
        deltas, deltas_len, queries, queries_len, outputs, outputs_len, faulty);
    if (is_there(5) && status == LINKER_UTILS_DIFFERENT_LENGTHS) *faulty = 0;
    if (is_there(6)) *(volatile const uint64_t *)&deltas[deltas_len].input_offset;
    return status;
}

/* 7: writes although it is out of memory. 8: keeps memory. 9: returns another error than out of
 * memory. */
FUNCTION(uint32_t, deltas_merge_nonnull, const struct linker_utils_delta *deltas, size_t deltas_len,
         const struct linker_utils_deletion *additional, size_t additional_len,
         struct linker_utils_delta *merged, size_t merged_len, size_t *faulty) {
    uint32_t status = __real_linker_utils_deltas_merge_nonnull(
        deltas, deltas_len, additional, additional_len, merged, merged_len, faulty);
    if (is_there(7) && status == LINKER_UTILS_OUT_OF_MEMORY) merged[0].input_offset ^= 1;
    if (is_there(8)) kept = malloc(1);
    if (is_there(9) && status == LINKER_UTILS_OUT_OF_MEMORY) return LINKER_UTILS_NOT_MERGEABLE;
    return status;
}
