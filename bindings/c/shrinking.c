/* SPDX-License-Identifier: MIT OR Apache-2.0 */
/* Shrinking: a whole pass over the calls of a section. Chooses those that can become jumps, deletes
 * their `jalr`, and writes the bytes that are left. */
#include <stdio.h>

#include "linker_utils.h"

#define CALLS 2

static void print(const char *name, const uint8_t *bytes, size_t len) {
    printf("%s:", name);
    for (size_t i = 0; i < len; i++) printf("%s%02x", i % 4 ? "" : " ", bytes[i]);
    printf("\n");
}

int main(void) {
    /* auipc ra, 0; jalr ra; nop; auipc ra, 0; jalr ra; ret: the calls of byte 20 and of byte 1,
     * which no `jal` reaches, since the distance is odd */
    uint8_t bytes[24] = {0x97, 0x00, 0x00, 0x00, 0xe7, 0x80, 0x00, 0x00,
                         0x13, 0x00, 0x00, 0x00, 0x97, 0x00, 0x00, 0x00,
                         0xe7, 0x80, 0x00, 0x00, 0x67, 0x80, 0x00, 0x00};
    const struct linker_utils_section section = linker_utils_section_of(bytes, sizeof bytes);
    const struct linker_utils_call calls[CALLS] = {{0, 20}, {12, 1}};
    const struct linker_utils_calls all = {calls, CALLS, NULL, 0, LINKER_UTILS_LINK_OF_JALR};
    struct linker_utils_deletion freed[CALLS];
    struct linker_utils_call jumps[CALLS];
    struct linker_utils_delta deltas[CALLS];
    uint8_t chosen[CALLS], packed[24];
    size_t faulty, count = 0;
    uint32_t status;

    status = linker_utils_shrink_calls(&all, chosen, CALLS, &faulty);
    if (status != LINKER_UTILS_OK) {
        fprintf(stderr, "call %zu: %s\n", faulty, linker_utils_status_text(status));
        return 1;
    }
    for (size_t i = 0; i < CALLS; i++) {
        if (!chosen[i]) continue;
        freed[count].offset = calls[i].site + 4;
        freed[count].bytes = 4;
        jumps[count++] = calls[i];
    }
    const struct linker_utils_merge merge = {freed, count, deltas, count};
    if (linker_utils_deltas_merge(NULL, 0, &merge, NULL)) return 1;
    size_t len = linker_utils_packed_len(&section, deltas, count);
    const struct linker_utils_calls shrunk = {jumps, count, deltas, count, all.link};
    status = linker_utils_pack(&section, &shrunk, packed, len, &faulty);
    if (status != LINKER_UTILS_OK) {
        fprintf(stderr, "jump %zu: %s\n", faulty, linker_utils_status_text(status));
        return 1;
    }
    print("before", bytes, sizeof bytes);
    print("after", packed, len);
    return 0;
}
