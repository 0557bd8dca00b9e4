/* SPDX-License-Identifier: MIT OR Apache-2.0 */
/* Sequences: writes the four AArch64 moves that load a number, and a PowerPC64 pair. */
#include <stdio.h>

#include "linker_utils.h"

static void print_words(const uint8_t *bytes, size_t bytes_len) {
    for (size_t at = 0; at < bytes_len; at += 4) {
        uint32_t word;
        if (linker_utils_u32_from_slice(bytes + at, bytes_len - at, &word)) return;
        printf("%08x%s", (unsigned)word, at + 4 < bytes_len ? " " : "\n");
    }
}

int main(void) {
    uint8_t moves[16];
    if (linker_utils_write_mov_sequence(moves, sizeof moves, 5, 0x0123456789abcdef)) return 1;
    print_words(moves, sizeof moves);

    /* addis r3, r2, 0 and addi r3, r3, 0 */
    uint8_t pair[8] = {0x00, 0x00, 0x62, 0x3c, 0x00, 0x00, 0x63, 0x38};
    if (linker_utils_write_ha_lo(pair, 4, pair + 4, 4, 0x18000)) return 1;
    print_words(pair, sizeof pair);
    return 0;
}
