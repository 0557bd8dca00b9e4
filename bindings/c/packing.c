/* SPDX-License-Identifier: MIT OR Apache-2.0 */
/* Packing: deletes the `jalr` of a call that becomes a jump, and writes the bytes that are left. */
#include <stdio.h>

#include "linker_utils.h"

int main(void) {
    /* auipc ra, 0; jalr ra; nop; ret: the call of byte 12 */
    uint8_t bytes[16] = {0x97, 0x00, 0x00, 0x00, 0xe7, 0x80, 0x00, 0x00,
                         0x13, 0x00, 0x00, 0x00, 0x67, 0x80, 0x00, 0x00};
    const struct linker_utils_section section = linker_utils_section_of(bytes, sizeof bytes);
    const struct linker_utils_deletion jalr[1] = {{4, 4}};
    const struct linker_utils_call call = {0, 12};
    struct linker_utils_delta deltas[1];
    uint8_t packed[16];

    if (linker_utils_deltas_create(jalr, 1, deltas, 1, NULL)) return 1;
    size_t len = linker_utils_packed_len(&section, deltas, 1);
    size_t faulty;
    const struct linker_utils_calls calls = {&call, 1, deltas, 1, LINKER_UTILS_LINK_OF_JALR};
    uint32_t status = linker_utils_pack(&section, &calls, packed, len, &faulty);
    if (status != LINKER_UTILS_OK) {
        fprintf(stderr, "call %zu: %s\n", faulty, linker_utils_status_text(status));
        return 1;
    }
    for (size_t i = 0; i < len; i++) printf("%02x", packed[i]);
    printf("\n");
    return 0;
}
