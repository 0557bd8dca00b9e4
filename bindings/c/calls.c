/* SPDX-License-Identifier: MIT OR Apache-2.0 */
/* Calls: turns the call at the start of a RISC-V section into a jump to its byte 8, and prints the
 * bytes: `auipc ra, 0` and `jalr ra` become `jal ra, 8`, and the `jalr` is the linker's to delete. */
#include <stdio.h>

#include "linker_utils.h"

int main(void) {
    uint8_t bytes[12] = {0x97, 0x00, 0x00, 0x00, 0xe7, 0x80, 0x00, 0x00, 0x13, 0x00, 0x00, 0x00};
    const struct linker_utils_section section = linker_utils_section_of(bytes, sizeof bytes);

    if (!linker_utils_is_plain_call(&section, 0)) return 1;
    uint32_t status = linker_utils_relax_call(&section, NULL, 0, 0, 8);
    if (status != LINKER_UTILS_OK) {
        fprintf(stderr, "the call is kept: %s\n", linker_utils_status_text(status));
        return 1;
    }
    for (size_t i = 0; i < sizeof bytes; i++) printf("%02x", bytes[i]);
    printf("\n");
    return 0;
}
