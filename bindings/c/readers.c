/* SPDX-License-Identifier: MIT OR Apache-2.0 */
/* Readers: reads ULEB128 numbers until the bytes end. */
#include <stdio.h>

#include "linker_utils.h"

int main(void) {
    const uint8_t bytes[6] = {0xe5, 0x8e, 0x26, 0x7f, 0x80, 0x80};
    size_t at = 0;
    for (;;) {
        uint64_t number;
        size_t consumed;
        uint32_t status =
            linker_utils_read_uleb128(bytes + at, sizeof bytes - at, &number, &consumed);
        if (status != LINKER_UTILS_OK) {
            printf("at byte %zu: %s\n", at, linker_utils_status_text(status));
            return 0;
        }
        printf("%u\n", (unsigned)number);
        at += consumed;
    }
}
