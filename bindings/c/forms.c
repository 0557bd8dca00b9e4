/* SPDX-License-Identifier: MIT OR Apache-2.0 */
/* Forms: puts a distance into an AArch64 branch, reads it back, and tests what doesn't fit. */
#include <stdio.h>

#include "linker_utils.h"

int main(void) {
    /* b.eq: 19 bits, a distance in words of 4 bytes */
    uint8_t branch[4] = {0x00, 0x00, 0x00, 0x54};
    uint16_t machine = LINKER_UTILS_AARCH64;
    uint32_t form = LINKER_UTILS_AARCH64_FORM_BCOND;

    size_t window;
    uint32_t status = linker_utils_window(machine, form, &window);
    if (status == LINKER_UTILS_OK) {
        status = linker_utils_write(machine, form, 8 / 4, false, branch, sizeof branch);
    }
    if (status != LINKER_UTILS_OK) {
        fprintf(stderr, "%s\n", linker_utils_status_text(status));
        return 1;
    }
    printf("%zu bytes: %02x%02x%02x%02x\n", window, branch[0], branch[1], branch[2], branch[3]);

    uint64_t words;
    uint8_t negative;
    if (linker_utils_read(machine, form, branch, sizeof branch, &words, &negative)) return 1;
    printf("%d words\n", (int)words);

    status = linker_utils_fits(machine, form, 1 << 19, branch, sizeof branch);
    printf("%s\n", linker_utils_status_text(status));
    status = linker_utils_write(machine, form, 2, false, NULL, 0);
    printf("%s\n", linker_utils_status_text(status));
    return 0;
}
