/* SPDX-License-Identifier: MIT OR Apache-2.0 */
/* Uses no status of one call, of which a compiler warns. The other returns no status. */
#include "linker_utils.h"

int main(void) {
    size_t window = 0;
    linker_utils_window(LINKER_UTILS_AARCH64, 0, &window);
    linker_utils_find(LINKER_UTILS_AARCH64, 0);
    return 0;
}
