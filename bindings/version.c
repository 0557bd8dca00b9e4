/* SPDX-License-Identifier: MIT OR Apache-2.0 */
/* Which library a program has: compiled into each archive, LINKER_UTILS_PROVED is 1 for the proved
 * one and 0 for that of ordinary Rust. */
#include "../include/linker_utils.h"

const char *linker_utils_version(void) { return LINKER_UTILS_VERSION; }

bool linker_utils_is_proved(void) { return LINKER_UTILS_PROVED; }
