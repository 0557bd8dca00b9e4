/* SPDX-License-Identifier: MIT OR Apache-2.0 */
/* Needs a member of the archive before. */
#include "blocks.h"

word second_part_with_a_long_name(word number) { return third_part(number) * 10 + 2; }
