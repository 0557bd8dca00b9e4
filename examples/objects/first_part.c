/* SPDX-License-Identifier: MIT OR Apache-2.0 */
/* Needs a member of the other archive. */
#include "blocks.h"

NUMBER(five, 5);
word first_part(word number) { return second_part_with_a_long_name(number) * 10 + by_entry; }
