/* SPDX-License-Identifier: MIT OR Apache-2.0 */
/* Needs nothing. */
#include "blocks.h"

SHARED;
word third_part(word number) { return number * 10 + shared_word + 3; }
