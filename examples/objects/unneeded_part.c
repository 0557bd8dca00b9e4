/* SPDX-License-Identifier: MIT OR Apache-2.0 */
/* A member that can't be linked, and that nothing needs. */
#include "blocks.h"

NUMBER(six, 6);
word unneeded_part(word number) {
    in_no_object();
    return number;
}
