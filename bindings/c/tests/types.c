/* SPDX-License-Identifier: MIT OR Apache-2.0 */
/* The constants of linker_utils_types.h by themselves, with ELF_BEFORE after <elf.h>, and with
 * ELF_AFTER before it. types_are.h has a static assertion for each. */
#ifdef ELF_BEFORE
#include <elf.h>
#endif
#include "linker_utils_types.h"
#ifdef ELF_AFTER
#include <elf.h>
#endif
#include "types_are.h"
