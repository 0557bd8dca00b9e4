/* SPDX-License-Identifier: MIT OR Apache-2.0 */
/* The inline functions of the header as functions of the shared library, for callers that don't
 * read it: without the words `static` and `inline` its definitions are such functions. */
#include <stdbool.h>
#include <stddef.h>
#include <stdint.h>
#define static
#define inline
#include "../include/linker_utils.h"
