/* SPDX-License-Identifier: MIT OR Apache-2.0 */
/* The addresses of what protected.c writes: a guarded part with code, and one with words. */
#define PART UINT64_C(0x10000)
#define SLOT 64
#define CODE UINT64_C(0x10000000)
#define LOAD (CODE + 1 * SLOT)
#define LANDING_LOAD (CODE + 2 * SLOT)
#define HEADER (CODE + 3 * SLOT)
#define ENTRY (CODE + 4 * SLOT)
#define LANDING_ENTRY (CODE + 5 * SLOT)
#define PLAIN_HEADER (CODE + 6 * SLOT)
#define PLAIN_ENTRY (CODE + 7 * SLOT)
#define FUNCTION (CODE + PART) /* the word of a function, which the stubs load */
#define WORDS (FUNCTION + 8)   /* `.got.plt` */
#define RESOLVER (WORDS + 16)
#define ENTRY_WORD(index) (WORDS + 24 + 8 * (index))
