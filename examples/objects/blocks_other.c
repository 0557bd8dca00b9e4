/* SPDX-License-Identifier: MIT OR Apache-2.0 */
/* Variables of the other models, compiled for a shared object, and an indirect function. */
#include "blocks.h"

__thread word by_entry = 22;
__thread word by_call = 33;
__thread word by_far_call;
static __thread word module_words[3] MODEL("local-dynamic") = {44, 55, 66};
SHARED;
NUMBER(four, 4);

__attribute__((noinline)) word *of_module(word index) { return &module_words[index]; }
__attribute__((noinline)) word *of_call(void) { return &by_call; }
__attribute__((noinline)) word *of_far_call(void) { return &by_far_call; }

static word add_to_itself(word number) { return number + number; }
static __attribute__((used)) word (*resolve_twice(void))(word) { return add_to_itself; }
word twice(word number) __attribute__((ifunc("resolve_twice")));

word shared_by(void) { return shared_word + by_call - by_call; }
