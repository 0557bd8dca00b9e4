/* SPDX-License-Identifier: MIT OR Apache-2.0 */
/* A thread-local variable that another object uses, and one that none does. */
__thread long total = 7;
static __thread long calls;

long add(long number) {
    total += number & 1;
    return ++calls;
}
