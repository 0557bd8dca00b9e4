/* SPDX-License-Identifier: MIT OR Apache-2.0 */
/* What the files of the program with thread-local storage and archives declare for each other. */
#ifndef BLOCKS_H
#define BLOCKS_H

#include "program.h"

#define MODEL(name) __attribute__((tls_model(name)))

/* blocks.c */
extern __thread word by_offset MODEL("local-exec");
extern const word numbers_start[] __asm__("__start_numbers");
extern const word numbers_end[] __asm__("__stop_numbers");
/* blocks_other.c */
extern __thread word by_entry MODEL("initial-exec");
extern __thread word by_call; /* general-dynamic in code for a shared object */
word *of_module(word index), *of_call(void), *of_far_call(void);
word twice(word number); /* an indirect function */
word shared_by(void);
/* first_part.c and others, in archives */
word first_part(word number);
word second_part_with_a_long_name(word number);
word third_part(word number);
void in_no_object(void);

/* data of a group, which each object with this line has */
#define SHARED \
    __asm__(".section .rodata.shared, \"aG\", %progbits, shared_word, comdat\n" \
            ".p2align 3\n.weak shared_word\nshared_word: .quad 42\n.text\n")
extern const word shared_word;

/* a word of the section that the linker says the ends of */
#define NUMBER(name, number) \
    __attribute__((used, section("numbers"), retain)) static const word name = number

#endif
