/* SPDX-License-Identifier: MIT OR Apache-2.0 */
/* Writes AArch64's stubs and lazy PLTs for protected code, for addresses that guarded.c has too. */
#include <linker_utils.h>
#include <stdio.h>
#include <stdlib.h>
#include <string.h>
#include "guarded.h"

static uint8_t bytes[2 * PART];

static void expect_ok(uint32_t status) {
    if (!status) return;
    fprintf(stderr, "protected: %s\n", linker_utils_status_text(status));
    exit(1);
}

static void put_word(uint64_t address, uint64_t word) { memcpy(bytes + (address - CODE), &word, 8); }

static void put_stub(uint32_t kind, uint64_t at) {
    expect_ok(linker_utils_write_stub(LINKER_UTILS_AARCH64, kind, at, FUNCTION,
                                      bytes + (at - CODE), SLOT));
}

static void put_header(uint32_t form, uint64_t at) {
    expect_ok(linker_utils_write_lazy_header(LINKER_UTILS_AARCH64, form, at, WORDS,
                                             bytes + (at - CODE), SLOT));
}

/* An entry, the first word of which leads to a header. */
static void put_entry(uint32_t form, uint64_t at, uint64_t index, uint64_t header) {
    struct linker_utils_lazy_entry entry = {at, ENTRY_WORD(index), header, index};
    expect_ok(linker_utils_write_lazy_entry(LINKER_UTILS_AARCH64, form, &entry, bytes + (at - CODE),
                                            SLOT));
    put_word(entry.word, linker_utils_lazy_entry_word(LINKER_UTILS_AARCH64, form, at, header, 0));
}

int main(void) {
    put_stub(LINKER_UTILS_STUB_LOAD, LOAD);
    put_stub(LINKER_UTILS_STUB_LANDING_LOAD, LANDING_LOAD);
    put_header(LINKER_UTILS_LAZY_LANDING, HEADER);
    put_header(LINKER_UTILS_LAZY_PLAIN, PLAIN_HEADER);
    put_entry(LINKER_UTILS_LAZY_LANDING, ENTRY, 0, HEADER);
    put_entry(LINKER_UTILS_LAZY_LANDING_ENTRY, LANDING_ENTRY, 1, HEADER);
    put_entry(LINKER_UTILS_LAZY_LANDING_ENTRY, PLAIN_ENTRY, 2, PLAIN_HEADER);
    return fwrite(bytes, sizeof bytes, 1, stdout) != 1;
}
