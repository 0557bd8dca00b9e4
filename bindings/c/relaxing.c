/* SPDX-License-Identifier: MIT OR Apache-2.0 */
/* Relaxing: a section whose relocations allow it. Makes its items of the relocations, chooses what
 * becomes shorter and how many nops its alignment keeps, and packs the section. */
#include <elf.h>
#include <stdio.h>
#include <string.h>

#include "linker_utils.h"

#define RELOCATIONS 3

static void print(const char *name, const uint8_t *bytes, size_t len) {
    printf("%s:", name);
    for (size_t i = 0; i < len; i++) printf("%s%02x", i % 2 ? "" : " ", bytes[i]);
    printf("\n");
}

int main(void) {
    /* auipc ra, 0; jalr ra; nop; c.nop; ret: the call is of the ret, at a multiple of 8 */
    uint8_t bytes[18] = {0x97, 0x00, 0x00, 0x00, 0xe7, 0x80, 0x00, 0x00, 0x13,
                         0x00, 0x00, 0x00, 0x01, 0x00, 0x67, 0x80, 0x00, 0x00};
    const struct linker_utils_section section = linker_utils_section_of(bytes, sizeof bytes);
    struct linker_utils_rela relocations[RELOCATIONS];
    struct linker_utils_item items[RELOCATIONS];
    struct linker_utils_delta deltas[RELOCATIONS];
    uint8_t shapes[RELOCATIONS], packed[18];
    uint64_t kept[RELOCATIONS], freed[RELOCATIONS + 1];
    size_t makers[RELOCATIONS], places[RELOCATIONS], faulty;
    struct linker_utils_items made = {items, RELOCATIONS, makers, RELOCATIONS, 0};
    uint32_t status;

    memset(relocations, 0, sizeof relocations);
    relocations[0].r_type = R_RISCV_CALL_PLT;
    relocations[0].has_symbol = 1;
    relocations[0].has_target = 1;
    relocations[0].may_compress = 1;
    relocations[0].target = 14;
    relocations[1].r_type = R_RISCV_RELAX;
    relocations[2].r_type = R_RISCV_ALIGN;
    relocations[2].offset = 8;
    relocations[2].addend = 6;

    status = linker_utils_section_items(LINKER_UTILS_RISCV, &section, relocations, RELOCATIONS,
                                        &made, &faulty);
    if (status != LINKER_UTILS_OK) {
        fprintf(stderr, "relocation %zu: %s\n", faulty, linker_utils_status_text(status));
        return 1;
    }
    const size_t count = made.items_used;
    for (size_t i = 0; i < count; i++) {
        if (linker_utils_has_its_instructions(LINKER_UTILS_RISCV, &section, &items[i])) return 1;
    }
    struct linker_utils_run run = {0, items, count, NULL, 0};
    const struct linker_utils_relaxed relaxed = {shapes, count,     kept,   count,
                                                 freed,  count + 1, places, count};
    status = linker_utils_relax(&run, &relaxed, &faulty);
    if (status != LINKER_UTILS_OK) {
        fprintf(stderr, "item %zu: %s\n", faulty, linker_utils_status_text(status));
        return 1;
    }
    if (linker_utils_run_deltas(&run, &relaxed, deltas, count, &run.deltas_len)) return 1;
    run.deltas = deltas;
    for (size_t i = 0; i < count; i++) {
        printf("%s at %d: %d of %d bytes stay\n",
               items[i].kind == LINKER_UTILS_ITEM_SITE ? "call" : "nops", (int)items[i].offset,
               (int)kept[i], (int)items[i].len);
    }
    size_t len = linker_utils_packed_run_len(&section, &run);
    status = linker_utils_pack_run(LINKER_UTILS_RISCV, &section, &run, packed, len, &faulty);
    if (status != LINKER_UTILS_OK) {
        fprintf(stderr, "item %zu: %s\n", faulty, linker_utils_status_text(status));
        return 1;
    }
    print("before", bytes, sizeof bytes);
    print("after", packed, len);
    return 0;
}
