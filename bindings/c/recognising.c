/* SPDX-License-Identifier: MIT OR Apache-2.0 */
/* Recognising: what GNU ld and ld.lld made of instructions, by the bytes before and after. */
#include <elf.h>
#include <stdio.h>

#include "linker_utils.h"

static void show(uint16_t machine, uint32_t r_type, struct linker_utils_windows windows) {
    struct linker_utils_recognised found[LINKER_UTILS_CANDIDATES];
    size_t count;
    uint32_t status = linker_utils_recognise(machine, r_type, &windows, found,
                                             LINKER_UTILS_CANDIDATES, &count);
    if (status != LINKER_UTILS_OK) {
        printf("%s\n", linker_utils_status_text(status));
        return;
    }
    if (count == 0) printf("no rewrite leaves these bytes\n");
    for (size_t i = 0; i < count; i++) {
        uint8_t name[LINKER_UTILS_NAME_SIZE];
        size_t used;
        status = linker_utils_relocation_name(machine, found[i].choice.relocation, name,
                                              sizeof name, &used);
        if (status != LINKER_UTILS_OK) used = 0;
        printf("rewrite %d, then %.*s at %d", (int)found[i].choice.rewrite, (int)used,
               (const char *)name, (int)found[i].offset);
        const struct linker_utils_field_value *value = &found[i].value;
        if (value->first_bit == 0 && value->end_bit == 64) {
            printf(" with the value %lld", (long long)(value->bits - value->rounding));
        } else if (value->end_bit != 0) {
            printf(" with bits %d to %d: 0x%llx", value->first_bit, value->end_bit - 1,
                   (unsigned long long)value->bits);
        }
        uint32_t deleted = found[i].choice.deleted_len;
        if (deleted) printf(", less %d bytes", (int)deleted);
        printf("\n");
    }
}

/* Both windows, and the offset of the relocation. */
static struct linker_utils_windows of(const uint8_t *original, size_t original_len, uint64_t offset,
                                      const uint8_t *linked, size_t linked_len) {
    struct linker_utils_windows windows = {original, original_len, offset, NULL, 0,
                                           linked,   linked_len};
    return windows;
}

int main(void) {
    /* data16 leaq v@tlsgd(%rip), %rdi, and the call; in the program movq %fs:0, %rax, and
     * leaq v@tpoff(%rax), %rax */
    const uint8_t general_dynamic[16] = {0x66, 0x48, 0x8d, 0x3d, 0x00, 0x00, 0x00, 0x00,
                                         0x66, 0x66, 0x48, 0xe8, 0x00, 0x00, 0x00, 0x00};
    uint8_t local_exec[16] = {0x64, 0x48, 0x8b, 0x04, 0x25, 0x00, 0x00, 0x00,
                              0x00, 0x48, 0x8d, 0x80, 0x48, 0xf3, 0xff, 0xff};
    show(EM_X86_64, R_X86_64_TLSGD, of(general_dynamic, 16, 4, local_exec, 16));
    local_exec[10] ^= 8; /* no leaq */
    show(EM_X86_64, R_X86_64_TLSGD, of(general_dynamic, 16, 4, local_exec, 16));
    /* lui s1, %hi(v) became c.lui s1, 2 */
    const uint8_t lui[4] = {0xb7, 0x04, 0x00, 0x00}, c_lui[2] = {0x89, 0x64};
    show(EM_RISCV, R_RISCV_HI20, of(lui, 4, 0, c_lui, 2));
    /* ldr x1, [x0, :tlsdesc_lo12:v] became ldr x0, [x0, #0x828] */
    const uint8_t descriptor[4] = {0x01, 0x00, 0x40, 0xf9}, entry[4] = {0x00, 0x14, 0x44, 0xf9};
    show(EM_AARCH64, R_AARCH64_TLSDESC_LD64_LO12, of(descriptor, 4, 0, entry, 4));
    return 0;
}
