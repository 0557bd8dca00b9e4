/* SPDX-License-Identifier: MIT OR Apache-2.0 */
/* Relocations: computes the values of some of <elf.h>'s, and writes them. Those of a pair at a
 * ULEB128 number set, add to and subtract from it. */
#include <elf.h>
#include <stdio.h>

#include "linker_utils.h"

static void show(uint16_t machine, uint32_t r_type, const struct linker_utils_operands *operands,
                 uint8_t *bytes, size_t len) {
    uint8_t name[LINKER_UTILS_NAME_SIZE];
    size_t used;
    uint32_t status = linker_utils_relocation_name(machine, r_type, name, sizeof name, &used);
    if (status == LINKER_UTILS_OK) {
        printf("%.*s: ", (int)used, (const char *)name);
    } else {
        printf("%u: ", (unsigned)r_type);
    }
    int64_t value;
    status = linker_utils_value(machine, r_type, operands, &value);
    if (status == LINKER_UTILS_OK) {
        status = linker_utils_relocate(machine, r_type, value, bytes, len);
    }
    if (status != LINKER_UTILS_OK) {
        printf("%s\n", linker_utils_status_text(status));
        return;
    }
    for (size_t i = 0; i < len; i++) printf("%02x", bytes[i]);
    printf("\n");
}

/* The number after a relocation at it, which had `number` before. */
static uint64_t after_role(uint32_t role, uint64_t number, uint64_t value) {
    switch (role) {
    case LINKER_UTILS_ROLE_SETS: return value;
    case LINKER_UTILS_ROLE_ADDS: return number + value;
    case LINKER_UTILS_ROLE_SUBTRACTS: return number - value;
    default: return number;
    }
}

/* Two relocations at one ULEB128 number: the distance from one symbol to another. */
static void show_distance(uint16_t machine, uint32_t first, uint32_t second, uint64_t from,
                          uint64_t to, uint8_t *bytes, size_t len) {
    uint64_t number;
    size_t used;
    uint32_t status = linker_utils_read_uleb128(bytes, len, &number, &used);
    number = after_role(linker_utils_uleb128_role(machine, first), number, to);
    number = after_role(linker_utils_uleb128_role(machine, second), number, from);
    if (status == LINKER_UTILS_OK) status = linker_utils_write_uleb128(bytes, len, number);
    if (status != LINKER_UTILS_OK) {
        printf("%s\n", linker_utils_status_text(status));
        return;
    }
    for (size_t i = 0; i < used; i++) printf("%02x", bytes[i]);
    printf("\n");
}

int main(void) {
    /* a field at 0x401000, and a symbol near to it and far from it, which has no PLT entry */
    const struct linker_utils_operands near = linker_utils_operands_of(0x402000, 0, 0x401000);
    const struct linker_utils_operands far = linker_utils_operands_of(0x40402000, 0, 0x401000);
    uint8_t bl[4] = {0x00, 0x00, 0x00, 0x94};
    show(EM_AARCH64, R_AARCH64_CALL26, &near, bl, sizeof bl);
    show(EM_AARCH64, R_AARCH64_CALL26, &far, bl, sizeof bl);
    uint8_t adrp[4] = {0x01, 0x00, 0x00, 0x90};
    show(EM_AARCH64, R_AARCH64_ADR_PREL_PG_HI21, &far, adrp, sizeof adrp);
    uint8_t call[8] = {0x97, 0x00, 0x00, 0x00, 0xe7, 0x80, 0x00, 0x00};
    show(EM_RISCV, R_RISCV_CALL_PLT, &near, call, sizeof call);
    uint8_t b[4] = {0x00, 0x00, 0x00, 0x50};
    show(LINKER_UTILS_LOONGARCH64, 66, &near, b, sizeof b); /* R_LARCH_B26 */
    uint8_t addis[4] = {0x00, 0x00, 0x4c, 0x3c};
    show(EM_PPC64, R_PPC64_REL16_HA, &far, addis, sizeof addis);
    uint8_t field[4] = {0, 0, 0, 0};
    show(EM_X86_64, R_X86_64_PC32, &near, field, sizeof field);
    show(EM_X86_64, 200, &near, field, sizeof field);
    /* R_RISCV_SET_ULEB128 and R_RISCV_SUB_ULEB128, R_LARCH_ADD_ULEB128 and R_LARCH_SUB_ULEB128 */
    uint8_t length[2] = {0x80, 0x00};
    show_distance(EM_RISCV, 60, 61, 0x401000, 0x401150, length, sizeof length);
    uint8_t sum[2] = {0x81, 0x00};
    show_distance(LINKER_UTILS_LOONGARCH64, 107, 108, 0x401000, 0x401005, sum, sizeof sum);
    show_distance(EM_RISCV, 60, 61, 0x401000, 0x406000, length, sizeof length);
    return 0;
}
