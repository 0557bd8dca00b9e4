/* SPDX-License-Identifier: MIT OR Apache-2.0 */
/* Reading back: the addresses that linked instructions refer to. ld.lld linked these, with `f` at
 * 0x3ff000 and `v` at 0x7ff800. */
#include <elf.h>
#include <stdio.h>

#include "linker_utils.h"

/* What is known of the address that the relocation of a word at a place leads to. */
static struct linker_utils_field_value address_at(uint16_t machine, uint32_t r_type, uint64_t place,
                                                  uint32_t word) {
    const uint8_t bytes[4] = {(uint8_t)word, (uint8_t)(word >> 8), (uint8_t)(word >> 16),
                              (uint8_t)(word >> 24)};
    const struct linker_utils_operands operands = linker_utils_operands_of(0, 0, place);
    struct linker_utils_field_value value, address = {0, 0, 0, 0};
    uint32_t reference;
    uint32_t status = linker_utils_read_value(machine, r_type, bytes, sizeof bytes, &value);
    if (status == LINKER_UTILS_OK)
        status = linker_utils_solve(machine, r_type, &value, &operands, &reference, &address);
    if (status != LINKER_UTILS_OK) printf("%s\n", linker_utils_status_text(status));
    return address;
}

static void show(const char *name, const struct linker_utils_field_value *known) {
    uint64_t number = known->bits - known->rounding;
    if (known->first_bit == 0 && known->end_bit == 64) {
        printf("%s: 0x%llx\n", name, (unsigned long long)number);
    } else {
        printf("%s: 0x%llx in bits %d to %d, of a sum with 0x%llx\n", name,
               (unsigned long long)known->bits, known->first_bit, known->end_bit - 1,
               (unsigned long long)known->rounding);
    }
}

static void show_both(const char *name, struct linker_utils_field_value high,
                      struct linker_utils_field_value low) {
    struct linker_utils_field_value whole;
    uint32_t status = linker_utils_join(&high, &low, &whole);
    if (status == LINKER_UTILS_OK) {
        show(name, &whole);
    } else {
        printf("%s: %s\n", name, linker_utils_status_text(status));
    }
}

int main(void) {
    struct linker_utils_field_value f =
        address_at(EM_AARCH64, R_AARCH64_CALL26, 0x402000, 0x97fff400);
    show("bl", &f);
    struct linker_utils_field_value page =
        address_at(EM_AARCH64, R_AARCH64_ADR_PREL_PG_HI21, 0x401ff8, 0xd0001fe0);
    struct linker_utils_field_value offset =
        address_at(EM_AARCH64, R_AARCH64_ADD_ABS_LO12_NC, 0x401ffc, 0x91200000);
    show("adrp", &page);
    show("add", &offset);
    show_both("adrp and add", page, offset);
    show_both("add and adrp", offset, page);
    /* of the pair both have the place of the auipc */
    show_both("auipc and addi", address_at(EM_RISCV, R_RISCV_PCREL_HI20, 0x401ff8, 0x003fe517),
              address_at(EM_RISCV, R_RISCV_PCREL_LO12_I, 0x401ff8, 0x80850513));
    return 0;
}
