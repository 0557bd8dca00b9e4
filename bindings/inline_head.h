/* SPDX-License-Identifier: MIT OR Apache-2.0 */
/* What is written by hand of include/linker_utils_inline.h, which `tools/generate` makes. */

static inline const char *linker_utils_status_text(uint32_t status) {
    switch (status) {
#define LINKER_UTILS_STATUS(name, number, text) \
    case LINKER_UTILS_##name: return text;
        LINKER_UTILS_STATUSES(LINKER_UTILS_STATUS)
#undef LINKER_UTILS_STATUS
    }
    return "No status has this number.";
}

static inline struct linker_utils_operands linker_utils_operands_of(
    uint64_t symbol, int64_t addend, uint64_t place) {
    struct linker_utils_operands operands = {symbol, addend, place, 0, 0, 0, 0, 0,
                                             false, false, false};
    return operands;
}

static inline uint32_t linker_utils_forms_of(uint16_t machine, const uint8_t *bytes,
                                             size_t bytes_len) {
    uint32_t forms = 0;
    for (uint32_t form = 0;; form++) {
        int64_t number;
        uint32_t status = linker_utils_operand(machine, form, bytes, bytes_len, &number);
        if (status == LINKER_UTILS_OK)
            forms |= UINT32_C(1) << form;
        else if (status != LINKER_UTILS_DOES_NOT_MATCH)
            return forms;
    }
}

static inline struct linker_utils_section linker_utils_section_of(uint8_t *bytes, size_t bytes_len) {
    struct linker_utils_section section = {bytes, bytes_len, NULL, 0, 0, 0, NULL, 0, NULL, 0};
    return section;
}

/* What exports take of a link, and of a link and a section. */
struct linker_utils_output_facts {
    bool is_executable;
    bool is_fixed;
    bool has_near_symbols;
};

struct linker_utils_addresses {
    uint64_t section;
    uint64_t got_base;
    uint64_t thread_origin;
    uint64_t module_origin;
    uint64_t module_entry;
    bool has_tls;
};

/* What null is replaced by. */
static uint64_t linker_utils_no_elements[1];
#define LINKER_UTILS_SLICE(element, slice) \
    ((slice) ? (slice) : (element *)linker_utils_no_elements)
/* The bytes of relocations, and how many these are. */
#define LINKER_UTILS_RELAS(byte, slice) \
    (byte *)((slice) ? (slice) : (void *)linker_utils_no_elements), 24 * slice##_len
