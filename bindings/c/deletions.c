/* SPDX-License-Identifier: MIT OR Apache-2.0 */
/* Deletions: lists some, merges more of a later pass, and translates offsets of the section. */
#include <stdio.h>

#include "linker_utils.h"

int main(void) {
    const struct linker_utils_deletion first[1] = {{8, 4}};
    const struct linker_utils_deletion more[2] = {{16, 4}, {0, 2}};
    struct linker_utils_delta deltas[1];
    struct linker_utils_delta merged[3];

    uint32_t status = linker_utils_deltas_create(first, 1, deltas, 1, NULL);
    if (status == LINKER_UTILS_OK) {
        const struct linker_utils_merge merge = {more, 2, merged, 3};
        status = linker_utils_deltas_merge(deltas, 1, &merge, NULL);
    }
    if (status != LINKER_UTILS_OK) {
        fprintf(stderr, "%s\n", linker_utils_status_text(status));
        return 1;
    }
    printf("%u bytes deleted\n", (unsigned)linker_utils_deltas_total_deleted(merged, 3));

    const uint64_t inputs[3] = {2, 12, 20};
    uint64_t outputs[3];
    const struct linker_utils_translation translation = {inputs, 3, outputs, 3};
    if (linker_utils_deltas_translate_all(merged, 3, &translation, NULL)) return 1;
    for (int i = 0; i < 3; i++) printf("%u -> %u\n", (unsigned)inputs[i], (unsigned)outputs[i]);

    uint64_t input;
    if (linker_utils_deltas_output_to_input(merged, 3, 0, &input)) return 1;
    printf("0 <- %u\n", (unsigned)input);

    /* inside a deletion: what follows it. Where nothing is deleted null will do */
    printf("10 -> %u\n", (unsigned)linker_utils_deltas_input_to_output(merged, 3, 10));
    printf("10 -> %u\n", (unsigned)linker_utils_deltas_input_to_output(NULL, 0, 10));

    /* with heads, which make searches among many deltas faster: one for each 64 */
    struct linker_utils_block_head heads[1];
    if (linker_utils_deltas_block_count(merged, 3) != 1) return 1;
    if (linker_utils_deltas_heads(merged, 3, heads, 1)) return 1;
    uint64_t by_heads = linker_utils_deltas_input_to_output_by_heads(merged, 3, heads, 1, 20);
    printf("20 -> %u\n", (unsigned)by_heads);

    /* a deletion that reaches into the next one */
    const struct linker_utils_deletion faulty[3] = {{0, 2}, {8, 9}, {16, 4}};
    size_t at;
    status = linker_utils_deletions_valid(faulty, 3, &at);
    if (status != LINKER_UTILS_INVALID_DELETIONS) return 1;
    printf("%zu: %s\n", at, linker_utils_status_text(status));
    return 0;
}
