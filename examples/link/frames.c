/* SPDX-License-Identifier: MIT OR Apache-2.0 */
/* The table of unwind information. */
#include "link.h"

/* Goes past a ULEB128 or SLEB128 number; past the end where it doesn't end before that. */
static uint64_t past_number(const uint8_t *bytes, uint64_t at, uint64_t len) {
    while (at < len && bytes[at] & 0x80) at++;
    return at < len ? at + 1 : len + 1;
}

/* How a CIE says that its functions' addresses are written. */
static uint8_t encoding_of(const struct section *s, const uint8_t *bytes, uint64_t len) {
    static const uint8_t sizes[8] = {8, 0, 2, 4, 8}; /* of what a personality is written as */
    const char *text = (const char *)bytes + 9;
    uint64_t at = len > 9 ? 10 + strnlen(text, len - 9) : len;
    uint8_t encoding = 0, version = len > 8 ? bytes[8] : 0;
    bool holds = at < len && (version == 1 || version == 3);
    at = past_number(bytes, past_number(bytes, at, len), len); /* the two factors */
    at = version == 1 ? at + 1 : past_number(bytes, at, len);  /* the register */
    for (; holds && *text; text++) {
        uint8_t byte = at < len ? bytes[at] : 0, size = sizes[byte & 7];
        holds = *text == 'P' ? size && (byte & 0x70) != 0x50 : strchr("zRLBGS", *text) != NULL;
        if (*text == 'R') encoding = byte;
        if (*text == 'z') at = past_number(bytes, at, len);
        else if (*text == 'P') at += 1 + size;
        else at += *text == 'R' || *text == 'L';
    }
    if (!holds || at > len) fail_in(s, "a malformed CIE");
    return encoding;
}

/* The offset from `.eh_frame_hdr` of an address that a section of unwind information has. */
static int32_t in_index(const struct section *s, uint64_t address) {
    int64_t offset = (int64_t)(address - index_of->address);
    if (offset != (int32_t)offset) fail_in(s, ".eh_frame_hdr doesn't reach 0x%" PRIx64, address);
    return (int32_t)offset;
}

/* Counts the records of functions in a section of unwind information. If there is a table, writes a
 * row for each: the function's address and that of its record. */
uint64_t read_frames(const struct section *s, const uint8_t *bytes, uint8_t *rows) {
    uint64_t count = 0, len = s->len;
    uint8_t *is_cie = rows ? take(len, 1) : NULL; /* whether one begins at an offset */
    uint32_t size, back, cie_len;
    for (uint64_t at = 0, next; at + 4 <= len; at = next) {
        memcpy(&size, bytes + at, 4);
        next = at + 4 + size;
        if (!size) continue;
        if (next > len || size < 8) fail_in(s, "it ends too early");
        memcpy(&back, bytes + at + 4, 4);
        count += !rows && back;
        if (rows && !back) is_cie[at] = true;
        if (!rows || !back) continue;
        uint64_t place = frames->address + s->offset + at, cie = at + 4 - back, address = 0;
        if (back > at + 4 || !is_cie[cie]) fail_in(s, "a record without its CIE");
        memcpy(&cie_len, bytes + cie, 4);
        uint8_t encoding = encoding_of(s, bytes + cie, 4 + (uint64_t)cie_len);
        bool is_short = (encoding & 7) == 3;
        if (encoding & 0xe0 || (!is_short && (encoding & 3 || size < 12)))
            fail_in(s, "such addresses are not supported");
        memcpy(&address, bytes + at + 8, is_short ? 4 : 8);
        if (!address) continue; /* of a function that is left out */
        if (is_short && encoding & 8) address = (uint64_t)(int32_t)address;
        if (encoding & 0x10) address += place + 8;
        int32_t row[2] = {in_index(s, address), in_index(s, place)};
        memcpy(rows + 8 * count++, row, sizeof row);
    }
    return count;
}

static int by_function(const void *left, const void *right) {
    int32_t a = *(const int32_t *)left, b = *(const int32_t *)right;
    return (a > b) - (a < b);
}

/* Writes `.eh_frame_hdr`: where `.eh_frame` is, and the functions that it is of, sorted. */
void index_frames(void) {
    uint64_t count = 0;
    if (!index_of->len) return;
    EACH_SECTION(s)
        if (s->output == frames)
            count += read_frames(s, frames->bytes + s->offset, index_of->bytes + 12 + 8 * count);
    int64_t distance = (int64_t)(frames->address - index_of->address - 4);
    uint32_t head[3] = {0x3b031b01, (uint32_t)distance, (uint32_t)count};
    if (distance != (int32_t)distance) fail(".eh_frame_hdr doesn't reach .eh_frame");
    memcpy(index_of->bytes, head, sizeof head);
    qsort(index_of->bytes + sizeof head, count, 8, by_function);
}
