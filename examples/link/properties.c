/* SPDX-License-Identifier: MIT OR Apache-2.0 */
/* Notes of program properties: the linked file's has what the objects' make. */
#include "link.h"

#define MOST_PROPERTIES 32 /* of an object, and of all */

/* The value of a type of properties; 0 where there is none. */
static uint64_t value_of(uint32_t kind, const struct linker_utils_property *all, size_t len) {
    while (len > 0 && all[len - 1].kind != kind) len--;
    return len > 0 ? all[len - 1].value : 0;
}

/* Writes the note. If it says that code is protected, stubs begin so that indirect branches may go
 * to them. With a flag of the command line all objects say so: others get a warning. */
void merge_properties(const char *flag) {
    struct linker_utils_landing_property landing = {.bit = 0};
    struct linker_utils_property own[MOST_PROPERTIES], all[MOST_PROPERTIES], made[MOST_PROPERTIES];
    uint8_t bytes[16 + 24 * MOST_PROPERTIES];
    size_t len = 0, room = MOST_PROPERTIES;
    if (linker_utils_get_landing_property(machine, &landing) && flag)
        fail("-z %s is of another architecture", flag);
    EACH_OBJECT(o) {
        const struct section *in = NULL;
        EACH_SECTION_OF(o, s)
            if (s->head->sh_type == SHT_NOTE && !strcmp(s->name, note->name)) in = s;
        const uint8_t *notes = in ? o->bytes + in->head->sh_offset : NULL;
        size_t own_len = 0, notes_len = in ? in->head->sh_size : 0;
        uint32_t status = linker_utils_read_properties(machine, notes, notes_len, own + 1, room - 1,
                                                       &own_len);
        if (status) fail_in(in, "%s", linker_utils_status_text(status));
        uint64_t bits = value_of(landing.kind, own + 1, own_len++);
        if (flag && !(bits & landing.bit))
            fprintf(stderr, "%s: -z %s: it has no such property\n", o->path, flag);
        /* the first one of a type counts */
        own[0] = (struct linker_utils_property){landing.kind, bits | (flag ? landing.bit : 0), 0};
        struct linker_utils_property_inputs both = {all, len, own, own_len};
        if (o == objects) both.first = own, both.first_len = own_len;
        status = linker_utils_merge_properties(machine, &both, made, room, &len);
        if (status) fail_of(o, "%s: %s", note->name, linker_utils_status_text(status));
        memcpy(all, made, len * sizeof *all);
    }
    bool is_protected = value_of(landing.kind, all, len) & landing.bit;
    load_kind = is_protected ? LINKER_UTILS_STUB_LANDING_LOAD : LINKER_UTILS_STUB_LOAD;
    expect_ok(linker_utils_write_properties(machine, all, len, bytes, sizeof bytes, &len));
    if (len) append(note, 8, bytes, len);
}
