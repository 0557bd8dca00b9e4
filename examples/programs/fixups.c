/* SPDX-License-Identifier: MIT OR Apache-2.0 */
/* Patches immediates of a function in memory, and calls it. The function is that at the begin of an
 * x86-64 object's code. NAME=VALUE writes the value wherever code names this symbol; a number calls the
 * function with it, and prints what it returns.    usage: fixups OBJECT [NAME=VALUE | NUMBER].. */
#define _DEFAULT_SOURCE
#include "object.h"
#include <sys/mman.h>

static uint32_t handle_of(const Elf64_Rela *relocation) {
    return linker_utils_find(EM_X86_64, (uint32_t)ELF64_R_TYPE(relocation->r_info));
}

int main(int argc, char **argv) {
    require(argc > 1, "usage", "fixups OBJECT [NAME=VALUE | NUMBER]..");
    struct object o = read_object(argv[1]);
    require(o.header->e_machine == EM_X86_64 && o.header->e_type == ET_REL, argv[1],
            "it is no object of x86-64");
    size_t index = 0; /* of the code's relocations */
    while (section(&o, index)->sh_type != SHT_RELA ||
           !(section(&o, o.sections[index].sh_info)->sh_flags & SHF_EXECINSTR))
        index++;
    const struct relocations all = read_relocations(&o, index);
    const Elf64_Shdr *text = section(&o, o.sections[index].sh_info);
    const size_t len = text->sh_size;
    const void *original = part(&o, text->sh_offset, len, 1);
    uint8_t *code = mmap(NULL, len, PROT_READ | PROT_WRITE, MAP_PRIVATE | MAP_ANONYMOUS, -1, 0);
    bool *patched = calloc(all.len, sizeof *patched);
    require(code != MAP_FAILED && patched, argv[1], "there is no memory for its code");
    memcpy(code, original, len);
    uint64_t end = 0; /* of the fields so far */
    for (size_t i = 0; i < all.len; i++) {
        struct linker_utils_row row;
        uint32_t status = linker_utils_row_of(handle_of(&all.at[i]), &row);
        require(status == LINKER_UTILS_OK, argv[1], linker_utils_status_text(status));
        require(all.at[i].r_offset >= end && all.at[i].r_offset <= len, argv[1],
                "its relocations overlap, or aren't in the code");
        end = all.at[i].r_offset + row.window;
    }

    for (int i = 2; i < argc; i++) {
        char *equals = strchr(argv[i], '='), *rest;
        const size_t name_len = equals ? (size_t)(equals - argv[i]) : 0;
        const char *digits = equals ? equals + 1 : argv[i];
        const long number = strtol(digits, &rest, 0);
        require(rest != digits && !*rest, argv[i], "it is no number");
        for (size_t at = 0; at < all.len; at++) {
            const Elf64_Rela *it = &all.at[at];
            const char *name = all.names + all.symbols[ELF64_R_SYM(it->r_info)].st_name;
            if (equals && strlen(name) == name_len && !memcmp(name, argv[i], name_len)) {
                const struct linker_utils_operands operands = linker_utils_operands_of(
                    (uint64_t)number, it->r_addend, (uint64_t)(uintptr_t)(code + it->r_offset));
                uint32_t status = linker_utils_row_apply(handle_of(it), &operands, code + it->r_offset,
                                                         len - it->r_offset);
                require(status == LINKER_UTILS_OK, argv[i], linker_utils_status_text(status));
                patched[at] = true;
            }
            require(equals || patched[at], name, "it has no value yet");
        }
        if (equals) continue;
        long (*function)(long);
        memcpy(&function, &code, sizeof function);
        require(!mprotect(code, len, PROT_READ | PROT_EXEC), argv[1], "its code can't be executed");
        printf("%ld\n", function(number));
        require(!mprotect(code, len, PROT_READ | PROT_WRITE), argv[1], "its code can't be written");
    }
    return 0;
}
