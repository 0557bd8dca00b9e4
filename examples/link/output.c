/* SPDX-License-Identifier: MIT OR Apache-2.0 */
/* The file, with its segments, section headers and symbols. */
#include <sys/stat.h>

#include "link.h"

static Elf64_Phdr all_loads[MOST_OUTPUTS + 8], *const loads = all_loads + 1, *load = all_loads;
static Elf64_Shdr heads[MOST_OUTPUTS + 3]; /* of sections; the first is empty */
static size_t heads_len = 1;

static struct output strings = {.name = ".strtab", .align = 1, .has_bytes = true,
                                .type = SHT_STRTAB};
static struct output symbol_table = {.name = ".symtab", .align = 8, .has_bytes = true, .info = 1,
                                     .type = SHT_SYMTAB, .link = &strings};

/* The header of a part of a segment that is loaded. */
static Elf64_Phdr part(uint32_t type, uint32_t flags, uint64_t at, uint64_t len, uint64_t align) {
    const Elf64_Phdr *in = load;
    while (in > loads && (in->p_type != PT_LOAD || in->p_vaddr > at)) in--;
    uint64_t offset = in >= loads && at ? in->p_offset + (at - in->p_vaddr) : 0;
    return (Elf64_Phdr){type, flags, offset, at, at, len, len, align};
}

/* Adds the header of one that has a section, if that isn't empty. */
static void add_part(uint32_t type, const struct output *o) {
    if (o->len) *++load = part(type, PF_R, o->address, o->len, o->align);
}

/* Adds the header of a section. */
static void add_head(struct output *o, uint64_t offset) {
    o->index = (uint16_t)heads_len, o->in_file = offset;
    heads[heads_len++] = (Elf64_Shdr){
        .sh_name = add_name(&strings, o->name), .sh_addr = o->address, .sh_offset = offset,
        .sh_type = o->type ? o->type : o->has_bytes ? SHT_PROGBITS : SHT_NOBITS,
        .sh_flags = o->flags & (SHF_ALLOC | SHF_WRITE | SHF_EXECINSTR | SHF_TLS), .sh_size = o->len,
        .sh_info = o->info, .sh_addralign = o->align, .sh_entsize = o->element};
}

/* Whether a symbol is local in the linked file: so are those that other files may not see. */
static bool is_local(const struct symbol *s) {
    bool is_hidden = visibility_of(s) == STV_HIDDEN || visibility_of(s) == STV_INTERNAL;
    return bind_of(s) == STB_LOCAL || (is_hidden && is_defined(s));
}

/* What a table of symbols says of one. */
Elf64_Sym symbol_of(const struct symbol *s, uint32_t name) {
    Elf64_Sym elf = s->elf;
    const struct output *o = s->output;
    unsigned type = ELF64_ST_TYPE(elf.st_info);
    uint64_t at = elf.st_value = address_of(o, s->offset);
    if (s == module_base || (o && type == STT_TLS)) elf.st_value -= tls.image;
    if (o && elf.st_shndx < SHN_LORESERVE) /* less is left of code that shrinks */
        elf.st_size = address_of(o, s->offset + elf.st_size) - at;
    else if (o && type == STT_GNU_IFUNC) /* its stub */
        type = STT_FUNC, elf.st_size = 0;
    elf.st_info = ELF64_ST_INFO(is_local(s) ? STB_LOCAL : bind_of(s), type);
    elf.st_name = name;
    if (o) elf.st_shndx = o->index ? o->index : SHN_ABS;
    return elf;
}

/* Puts the symbols, if wanted, after the segments, local ones first, and then the section headers.
 * Symbols have a name and are in the file. */
static void put_symbols(uint64_t offset, Elf64_Ehdr *head, bool has_symbols) {
    symbol_table.room = (has_symbols ? symbols_len + 1 : 1) * sizeof(Elf64_Sym);
    make_room(&symbol_table, 8, sizeof(Elf64_Sym));
    for (int locals = 1; has_symbols && locals >= 0; locals--)
        EACH_SYMBOL(s) {
            uint16_t at = s->elf.st_shndx;
            bool is_in_file = !at || at >= SHN_LORESERVE || s->output;
            bool has_name = *s->name && stt_of(s) != STT_SECTION;
            if (is_local(s) != locals || !is_in_file || !has_name) continue;
            Elf64_Sym elf = symbol_of(s, add_name(&strings, s->name));
            append(&symbol_table, 8, &elf, sizeof elf);
            symbol_table.info += (uint32_t)locals;
        }
    size_t len = symbol_table.len / sizeof(Elf64_Sym);
    symbol_table.element = SIZE_OF(Sym), symbol_table.len = len * SIZE_OF(Sym);
    symbol_table.bytes = (uint8_t *)cut_Sym(symbol_table.bytes, len);
    offset = round_up(offset, 8);
    add_head(outputs[outputs_len++] = &symbol_table, offset);
    add_head(outputs[outputs_len++] = &strings, offset + symbol_table.len);
    EACH_OUTPUT(o) if (o->link) heads[o->index].sh_link = o->link->index;
    head->e_shoff = round_up(offset + symbol_table.len + strings.len, 8);
    head->e_shentsize = SIZE_OF(Shdr), head->e_shnum = (uint16_t)heads_len;
    head->e_shstrndx = strings.index;
}

/* Writes a part of the file, which is after those before it, with zeros between. */
static void write_part(FILE *file, uint64_t offset, const void *bytes, uint64_t len) {
    static uint64_t end;
    for (; end < offset; end++) putc(0, file);
    end += fwrite(bytes, 1, len, file);
}

/* Writes all parts, once they are known. A file that is there already stays what it is: a device or
 * a pipe is written to. Only an ordinary one is made executable. */
static void write_parts(const char *path, const Elf64_Ehdr *head) {
    struct stat status;
    FILE *file = fopen(path, "wb");
    if (!file) fail("%s: can't be written", path);
    write_part(file, 0, cut_Ehdr(head, 1), head->e_ehsize);
    write_part(file, head->e_phoff, cut_Phdr(loads, head->e_phnum), head->e_phnum * SIZE_OF(Phdr));
    EACH_OUTPUT(o) if (o->index && o->has_bytes) write_part(file, o->in_file, o->bytes, o->len);
    if (head->e_shoff)
        write_part(file, head->e_shoff, cut_Shdr(heads, heads_len), heads_len * SIZE_OF(Shdr));
    bool is_ordinary = !fstat(fileno(file), &status) && S_ISREG(status.st_mode);
    bool holds = !ferror(file) && (!is_ordinary || !fchmod(fileno(file), 0755));
    if (fclose(file) || !holds) fail("%s: can't be written", path);
}

/* Adds the headers of what the dynamic linker reads, and of what it protects. Those of the
 * program's headers and of its interpreter are the first. */
static void add_dynamic_parts(void) {
    uint64_t start = 0, end = 0;
    EACH_OUTPUT(o) {
        if (!o->len || o->rank < RANK_TLS || o->rank == RANK_TLS_BSS) continue;
        if (!end) start = o->address;
        end = o->rank < RANK_DATA ? o->address + o->len : o->address; /* (which begins a page) */
        if (o->rank >= RANK_DATA) break;
    }
    *++load = part(PT_DYNAMIC, PF_R | PF_W, dynamic->address, dynamic->len, 8);
    *++load = part(PT_GNU_RELRO, PF_R, start, end - start, 1);
    if (!interpreter) return;
    uint64_t len = (uint64_t)(load + 2 - loads) * sizeof *loads; /* with that of the stack */
    loads[0] = part(PT_PHDR, PF_R, headers->address + sizeof(Elf64_Ehdr), len, 8);
    loads[1] = part(PT_INTERP, PF_R, interpreter->address, interpreter->len, 1);
}

/* Puts the sections, in segments by what is allowed there, and returns where they end in the
 * file. */
static uint64_t put_sections(void) {
    uint64_t end = 0, offset = headers->len ? 0 : MOST_ALIGN, image = 0;
    uint64_t align = headers->len ? linker_utils_page(machine) : MOST_ALIGN;
    EACH_OUTPUT(o) if (o->align > align) align = o->align; /* of where the file is loaded */
    EACH_OUTPUT(o) {
        uint64_t bytes = o->has_bytes ? o->len : 0;
        if (o->flags & SHF_TLS && bytes) image = o->address + o->len - tls.image;
        if (o->whole) o->index = o->whole->index;
        if (o->len && !o->index && o != headers) add_head(o, offset);
        if (!o->len || (o->flags & SHF_TLS && !bytes)) continue;
        if (o->address < end) fail("section %s overlaps the one before it", o->name);
        uint32_t flags = PF_R | (o->flags & SHF_WRITE ? PF_W : 0u);
        flags |= o->flags & SHF_EXECINSTR ? PF_X : 0u;
        if (load < loads || load->p_type != PT_LOAD || o->is_placed || flags != load->p_flags ||
            (bytes && load->p_memsz != load->p_filesz)) {
            offset += (o->address - offset) % align;
            *++load = (Elf64_Phdr){PT_LOAD, flags, offset, o->address, o->address, 0, 0, align};
        }
        end = o->address + o->len;
        if (is_narrow && end > UINT32_MAX) fail("an address has more than 32 bits");
        load->p_memsz = end - load->p_vaddr;
        if (!bytes) continue;
        load->p_filesz = load->p_memsz;
        offset = load->p_offset + load->p_memsz;
        o->in_file = offset - bytes;
        if (o->whole) heads[o->index].sh_size = end - heads[o->index].sh_addr;
        else if (o->index) heads[o->index].sh_offset = o->in_file;
    }
    if (tls.len) *++load = part(PT_TLS, PF_R, tls.image, tls.len, tls.align);
    if (tls.len) load->p_filesz = image;
    return offset;
}

void write_file(const char *path, uint64_t entry, bool has_symbols) {
    Elf64_Ehdr head = {.e_ident = ELFMAG "\2\1\1", /* 64 bits so far, ELFDATA2LSB, EV_CURRENT */
                       .e_type = linked.is_fixed ? ET_EXEC : ET_DYN, .e_machine = machine,
                       .e_version = EV_CURRENT, .e_entry = entry, .e_phoff = SIZE_OF(Ehdr),
                       .e_flags = linker_utils_output_flags(machine, machine_flags),
                       .e_ehsize = SIZE_OF(Ehdr), .e_phentsize = SIZE_OF(Phdr)};
    if (is_narrow) head.e_ident[EI_CLASS] = ELFCLASS32;
    sort_outputs();
    if (interpreter) load += 2;
    uint64_t offset = put_sections();
    add_part(PT_GNU_EH_FRAME, index_of);
    add_part(PT_GNU_PROPERTY, note);
    add_part(PT_NOTE, note);
    if (is_dynamic) add_dynamic_parts();
    if (write_dynamic()) head.e_ident[EI_OSABI] = ELFOSABI_GNU;
    *++load = part(PT_GNU_STACK, PF_R | PF_W | (has_code_on_stack ? PF_X : 0u), 0, 0, 16);
    head.e_phnum = (uint16_t)(load + 1 - loads);
    if (headers->len && sizeof head + head.e_phnum * sizeof *loads > headers->len)
        fail("too many segments");
    if (has_symbols || is_dynamic) put_symbols(offset, &head, has_symbols);
    write_parts(path, &head);
}
