/* SPDX-License-Identifier: MIT OR Apache-2.0 */
/* usage: link [-s] [--no-relax | --short-offsets | --relax-gp] [-pie | -shared [-soname NAME]]
 *             [--pack-dyn-relocs=relr] [-z now | -z relro | -z force-ibt | -z force-bti]... -o OUTPUT
 *             [--section-start=NAME=ADDRESS]... FILE...
 * A file is an object, an archive or a shared library. The output is a static executable; with
 * shared libraries an executable that they are loaded for, with `-pie` at any address; and with
 * `-shared` a shared library. A member of an archive is linked if it defines a symbol that is
 * referred to and that no object defines; archives search each other. The output has all symbols,
 * and section headers, but with `-s`, with which only a static executable lacks the latter. With
 * `--no-relax` only instructions of thread-local storage are rewritten. Its status is 0, or 1 after
 * an error, which it prints; on a terminal it names the object that it has come to, from a second
 * on. */
#include <time.h>
#include <unistd.h>
#define SHARED
#include "link.h"

static const char usage[] =
    "usage: link [-s] [--no-relax | --short-offsets | --relax-gp] [-pie | -shared [-soname NAME]]"
    " [--pack-dyn-relocs=relr] [-z force-ibt | -z force-bti] -o OUTPUT [--section-start=NAME=ADDRESS]... FILE...";
static const char *path, *flag; /* of the output; that all code is protected */
static bool has_symbols = true, is_placed = false, packs = false;

/* Ends a line of an error, or clears the one that names an object. */
void end_line(const char *end) {
    fprintf(stderr, "%s%s", isatty(STDERR_FILENO) ? "\033[K" : "", end);
}

/* Ends with an error where a call fails that can't by what it is passed. */
void expect_ok(uint32_t status) {
    if (status) fail("%s", linker_utils_status_text(status));
}

/* Names the object that a step has come to. */
void progress(const char *step, const struct object *o) {
    static time_t start = 0;
    if (!start) start = time(NULL);
    if (time(NULL) < start + 2 || !isatty(STDERR_FILENO)) return;
    fprintf(stderr, "%s %s\033[K\r", step, o->path);
}

/* An array that is all zeros, which may be freed. */
void *zeros(uint64_t count, size_t size) {
    void *memory = calloc(count ? count : 1, size);
    if (!memory) fail("out of memory");
    return memory;
}

/* The same for good, what is small in a block with others. */
void *take(uint64_t count, size_t size) {
    static uint8_t *block;
    static size_t left;
    if (count >= BLOCK / 16 / size) return zeros(count, size);
    size_t len = (count * size + 15) & ~(size_t)15;
    if (len > left) block = zeros(left = BLOCK, 1);
    left -= len;
    return (block += len) - len;
}

/* A copy of a value, for good. */
void *keep(const void *value, size_t size) { return memcpy(take(1, size), value, size); }

/* An array with room for so many elements: at first for as many as `room` says, and twice as many
 * where it has to grow. */
void *grow(void *array, size_t need, size_t *room, size_t size) {
    if (array && need <= *room) return array;
    size_t most = need <= *room ? *room : 2 * need;
    void *more = zeros(most, size);
    if (array) memcpy(more, array, *room * size);
    free(array);
    *room = most;
    return more;
}

/* A section that the linker itself fills; a table has a type, elements of so many bytes where these
 * are more than one, and refers to another. */
static struct output *own_section(const char *name, uint64_t flags, uint32_t type,
                                  uint64_t element, const struct output *link) {
    struct output *o = output_of(name);
    o->flags = SHF_ALLOC | flags;
    o->has_bytes = o->is_own = true;
    o->type = type, o->element = element, o->link = link;
    return o;
}

static void make_sections(void) {
    got = own_section(".got", SHF_WRITE, 0, 0, NULL);
    got->has_bytes = false;
    got->align = 16; /* for instructions whose distance to what is aligned so is a multiple */
    stubs = own_section(is_dynamic ? ".plt" : ".iplt", SHF_EXECINSTR, 0, 0, NULL);
    slots = own_section(is_dynamic ? ".got.plt" : ".igot.plt", SHF_WRITE, 0, 0, NULL);
    index_of = own_section(".eh_frame_hdr", 0, 0, 0, NULL);
    headers = own_section("the headers", 0, 0, 0, NULL);
    note = own_section(".note.gnu.property", 0, SHT_NOTE, 0, NULL);
    frames = output_of(".eh_frame");
    bss = output_of(".bss");
    bss->flags = SHF_ALLOC | SHF_WRITE;
    if (is_dynamic && linked.is_executable) interpreter = own_section(".interp", 0, 0, 0, NULL);
    if (is_dynamic) {
        dynstr = own_section(".dynstr", 0, SHT_STRTAB, 0, NULL);
        dynsym = own_section(".dynsym", 0, SHT_DYNSYM, sizeof(Elf64_Sym), dynstr);
        hash_table = own_section(".gnu.hash", 0, SHT_GNU_HASH, 0, dynsym);
        versym = own_section(".gnu.version", 0, SHT_GNU_versym, 2, dynsym);
        verneed = own_section(".gnu.version_r", 0, SHT_GNU_verneed, 0, dynstr);
        dynamic = own_section(".dynamic", SHF_WRITE, SHT_DYNAMIC, sizeof(Elf64_Dyn), dynstr);
    }
    const char *name = is_dynamic ? ".rela.dyn" : ".rela_iplt";
    rela = own_section(name, 0, SHT_RELA, sizeof(Elf64_Rela), dynsym);
    if (is_dynamic && packs) relr = own_section(".relr.dyn", 0, SHT_RELR, 8, NULL);
    module = (struct symbol){.name = "", .elf = {.st_shndx = SHN_ABS}, .output = got};
    list_symbol(&module);
}

/* Reads the arguments, and the files that they name. */
static void read_arguments(char **argument) {
    uint64_t address;
    int end = 0;
    for (char *it; (it = *argument); argument++) {
        if (sscanf(it, "--section-start=%*[^=]%n=%" SCNx64, &end, &address) == 1) {
            it[end] = 0;
            struct output *placed = output_of(it + strlen("--section-start="));
            placed->place = address, is_placed = placed->is_placed = true;
            continue;
        }
        const char *next = argument[1] ? argument[1] : "";
        bool protects = !strcmp(next, "now") || !strcmp(next, "relro"); /* all outputs are so */
        bool forces = !strcmp(next, "force-ibt") || !strcmp(next, "force-bti");
        if (!strcmp(it, "--help")) exit(puts(usage) < 0);
        if (!strcmp(it, "--version"))
            exit(printf("link, with linker_utils %s\n", linker_utils_version()) < 0);
        if (!strcmp(it, "-s")) has_symbols = false;
        else if (!strcmp(it, "--no-relax")) relaxes = false;
        else if (!strcmp(it, "--short-offsets")) has_short_offsets = true;
        else if (!strcmp(it, "--relax-gp")) relaxes_near = true;
        else if (!strcmp(it, "-pie")) linked.is_fixed = false;
        else if (!strcmp(it, "-shared")) linked.is_fixed = linked.is_executable = false;
        else if (!strcmp(it, "--pack-dyn-relocs=relr")) packs = true;
        else if (!strcmp(it, "-z") && (protects || forces)) flag = forces ? next : flag, argument++;
        else if (!strcmp(it, "-o") && argument[1]) path = *++argument;
        else if (!strcmp(it, "-soname") && argument[1]) own_name = *++argument;
        else read_file(it);
    }
}

int main(int argc, char **argv) {
    relaxes = linked.is_executable = linked.is_fixed = true;
    if (argc > 0) read_arguments(argv + 1);
    is_dynamic = libraries || !linked.is_fixed;
    if (is_dynamic && is_narrow) fail("files of ELFCLASS32 are only linked to static executables");
    if (is_dynamic && is_placed) fail("--section-start is for static executables");
    make_sections();
    if (!path || !objects) fail("%s", usage);
    merge_properties(flag);
    if (!is_placed) make_room(headers, 8, HEADERS);
    shrinks = !linker_utils_section_items(machine, &(struct linker_utils_section){0}, NULL, 0,
                                          &(struct linker_utils_items){0}, NULL);
    expect_ok(linker_utils_get_dynamic_types(machine, &types));
    EACH_SECTION(s) add_section(s);
    define_symbols();
    if (is_dynamic) bind_symbols();
    place_symbols();
    EACH_OBJECT(o) {
        progress("rewriting", o);
        rewrite_object(o, LINKER_UTILS_PHASE_PRE_LAYOUT, LINKER_UTILS_PHASE_PRE_LAYOUT);
        require(o);
    }
    if (is_dynamic) make_imports();
    make_entries();
    make_dynamic();
    do place_outputs();
    while (add_thunks());
    relax();
    relocate();
    write_entries();
    write_stubs();
    index_frames();
    const struct symbol *start = named("_start");
    if (!start->output && linked.is_executable) fail("undefined symbol '_start'");
    write_file(path, start->output ? address_of(start->output, start->offset) : 0, has_symbols);
    end_line("");
    return 0;
}
