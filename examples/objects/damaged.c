/* SPDX-License-Identifier: MIT OR Apache-2.0 */
/* Links objects, archives and shared libraries, one of them damaged, and fails where the linker then
 * does anything but write a file or end with an error and leave none behind.
 *
 * usage: damaged CASES SEED OUTPUT FILE... [-- ARGUMENT...]
 * The arguments after `--` are given to the linker as they are.
 * Half of the cases set a field of the header, of a section's header, or of an entry of a section
 * (a symbol, a relocation, a group) to an extreme number, the others change some random bytes. In
 * an archive both do so to a member, or to the index and the members' headers. With -DGUARDED each
 * block of memory ends right before a page that may not be touched, so that what the archive reads
 * and writes is seen too. */
#define _GNU_SOURCE
#include <elf.h>
#include <stdint.h>
#include <stdio.h>
#include <stdlib.h>
#include <string.h>
#include <sys/mman.h>
#include <sys/wait.h>
#include <unistd.h>

#define main link_main
#ifdef GUARDED
#define GUARD ((size_t)4096)
static void *guarded_calloc(size_t count, size_t size) {
    if (size && count > ((size_t)1 << 40) / size) return NULL;
    size_t len = count * size, room = (len + GUARD - 1) / GUARD * GUARD;
    char *pages = mmap(NULL, room + GUARD, PROT_READ | PROT_WRITE,
                       MAP_PRIVATE | MAP_ANONYMOUS | MAP_NORESERVE, -1, 0);
    if (pages == MAP_FAILED || mprotect(pages + room, GUARD, PROT_NONE)) return NULL;
    return pages + room - len;
}

#define calloc guarded_calloc
#define free(block) ((void)(block))
#endif
#define BLOCK ((size_t)0)
#define SHARED

/* A file in a block of its own. */
static void *read_block(size_t len, int file) {
    void *block = calloc(len, 1);
    return block && read(file, block, len) == (ssize_t)len ? block : MAP_FAILED;
}
#define mmap(at, len, protection, flags, file, offset) read_block(len, file)
#include "../link/class32.c"
#include "../link/dynamic.c"
#include "../link/entries.c"
#include "../link/frames.c"
#include "../link/layout.c"
#include "../link/libraries.c"
#include "../link/main.c"
#include "../link/objects.c"
#include "../link/output.c"
#include "../link/properties.c"
#include "../link/relax.c"
#include "../link/relocate.c"
#include "../link/rewrite.c"
#include "../link/symbols.c"
#undef main
#undef calloc
#undef free
#undef mmap

#define MOST ((size_t)1 << 20)

static uint64_t state;

static uint64_t below(uint64_t bound) { /* xorshift64 */
    state ^= state << 13;
    state ^= state >> 7;
    state ^= state << 17;
    return state % bound;
}

static void set_field(uint8_t *bytes, size_t len) {
    static const uint64_t extremes[] = {
        0, 1, 0x7f, 0xff, 0xffff, 0x7fffffff, 0xffffffff, INT64_MAX, UINT64_MAX - 63, UINT64_MAX};
    static const uint8_t sizes[] = {2, 4, 8, 8, 8};
    uint64_t value = extremes[below(10)];
    size_t size = sizes[below(5)], at = below(sizeof(Elf64_Ehdr) / 2) * 2;
    Elf64_Ehdr head;
    Elf64_Shdr section;
    if (!below(3)) value = below(64);
    memcpy(&head, bytes, sizeof head);
    uint64_t table = head.e_shoff, any = table + below(head.e_shnum + 1u) * sizeof section;
    if (below(8)) at = table + below(head.e_shnum * sizeof section / size + 1) * size;
    if (below(2) && any < len && sizeof section <= len - any) {
        memcpy(&section, bytes + any, sizeof section);
        at = section.sh_offset + below(section.sh_size / 2 + 1) * 2;
    }
    if (at < len && size <= len - at) memcpy(bytes + at, &value, size);
}

static void change_bytes(uint8_t *bytes, size_t len) {
    for (uint64_t i = below(8) + 1; i; i--) bytes[below(len)] = (uint8_t)below(256);
}

/* Damages a member of an archive, or what is not in a member; or else the object. */
static void damage(uint8_t *bytes, size_t len, bool is_field) {
    size_t members[64], count = 0;
    for (size_t i = 0; i + sizeof(Elf64_Ehdr) < len && count < 64; i++)
        if (!memcmp(bytes + i, ELFMAG, 4)) members[count++] = i;
    if (!members[0] || !count) {
        (is_field ? set_field : change_bytes)(bytes, len);
    } else if (below(2)) {
        size_t member = members[below(count)];
        (is_field ? set_field : change_bytes)(bytes + member, len - member);
    } else if (is_field) {
        size_t at = members[below(count)] - 60 + below(60);
        bytes[at] = (uint8_t)" 0/9-`\n\xff"[below(8)];
    } else {
        change_bytes(bytes, members[0]);
    }
}

int main(int argc, char **argv) {
    static uint8_t bytes[MOST];
    static char damaged[4096];
    if (argc < 5) return 2;
    int files = 4;
    while (files < argc && strcmp(argv[files], "--")) files++;
    state = strtoull(argv[2], NULL, 0) * 2654435761 + 88172645463325252;
    snprintf(damaged, sizeof damaged, "%s.damaged", argv[3]);
    unsigned long linked = 0, cases = strtoul(argv[1], NULL, 0);
    for (unsigned long i = 0; i < cases; i++) {
        char **object = &argv[4 + below((uint64_t)files - 4)], *path = *object;
        FILE *file = fopen(path, "rb");
        size_t len = file ? fread(bytes, 1, MOST, file) : 0;
        if (!len || fclose(file)) return 2;
        damage(bytes, len, i % 2);
        if (!below(16)) len = below(len);
        file = fopen(damaged, "wb");
        if (!file || fwrite(bytes, 1, len, file) != len || fclose(file)) return 2;
        unlink(argv[3]);
        pid_t child = fork();
        if (!child) {
            char *arguments[64] = {argv[0], (char[]){"-o"}, argv[3]};
            int count = 3;
            for (int j = 4; j < argc && count < 63; j++)
                if (j != files) arguments[count++] = &argv[j] == object ? damaged : argv[j];
            alarm(20);
            if (!freopen("/dev/null", "w", stderr)) exit(2);
            exit(link_main(count, arguments));
        }
        int status;
        if (child < 0 || waitpid(child, &status, 0) != child) return 2;
        if (!WIFEXITED(status) || WEXITSTATUS(status) > 1) {
            printf("%s, damaged as %s: status 0x%x\n", path, damaged, (unsigned)status);
            return 1;
        }
        linked += !WEXITSTATUS(status);
        if (!access(argv[3], F_OK) != !WEXITSTATUS(status)) {
            printf("%s, damaged as %s: status %d\n", path, damaged, WEXITSTATUS(status));
            return 1;
        }
    }
    printf("%lu damaged, %lu of them linked all the same\n", cases, linked);
    return 0;
}
