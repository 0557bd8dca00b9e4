/* SPDX-License-Identifier: MIT OR Apache-2.0 */
/* Rewrites: what the library chooses in each phase, of all code. */
#include "link.h"

#define HIDDEN (UINT64_C(1) << 31) /* in a relocation's type: then the library knows it not */

/* What is known of the symbols of one object after another, and their addresses once they are. */
static struct linker_utils_symbol_facts *facts;
static struct linker_utils_symbol *values;
static bool *kept_high_parts;
static struct linker_utils_object known;
static const struct symbol *tls_get_addr;
static bool hides; /* whether relocations of the object may have to be hidden */

/* Whether the library is not shown a relocation: nothing here has its symbol, or it would be
 * relaxed where nothing is to be, as by a mark, which has no symbol. What loads the address of a
 * far symbol stays, since of LoongArch nothing tests whether 32 bits hold the distance. */
static bool is_hidden(const struct section *s, const Elf64_Rela *r) {
    const struct symbol *to = symbol_at(s, r);
    if (!ELF64_R_SYM(r->r_info)) return !relaxes;
    if (to->is_imported || to == tls_get_addr) return false;
    if (!is_here(to) || (relaxes && !to->is_far)) return !is_here(to);
    return needs_of(s, r).entry_class == LINKER_UTILS_ENTRY_ADDRESS;
}

static bool is_code(const struct section *s) {
    return s->output && s->relocations_len && s->head->sh_flags & SHF_EXECINSTR;
}

/* Notes what is known of an object's symbols. What choices read is the same in each phase: also of
 * a variable that is copied here and of an indirect function that has a stub, and whatever other
 * relocations have got symbols since. */
static void note_symbols(struct object *o) {
    static size_t rooms[4];
    size_t len = o->symbols_len;
    hides = !relaxes || has_far_symbols;
    tls_get_addr = named("__tls_get_addr");
    facts = grow(facts, len, &rooms[0], sizeof *facts);
    values = grow(values, len, &rooms[1], sizeof *values);
    kept = grow(kept, len + 1, &rooms[2], sizeof *kept);
    kept_high_parts = grow(kept_high_parts, len, &rooms[3], sizeof *kept_high_parts);
    memset(kept_high_parts, 0, len);
    for (size_t i = 1; i < len; i++) {
        const struct symbol *s = o->symbols[i];
        __builtin_prefetch(o->symbols[i + 8 < len ? i + 8 : i]);
        values[i] = known_symbol(s, o->addends ? o->addends[i] : 0);
        hides |= !s->is_imported && !is_here(s) && stt_of(s) != STT_FILE;
        o->is_threaded |= is_thread_local(s);
        bool is_absent = is_undefined_weak(s) && !is_thread_local(s);
        facts[i] = (struct linker_utils_symbol_facts){
            .is_local = !s->is_imported && !s->is_copied && !is_absent, .is_ifunc = is_ifunc(s),
            .is_undefined_weak = is_absent, .other = values[i].other,
            .is_tls_get_addr = s == tls_get_addr};
    }
    o->facts = grow(o->facts, len, &o->facts_room, sizeof *o->facts);
    size_t at = o->facts_len, more = len - at;
    known = (struct linker_utils_object){facts + at, more, .facts_snapshot = o->facts + at,
                                         .facts_snapshot_len = more};
    expect_ok(linker_utils_snapshot_facts(&linked, &known));
    known = (struct linker_utils_object){facts, len, values, len, kept, len, o->facts, len,
                                         kept_high_parts, len};
    o->facts_len = len;
}

/* Rewrites a section of an object in a phase, or notes which groups of it stay. With words of
 * addresses: has code compute those that it loads from there, all that load a word or none. */
static void rewrite_in(uint32_t phase, struct section *s, const struct linker_utils_words *words,
                       bool is_survey) {
    static struct linker_utils_rewritten made; /* of one section after another */
    struct linker_utils_section here = section_of(s);
    size_t len = s->relocations_len, at = 0;
    made.decisions = grow(made.decisions, len, &made.decisions_len, sizeof *made.decisions);
    made.deleted = grow(made.deleted, len, &made.deleted_len, sizeof *made.deleted);
    made.deleted_used = 0;
    uint32_t status =
        phase == FROM_POINTER ? linker_utils_finish_gp_relaxation(&linked, &known, &here, &at)
        : is_survey && words ? linker_utils_survey_toc_loads(&linked, &known, &here, words)
        : is_survey && phase == NEAR ? linker_utils_survey_global_pointer(&linked, &known, &here)
        : is_survey ? linker_utils_survey_placed_section(&linked, &known, &here, phase)
        : words ? linker_utils_rewrite_toc_loads(&linked, &known, &here, words, &made, &at)
        : phase == NEAR
            ? linker_utils_rewrite_global_pointer(&linked, &known, &here, &made, &at)
            : linker_utils_rewrite_placed_section(&linked, &known, &here, phase, &made, &at);
    check(s, &s->relocations[at < len ? at : 0], status);
    if (!made.deleted_used) return;
    struct linker_utils_deletion *all = take(s->deleted_len + made.deleted_used, sizeof *all);
    memcpy(all, made.deleted, made.deleted_used * sizeof *all);
    if (s->deleted_len) memcpy(all + made.deleted_used, s->deleted, s->deleted_len * sizeof *all);
    s->deleted = all, s->deleted_len += (uint32_t)made.deleted_used;
    qsort(all, s->deleted_len, sizeof *all, by_number);
}

/* Whether the loads from the GOT of a section stay: all of it or none, as in ld.lld. One stays too
 * where the object has another of its symbol that stays, whose other half may lead to it. */
static bool keeps_got_loads(const struct section *s) {
    bool stays = kept->got_load;
    EACH_RELOCATION(s, r)
        stays |= kept[ELF64_R_SYM(r->r_info)].got_load && !(r->r_info & HIDDEN) &&
                 kind_of(s, r)->needs[0].entry_class == LINKER_UTILS_ENTRY_ADDRESS;
    return stays;
}

/* Hides relocations of an object's code from the library, and when called again shows them. */
static void hide(struct object *o) {
    if (!hides) return;
    EACH_SECTION_OF(o, s)
        if (is_code(s) || s->kept_words)
            EACH_RELOCATION(s, r) if (r->r_info & HIDDEN || is_hidden(s, r)) r->r_info ^= HIDDEN;
}

/* Rewrites all code of an object in a phase, or by words of addresses, after a survey. */
static void rewrite_all(struct object *o, uint32_t phase, const struct linker_utils_words *words) {
    bool is_of_got = phase == LINKER_UTILS_PHASE_GOT_TO_PC_REL && !words;
    for (int is_survey = phase != FROM_POINTER; is_survey >= 0; is_survey--)
        EACH_SECTION_OF(o, s) {
            if (!is_code(s) || (phase >= NEAR && !s->output->shrinks)) continue;
            if (is_of_got && (!s->has_loads || (!is_survey && keeps_got_loads(s)))) continue;
            rewrite_in(phase, s, words, is_survey);
        }
}

/* Rewrites the instructions of an object in some phases, all of a group or none. */
void rewrite_object(struct object *o, uint32_t first, uint32_t last) {
    if (first >= NEAR && !linked.global_pointer) return;
    note_symbols(o);
    bool is_early = first == LINKER_UTILS_PHASE_PRE_LAYOUT, keeps = false;
    /* data may have offsets in the module's block, which stay, and so does the code that computes
     * where the block is */
    if (is_early && o->is_threaded)
        EACH_SECTION_OF(o, s)
            if (s->output != frames && !is_code(s))
                EACH_RELOCATION(s, r) keeps |= kind_of(s, r)->row.kind == LINKER_UTILS_KIND_DTP_OFF;
    hide(o);
    EACH_SECTION_OF(o, of) {
        if (!of->kept_words || first != LINKER_UTILS_PHASE_GOT_TO_PC_REL) continue;
        size_t len = of->relocations_len;
        struct linker_utils_words words = {of->output->address + of->offset, of->relocations, len,
                                           of->kept_words, len};
        rewrite_all(o, first, &words);
    }
    for (uint32_t phase = first; phase <= last; phase++) {
        memset(kept, 0, (o->symbols_len + 1) * sizeof *kept);
        for (size_t i = 1; has_far_symbols && i < o->symbols_len; i++)
            if (o->symbols[i]->is_far)
                kept[i].initial_exec = kept[i].general_dynamic = kept[i].descriptor = true;
        kept->got_load = is_early; /* as in ld.lld */
        kept->local_dynamic = keeps;
        if (phase >= NEAR || linker_utils_has_rewrites(machine, phase)) rewrite_all(o, phase, NULL);
    }
    hide(o);
}

/* Makes the rewrites of each object that wait for all addresses, and writes its values. */
void relocate(void) {
    uint32_t last = LINKER_UTILS_PHASE_SHORT_PC_REL;
    EACH_OBJECT(o) {
        progress("relocating", o);
        rewrite_object(o, FROM_POINTER, FROM_POINTER);
        rewrite_object(o, relaxes ? LINKER_UTILS_PHASE_GOT_TO_PC_REL : last + 1, last);
        EACH_SECTION_OF(o, s) if (s->relocations_len) relocate_section(s, &known);
    }
}
