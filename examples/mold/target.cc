/* SPDX-License-Identifier: MIT OR Apache-2.0
 * A target of mold by calls of the library, in place of mold's own code. `run` deletes that from
 * mold's file of the target and includes this one there, in namespace mold, where E is the target. */

static constexpr bool shrinks = is_riscv<E> || is_loongarch<E>;

struct Row : linker_utils_row {
    u32 handle = 0; // 0: there is no such relocation
};

// each type is looked up once
static const std::vector<Row> rows = [] {
    std::vector<Row> rows(1024);
    for (u32 i = 0; i + 1 < rows.size(); i++)
        if (u32 handle = linker_utils_find(E::e_machine, i))
            if (linker_utils_row_of(handle, &rows[i]) == LINKER_UTILS_OK)
                rows[i].handle = handle;
    return rows;
}();

static const Row &row_of(u32 r_type) {
    return rows[std::min<u64>(r_type, rows.size() - 1)];
}

// The class of the entry that a relocation requires: a thread-local symbol may have another one.
static u32 entry_class_of(const Row &row, Symbol<E> &sym) {
    linker_utils_requirements needs = row.needs;
    if (needs.entry_class && sym.get_type() == STT_TLS)
        (void)!linker_utils_row_needs(row.handle, 0, true, &needs);
    return needs.entry_class;
}

// The address of a symbol's entry of the GOT; 0 if it has none.
static u64 entry_of(Context<E> &ctx, Symbol<E> &sym, u32 entry_class) {
    switch (entry_class) {
    case LINKER_UTILS_ENTRY_ADDRESS: return sym.has_got(ctx) ? sym.get_got_addr(ctx) : 0;
    case LINKER_UTILS_ENTRY_THREAD_OFFSET: return sym.has_gottp(ctx) ? sym.get_gottp_addr(ctx) : 0;
    case LINKER_UTILS_ENTRY_MODULE_OFFSET: return sym.has_tlsgd(ctx) ? sym.get_tlsgd_addr(ctx) : 0;
    case LINKER_UTILS_ENTRY_MODULE:
        return ctx.got->has_tlsld(ctx) ? ctx.got->get_tlsld_addr(ctx) : 0;
    case LINKER_UTILS_ENTRY_DESCRIPTOR: return sym.has_tlsdesc(ctx) ? sym.get_tlsdesc_addr(ctx) : 0;
    }
    return 0;
}

// Whether the symbol is the label of a high part, whose own symbol and addend count.
static bool is_low_part(const Row &row) {
    return is_riscv<E> && (row.kind == LINKER_UTILS_KIND_RELATIVE_RISC_V_LOW12 ||
                           row.kind == LINKER_UTILS_KIND_TLS_DESC_CALL ||
                           (row.kind == LINKER_UTILS_KIND_TLS_DESC && !row.needs.entry_class));
}

static u64 label_of(InputSection<E> &isec, const ElfRel<E> &rel) {
    return isec.file->symbols[rel.r_sym]->esym().st_value + rel.r_addend;
}

// The relocation itself, or the high part of a low part.
static ElfRel<E> &high_of(Context<E> &ctx, InputSection<E> &isec, std::span<ElfRel<E>> rels, i64 i) {
    if (!is_low_part(row_of(rels[i].r_type)))
        return rels[i];
    u64 label = label_of(isec, rels[i]);
    auto it = ranges::lower_bound(rels, label, {}, [](auto &rel) { return (u64)rel.r_offset; });
    for (; it != rels.end() && it->r_offset == label; it++)
        if (row_of(it->r_type).is_relative && !is_low_part(row_of(it->r_type)))
            return *it;
    Fatal(ctx) << isec << ": no high part: " << rels[i];
    unreachable();
}

static u64 place_of(InputSection<E> &isec, u64 offset) {
    if constexpr (shrinks)
        offset -= get_r_delta(isec, offset);
    return isec.get_addr() + offset;
}

// Whether x86-64's offsets in the module's TLS block count from the thread pointer, since what
// computed the block's address was rewritten to that.
static bool has_local_exec_base(Context<E> &ctx) {
    return is_x86_64<E> && !ctx.arg.shared && (ctx.arg.relax || ctx.arg.static_) &&
           !ctx.got->has_tlsld(ctx);
}

static u64 address_of(Context<E> &ctx, Symbol<E> &sym) {
    return &sym == ctx._TLS_MODULE_BASE_ && has_local_exec_base(ctx) ? ctx.tp_addr
                                                                     : sym.get_addr(ctx);
}

static u64 got_base_of(auto &ctx) {
    if constexpr (is_ppc64v2<E>)
        return ctx.extra.TOC->get_addr(ctx);
    else
        return ctx._GLOBAL_OFFSET_TABLE_->get_addr(ctx);
}

static linker_utils_operands operands_of(Context<E> &ctx, Symbol<E> &sym, const Row &row, u64 address,
                                         i64 addend, u64 place, u64 entry) {
    linker_utils_operands at = linker_utils_operands_of(address, addend, place);
    at.got_entry = at.plt_entry = entry; // of PowerPC64's calls that load an address themselves
    at.has_got_entry = entry;
    at.has_plt_entry = entry && row.may_use_plt;
    at.got_base = got_base_of(ctx);
    at.tls_base = row.kind == LINKER_UTILS_KIND_DTP_OFF ? ctx.dtp_addr : ctx.tp_addr;
    at.has_tls_base = true;
    if (row.kind == LINKER_UTILS_KIND_SYMBOL_SIZE)
        at.symbol_size = sym.esym().st_size;
    return at;
}

// Whether PowerPC64's branch has to go by a thunk, whichever the distance.
static bool goes_by_thunk(Context<E> &ctx, Symbol<E> &sym, bool keeps_toc) {
    return is_ppc64v2<E> && (sym.has_plt(ctx) || (keeps_toc ? !sym.esym().ppc64_preserves_r2()
                                                            : sym.esym().ppc64_uses_toc()));
}

static u64 thunk_of(auto &ctx, auto &sym, u64 place, bool stores_toc) {
    if constexpr (needs_thunk<E>)
        return sym.get_thunk_addr(ctx, place) + (is_ppc64v2<E> && !stores_toc ? 8 : 0);
    return 0;
}

static bool is_relaxable(Context<E> &ctx, std::span<ElfRel<E>> rels, const ElfRel<E> &rel) {
    const ElfRel<E> *next = &rel + 1;
    return shrinks && ctx.arg.relax && next != &*rels.end() && next->r_offset == rel.r_offset &&
           next->r_type == (is_riscv<E> ? (u32)R_RISCV_RELAX : (u32)R_LARCH_RELAX);
}

// Chooses a rewrite, and returns whether anything changes.
static bool choose(Context<E> &ctx, InputSection<E> &isec, std::span<ElfRel<E>> rels, i64 i,
                   bool has_addresses, linker_utils_choice &choice) {
    const ElfRel<E> &rel = rels[i];
    const Row &row = row_of(rel.r_type);
    choice = {};
    choice.relocation = rel.r_type;
    // what is most frequent and never rewritten, where no code gets shorter
    bool is_plain = !shrinks && !row.needs.entry_class &&
                    (row.kind == LINKER_UTILS_KIND_ABSOLUTE ||
                     row.kind == LINKER_UTILS_KIND_RELATIVE ||
                     row.kind == LINKER_UTILS_KIND_PLT_RELATIVE);
    if (!(isec.shdr().sh_flags & SHF_EXECINSTR) || !row.handle ||
        ((is_plain || is_ppc64v2<E>) && !row.needs.is_branch))
        return false;
    const ElfRel<E> &high = high_of(ctx, isec, rels, i);
    Symbol<E> &sym = *isec.file->symbols[high.r_sym];
    bool is_tls = sym.get_type() == STT_TLS;
    if (!ctx.arg.relax && !row.needs.is_branch && !(is_tls ? ctx.arg.static_ : is_x86_64<E>))
        return false;

    // of the instructions of a descriptor some have relocations that require nothing
    u32 entry_class = entry_class_of(row_of(high.r_type), sym);
    if (is_tls && !entry_class)
        entry_class = LINKER_UTILS_ENTRY_DESCRIPTOR;
    bool is_dynamic = entry_class == LINKER_UTILS_ENTRY_MODULE_OFFSET ||
                      entry_class == LINKER_UTILS_ENTRY_DESCRIPTOR;
    linker_utils_link_facts facts = {};
    facts.is_local = !sym.is_imported && !(is_tls && ctx.arg.shared);
    facts.is_ifunc = sym.is_ifunc();
    facts.is_undefined_weak = sym.is_remaining_undef_weak();
    // for x86-64 mold wants `lea` where `mov` of an address would do, too
    facts.has_fixed_address = sym.is_absolute() || (!ctx.arg.pic && !is_x86_64<E>);
    facts.is_pcrel_link_time_constant = sym.is_relative() || (!ctx.arg.pic && !shrinks);
    facts.is_executable = !ctx.arg.shared || (is_dynamic && !ctx.arg.z_dlopen);
    facts.may_compress = linker_utils_code_unit(E::e_machine, isec.file->get_eflags()) == 2;
    facts.is_relaxable = is_relaxable(ctx, rels, high);
    facts.has_addresses = has_addresses;
    facts.group_fits = true;
    facts.operands.addend = high.r_addend;
    if (has_addresses) {
        // where an instruction is kept the scan made an entry, so that all of the symbol are kept
        u64 entry = entry_of(ctx, sym, entry_class);
        facts.group_fits = !entry;
        facts.has_local_exec_base = has_local_exec_base(ctx);
        facts.may_change_toc = rel.r_type == R_PPC64_REL24 && goes_by_thunk(ctx, sym, true);
        if (is_dynamic && !entry)
            entry = entry_of(ctx, sym, LINKER_UTILS_ENTRY_THREAD_OFFSET);
        facts.operands = operands_of(ctx, sym, row, address_of(ctx, sym), high.r_addend,
                                     place_of(isec, high.r_offset), entry);
    }
    if (is_riscv<E> && entry_class == LINKER_UTILS_ENTRY_ADDRESS) {
        facts.has_got_high_part = true;
        facts.is_label_relaxable =
            facts.is_relaxable && ranges::all_of(rels, [&](const ElfRel<E> &low) {
                return !is_low_part(row_of(low.r_type)) ||
                       label_of(isec, low) != high.r_offset || is_relaxable(ctx, rels, low);
            });
    }

    linker_utils_section code = linker_utils_section_of(isec.contents, isec.get_contents().size());
    (void)!linker_utils_row_choose(row.handle, &code, rel.r_offset, &facts, &choice);
    if (choice.modifier == LINKER_UTILS_MODIFIER_SKIP_NEXT_RELOCATION &&
        (i + 1 == rels.size() || rels[i + 1].r_offset != rel.r_offset + choice.skipped_offset ||
         !linker_utils_may_be_skipped(E::e_machine, rels[i + 1].r_type))) {
        facts.group_fits = false;
        (void)!linker_utils_row_choose(row.handle, &code, rel.r_offset, &facts, &choice);
    }
    return !linker_utils_is_unchanged(E::e_machine, rel.r_type, &choice);
}

static void set_power10(auto &ctx, u32 r_type) {
    if constexpr (is_ppc64v2<E>)
        if (r_type == R_PPC64_REL24_NOTOC)
            ctx.extra.is_power10 = true;
}

template <>
void InputSection<E>::scan_relocations(Context<E> &ctx) {
    std::span<ElfRel<E>> rels = get_rels(ctx);
    for (i64 i = 0; i < rels.size(); i++) {
        const ElfRel<E> &rel = rels[i];
        if (rel.r_type == R_NONE || record_undef_error(ctx, rel))
            continue;
        const Row &row = row_of(rel.r_type);
        if (!row.handle) {
            Error(ctx) << *this << ": unknown relocation: " << rel;
            continue;
        }
        Symbol<E> &sym = *file->symbols[high_of(ctx, *this, rels, i).r_sym];
        if (sym.is_ifunc())
            sym.flags |= NEEDS_GOT | NEEDS_PLT;
        set_power10(ctx, rel.r_type);

        // a load from the GOT may turn out to stay once addresses are known
        linker_utils_choice choice;
        choose(ctx, *this, rels, i, false, choice);
        u32 entry_class = entry_class_of(row, sym);
        if (entry_class != LINKER_UTILS_ENTRY_ADDRESS)
            entry_class = entry_class_of(row_of(choice.relocation), sym);
        if (choice.modifier == LINKER_UTILS_MODIFIER_SKIP_NEXT_RELOCATION)
            i++;
        static constexpr u8 flags[] = {0, NEEDS_GOT, NEEDS_GOTTP, NEEDS_TLSGD, 0, NEEDS_TLSDESC};
        if (entry_class == LINKER_UTILS_ENTRY_MODULE)
            ctx.needs_tlsld = true;
        else if (entry_class)
            sym.flags |= flags[entry_class]; // by enum linker_utils_entry_class
        else if (row.needs.may_use_stub && sym.is_imported)
            sym.flags |= row.needs.stub_only_if_undefined && !sym.file->is_dso ? 0 : NEEDS_PLT;
        else if (row.needs.may_use_stub)
            continue;
        else if (row.kind == LINKER_UTILS_KIND_RELATIVE && row.window)
            scan_pcrel(ctx, sym, rel);
        else if (row.kind == LINKER_UTILS_KIND_ABSOLUTE && row.needs.depends_on_load &&
                 !row.needs.is_word)
            scan_absrel(ctx, sym, rel);
        else if (row.kind == LINKER_UTILS_KIND_TP_OFF)
            check_tlsle(ctx, sym, rel);
    }
}

// Writes the values of a section. Those of a pair at a ULEB128 number are written at the second one.
struct Writer {
    Context<E> &ctx;
    InputSection<E> &isec;
    u32 first_type = 0;
    i64 first = 0, value = 0;

    u32 write(const Row &row, const linker_utils_operands &at, u8 *loc, u64 room) {
        u32 status = linker_utils_row_value(row.handle, &at, &value);
        if (status != LINKER_UTILS_OK)
            return status == LINKER_UTILS_NO_VALUE ? (u32)LINKER_UTILS_OK : status;
        switch (linker_utils_uleb128_role(E::e_machine, row.r_type)) {
        case LINKER_UTILS_ROLE_NONE: return linker_utils_row_write(row.handle, value, loc, room);
        case LINKER_UTILS_ROLE_SUBTRACTS:
            return linker_utils_write_uleb128_pair(E::e_machine, first_type, loc, room, first, value);
        }
        first_type = row.r_type;
        first = value;
        return LINKER_UTILS_OK;
    }

    void operator()(const ElfRel<E> &rel, const Row &row, linker_utils_operands at, u8 *loc, u64 room) {
        Symbol<E> &sym = *isec.file->symbols[rel.r_sym];
        u32 status = write(row, at, loc, room);
        if (status == LINKER_UTILS_OUT_OF_REACH && row.needs.may_use_stub &&
            sym.is_remaining_undef_weak())
            return; // a branch to what nothing defines is never executed
        if (status == LINKER_UTILS_OUT_OF_REACH && needs_thunk<E> && is_func_call_rel(rel)) {
            at.symbol = thunk_of(ctx, sym, at.place, false);
            status = write(row, at, loc, room);
        }
        if (status == LINKER_UTILS_OUT_OF_REACH)
            Error(ctx) << isec << ": relocation " << rel << " against " << sym
                       << " out of range: " << value;
        else if (status != LINKER_UTILS_OK)
            Error(ctx) << isec << ": " << rel << ": " << linker_utils_status_text(status);
    }
};

static void apply(Context<E> &ctx, InputSection<E> &isec, const ElfRel<E> &rel,
                  const linker_utils_choice &choice, u8 *bytes, u64 &offset, i64 &addend) {
    linker_utils_section code = linker_utils_section_of(bytes, isec.get_contents().size());
    if (linker_utils_apply(E::e_machine, choice.rewrite, choice.opcode_len, &code, &offset, &addend))
        Fatal(ctx) << isec << ": cannot rewrite: " << rel;
}

template <>
void InputSection<E>::apply_reloc_alloc(Context<E> &ctx, u8 *out) {
    Writer put{ctx, *this};
    std::span<ElfRel<E>> rels = get_rels(ctx);
    for (i64 i = 0; i < rels.size(); i++) {
        const ElfRel<E> &rel = rels[i];
        const ElfRel<E> &high = high_of(ctx, *this, rels, i);
        Symbol<E> &sym = *file->symbols[high.r_sym];
        if (rel.r_type == R_NONE || (sym.get_type() == STT_TLS && sym.is_remaining_undef_weak()))
            continue;
        u64 offset = rel.r_offset;
        i64 addend = high.r_addend, index = i;
        u32 r_type = rel.r_type;
        linker_utils_choice choice;
        if (!shrinks && choose(ctx, *this, rels, i, true, choice)) {
            apply(ctx, *this, rel, choice, out, offset, addend);
            r_type = choice.relocation;
            if (choice.modifier == LINKER_UTILS_MODIFIER_SKIP_NEXT_RELOCATION)
                i++;
            if (ctx.arg.emit_relocs && offset == rel.r_offset)
                rels[index].r_type = r_type;
            if (ctx.arg.emit_relocs && choice.has_other && index &&
                rels[index - 1].r_offset == offset + choice.other_offset)
                rels[index - 1].r_type = choice.other_relocation;
        }
        const Row &row = row_of(r_type);
        if (row.needs.is_word) // written with the dynamic relocations
            continue;

        u64 place = place_of(*this, offset), room = sh_size - (place - get_addr());
        u8 *loc = out + (place - get_addr());
        const Row &asks = is_low_part(row) ? row_of(high.r_type) : row;
        u64 entry = entry_of(ctx, sym, entry_class_of(asks, sym));
        linker_utils_operands at =
            operands_of(ctx, sym, row, address_of(ctx, sym), addend,
                        is_low_part(row) ? place_of(*this, high.r_offset) : place, entry);
        if (row.kind == LINKER_UTILS_KIND_RELATIVE_RISC_V_LOW12 && entry)
            at.symbol = entry;
        bool keeps_toc = r_type != R_PPC64_REL24_NOTOC;
        if (row.needs.is_branch && goes_by_thunk(ctx, sym, keeps_toc))
            at.symbol = thunk_of(ctx, sym, place, keeps_toc);
        else if (row.needs.is_branch && is_ppc64v2<E> && keeps_toc)
            at.symbol += (1 << sym.esym().ppc64_local_entry) & ~3;
        put(rel, row, at, loc, room);
    }
}

template <>
void InputSection<E>::apply_reloc_nonalloc(Context<E> &ctx, u8 *base) {
    Writer put{ctx, *this};
    for_each_reloc(ctx, [&](const ElfRel<E> &rel, i64) {
        if (rel.r_type == R_NONE || record_undef_error(ctx, rel))
            return;
        Symbol<E> &sym = *file->symbols[rel.r_sym];
        const Row &row = row_of(rel.r_type);
        if (!row.handle || row.needs.entry_class || row.may_use_plt ||
            (row.is_relative && &sym != ctx._GLOBAL_OFFSET_TABLE_))
            Fatal(ctx) << *this << ": invalid relocation for non-allocated sections: " << rel;

        auto [frag, frag_addend] = get_fragment(ctx, rel);
        u64 address = frag ? frag->get_addr(ctx) : sym.get_addr(ctx);
        i64 addend = frag ? frag_addend : (i64)rel.r_addend;
        if (row.needs.is_word || row.kind == LINKER_UTILS_KIND_DTP_OFF)
            if (std::optional<u64> tombstone = get_tombstone(sym, frag)) {
                memcpy(base + rel.r_offset, &*tombstone, row.window);
                return;
            }
        put(rel, row, operands_of(ctx, sym, row, address, addend, 0, 0), base + rel.r_offset,
            sh_size - rel.r_offset);
    });
}

template <>
void EhFrameSection<E>::apply_eh_reloc(Context<E> &ctx, InputSection<E> &isec,
                                       const ElfRel<E> &rel, u64 offset, u64 val) {
    linker_utils_operands at = linker_utils_operands_of(val, 0, this->shdr.sh_addr + offset);
    Writer{ctx, isec}(rel, row_of(rel.r_type), at, ctx.buf + this->shdr.sh_offset + offset,
                      this->shdr.sh_size - offset);
}

#if MOLD_RV64LE || MOLD_LOONGARCH64
// Rewrites a section in the input file's private mapping, and notes which bytes go: mold copies the
// others to the output. What is chosen here is kept, also where more would reach afterwards.
template <>
void shrink_section(Context<E> &ctx, InputSection<E> &isec) {
    std::span<ElfRel<E>> rels = isec.get_rels(ctx);
    std::vector<RelocDelta> deltas;
    std::vector<std::tuple<ElfRel<E> *, ElfRel<E> *, linker_utils_choice>> chosen;
    i64 removed = 0;
    auto remove = [&](u64 offset, i64 bytes) {
        if (bytes)
            deltas.push_back({offset, removed += bytes});
    };
    for (i64 i = 0; i < rels.size(); i++) {
        ElfRel<E> &rel = rels[i];
        linker_utils_choice choice;
        if (row_of(rel.r_type).kind == LINKER_UTILS_KIND_ALIGNMENT) {
            linker_utils_item item = {};
            size_t maker;
            linker_utils_items items = {&item, 1, &maker, 1, 0};
            linker_utils_rela rela = {rel.r_offset, 0, rel.r_addend, rel.r_type,
                                      rel.r_sym != 0, false, false};
            linker_utils_section code =
                linker_utils_section_of(isec.contents, isec.get_contents().size());
            u32 status = linker_utils_section_items(E::e_machine, &code, &rela, 1, &items, nullptr);
            u64 place = isec.get_addr() + rel.r_offset - removed;
            u64 kept = item.len ? align_to(place, item.alignment) - place : 0;
            if (item.kind == LINKER_UTILS_ITEM_LIMITED_ALIGNMENT && kept > item.max_skip)
                kept = 0;
            if (status == LINKER_UTILS_OK && kept < item.len) {
                u8 *first = isec.contents + rel.r_offset;
                std::vector<u8> nops(first, first + item.len);
                linker_utils_section old = linker_utils_section_of(nops.data(), nops.size());
                linker_utils_delta delta = {kept, item.len - kept, (u32)(item.len - kept)};
                item.offset = 0;
                linker_utils_run run = {place, &item, 1, &delta, 1};
                status = linker_utils_pack_run(E::e_machine, &old, &run, first, kept, nullptr);
                remove(rel.r_offset + kept, nops.size() - kept);
            }
            if (status != LINKER_UTILS_OK || kept > item.len)
                Fatal(ctx) << isec << ": cannot align: " << rel;
        } else if (isec.file->symbols[high_of(ctx, isec, rels, i).r_sym]->file != ctx.internal_obj &&
                   choose(ctx, isec, rels, i, true, choice)) { // mold's symbols have no address yet
            chosen.push_back({&rel, &high_of(ctx, isec, rels, i), choice});
            remove(rel.r_offset + choice.deleted_start, choice.deleted_len);
        }
    }

    // a low part that becomes a whole one takes the symbol, and one that goes on takes its place
    std::unordered_map<u64, u64> moved;
    for (auto &[rel, high, choice] : chosen) {
        u64 offset = rel->r_offset, label = high->r_offset;
        i64 addend = rel->r_addend;
        apply(ctx, isec, *rel, choice, isec.contents, offset, addend);
        rel->r_type = choice.relocation;
        if (rel != high && !is_low_part(row_of(choice.relocation))) {
            rel->r_sym = high->r_sym;
            rel->r_addend = high->r_addend;
            moved[label] = offset;
        } else if (rel != high && moved.contains(label)) {
            rel->r_addend = moved[label] - label;
        }
    }
    if (!deltas.empty()) {
        RelocDelta *p = ctx.arena.template allocate<RelocDelta>(deltas.size());
        ranges::copy(deltas, p);
        isec.extra.r_deltas = {p, deltas.size()};
        isec.sh_size -= removed;
    }
}
#endif

#if MOLD_RV64LE || MOLD_PPC64V2
template <>
u64 get_eflags(Context<E> &ctx) {
    std::optional<u32> joined;
    for (ObjectFile<E> *file : ctx.objs)
        if (file != ctx.internal_obj) {
            u32 flags = file->get_eflags(), both = flags;
            if (joined && linker_utils_join_flags(E::e_machine, *joined, flags, &both))
                Error(ctx) << *file << ": cannot link object files with different"
                           << " floating-point ABI or other e_flags";
            joined = both;
        }
    return linker_utils_output_flags(E::e_machine, joined.value_or(0));
}
#endif

#if !MOLD_PPC64V2
template <>
void write_pltgot_entry(Context<E> &ctx, u8 *buf, Symbol<E> &sym) {
    for (i64 i = 0; i < E::pltgot_size; i++)
        buf[i] = E::trap[i % sizeof(E::trap)];
    if (linker_utils_write_stub(E::e_machine, LINKER_UTILS_STUB_LOAD, sym.get_plt_addr(ctx),
                                sym.get_got_pltgot_addr(ctx), buf, E::pltgot_size))
        Fatal(ctx) << sym << ": its entry of the GOT is out of reach";
}
#endif

#if !MOLD_PPC64V2 && !MOLD_X86_64
template <>
void write_plt_header(Context<E> &ctx, u8 *buf) {
    if (linker_utils_write_lazy_header(E::e_machine, LINKER_UTILS_LAZY_PLAIN,
                                       ctx.plt->shdr.sh_addr, ctx.gotplt->shdr.sh_addr, buf,
                                       E::plt_hdr_size))
        Fatal(ctx) << ".got.plt is out of reach";
}

template <>
void write_plt_entry(Context<E> &ctx, u8 *buf, Symbol<E> &sym) {
    linker_utils_lazy_entry entry = {sym.get_plt_addr(ctx), sym.get_gotplt_addr(ctx),
                                     ctx.plt->shdr.sh_addr, (u64)sym.get_plt_idx(ctx)};
    if (linker_utils_write_lazy_entry(E::e_machine, LINKER_UTILS_LAZY_PLAIN, &entry, buf,
                                      E::plt_size))
        Fatal(ctx) << sym << ": its entry of .got.plt is out of reach";
}
#endif

#if MOLD_ARM64LE
static u64 stub_len(u32 kind) {
    linker_utils_stub stub = {};
    (void)!linker_utils_get_stub(E::e_machine, kind, &stub);
    return stub.len;
}

// A distance still gets shorter, by which that of pages may grow by one.
template <>
void Thunk<E>::shrink_size(Context<E> &ctx) {
    offsets = {0};
    for (Symbol<E> *sym : symbols) {
        u64 place = get_addr() + offsets.back();
        auto reaches = [&](u64 from) {
            u8 buf[E::thunk_size];
            return !linker_utils_write_stub(E::e_machine, LINKER_UTILS_STUB_JUMP, from,
                                            sym->get_addr(ctx), buf, sizeof(buf));
        };
        bool is_far = !reaches(place - 0x1000) || !reaches(place + 0x1000);
        u32 kind = is_far ? LINKER_UTILS_STUB_FAR_RELATIVE : LINKER_UTILS_STUB_JUMP;
        offsets.push_back(offsets.back() + stub_len(kind));
    }
}

template <>
void Thunk<E>::copy_buf(Context<E> &ctx) {
    u8 *base = ctx.buf + output_section.shdr.sh_offset + offset;
    for (i64 i = 0; i < symbols.size(); i++) {
        u64 len = offsets[i + 1] - offsets[i];
        bool is_far = len != stub_len(LINKER_UTILS_STUB_JUMP);
        u32 kind = is_far ? LINKER_UTILS_STUB_FAR_RELATIVE : LINKER_UTILS_STUB_JUMP;
        if (linker_utils_write_stub(E::e_machine, kind, get_addr() + offsets[i],
                                    symbols[i]->get_addr(ctx), base + offsets[i], len))
            Error(ctx) << *symbols[i] << ": a thunk does not reach it";
    }
}
#endif
