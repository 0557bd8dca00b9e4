# SPDX-License-Identifier: MIT OR Apache-2.0
"""What the laws of rewrites (crates/linker_laws/specs) ask of instructions, for places.py: which
of the places at which a rewrite is chosen the laws cover, and why they don't cover the others."""
import collections
from dataclasses import dataclass
from typing import Callable

# why a place isn't covered: more or fewer relocations than the law's belong together, the high part
# is of another kind, other instructions stand between, or instructions or registers aren't those of
# the law
REASONS = {
    "apart": "apart", "several": "with several users", "registers": "other instructions or registers",
    "kind": "another high part", "alone": "no other part", "call": "another call",
    "addend": "another addend",
}
COVERED = "covered"


def bits(word, low, high):
    return word >> low & (1 << high - low) - 1


# ---- RISC-V

def rd(word):
    return bits(word, 7, 12)


def rs1(word):
    return bits(word, 15, 20)


def stores_of_riscv(word):
    """The register of 64 bits that a store stores; None where the instruction stores none."""
    return bits(word, 20, 25) if bits(word, 0, 7) == 0x23 else None


def keeps_base_of_riscv(words):
    """LowPartFromZero, LowPartFromThreadPointer: what a store stores isn't the base."""
    return stores_of_riscv(words[0]) != rs1(words[0]) or rs1(words[0]) == 0


def is_descriptor_of_riscv(words):
    """AreOfDescriptor."""
    auipc, ld, addi, jalr = words
    base, function = rd(auipc), rd(ld)
    return (rs1(ld) == base and rs1(addi) == base and rs1(jalr) == function
            and 0 not in (base, function) and function not in (base, 10))


def is_load_from_got(words):
    return rs1(words[1]) == rd(words[0]) and rd(words[0]) != 0


# ---- LoongArch

def stores_of_loongarch(word):
    """The register of 64 bits that a store stores; None where the instruction stores none."""
    return bits(word, 0, 5) if 0xA4 <= bits(word, 22, 32) <= 0xA7 else None


def keeps_base_of_loongarch(words):
    """LowPartFromThreadPointer: what a store stores isn't the base."""
    return stores_of_loongarch(words[0]) != bits(words[0], 5, 10)


# ---- PowerPC64

def is_over_toc(words):
    """Its base leads to the entry, as OffsetToHighHalf, ArgumentToHighHalf and ArgumentToThread ask."""
    return bits(words[0], 16, 21) == 2


def has_word_form(words):
    """WordOverBase, of `ld`, `lwa` and `std`."""
    return words[0] >> 26 in (58, 62)


def has_no_word_form(words):
    """... of `addi` and the other accesses, but not of `lq` and of vector registers."""
    return words[0] >> 26 not in (56, 57, 58, 61, 62)


# ---- the laws

@dataclass
class Sequence:
    """Relocations of instructions that stand one behind the other, each so many bytes behind the
    first, the laws of them, and what these ask of the words."""
    laws: str
    steps: list
    test: Callable

    def step_of(self, name):
        """Which one a relocation is of; None if it is of none."""
        return next((step for step, (_, names) in enumerate(self.steps) if name in names), None)

    def verdict(self, members, word, response):
        """Why the laws don't cover relocations that belong together, or that they do."""
        steps = [self.step_of(name) for _, name in members]
        if None in steps or len(steps) > len(set(steps)):
            return "several"
        if len(steps) < len(self.steps):
            return "alone"
        at = dict(zip(steps, (offset for offset, _ in members)))
        if any(at[step] - at[0] != distance for step, (distance, _) in enumerate(self.steps)):
            return "apart"
        is_asked_for = "n" not in [response.get(member) for member in members]
        is_theirs = is_asked_for and self.test([word(at[step]) for step in sorted(at)])
        return COVERED if is_theirs else "registers"


def sequence(laws, names, test=lambda words: True):
    """A sequence of words; a step may have several relocations, with `|`."""
    steps = [(4 * at, set(step.split("|"))) for at, step in enumerate(names.split())]
    return Sequence(laws, steps, test)


SEQUENCES = {
    183: [
        sequence("GotToAddress", "ADR_GOT_PAGE LD64_GOT_LO12_NC"),
        sequence("nop_and_adr", "ADR_PREL_PG_HI21|ADR_PREL_PG_HI21_NC ADD_ABS_LO12_NC"),
        sequence("DescriptorToLocalExec DescriptorToInitialExec",
                 "TLSDESC_ADR_PAGE21 TLSDESC_LD64_LO12 TLSDESC_ADD_LO12 TLSDESC_CALL"),
    ],
    243: [
        sequence("GotToAddress GotToFixedAddress GotToLowAddress", "GOT_HI20 PCREL_LO12_I", is_load_from_got),
        sequence("DescriptorToLocalExec DescriptorToShortLocalExec DescriptorToInitialExec",
                 "TLSDESC_HI20 TLSDESC_LOAD_LO12 TLSDESC_ADD_LO12 TLSDESC_CALL",
                 is_descriptor_of_riscv),
    ],
    258: [
        sequence("GotToAddress GotToPcaddi", "GOT_PC_HI20 GOT_PC_LO12"),
        sequence("address", "PCALA_HI20 PCALA_LO12"),
        sequence("EntriesToPcaddi", "TLS_GD_PC_HI20|TLS_LD_PC_HI20 GOT_PC_LO12"),
    ],
    21: [],
}
# of a sequence's relocations those that no rewrite is chosen for
UNCHOSEN = {"ADR_PREL_PG_HI21", "ADR_PREL_PG_HI21_NC"}
# of one instruction, or of a window that the choice has tested: the laws, relocations, and what the
# laws require of the word
ALONE = {
    183: [
        ("WeakBranches", "CALL26 JUMP26", None),
        ("HighHalfToMovz", "TLSIE_ADR_GOTTPREL_PAGE21", lambda words: bits(words[0], 0, 5) != 31),
        ("LowHalfToMovk", "TLSIE_LD64_GOTTPREL_LO12_NC", None),
    ],
    243: [
        ("calls short_tail_calls", "CALL CALL_PLT", None),
        ("no_high_parts LuiBecomesClui", "HI20", None),
        ("CluiBecomesCli", "RVC_LUI", None),
        ("low_parts", "LO12_I LO12_S", keeps_base_of_riscv),
        ("high_offsets", "TPREL_HI20", None),
        ("sums", "TPREL_ADD", None),
        ("low_offsets", "TPREL_LO12_I TPREL_LO12_S", keeps_base_of_riscv),
    ],
    258: [
        ("Calls", "CALL36", None),
        ("HighHalfToLu12i no_high_halves", "TLS_IE_PC_HI20", None),
        ("low_halves short_low_halves", "TLS_IE_PC_LO12", None),
        ("HighHalfToLu12i no_descriptor_high_halves deleted_descriptor_high_halves descriptor_entries", "TLS_DESC_PC_HI20", None),
        ("descriptor_low_halves short_descriptor_low_halves descriptor_entry_loads", "TLS_DESC_PC_LO12", None),
        ("descriptor_loads deleted_descriptor_loads", "TLS_DESC_LD", None),
        ("descriptor_calls deleted_descriptor_calls", "TLS_DESC_CALL", None),
        ("high_offsets", "TLS_LE_HI20_R", None),
        ("sums", "TLS_LE_ADD_R", None),
        ("low_offsets", "TLS_LE_LO12_R", keeps_base_of_loongarch),
    ],
    21: [
        ("PldToPaddi", "GOT_PCREL34", None), ("RestoresToc", "REL24", None),
        ("TocAtEntry", "REL16_HA REL16_LO", None),
        ("ToNop", "TOC16_HA TPREL16_HA GOT_TPREL16_HA GOT_TLSLD16_HA", None),
        ("ToNop Kept", "GOT_TLSGD16_HA", None),
        ("Kept", "GOT16_HA", None), ("LoadToSum", "GOT16_LO_DS", None),
        ("LowOverBase", "TOC16_LO TPREL16_LO", has_no_word_form),
        ("WordOverBase", "TOC16_LO_DS TPREL16_LO_DS", has_word_form),
        ("OffsetToHighHalf", "GOT_TPREL16_LO_DS", None), ("OffsetToHighHalf", "GOT_TPREL16_DS", is_over_toc),
        ("OverOffset OverVariable", "TLS", None),
        ("ArgumentToHighHalf ArgumentToOffset", "GOT_TLSGD16_LO", None),
        ("ArgumentToHighHalf ArgumentToOffset", "GOT_TLSGD16", is_over_toc),
        ("ArgumentToThread", "GOT_TLSLD16_LO", None), ("ArgumentToThread", "GOT_TLSLD16", is_over_toc),
        ("CallToLowHalf CallTo", "TLSGD", None), ("CallTo", "TLSLD", None),
        ("MakesVariable ArgumentToLoad", "GOT_TLSGD_PCREL34", None),
        ("ArgumentToBlock", "GOT_TLSLD_PCREL34", None), ("MakesVariable", "GOT_TPREL_PCREL34", None),
    ],
}
# of x86-64, by relocations
OF_X86 = {
    "loads absolute operations branches": "GOTPCRELX",
    "loads absolute operations": "REX_GOTPCRELX CODE_4_GOTPCRELX",
    "loads": "GOTPCREL",
    "operations": "CODE_6_GOTPCRELX",
    "thread": "GOTTPOFF CODE_4_GOTTPOFF CODE_6_GOTTPOFF",
    "GeneralDynamic": "TLSGD",
    "LocalDynamic": "TLSLD",
    "BlockOffsets": "DTPOFF32 DTPOFF64",
    "LeaOfDescriptor": "GOTPC32_TLSDESC CODE_4_GOTPC32_TLSDESC",
    "CallOfDescriptor": "TLSDESC_CALL",
}


def rows(machine):
    """The laws and relocations of a machine, in the order of the tables."""
    if machine == 62:
        return [(laws, name) for laws, names in OF_X86.items() for name in names.split()]
    of_sequences = [(one.laws, name) for one in SEQUENCES[machine]
                    for _, names in one.steps for name in sorted(names - UNCHOSEN)]
    return of_sequences + [(laws, name) for laws, names, _ in ALONE[machine]
                           for name in names.split()]


def counted():
    """Counts by laws and relocation, and in these by the verdict."""
    return collections.defaultdict(collections.Counter)


def count(machine, relocations, groups, word, found):
    """Adds the places of a section, except for x86-64. `groups` has the relocations that belong
    together, each as its offset and name; `word` says which word is at an offset."""
    of_place = {}
    responses = {(offset & ~3 if machine == 21 else offset, name): response
               for offset, name, _, _, response in relocations}
    for members in map(sorted, groups):
        verdict, laws = "kind", None
        for one in SEQUENCES[machine]:
            if any(name in one.steps[0][1] for _, name in members):
                verdict, laws = one.verdict(members, word, responses), one.laws
        of_place.update({member: (verdict, laws) for member in members})
    # of one that is in several, the first
    of_sequence = {name: one.laws for one in reversed(SEQUENCES[machine]) for _, names in one.steps
                   for name in names}
    alone = {name: (laws, test) for laws, names, test in ALONE[machine] for name in names.split()}
    for offset, name, _, _, response in relocations:
        if response != "y":
            continue
        at = offset & ~3 if machine == 21 else offset
        if name in of_sequence:
            verdict, laws = of_place.get((at, name), ("alone", None))
            # PCREL_LO12_I is rewritten with a GOT_HI20 only, which is a condition of the choice
            if not (verdict == "kind" and name == "PCREL_LO12_I"):
                found[laws or of_sequence[name], name][verdict] += 1
        if name in alone:
            laws, test = alone[name]
            holds = test is None or test([word(at)])
            found[laws, name][COVERED if holds else "registers"] += 1


def count_of_x86(relocations, is_resolved, found):
    """Adds the places of a section. `is_resolved` says of a general- or local-dynamic sequence at an
    offset whether its call is one of `__tls_get_addr`."""
    laws_of = {name: laws for laws, name in rows(62)}

    def verdict(offset, name, addend):
        if name.startswith("DTPOFF") or name == "TLSDESC_CALL":
            return COVERED
        if addend != -4:
            return "addend"
        return COVERED if name not in ("TLSGD", "TLSLD") or is_resolved(offset, name) else "call"

    for offset, name, _, addend, response in relocations:
        if response == "y":
            found[laws_of[name], name][verdict(offset, name, addend)] += 1
