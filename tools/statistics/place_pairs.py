# SPDX-License-Identifier: MIT OR Apache-2.0
"""High and low parts of addresses and offsets, for places.py: which high part a low part belongs
to, and how both stand."""
import collections

# Low parts, and the high parts that they may belong to. `+ n`: where the low part follows the high
# part without another instruction between, if that isn't after the high part. `label`: its symbol
# is the place of the high part.
PAIRS = {
    183: """
LD64_GOT_LO12_NC: ADR_GOT_PAGE
ADD_ABS_LO12_NC: ADR_PREL_PG_HI21 ADR_PREL_PG_HI21_NC
LDST8_ABS_LO12_NC: ADR_PREL_PG_HI21 ADR_PREL_PG_HI21_NC
LDST16_ABS_LO12_NC: ADR_PREL_PG_HI21 ADR_PREL_PG_HI21_NC
LDST32_ABS_LO12_NC: ADR_PREL_PG_HI21 ADR_PREL_PG_HI21_NC
LDST64_ABS_LO12_NC: ADR_PREL_PG_HI21 ADR_PREL_PG_HI21_NC
LDST128_ABS_LO12_NC: ADR_PREL_PG_HI21 ADR_PREL_PG_HI21_NC
TLSIE_LD64_GOTTPREL_LO12_NC: TLSIE_ADR_GOTTPREL_PAGE21
TLSDESC_LD64_LO12: TLSDESC_ADR_PAGE21
TLSDESC_ADD_LO12 + 8: TLSDESC_ADR_PAGE21
TLSDESC_CALL + 12: TLSDESC_ADR_PAGE21
""",
    258: """
GOT_PC_LO12: GOT_PC_HI20 TLS_GD_PC_HI20 TLS_LD_PC_HI20
PCALA_LO12: PCALA_HI20
TLS_IE_PC_LO12: TLS_IE_PC_HI20
TLS_DESC_PC_LO12: TLS_DESC_PC_HI20
TLS_DESC_LD + 8: TLS_DESC_PC_HI20
TLS_DESC_CALL + 12: TLS_DESC_PC_HI20
TLS_LE_ADD_R: TLS_LE_HI20_R
TLS_LE_LO12_R: TLS_LE_ADD_R
""",
    243: """
PCREL_LO12_I label: GOT_HI20 PCREL_HI20 TLS_GOT_HI20 TLS_GD_HI20
PCREL_LO12_S label: GOT_HI20 PCREL_HI20 TLS_GOT_HI20 TLS_GD_HI20
LO12_I: HI20
LO12_S: HI20
TPREL_ADD: TPREL_HI20
TPREL_LO12_I: TPREL_ADD
TPREL_LO12_S: TPREL_ADD
TLSDESC_LOAD_LO12 label: TLSDESC_HI20
TLSDESC_ADD_LO12 label + 8: TLSDESC_HI20
TLSDESC_CALL label + 12: TLSDESC_HI20
""",
    21: """
TOC16_LO: TOC16_HA
TOC16_LO_DS: TOC16_HA
GOT16_LO_DS: GOT16_HA
TPREL16_LO: TPREL16_HA
TPREL16_LO_DS: TPREL16_HA
GOT_TPREL16_LO_DS: GOT_TPREL16_HA
TLS: GOT_TPREL16_LO_DS GOT_TPREL16_DS GOT_TPREL_PCREL34
GOT_TLSGD16_LO: GOT_TLSGD16_HA
TLSGD: GOT_TLSGD16_LO GOT_TLSGD16 GOT_TLSGD_PCREL34
GOT_TLSLD16_LO: GOT_TLSLD16_HA
TLSLD: GOT_TLSLD16_LO GOT_TLSLD16 GOT_TLSLD_PCREL34
PLT16_LO_DS: PLT16_HA
PLTSEQ: PLT16_LO_DS PLT_PCREL34 PLT_PCREL34_NOTOC
PLTSEQ_NOTOC: PLT_PCREL34 PLT_PCREL34_NOTOC
PLTCALL: PLTSEQ
PLTCALL_NOTOC: PLTSEQ PLTSEQ_NOTOC
""",
}
# what the users of a high part are: none in the section, none but another high part has one, one or
# several of its own
HIGH_KINDS = ["none", "others'", "next", "apart", "several"]
LOW_KINDS = ["places", "next", "apart", "same register", "another register"]


class Low:
    """A kind of low parts: the kinds of its high parts, the distance from the high part to it where
    nothing is between, and whether its symbol is a label."""

    def __init__(self, line):
        name, highs = line.split(":")
        words = name.split()
        self.name, self.highs = words[0], highs.split()
        self.is_labelled = "label" in words
        self.distance = int(words[-1]) if "+" in words else 4
        # the users of a descriptor are counted each by itself
        self.group = self.name if "DESC" in self.name else ""

    def is_next(self, high, offset):
        """Whether one at an offset stands next to its high part, which may be a prefixed one."""
        return offset - high.offset == self.distance + (4 if "PCREL34" in high.name else 0)


LOWS = {machine: {low.name: low for low in map(Low, text.strip().splitlines())}
        for machine, text in PAIRS.items()}
HIGHS = {machine: {high for low in lows.values() for high in low.highs}
         for machine, lows in LOWS.items()}


def is_part(machine, name):
    """Whether a relocation is of a high or of a low part."""
    return name in LOWS.get(machine, {}) or name in HIGHS.get(machine, {})


class High:
    """A high part, and its users: of each group whether each stands next to it."""

    def __init__(self, name, offset, register):
        self.name, self.offset, self.register = name, offset, register
        self.users = collections.defaultdict(list)

    def kind(self, has_low):
        if not self.users:
            return "others'" if has_low else "none"
        if max(map(len, self.users.values())) > 1:
            return "several"
        return "next" if all(map(all, self.users.values())) else "apart"


def set_register(machine, name, words):
    """The register that a high part sets, by its word and the next one; None where it sets none."""
    if machine == 243:
        return words[0] >> 7 & 31
    if machine != 21:
        return words[0] & 31
    if name.startswith("PLTSEQ"):
        return None
    is_prefixed = words[0] >> 26 == 1
    return words[is_prefixed] >> 21 & 31


def base_register(machine, name, word):
    """The register to which a low part adds; None where its instruction has none."""
    if machine == 21:
        if name in ("TLSGD", "TLSLD", "PLTCALL", "PLTCALL_NOTOC"):
            return None
        if name.startswith("PLTSEQ"):  # of a mtctr the source
            return word >> 21 & 31 if word & 0xFC1FFFFF == 0x7C0903A6 else None
        return word >> 16 & 31
    if name in ("TLSDESC_CALL", "TLS_DESC_LD", "TLS_DESC_CALL"):
        return None
    return word >> 15 & 31 if machine == 243 else word >> 5 & 31


class Pairs:
    """The high and low parts of a section, in the order of their offsets. A symbol is a number, and
    `place` says at which offset of the section one is, if it is there."""

    def __init__(self, machine, place):
        self.machine, self.place = machine, place
        self.highs = []  # and the kind, symbol and addend of each
        self.last = {}  # the last one of a kind, symbol and addend, also with the register it sets
        self.of_symbol = set()  # the kinds, symbols and registers that were
        self.lows = []  # those with labels: their high parts may be behind them
        self.low_keys = set()  # the high parts for which there is a low part
        self.joined = []  # each low part with its high part, by offset and name
        self.counts = collections.defaultdict(collections.Counter)

    def add(self, name, offset, symbol, addend, words):
        """A relocation, with the word of its instruction and the next one."""
        if low := LOWS[self.machine].get(name):
            register = base_register(self.machine, name, words[0])
            if low.is_labelled:
                self.lows.append((low, offset, self.place(symbol), register))
            else:
                self.low_keys.update((high, symbol, addend) for high in low.highs)
                self.add_low(low, offset, symbol, addend, register)
        if name in HIGHS[self.machine]:
            high = High(name, offset, set_register(self.machine, name, words))
            self.highs.append((high, (name, symbol, addend)))
            self.last[name, symbol, addend] = self.last[name, symbol, addend, high.register] = high
            self.of_symbol.add((name, symbol, high.register))

    def add_low(self, low, offset, symbol, addend, register):
        """A low part whose high part has the same symbol and addend."""
        for key in [(symbol, addend, register), (symbol, addend)]:
            found = [self.last[high, *key] for high in low.highs if (high, *key) in self.last]
            if found:
                high = max(found, key=lambda high: high.offset)
                return self.add_user(low, high, offset, register)
        is_other = any((high, symbol, register) in self.of_symbol for high in low.highs)
        self.counts[low.name, "another addend" if is_other else "none"]["places"] += 1

    def add_user(self, low, high, offset, register):
        """A low part with its high part."""
        self.joined.append(((offset, low.name), (high.offset, high.name)))
        is_next = low.is_next(high, offset)
        high.users[low.group].append(is_next)
        found = self.counts[low.name, high.name]
        found["places"] += 1
        found["next" if is_next else "apart"] += 1
        if register is not None and high.register is not None:
            found["same register" if register == high.register else "another register"] += 1

    def finish(self, highs, lows):
        """Adds the section's numbers to those of high and of low parts."""
        at_place = {high.offset: high for high, _ in self.highs}
        for low, offset, place, register in self.lows:
            high = at_place.get(place)
            if high and high.name in low.highs:
                self.add_user(low, high, offset, register)
            else:
                self.counts[low.name, "none"]["places"] += 1
        for high, key in self.highs:
            highs[high.name]["places"] += 1
            highs[high.name][high.kind(key in self.low_keys)] += 1
        for key, found in self.counts.items():
            lows[key].update(found)

    def groups(self):
        """The relocations that belong together, each as its offset and name; once all are read."""
        group_of = {}
        for low, high in self.joined:
            group = group_of.get(high, [high])
            further = group_of.get(low, [low])
            if group is not further:
                group += further
                group_of.update({member: group for member in group})
        return {id(group): group for group in group_of.values()}.values()
