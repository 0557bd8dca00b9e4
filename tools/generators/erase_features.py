# SPDX-License-Identifier: MIT OR Apache-2.0
"""What is compiled with the feature of an architecture alone: what names it."""
import re
import textwrap

# The words of an identifier that names an architecture, by the feature.
WORDS = {"aarch64": "AArch64|AARCH64|aarch64", "loongarch64": "LoongArch|LARCH|LOONGARCH|loongarch",
         "ppc64": "Ppc64|PPC64|ppc64", "riscv64": "RiscV|RISCV|riscv", "x86_64": "X86_64|x86_64"}
# What each crate keeps: kinds that stand in one arm with others, whose code would be there twice,
# and a module that a call of all architectures reads.
SHARED = {"RelativeRiscVLow12", "PairSubtractionULEB128RiscV", "PairSubtractionULEB128LoongArch",
          "riscv_pcrel_groups"}
# What a word of `rust/additions.txt` says of a function: what it returns without a feature.
WITHOUT = re.compile(r"without\((\w+)\):(.*)")


# The list of the architectures, how macros are given it, and what they make of each.
LISTED = re.compile(r"(?m)^( +)(\w+ (\w+) \w+Relocation \d+,)$")
GIVEN = "$($of:ident $module:ident $names:ident $handles:literal,)*"
MADE = re.compile(r"\$\((?=(?:(?!\)\*)[^#])*\$of\b(?!:))")


def gate_list(text):
    """What is made of each architecture has the attribute of its feature."""
    text = LISTED.sub(lambda it: f"{it[1]}{attribute(it[3])}\n{it[0]}" if it[3] in WORDS else it[0], text)
    parts = text.split(GIVEN)
    return "$(#[$gate:meta] $of:ident $module:ident $names:ident $handles:literal,)*".join(
        [parts[0], *(MADE.sub("$(#[$gate] ", part, count=1) for part in parts[1:])])


def attribute(feature, is_without=False):
    return f'#[cfg({"not(" * is_without}feature = "{feature}"{")" * is_without})]'


class Names:
    """Which features an identifier of a file needs."""

    def __init__(self, known):
        self.known, self.own = known, {}

    def of(self, source, first, past):
        found = set()
        for at in range(first, past):
            token = source[at]
            if token in SHARED:
                continue
            if token in self.own and source[at - 1] != ".":
                found.add(self.own[token])
            found |= {name for name, words in WORDS.items() if re.search(words, token)}
            found |= {self.known[token]} if source[at + 1] == "::" and token in self.known else set()
        return found


def alternatives(source, first, past):
    """The ranges of the alternatives of a pattern."""
    bars, at = [], first
    while at < past:
        bars += [at] if source[at] == "|" else []
        at = source.close.get(at, at) + 1
    starts, ends = [first, *(at + 1 for at in bars)], [*bars, past]
    return [(start, end) for start, end in zip(starts, ends) if start < end]


def spread(source, names, first, past):
    """The texts of an alternative, or of those within it, that need one feature each, with the feature."""
    needed = names.of(source, first, past)
    if len(needed) < 2:
        return [(source.slice(first, past), next(iter(needed), None))]
    # the bars within: of the innermost list of alternatives
    bars = [at for at in range(first, past) if source[at] == "|"]
    if not bars:
        source.stop(first, "a pattern that needs several features is not known here")
    start, end = bars[0], bars[-1]
    while source[start - 1] not in ("(", ",", ":", "{"):
        start -= 1
        start = next((at for at, close in source.close.items() if close == start), start)
    while source[end] not in (")", ",", "}"):
        end = source.close.get(end, end) + 1
    before, after = source.slice(first, start), source.slice(end, past)
    return [(f"{before} {text}{after}", feature) for at in alternatives(source, start, end)
            for text, feature in spread(source, names, *at)]


def patterns(source, names, first, past):
    """The alternatives of a pattern by the feature that they need, those of none first."""
    found = {}
    for at in alternatives(source, first, past):
        for text, feature in spread(source, names, *at):
            found.setdefault(feature, []).append(text)
    return sorted(found.items(), key=lambda it: it[0] or "")


def arms(source, brace):
    """Of each arm of a `match` where it begins, its guard or else its arrow, its arrow, and its end."""
    at = brace + 1
    while at < source.close[brace]:
        arrow = source.past(at, "=>")
        end = source.close[arrow + 1] if source[arrow + 1] == "{" else source.past(arrow + 1, ", }")
        end += (source[end] in "),}" and end != source.close[brace] and source[end] != ",")
        end += source[end] == ","
        guard = next((place for place in range(at, arrow) if source[place] == "if"), arrow)
        yield at, guard, arrow, end
        at = end


def is_match(source, brace):
    """Whether a brace opens the arms of a `match`."""
    opening, at = {close: at for at, close in source.close.items()}, brace - 1
    while source[at] not in ("match", ";", "{", "=>", "}", "(", "[", ""):
        at = opening.get(at, at) - 1
    return source[at] == "match"


def gate_arms(source, names, first, past):
    """Gates arms whose patterns name an architecture, and `matches!`. What else does, by features."""
    left, at = set(), first
    while at < past:
        if source[at] == "{" and is_match(source, at) and source[at + 1] != "$":
            for begin, guard, arrow, end in list(arms(source, at)):
                found, of_guard = patterns(source, names, begin, guard), names.of(source, guard, arrow)
                if len(of_guard) == 1 and len(found) == 1:
                    found = [(found[0][0] or of_guard.pop(), found[0][1])]
                if [feature for feature, _ in found] == [None]:
                    left |= gate_arms(source, names, guard, end)
                    continue
                inner = gate_arms(source, names, guard, end) if len(found) == 1 else names.of(source, guard, end)
                left |= inner - {feature for feature, _ in found}
                if len(found) == 1:
                    source.replace(source.start(begin), source.start(begin), indented(source, begin, found[0][0]))
                else:
                    rest = source.text[source.start(guard):source.end(end - 1)]
                    rest += "," * (rest[-1] not in ",}")
                    margin = "\n" + margin_of(source, begin)
                    texts = [indented(source, begin, feature) * bool(feature) + f"{margin}    | ".join(texts)
                             + " " + rest for feature, texts in found]
                    source.replace(source.start(begin), source.end(end - 1), margin.join(texts))
            at = source.close[at]
        elif source.is_at(at, "matches ! ("):
            comma = source.past(at + 3, ",")
            guard = next((it for it in range(comma, source.close[at + 2]) if source[it] == "if"), source.close[at + 2])
            last = guard - (source[guard - 1] == ",")
            found = patterns(source, names, comma + 1, last)
            left |= gate_arms(source, names, at + 3, comma)
            if [feature for feature, _ in found] != [None]:
                test, margin = source.slice(guard, source.close[at + 2]), margin_of(source, comma + 1)
                bar = f"\n{margin}    | " if margin.isspace() else " | "
                texts = [f"{indented(source, comma + 1, feature) if feature else ''}{bar.join(texts)} {test}".strip()
                         for feature, texts in found]
                source.replace(source.start(at), source.end(at), "matches_any")
                between = f",\n{margin}" if margin.isspace() else ", "
                source.replace(source.start(comma + 1), source.end(source.close[at + 2] - 1), between.join(texts))
            at = source.close[at + 2]
        elif source[at] == "{" and source.is_at(at + 1, "Some (") and source.close[at + 2] + 1 == source.close[at]:
            needed = names.of(source, at + 1, source.close[at])
            for feature in needed:
                text, margin = source.slice(at + 1, source.close[at]), "\n" + margin_of(source, at + 1)
                source.replace(source.end(at), source.end(source.close[at] - 1),
                               f"{margin}{attribute(feature)}{margin}{{{margin}    {text}{margin}}}"
                               f"{margin}{attribute(feature, True)}{margin}{{{margin}    None{margin}}}")
            at = source.close[at]
        else:
            left |= names.of(source, at, at + 1)
        at += 1
    return left


def margin_of(source, at):
    return re.search(r"[^\n]*\Z", source.text[:source.start(at)])[0]


def indented(source, at, feature):
    margin = margin_of(source, at)
    return attribute(feature) + (" " if margin.strip() else "\n" + margin)


def used(source, it):
    """The path of a `use` and the range of each element."""
    opening = next((at for at in range(it.head, it.last) if source[at] == "{"), None)
    if opening:
        return opening - 1, list(source.list_of(opening))
    last = it.last - 1 if source[it.last - 2] != "as" else it.last - 3
    return last - 1, [(last, it.last)]


def gate_use(source, names, it, gated, moved):
    """A `use`: gates it, or what it imports. The names that need a feature."""
    colons, elements = used(source, it)
    path = source.joined(it.head + 1, colons)
    of_path = names.of(source, it.head + 1, colons + 1)
    found, kept = {}, []
    for first, past in elements:
        name = source[past - 1]
        known = gated.get((source[colons - 1], source[first])) or next(iter(names.of(source, first, past)), None)
        feature = next(iter(of_path), known)
        if feature and name in moved:
            kept.append(f"{source.slice(it.first, it.head)} use {moved[name]}::{name};".strip())
        elif feature:
            found.setdefault(feature, []).append((name if name != "self" else source[colons - 1], first, past))
        else:
            found.setdefault(None, []).append((name, first, past))
    if set(found) | {None} != {None} or kept:
        margin, head = margin_of(source, it.first), source.slice(it.first, it.head)
        for feature, listed in sorted(found.items(), key=lambda it: it[0] or ""):
            texts = ", ".join(source.slice(first, past) for _, first, past in listed)
            texts = texts if len(listed) == 1 and texts != "self" else f"{{{texts}}}"
            line = f"{head} use {path}::{texts};".strip()
            if len(margin + line) > 100:
                inner = textwrap.wrap(texts[1:-1] + ",", 96 - len(margin))
                line = line.replace(texts, "{" + "".join(f"\n{margin}    {it}" for it in inner) + f"\n{margin}}}")
            kept.append((f"{attribute(feature)}\n{margin}" if feature else "") + line)
        source.replace(source.start(it.first), source.end(it.last), f"\n{margin}".join(kept))
    return {name: feature for feature, listed in found.items() if feature for name, *_ in listed}


def gate_item(source, names, it, without):
    """An item or a member: gates it or what it has. The feature that it needs."""
    needed, function = set(), next((at for at in source.functions if at.first == it.first), None)
    if it.word == "macro_rules":
        gate_arms(source, names, it.head, it.last + 1)
    elif it.word == "enum":
        for first, past in source.list_of(source.past(it.head, "{"), True):
            for feature in names.of(source, first, past):
                source.replace(source.start(first), source.start(first), indented(source, first, feature))
    elif it.word in ("impl", "trait"):
        needed = names.of(source, it.head, source.past(it.head, "{"))
    elif it.word != "mod" or source[it.last] == ";":
        needed = gate_arms(source, names, it.head, it.last + 1)
    if not needed:
        return None
    if len(needed) > 1:
        source.stop(it.first, f"an item that needs the features {', '.join(sorted(needed))}")
    feature, = needed
    value = function and without.get((f"{function.owner}::{function.name}".removeprefix("::"), feature))
    if value:
        margin = margin_of(source, it.first) + "    "
        source.replace(source.end(function.body), source.end(function.body), f"\n{margin}{attribute(feature, True)}\n"
                       f"{margin}{{\n{margin}    {value}\n{margin}}}\n{margin}{attribute(feature)}\n{margin}{{")
        source.replace(source.start(it.last), source.start(it.last), f"    }}\n{margin[:-4]}")
        return None
    if function and function.trait and function.owner:
        source.stop(it.first, f"`{function.name}` needs the feature {feature}, and its trait doesn't")
    source.replace(source.start(it.first), source.start(it.first), indented(source, it.first, feature))
    return feature


def gate_file(source, gated, known, without, moved):
    """Gates what names an architecture. The names of the items that need a feature."""
    names, made = Names(known), {}
    stem = source.path.stem
    items = sorted(source.items, key=lambda it: (it.first, -it.last))
    names.own = {name: feature for (of, name), feature in gated.items() if of == stem}
    end = -1
    for it in items:
        if it.word == "use" and it.first > end:
            names.own |= gate_use(source, names, it, gated, moved)
    for it in items:
        if it.first <= end or it.word == "use":
            continue
        feature = gate_item(source, names, it, without)
        is_member = any(of.word in ("impl", "trait") and of.first < it.first <= of.last for of in items)
        if feature:
            end = it.last
            if not is_member and it.word != "impl" and it.name != "_":
                made[stem, source[it.head + 2] if it.name == "fn" else it.name] = feature
        elif it.word not in ("impl", "trait", "mod"):
            end = it.last
    return made


def gate(made, make_source, added):
    """The texts of files, where what names an architecture has the attribute of its feature."""
    known = {name: word.split('"')[1] for name, words in added.items() for word in words
             if re.fullmatch(r'cfg\(feature = "(' + "|".join(WORDS) + r')"\)', word)}
    without = {(name, found[1]): found[2] for name, words in added.items()
               for found in map(WITHOUT.fullmatch, words) if found}
    of_one = re.compile(rf"(^|/)(?:linker_)?({'|'.join(WORDS)}|{'|'.join(known) or '-'})(/|\.rs$)")
    texts = {name: gate_list(text) for name, text in made.items() if not of_one.search(name)}
    # what an architecture's module has of another one
    moved = {name: path for feature in WORDS for path, name in re.findall(
        r"(?m)^pub use (crate::linker_base::[\w:]+)::(\w+);", made[f"rust/src/{feature}.rs"])}
    gated, count = {}, -1
    while count < len(gated):
        count, sources = len(gated), {name: make_source(name, text) for name, text in texts.items()}
        for source in sources.values():
            gated |= gate_file(source, gated, known, without, moved)
    return {name: source.erased() for name, source in sources.items()}
