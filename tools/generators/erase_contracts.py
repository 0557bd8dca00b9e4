# SPDX-License-Identifier: MIT OR Apache-2.0
"""The contracts of the source's functions: what a `requires` is called, and which Rust tests it."""
import re
from collections import Counter

PRELUDE, SPECS = r"Rattle\.std\.specs\.Prelude", r"Rattle\.linker_\w+\.specs"
CALLS, DELETIONS = rf"\({PRELUDE}\.map C\.call (\w+)\)", rf"\({SPECS}\.Deltas\.deletions_of \1\)"
VALID = rf"{SPECS}\.Listed\.AreValidDeltas (\w+)"
# Clauses that a test tells in other words than its contract's.
IN_OTHER_WORDS = {
    rf"{SPECS}\.Sections\.IsAboveAll self (\w+)": r"self.last_index().is_none_or(|last| last < \1)",
    rf"Rattle\.std\.specs\.FinMap\.get self (\w+) ≡ {PRELUDE}\.None": r"self.get(\1).is_none()",
    r"range\.end ≤ 64": "range.end <= u64::BITS",
    rf"{SPECS}\.Packing\.AreApart {CALLS}": r"first_not_apart(\1).is_none()",
    rf"{VALID} → {SPECS}\.Shrinking\.AreShrinkable {DELETIONS} {CALLS}":
        r"!DeltaSlice::new(\1).has_valid_deltas() || first_not_shrinkable(\1, \2).is_none()",
    rf"{VALID} → {PRELUDE}\.length (\w+) ≡ {SPECS}\.Deletions\.rank {DELETIONS} \({PRELUDE}\.length (\w+)\)":
        r"!DeltaSlice::new(\1).has_valid_deltas() || packed_len(\3, \1) == \2.len()",
    rf"{VALID} → {PRELUDE}\.length (\w+) ≡ {SPECS}\.Packing\.packed_offset "
    rf"\({SPECS}\.Packing\.section_of (\w+) (\w+) {DELETIONS} (\w+)\) \(\4 \+ {PRELUDE}\.length \3\)":
        r"!DeltaSlice::new(\1).has_valid_deltas() || packed_run_len(\4, \3.len(), \1) == \2.len()",
    rf"{SPECS}\.Deletions\.AreDisjoint \({PRELUDE}\.map {SPECS}\.Deltas\.deletion_of (\w+)\.items \+\+ (\w+)\)":
        r"super::DeltaSlice::new(\1).can_merge_ascending(\2)",
    rf"{SPECS}\.Choosing\.AreItems (\w+) \({SPECS}\.Relaxing\.items_in (\w+)\)": r"are_items(\2, \1)",
}
# Functions whose requirement is asserted in another one that they call, where the pairs are sorted.
LATER = {"merge_additional": "insert_ascending", "merge_all": "insert_ascending"}
# Requirements that only the call itself tests, in words, by function and name: its addition overflows.
IN_WORDS = {"output_to_input_counted.fits": "the input offset is at most `u64::MAX`, or an addition overflows",
            "relocate_rewritten_section.memory": "`memory` has at least `memory_len(relocations)` words",
            "relocate_resolved.memory": "`memory` has at least `memory_len(relocations)` words",
            "deletions.items": "the items are in order, as `are_items` accepts them",
            "choice_by.table": "the entries are those of the table of the relocation at the offset"}
COMPARISONS = {"≡": "==", "≤": "<=", "<": "<"}


def operands(text):
    """The operands of a term and the marks between them, in turn. Parentheses are an operand's."""
    parts = [""]
    for word in text.split():
        if word in ("+", "*", *COMPARISONS) and parts[-1].count("(") == parts[-1].count(")"):
            parts += [word, ""]
        else:
            parts[-1] = f"{parts[-1]} {word}".strip()
    return parts


class Contracts:
    def __init__(self, sources):
        self.functions = [function for source in sources for function in source.functions]
        self.defined = Counter(name for source in sources for name in source.types)
        self.members = {block: members for source in sources for block, members in source.members.items()}
        self.tellers = []
        for function in self.functions:
            if not any("&mut" in kind for kind in function.parameters.values()):
                for kind, _, text in function.clauses:
                    told = re.fullmatch(rf"({PRELUDE}\.IsTrue result ↔|result ≡) (.+ .+)",
                                        function.source.meant(text, function.parameters))
                    if told and kind == "ensures":
                        self.tellers.append((function, told[1][-1], self.pattern(function, told[2])))

    def pattern(self, function, clause):
        """What tells a clause, by the function's parameters and the members of its trait."""
        names, seen = {*function.parameters, *self.members.get((function.owner, function.trait), ())}, set()

        def group(word):
            name, dot, rest = word[0].partition(".")
            if name not in names:
                return re.escape(word[0])
            is_first = name not in seen and not seen.add(name)
            return (rf"(?P<{name}>\w[\w.]*)" if is_first else f"(?P={name})") + re.escape(dot + rest)

        return re.compile(re.sub(r"[\w.]+|[^\w.]", group, clause))

    def requirements(self, function):
        """Each `requires`: its name, its text, and the Rust that tests it or None."""
        declared, names = function, {}
        if function.inherits and not any(kind == "requires" for kind, *_ in function.clauses):
            declared = next((it for it in self.functions if it.is_public and (it.trait, it.owner, it.name)
                             == (function.trait, "", function.name)), function)
            names = dict(zip(declared.parameters, function.parameters))
        for kind, label, text in declared.clauses:
            if kind == "requires":
                meant = declared.source.meant(text, declared.parameters)
                meant = re.sub(r"(?<![\w.])\w+", lambda word: names.get(word[0], word[0]), meant)
                yield label, text, self.test(meant, function)

    def test(self, text, function):
        for pattern, test in IN_OTHER_WORDS.items():
            if re.fullmatch(pattern, text):
                return re.sub(pattern, test, text)
        return self.told(text, "↔", function)[0] or self.comparison(text, function)

    def comparison(self, text, function):
        """A comparison of sums. It computes in 128 bits, at most 16 products with literals below 10^9."""
        parts = operands(text)
        marks, numbers = parts[1::2], [self.number(part, function) for part in parts[::2]]
        kinds = [kind for _, kind in numbers]
        if sum(mark in COMPARISONS for mark in marks) != 1 or None in kinds or len(marks) > 16:
            return None
        wide = "i128" if any(kind[0] == "i" for kind in kinds) else "u128"
        for at, (number, kind) in enumerate(numbers):
            around = marks[max(at - 1, 0):at + 1]
            if around == ["*", "*"] or marks[at:at + 1] == ["*"] and "literal" not in kinds[at:at + 2]:
                return None
            is_wide = kind not in ("literal", "power") and (marks[1:] or "power" in kinds)
            is_part = kind == "power" and set(around) - set(COMPARISONS)
            parts[2 * at] = f"({number} as {wide})" if is_wide else f"({number})" if is_part else number
        return " ".join(COMPARISONS.get(part, part) for part in parts)

    def number(self, text, function):
        """A number in Rust, and its type, `literal` or `power` of two, or None if that isn't known."""
        if re.fullmatch(r"\d{1,9}", text):
            return text, "literal"
        if power := re.fullmatch(r"2 \^ (\d\d?)", text):
            return f"1 << {power[1]}", "power"
        length = re.fullmatch(rf"{PRELUDE}\.length (\w+)", text)
        if length and re.match(r"&(mut)?\[|&?Vec<|Table<", function.parameters.get(length[1], "")):
            return f"{length[1]}.len()", "usize"
        name, _, end = text.partition(".")
        of = r"Range<(.+)>" if end in ("start", "end") else "(.+)" if not end else "-"
        kind = re.fullmatch(of, function.parameters.get(name, ""))
        number, kind = (text, kind[1]) if kind else self.told(text, "≡", function)
        return number, kind if re.fullmatch(r"[iu](8|16|32|64|size)", kind or "") else None

    def told(self, text, kind, function):
        """The call of a function that tells a term, and the type of what it returns."""
        for teller, told_kind, pattern in self.tellers:
            found = told_kind == kind and teller is not function and pattern.fullmatch(text)
            call = found and self.call(teller, found.groupdict(), function)
            if call:
                return call, teller.result
        return None, None

    def call(self, teller, found, function):
        """The call of a function with the caller's own arguments, or None."""
        members = self.members.get((function.owner, teller.trait), {})
        is_near = teller.source is function.source
        arguments = [found.get(name, "") for name in teller.parameters]
        kinds = [function.parameters.get(argument.split(".")[0]) for argument in arguments]
        own = re.sub(r"&(mut)?|<.*", "", kinds[0] or "") if "self" in teller.parameters else ""
        is_bound = not teller.owner and function.bounds.get(own) == teller.trait
        if is_bound:
            members = {name: f"{own}.{name}" for name in found}
        if None in kinds or not is_near and (not teller.is_public or self.defined[teller.owner] > 1) or any(
                found[name] != members.get(name) and (found[name], function.trait) != (name, teller.trait)
                for name in found.keys() - teller.parameters.keys()):
            return None
        for at, (name, kind) in enumerate(teller.parameters.items()):
            if kinds[at].startswith("&mut") and not kind.startswith("&") and name != "self":
                arguments[at] = "*" + arguments[at]
        listed = ", ".join(arguments)
        if "self" not in teller.parameters:
            is_own = teller.owner == function.owner if teller.owner else is_near and not teller.trait
            return f"{teller.owner}::{teller.name}({listed})".removeprefix("::") if is_own else None
        if arguments[0] != "self":
            is_own = is_bound or teller.owner == own
        elif teller.owner:
            is_own = teller.owner == function.owner
        else:
            is_own = (function.owner, teller.trait) in self.members if function.owner else (
                function.trait == teller.trait)
        # an implementation for all types of a bound is one for the caller's too
        traits = {it.trait for it in self.functions if it.trait and it.name == teller.name and (
            it.owner and not self.defined[it.owner] or it.owner == function.owner and (
                it.owner or it.trait == function.trait))}
        if is_own and teller.trait and len(traits) > 1:
            borrow = "&" if teller.parameters["self"][0] == "&" and kinds[0] == "self" else ""
            return f"{teller.trait}::{teller.name}({borrow}{listed})"
        return f"{arguments[0]}.{teller.name}({', '.join(arguments[1:])})" if is_own else None


def state_requirements(source, contracts):
    """A section `# Requires` in the docs of each public function, the tests in its body, and attributes:
    what a test names is the caller, and a call that only returns something is for its result."""
    for function in source.functions:
        requirements, start = list(contracts.requirements(function)), source.start(function.first)
        indent = " " * (start - source.text.rfind("\n", 0, start) - 1)
        tests, is_later = [test for *_, test in requirements if test], function.name in LATER
        is_asserting = function.is_public or function.inherits or function.name in LATER.values()
        if function.name in LATER.values() and not tests:
            source.stop(function.fn, "no test of what another function requires")
        asserts = "" if is_later else "".join(f"\n{indent}    debug_assert!({test});" for test in tests)
        lines, body = [], source.end(function.body)
        for label, text, test in requirements if function.is_public or function.inherits else []:
            if not test and f"{function.name}.{label}" not in IN_WORDS:
                source.stop(function.fn, f"no test tells `{text}`")
        if requirements and function.is_public:
            lines = ["///", "/// # Requires", "///"]
            lines += ["/// - " + f"{label}: " * bool(label)
                      + (f"`{test}`" if test else IN_WORDS[f"{function.name}.{label}"])
                      for label, _, test in requirements]
        if function.is_public and function.result and not function.result.startswith("Result<") and not any(
                "&mut" in kind for kind in function.parameters.values()):
            lines.append("#[must_use]")
        if (asserts or is_later) and source[function.body] == "{" and is_asserting:
            lines.append("#[cfg_attr(debug_assertions, track_caller)]")
            source.replace(body, body, asserts + ("" if is_later or source.text[body] == "\n" else "\n" + indent))
        if lines and source.text[start - len(indent):start].strip():
            source.stop(function.first, "an item that is not at the start of its line")
        if lines and "///" in source.text[start:source.start(function.fn)]:
            source.stop(function.first, "docs below an attribute")
        start -= len(indent)
        source.replace(start, start, "".join(f"{indent}{line}\n" for line in lines))
