# SPDX-License-Identifier: MIT OR Apache-2.0
"""What repeats the heads of the exports in `crates/linker_utils_c/src`, and the library's structs:
`include/linker_utils_inline.h`, which begins with `bindings/inline_head.h`; `bindings/rust/src/raw.rs`;
and the list of structs for a test, `bindings/rust/tests/data/structs.rs`. The names of structs in C are
those that the headers have for the same parameters and fields, and the order is the headers'. What
calls in C take by structs in place of parameters PASSED says. A function or a struct that isn't the
same in the headers and in the library, or isn't as PASSED says, is an error. Makes
`include/linker_utils_types.h` too, of the tables of relocations and of dynamic ones.
"""
import re
import sys
import textwrap
from pathlib import Path
from types import SimpleNamespace

from generators.erase_source import Source

ROOT = Path(__file__).resolve().parents[2]
MAIN = "linker_utils.h"
INLINE, HEAD, VERSION = "include/linker_utils_inline.h", "bindings/inline_head.h", "bindings/version.c"
LISTS, TYPES = "include/linker_utils_lists.h", "include/linker_utils_types.h"
RAW, CRATE, STRUCTS = "bindings/rust/src/raw.rs", "bindings/rust/src/lib.rs", "bindings/rust/tests/data/structs.rs"
MADE = "Made by tools/generate of the exports in crates/linker_utils_c/src and of the headers"
IN_C = {"": "void", "bool": "bool", "i64": "int64_t", "u8": "uint8_t", "u16": "uint16_t", "u32": "uint32_t",
        "u64": "uint64_t", "usize": "size_t"}
POINTERS = {None: "", "&": "*const ", "&mut": "*mut "}
# `short` is a word of C
FIELDS = {"short": "shorter"}
# how a struct of C's layout begins in Rust
STRUCT = r"(?m)^#\[repr\(C\)\]\n(?:#\[.*\]\n)*pub struct (\w+) \{\n((?:.*\n)*?)\}"
# how the declaration of a call that returns a status begins, and what the header says of others
MUST_USE = "LINKER_UTILS_MUST_USE "
STATUSES = "A call that returns `uint32_t` returns an `enum linker_utils_status`, except for (.*?):"
COLUMNS = 100
# The structs by which calls in C take parameters of exports: beside which parameters of an export (or
# beside any), and of each field the parameters that it has, by name and type. The first struct that has a
# parameter takes it. Where fields have those of a struct, as `addresses.section`, that is made of them.
PASSED = {
    "words": ("words_start", {"address": "words_start: u64", "relocations": "words: &[u8]",
                              "kept": "kept: &[bool], kept: &mut [bool]"}),
    "link": ("output addresses", {"machine": "machine: u16",
                                  "is_executable": "output.is_executable: bool",
                                  "is_fixed": "output.is_fixed: bool",
                                  "has_near_symbols": "output.has_near_symbols: bool",
                                  "got_base": "addresses.got_base: u64",
                                  "thread_origin": "addresses.thread_origin: u64",
                                  "module_origin": "addresses.module_origin: u64",
                                  "module_entry": "addresses.module_entry: u64",
                                  "has_tls": "addresses.has_tls: bool",
                                  "global_pointer": "global_pointer: u64"}),
    "object": ("", {"facts": "symbols: &[SymbolFacts], facts: &[SymbolFacts]",
                    "values": "symbols: &[Symbol], values: &[Symbol]",
                    "unrelaxable_groups": "kept: &[UnrelaxableGroups], kept: &mut [UnrelaxableGroups]",
                    "facts_snapshot": "kept: &[FactsSnapshot], kept: &mut [FactsSnapshot]",
                    "kept_high_parts": "kept: &[bool], kept: &mut [bool]"}),
    "section": ("", {"bytes": "section: &[u8], section: &mut [u8]", "bytes_len": "section_len: usize",
                     "relocations": "relocations: &[u8], relocations: &mut [u8]",
                     "resolved": "resolved: &[Resolved]",
                     "address": "addresses.section: u64", "base": "base: u64",
                     "deleted": "deleted: &[Deletion]"}),
    "rewritten": ("decisions", {"decisions": "decisions: &mut [DecisionNumbers], decisions: &[DecisionNumbers]",
                                "deleted": "deleted: &mut [Deletion]",
                                "deleted_used": "deleted_used: &mut usize"}),
    "branches": ("branches", {"branches": "branches: &[Branch]", "targets": "targets: &[u64]",
                              "boundaries": "boundaries: &[u64]"}),
    "placement": ("branches", {"stubs": "stubs: &mut [PlacedStub]", "stubs_used": "stubs_used: &mut usize",
                               "ways": "ways: &mut [usize]", "before": "before: &mut [u64]"}),
    "merge": ("merged", {"additional": "additional: &[Deletion]", "merged": "merged: &mut [RelaxDelta]"}),
    "translation": ("queries", {"queries": "queries: &[u64]", "outputs": "outputs: &mut [u64]"}),
    "calls": ("calls", {"calls": "calls: &[Call]", "deltas": "deltas: &[RelaxDelta]", "link": "link: u32"}),
    "items": ("makers", {"items": "items: &mut [ItemNumbers]", "makers": "makers: &mut [usize]",
                         "items_used": "len: &mut usize"}),
    "run": ("base start items", {"start": "start: u64", "items": "items: &[ItemNumbers]",
                                 "deltas": "deltas: &[RelaxDelta]"}),
    "relaxed": ("", {"shapes": "shapes: &mut [u8]", "kept": "kept: &[u64], kept: &mut [u64]",
                     "places": "places: &mut [usize]", "freed": "freed: &mut [u64]"}),
    "property_inputs": ("second", {"first": "first: &[Property]", "second": "second: &[Property]"}),
    "windows": ("original", {"original": "original: &[u8]", "offset": "offset: u64",
                             "others": "others: &[FieldBits]", "linked": "linked: &[u8]"}),
}
# those that come first where a call has a link
FIRST = ["link", "object", "section"]
MOST_PARAMETERS = 6


def stop(why):
    sys.exit(f"tools/generate: {why}")


def exports():
    """The exports by name."""
    found = {}
    for path in sorted((ROOT / "crates/linker_utils_c/src").rglob("*.rt")):
        source = Source(path.relative_to(ROOT), path.read_text())
        exported = set(re.findall(r'(?m)^pub extern "C" fn (\w+)', source.text))
        for it in source.functions:
            if it.name in exported and not it.owner:
                parameters = [parameter(*each) for each in it.parameters.items() if each[1] != "Global"]
                found[it.name] = SimpleNamespace(name=it.name, parameters=parameters, result=it.result)
                if it.name.endswith("_nonnull") != any(each.is_slice for each in parameters):
                    source.stop(it.fn, "an export takes slices just where its name ends in `_nonnull`")
    return found


def parameter(name, kind):
    pointer, pointed = re.fullmatch(r"(&mut|&)?(.*)", kind).groups()
    return SimpleNamespace(name=name, pointer=pointer, kind=pointed.strip("[]"), is_slice=pointed[0] == "[",
                           typed=f"{name}: {kind.replace('&mut', '&mut ')}", is_relas=False, passed=None, parts=[],
                           may_be_null=(name, kind) == ("faulty", "&mutusize"))


def pass_parameters(found, structs):
    """Says of each parameter of the exports in which field of which struct its callers in C pass it, or
    for each field of the parameter's struct."""
    unused = {each for _, fields in PASSED.values() for typed in fields.values() for each in typed.split(", ")}

    def place(typed, export):
        names = {it.name for it in export.parameters}
        for struct, (beside, fields) in PASSED.items():
            if beside and not names & set(beside.split()):
                continue
            for field, all_typed in fields.items():
                if typed in all_typed.split(", "):
                    unused.discard(typed)
                    return struct, field

    for export in found.values():
        if not export.name.endswith("_nonnull"):
            continue
        for it in export.parameters:
            it.passed = place(it.typed, export)
            if it.pointer == "&" and not it.is_slice and not it.passed:
                parts = [place(f"{it.name}.{field}: {kind}", export) for field, kind in structs.get(it.kind, [])]
                if any(parts) and not all(parts):
                    stop(f"PASSED has some fields of `{it.typed}` and not others")
                it.parts = parts if any(parts) else []
    if unused:
        stop(f"no export has a parameter of PASSED: {', '.join(sorted(unused))}")


def library_structs():
    """The fields of the library's structs with the layout of C, by name and type."""
    found = {}
    for path in sorted((ROOT / "crates").glob("*/src/**/*.rt")):
        for name, body in re.findall(STRUCT, path.read_text()):
            if name in found:
                stop(f"two structs `{name}` have the layout of C")
            found[name] = re.findall(r"(?m)^    pub (\w+): (.*),$", body)
    return found


def headers():
    """The headers' text, with the structs that are written by hand of the inline functions."""
    main = (ROOT / "include" / MAIN).read_text()
    names = re.findall(r'(?m)^#include "(\w+\.h)"$', main)
    lists, *further, inline = (f"include/{name}" for name in names)
    assert inline == INLINE
    return "".join((ROOT / name).read_text() for name in [lists, f"include/{MAIN}", *further, HEAD])


def header(text):
    """The functions that the headers declare, and the fields of their structs, as texts."""
    numbers = re.findall(r"`(\w+)`", re.search(STATUSES, re.sub(r"\n \*  ", "", text))[1])
    text = re.sub(r"/\*.*?\*/", "", text.replace("\\\n", " "), flags=re.S)
    text = re.sub(r"(?m)^#.*$", "", text)
    functions = {}
    for must_use, inline, result, name, parameters in re.findall(
            rf"(?m)^({MUST_USE})?(static inline )?([a-z][\w ]*[ *])(linker_utils_\w+)\(([^)]*)\);", text):
        if name in functions:
            stop(f"the headers declare {name} twice")
        if bool(must_use) != (result == "uint32_t " and name not in numbers):
            stop(f"{MUST_USE}begins what returns a status, and nothing else: {name}")
        parameters = [" ".join(each.split()) for each in parameters.split(",")]
        functions[name] = SimpleNamespace(is_inline=bool(inline), result=result.strip(),
                                          parameters=parameters if parameters != ["void"] else [])
    structs = {name: [" ".join(field.split()) for field in body.split(";")[:-1]]
               for name, body in re.findall(r"(?ms)^struct (linker_utils_\w+) \{(.*?)^\};", text)}
    return functions, structs


class Names:
    """The structs of the library, each with its name in C."""

    def __init__(self, structs):
        self.structs, self.in_c = structs, {}

    def of_c(self, kind, text=""):
        """A type in C. A struct that is met first has the name that the text has."""
        if kind in IN_C:
            return IN_C[kind]
        if kind not in self.structs:
            stop(f"the type `{kind}` isn't known here")
        if named := re.search(r"\bstruct (\w+)", text):
            self.in_c.setdefault(kind, named[1])
        return f"struct {self.in_c.get(kind, '(unknown)')}"

    def of_crate(self, kind):
        """A type in the crate over the library: its own name, or that in C if it is of numbers for C."""
        if re.search("^Relax|(Numbers|Codes)$", kind):
            words = self.in_c[kind].removeprefix("linker_utils_").split("_")
            return "".join(map(str.capitalize, words))
        return kind

    def pointed(self, it):
        return "const " * (it.pointer == "&") + self.of_c(it.kind)

    def slices(self, it, name, is_counted):
        """A parameter, or a field, in C: of a slice two of them. Callers count relocations."""
        kind = self.pointed(it)
        if is_counted and it.is_relas:
            kind = kind.replace("uint8_t", "void")
        yield f"{kind} {'*' * bool(it.pointer)}{name}"
        if it.is_slice:
            yield f"size_t {name}_len"

    def structs_of(self, it):
        """The structs by which callers pass a parameter."""
        return [struct for struct, _ in it.parts or ([it.passed] if it.passed else [])]

    def of_export(self, export):
        """The export's parameters in C."""
        return [text for it in export.parameters for text in self.slices(it, it.name, False)]

    def of_call(self, export):
        """The parameters of a call in C, with structs in place of what they have."""
        places = {}
        for it in export.parameters:
            for struct in self.structs_of(it) or [it.typed]:
                places.setdefault(struct, []).append(it)
        for place in dict.fromkeys([*(FIRST if "link" in places else []), *places]):
            passed = places.get(place, [])
            if place not in PASSED:
                yield from (text for it in passed for text in self.slices(it, it.name, True))
            elif passed:
                is_written = any(it.pointer == "&mut" and not it.is_slice for it in passed)
                yield f"{'const ' * (not is_written)}struct linker_utils_{place} *{place}"

    def arguments(self, export):
        """What a wrapper passes to its export."""
        for it in export.parameters:
            name = "->".join(it.passed) if it.passed else it.name
            if it.is_relas:
                yield f"LINKER_UTILS_RELAS({self.pointed(it)}, {name})"
            elif it.is_slice:
                yield f"LINKER_UTILS_SLICE({self.pointed(it)}, {name})"
                yield f"{name}_len"
            elif it.may_be_null:
                yield f"{name} ? {name} : &ignored"
            else:
                yield "&" * bool(it.parts or it.passed and it.pointer) + name

    def fields(self, struct, found):
        """The fields of a struct of PASSED, as all exports take them. It is `const` where none writes."""
        fields = {}
        for it in (it for export in found for it in export.parameters):
            if it.passed and it.passed[0] == struct:
                fields.setdefault(it.passed[1], []).append(it)
            for (of, field), (_, kind) in zip(it.parts, self.structs.get(it.kind, [])):
                if of == struct:
                    fields.setdefault(field, []).append(parameter(field, kind))
        counts = {f"{field}_len" for field, every in fields.items() if every[0].is_slice}
        for field, every in fields.items():
            it = next((it for it in every if it.pointer == "&mut"), every[0])
            if field in counts:
                continue
            yield from self.slices(it, field, True) if it.is_slice else [f"{self.of_c(it.kind)} {field}"]


def compare_functions(functions, of_c, found, names):
    """The headers' functions, each with its export, which has to be the same but for what structs pass.
    None is named as a struct. The headers say which bytes are relocations of a file, that callers count."""
    listed = []
    pass_parameters(found, names.structs)
    of_struct = {struct: {re.search(r"\w+$", text)[0]: text for text in of_c.get(f"linker_utils_{struct}", [])}
                 for struct in PASSED}
    for name, declared in functions.items():
        if name in of_c:
            stop(f"{name} is a function and a struct")
        export = found.pop(name + "_nonnull" * declared.is_inline, None)
        if not export:
            if f" {name}(" not in (ROOT / (HEAD if declared.is_inline else VERSION)).read_text().replace("*", " "):
                stop(f"the headers declare {name}, and it isn't exported")
            if not declared.is_inline:
                listed.append((name, declared, SimpleNamespace(name=name, parameters=[], result=declared.result)))
            continue
        texts = {re.search(r"\w+$", text)[0]: text for text in declared.parameters}
        for it in export.parameters:
            text = of_struct[it.passed[0]].get(it.passed[1], "") if it.passed else texts.get(it.name, "")
            made_of = re.sub(r"\B([A-Z])", r"_\1", it.kind).lower()
            names.of_c(it.kind, f"struct linker_utils_{made_of}" if it.parts else text)
            it.is_relas = it.is_slice and it.kind == "u8" and "void *" in text
        wanted = list(names.of_call(export))
        if (declared.result, declared.parameters) != (IN_C[export.result], wanted):
            stop(f"the headers declare {name} otherwise than its export is, which has\n"
                 f"    {IN_C[export.result]} ({', '.join(wanted)})")
        if len(wanted) > MOST_PARAMETERS:
            stop(f"{name} has more than {MOST_PARAMETERS} parameters")
        listed.append((name, declared, export))
    for name in found:
        stop(f"{name} is exported, and the headers don't declare it")
    for struct in PASSED:
        wanted = list(names.fields(struct, [export for _, _, export in listed]))
        if sorted(wanted) != sorted(of_c.get(f"linker_utils_{struct}", [])):
            stop(f"struct linker_utils_{struct} is otherwise in the headers than PASSED says, by which it has\n    "
                 + ", ".join(wanted))
    return listed


def compare_structs(of_c, names):
    """The headers' structs, each with the library's, which has to be the same."""
    compared = []
    while len(compared) < len(names.in_c):
        kind, name = list(names.in_c.items())[len(compared)]
        fields, declared, wanted = names.structs[kind], of_c.get(name, []), []
        for (field, of_library), text in zip(fields, declared + [""] * len(fields)):
            element, count = re.fullmatch(r"\[?([^;]*)(?:; (\d+)\])?", of_library).groups()
            of_field = "char" if text.startswith("char ") and element == "u8" else names.of_c(element, text)
            wanted.append(f"{of_field} {FIELDS.get(field, field)}" + f"[{count}]" * bool(count))
        if wanted != declared:
            stop(f"struct {name} is otherwise in the headers than `{kind}` in the library, which has\n    "
                 + ", ".join(wanted))
        compared.append(kind)
    for name in of_c.keys() - set(names.in_c.values()) - {f"linker_utils_{struct}" for struct in PASSED}:
        stop(f"no export takes a struct {name}, which the headers have")
    if len(set(names.in_c.values())) < len(compared):
        stop("two structs of the library have one name in the headers")
    return sorted(compared, key=lambda kind: list(of_c).index(names.in_c[kind]))


def wrapped(text, indent, later=0):
    """A text in lines that are indented."""
    return textwrap.fill(text, COLUMNS, initial_indent=" " * indent, subsequent_indent=" " * (later or indent),
                         break_on_hyphens=False, break_long_words=False) + "\n"


def laid_out(head, parts, tail, indent=0):
    """`HEAD(PARTS)TAIL` in one line, or the parts in lines after the head."""
    line = f"{' ' * indent}{head}({', '.join(parts)}){tail}\n"
    if len(line) <= COLUMNS + 1:
        return line
    whole = ", ".join(part.replace(" ", "\0") for part in parts) + ")" + tail.replace(" ", "\0")
    return f"{' ' * indent}{head}(\n" + wrapped(whole, indent + 4).replace("\0", " ")


def make_inline(listed, names):
    text = f"""/* SPDX-License-Identifier: MIT OR Apache-2.0 */
/* {MADE}.
 *
 * The inline functions of linker_utils.h, which includes this file and says what they do. No export
 * of the archive takes a null pointer to a slice, even with a count of 0. So each function replaces
 * null by the address of an array, and calls the export of the same name that ends in `_nonnull`,
 * with what the structs have in place of them. It replaces a null `faulty` by the address of a
 * variable. */
#ifndef LINKER_UTILS_INLINE_H
#define LINKER_UTILS_INLINE_H

"""
    text += (ROOT / HEAD).read_text().partition("\n\n")[2]
    for name, declared, export in (it for it in listed if it[1].is_inline):
        text += "\n" + laid_out(f"{declared.result} {export.name}", names.of_export(export), ";")
        text += laid_out(f"static inline {declared.result} {name}", declared.parameters, " {")
        text += "    size_t ignored;\n" * any(it.may_be_null for it in export.parameters)
        for it in (it for it in export.parameters if it.parts):
            values = ", ".join("->".join(part) for part in it.parts)
            text += wrapped(f"{names.pointed(it)} {it.name} = {{{values}}};", 4, 8)
        call = "return " * bool(export.result) + export.name
        text += laid_out(call, list(names.arguments(export)), ";", 4) + "}\n"
    return text + "\n#undef LINKER_UTILS_SLICE\n#undef LINKER_UTILS_RELAS\n\n#endif\n"


def struct_of_rust(name, of_crate, fields):
    """A struct that has a default."""
    lengths = {field: re.search(r"; (\d+)\]", kind) for field, kind in fields}
    # Rust derives no default of a longer array
    is_long = any(length and int(length[1]) > 32 for length in lengths.values())
    text = f"\n/// `struct {name}`.\n#[repr(C)]\n#[derive(Debug, Clone, Copy, {'Default, ' * (not is_long)}"
    text += f"PartialEq, Eq)]\npub struct {of_crate} {{\n"
    text += "".join(f"    pub {field}: {kind},\n" for field, kind in fields) + "}\n"
    if is_long:
        text += f"\nimpl Default for {of_crate} {{\n    fn default() -> {of_crate} {{\n        {of_crate} {{\n"
        for field, length in lengths.items():
            text += f"            {field}: {f'[0; {length[1]}]' if length else 'Default::default()'},\n"
        text += "        }\n    }\n}\n"
    return text


def make_raw(listed, names, kinds):
    by_hand = {name for name, _ in re.findall(STRUCT, (ROOT / CRATE).read_text())}
    used, structs, functions = [], "", ""
    for kind in kinds:
        if names.of_crate(kind) in by_hand:
            used.append(names.of_crate(kind))
        else:
            fields = [(field, re.sub(r"[A-Z]\w*", lambda word: names.of_crate(word[0]), of_library))
                      for field, of_library in names.structs[kind]]
            structs += struct_of_rust(names.in_c[kind], names.of_crate(kind), fields)
    for _, _, export in listed:
        passed = []
        for it in export.parameters:
            passed.append(f"{it.name}: {POINTERS[it.pointer]}{names.of_crate(it.kind)}")
            passed += [f"{it.name}_len: usize"] * it.is_slice
        result = f" -> {export.result}".replace("const char *", "*const c_char") if export.result else ""
        line = f"    pub fn {export.name}({', '.join(passed)}){result};\n"
        functions += line if len(line) <= COLUMNS + 1 else (
            f"    pub fn {export.name}(\n" + "".join(f"        {it},\n" for it in passed) + f"    ){result};\n")
    return (f"// SPDX-License-Identifier: MIT OR Apache-2.0\n// {MADE}.\n"
            "//! The static library's own symbols, as `include/linker_utils.h` declares them: what each of them\n"
            "//! requires of pointers and counts, and does, is said there. No pointer to a slice may be null.\n\n"
            f"pub use crate::{{\n{wrapped(', '.join(sorted(used)) + ',', 4)}}};\nuse std::ffi::c_char;\n{structs}\n"
            f"extern \"C\" {{\n{functions}}}\n")


def make_structs(names, kinds):
    text = f"// SPDX-License-Identifier: MIT OR Apache-2.0\n// {MADE}.\nlayout! {{\n"
    for kind in kinds:
        fields = wrapped(", ".join(field for field, _ in names.structs[kind]) + ",", 8)
        text += f'    "{names.in_c[kind]}": raw::{names.of_crate(kind)} {{\n{fields}    }}\n'
    return text + "}\n"


def make_types():
    text = """/* SPDX-License-Identifier: MIT OR Apache-2.0 */
/* The relocation types that the library has names for, by their names in the psABIs, and the names as
 * texts. No other header includes this file. <elf.h>, which has most of the constants, may be
 * included too, before it or after it.
 *
 * Made by tools/generate of the tables in crates/linker_elf/src and crates/linker_output/src. */
#ifndef LINKER_UTILS_TYPES_H
#define LINKER_UTILS_TYPES_H

#include <stdbool.h>
#include <stdint.h>
#include <string.h>

#include "linker_utils_lists.h"
"""
    cases, machines, most = "", [], 0
    for path in sorted((ROOT / "crates/linker_elf/src").glob("*/relocations.rt")):
        table, codes = path.read_text(), {}
        table += (ROOT / f"crates/linker_output/src/{path.parent.name}.rt").read_text()
        for code, name in re.findall(r'(?m)(?:^ +|named!\()(\d+),? "?(R_\w+)"?(?: \(|\))', table):
            if codes.setdefault(name, int(code)) != int(code):
                stop(f"{name} has two codes")
        if len(set(codes.values())) < len(codes):
            stop(f"two names of {path} have one code")
        text += "\n/* {} */\n".format(re.match(r"//! What the relocations of (.*) mean\.", table)[1])
        machines.append("LINKER_UTILS_" + path.parent.name.upper().replace("RISCV64", "RISCV"))
        cases += f"    case {machines[-1]}:\n        switch (r_type) {{\n"
        for name, code in sorted(codes.items(), key=lambda it: it[1]):
            text += f"#ifndef {name}\n#define {name} {code}\n#endif\n"
            cases += f'        case {name}: return "{name}";\n'
            most = max(most, code)
        cases += "        }\n        break;\n"
    kinds = re.findall(r"(?m)^    LINKER_UTILS_KIND_(\w+)", (ROOT / LISTS).read_text())
    return text + f"""
/* The name of a relocation type of a machine, as "R_X86_64_PC32". NULL where it has none. */
static inline const char *linker_utils_type_name(uint16_t machine, uint32_t r_type) {{
    switch (machine) {{
{cases}    }}
    return NULL;
}}

/* Whether a relocation type has this name. Then `machine` and `r_type` say which. */
static inline bool linker_utils_type_of_name(const char *name, uint16_t *machine, uint32_t *r_type) {{
    static const uint16_t machines[] = {{
{wrapped(", ".join(machines), 8)}    }};
    for (size_t i = 0; i < sizeof machines / sizeof *machines; i++) {{
        for (uint32_t type = 0; type <= {most}; type++) {{
            const char *found = linker_utils_type_name(machines[i], type);
            if (found && !strcmp(found, name)) {{
                *machine = machines[i];
                *r_type = type;
                return true;
            }}
        }}
    }}
    return false;
}}

/* The name of a formula, an `enum linker_utils_relocation_kind`, as "RELATIVE". NULL where it has none. */
static inline const char *linker_utils_kind_name(uint32_t kind) {{
    switch (kind) {{
{"".join(f'    case LINKER_UTILS_KIND_{kind}: return "{kind}";' + chr(10) for kind in kinds)}    }}
    return NULL;
}}

#endif
"""


def compared(text, found, library):
    """What the headers' text declares, compared with the exports and the library's structs."""
    (functions, structs), names = header(text), Names(library)
    return compare_functions(functions, structs, found, names), names, compare_structs(structs, names)


def make():
    listed, names, kinds = compared(headers(), exports(), library_structs())
    return {INLINE: make_inline(listed, names), RAW: make_raw(listed, names, kinds),
            STRUCTS: make_structs(names, kinds), TYPES: make_types()}
