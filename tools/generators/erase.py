# SPDX-License-Identifier: MIT OR Apache-2.0
"""`rust/` of `crates/`, the program `linkfix` too: ordinary Rust of the proved source.

Contracts and ghost items are removed, and what docs say of them; allocators and runtime handles are
dropped; calls that take memory become those of `rust/src/support.rs`, and `clone` is `try_clone`; a
static array of numbers becomes a constant; what only an assertion reads is computed in it, so not in
a release. Nothing else changes but for these additions: a `requires` becomes a section `# Requires`
in the docs and, by a function of the source that tests it, a `debug_assert!` that names the caller;
what only returns something is `#[must_use]`; items take what `rust/additions.txt` lists; what names an
architecture is compiled with its feature alone (`erase_features.py`). `cast_signed`
and `cast_unsigned`, which Rust has from 1.87 on, become `as`. What is not known here stops the tool with
file and line.
"""
import re
import sys
from collections import defaultdict
from pathlib import Path

from generators.erase_contracts import Contracts, state_requirements
from generators.erase_features import WITHOUT, gate
from generators.erase_links import link_docs
from generators.erase_source import Source

ROOT = Path(__file__).resolve().parents[2]
# How a file begins that is made of another.
MADE = "// SPDX-License-Identifier: MIT OR Apache-2.0\n// Made by tools/generate of "
# What hands on an allocator or the runtime: an argument, and a parameter.
HANDLE = re.compile(r"&?rt|alloc|(rt|alloc)\.alloc\(\)|\*?[\w.]+\.allocator\(\)")
PARAMETER = re.compile(r"alloc:Global|rt:(HostRuntime|&(impl)?[\w+]+)")
# Calls of the standard library that take one, and those of them that return an error in the source.
TAKING = {"BTreeMap::new", "Vec::new", "Vec::with_capacity", ".to_vec", ".to_str_lossy", ".into_owned", ".expect",
          ".expect_err", "read_section", "show_section"}
WITH_ALLOCATOR = {"with_capacity", "to_vec", "to_str_lossy", "into_owned"}
# Methods that return a `Result` in the source, and where it isn't tested, take memory silently in Rust.
GROWING = {"push", "insert", "reserve", "extend_from_slice"}
TESTS = {"and_then", "err", "expect", "expect_err", "is_err", "is_ok", "map", "ok", "or_else"}
# Further methods that take memory in Rust.
NOT_KNOWN = {"append", "collect", "concat", "extend", "extend_from_within", "insert_str", "join",
             "or_insert", "push_back", "push_front", "push_str", "repeat", "reserve_exact", "resize",
             "resize_with", "split_off", "to_owned", "to_string"}
# Attributes that may stand in the source, and those of them that go.
ATTRIBUTE = re.compile(r"#!?\[((?P<goes>cycle.*|derive\(Drop\)|macro_export|tactic.*|unsafe\(no_mangle\))|allow\(.*\)"
                       r"|cfg\(test\)|default|derive\(.*\)|inline(\((always|never)\))?|repr\(.*\)|test)\]")
# Imports that go, and what names need.
DROPPED = {"Abort", "AllocError", "AllocFailed", "Fail", "Global", "InlineText", "Model"}
IMPORTS = {r"Vec": "alloc::vec::Vec", r"String": "alloc::string::String",
           r"fallible_\w+|try_reserve|push_reserved|Alloc(Error|Failed)|InlineText|Fail": "crate::support::*"}
# What `rust/additions.txt` adds that isn't an attribute.
WORDS_ADDED = {"const", "pub(crate)"}
# In its place: the method takes `self` by reference.
BY_REFERENCE = "&self"
ADDITIONS = "rust/additions.txt"
# Paths of the source, and those here.
SHOWN_AS = {r"reading::recognise(?:::fields)?": "recognise", r"reading::\w+": "reading", r"section::\w+": "section",
            r"rewriting::\w+": "rewriting", r"output::placement": "placement", r"output::\w+": "output",
            r"runs::(?!shapes)\w+": "runs"}
# What docs call a module of the source, where they name no item of it.
MODULE = re.compile(r"`linker_(?:base::)?(output|reading|relaxation|rewriting|runs|section)(?:::\w+)?`")
# The files of `rust/head` that are a layer over functions of the source.
LAYERS = ["link", "recognise"]
# Types of a module and those below that have another name here: in the source two modules have it.
RENAMED = {"linker_output/src/placement": {"Group": "StubCounts"}}
# The folder of the exports, and what an export may pass by value. A pointer may also be to a struct
# with C's layout.
EXPORTS = "rust/exports/src"
NUMBERS = {"bool", "i64", "u8", "u16", "u32", "u64", "usize"}
# Words of the source that may not be left.
LEFT = {"Drop", "Global", "HostRuntime", "Model", "alloc", "allocator", "cast_signed", "cast_unsigned",
        "ensures", "extern", "final", "format", "ghost", "prove", "prove_eq", "prove_ne", "requires", "rt", "tactic", "vec"}


def remove_ghosts(source):
    """Ghost items and members, `Model` impls, clauses, and attributes of the prover."""
    for first, last in source.ghosts:
        source.cut_lines(first, last, comments=True)
    for it in source.functions:
        if it.clauses:
            source.replace(source.end(it.before - 1), source.start(it.body), " " * (source[it.body] == "{"))
    for at in source.places("#"):
        opening = at + 1 + (source[at + 1] == "!")
        close = source.close.get(opening, opening)
        known = ATTRIBUTE.fullmatch(source.joined(at, close + 1))
        if not known:
            source.stop(at, "an attribute that is not known here")
        if known["goes"]:
            source.cut_lines(at, close)
        elif source[opening + 1] == "derive":
            source.cut_elements(opening + 2, lambda name: name == "Drop")


def taken(source):
    """The functions of a file that take an allocator or the runtime, as they are called."""
    for it in source.functions:
        if any(PARAMETER.fullmatch(f"{name}:{kind}") for name, kind in it.parameters.items()):
            yield ("." if "self" in it.parameters else it.owner and it.owner + "::") + it.name


def is_tested(source, opening):
    """Whether a call's result is used as rustc allows for a `Result` alone."""
    is_matched = source.is_at(opening - 5, ") =") and source[opening - 7] == "("
    after = source.close[opening] + 1
    return (is_matched and source[opening - 8] in ("Ok", "Err") or source[opening - 4] == "match"
            or source[after] == "." and source[after + 1] in TESTS)


def rename_calls(source, taking):
    """Drops the allocators and the runtime that are handed on, and renames calls that take memory."""
    heads = {it.opening for it in source.functions}
    for opening in source.places("("):
        name, before, after = source[opening - 1], source[opening - 2], source.close[opening] + 1
        if opening in heads:
            source.cut_elements(opening, PARAMETER.fullmatch)
        if opening in heads or not re.match(r"\w", name):
            continue
        has_handle = source.cut_elements(opening, HANDLE.fullmatch)
        is_path = before == "::" and not source[opening - 3].islower()
        called = f".{name}" if before == "." else f"{source[opening - 3]}::{name}" if is_path else name
        if has_handle and called not in taking:
            source.stop(opening, f"`{name}` takes an allocator or the runtime, and is not known here")
        is_fallible = has_handle and name in WITH_ALLOCATOR
        if before in (".", "::") and name in GROWING:
            is_fallible = source[after] == "?" or source.is_at(after, ". map_err")
            if not (is_fallible or is_tested(source, opening)):
                source.stop(opening, f"`{name}` takes memory, and what it returns is not tested here")
        if is_fallible:
            fallible = "try_reserve" if name == "reserve" else f"fallible_{name}"
            source.replace_tokens(opening - 1, opening, fallible)


def rename_tokens(source, moved):
    """What is written otherwise in Rust, wherever it stands, and paths of std and the proved crates."""
    for at in source.places("let alloc = rt . alloc ( ) ;"):
        source.cut_lines(at, at + 8)
    for tokens, (first, past), new in [
        ("vec ! [ in rt . alloc ( ) ;", (0, 10), "try_vec!["), ("vec ! [ in alloc ;", (0, 6), "try_vec!["),
        ("! ( rt ;", (2, 4), ""), ("! ( & rt ;", (2, 5), ""), ('extern " fn', (0, 2), ""), (": Drop >", (0, 2), ""),
        # what a formatter writes to is a type parameter of the source
        ("< W : fmt :: Write > (", (0, 7), ""), ("Formatter < W >", (2, 3), "'_"),
        # a `clone` of the source returns an error where there is no memory
        ("fn clone (", (1, 2), "try_clone"), (". clone (", (1, 2), "try_clone"),
        # a constant's value is evaluated when the crate is built, in a release too
        ("const _ : ( ) = prove ! (", (6, 7), "assert"),
        *((f"prove{kind} ! (", (0, 1), f"debug_assert{kind}") for kind in ("", "_eq", "_ne")),
        *((f"{name} ::", (0, 1), path) for name, path in {"std": "core", **moved}.items()),
        # a crate that is re-exported as a module is that module here
        *((f"use {name} as {path.removeprefix('crate::')} ;", (0, 4), f"mod {path.removeprefix('crate::')}")
          for name, path in moved.items()),
    ]:
        for at in source.places(tokens):
            said = source.slice(at + 3, source.close.get(at + 2, 0))
            if new.startswith("debug") and re.search(r"[{?$]|[\w)\]]\s*(\(|!(?!=))|>\(", said):
                source.stop(at, f"`{source[at]}!` of more than numbers and places is not known here")
            if not (tokens.endswith(" ::") and source[at - 1] == "::"):
                blanks = re.compile(" *" if not new or source[at + past - 1] == ";" else "")
                end = blanks.match(source.text, source.end(at + past - 1)).end()
                source.replace(source.start(at + first), end, new)


def cast_signs(source, is_std):
    """`cast_unsigned` of an `i64` and `cast_signed` of a `u64`, in tests also by a reference."""
    opening = {close: at for at, close in source.close.items()}
    for name, kind in ("cast_unsigned", "u64"), ("cast_signed", "i64"):
        for at in source.places(f". {name} ( )"):
            first = opening.get(at - 1, at - 1)
            # from arguments or an index to what has it, and from that to what has it as a member
            while source[first - 1] in (".", "::") or source[first] in "([" and re.match(r"\w", source[first - 1]):
                first -= 1 + (source[first - 1] in (".", "::"))
                first = opening.get(first, first)
            is_operand = source[at + 4] in (".", "?", "<")
            before, after = (f"{kind}::from_le_bytes(", ".to_le_bytes())") if is_std else (
                "(" * is_operand, f" as {kind}" + ")" * is_operand)
            if before:
                source.replace(source.start(first), source.start(first), before)
            source.replace(source.end(at - 1), source.end(at + 3), after)


def refuse_chains(source):
    """A chain of `let`, which Rust has from 1.88 on, is not erased."""
    for word in "if let", "while let":
        for at in source.places(word):
            while source[at] != "{":
                if source.is_at(at, "& &"):
                    source.stop(at, "a chain of `let` needs Rust 1.88")
                at = source.close.get(at, at) + 1


def drop_imports(source):
    for at in source.places("use std ::"):
        last = source.past(at, ";")
        said = source.slice(at, last + 1)
        kept = re.sub(rf"(, )?\b({'|'.join(DROPPED)})\b", "", said).replace("{, ", "{")
        if kept != said:
            is_empty = kept.endswith(("::;", "::{};"))
            source.cut_lines(at, last, "" if is_empty else kept.replace("std::", "core::", 1) + "\n")


def add_imports(source, is_std):
    """What names need, before the file's first `use`, or else its first item."""
    items = [it for it in source.items if source.text[:source.start(it.first)][-1:] in ("", "\n")]
    uses = [it for it in items if it.word == "use" and source[it.head - 1] != ")"]
    for pattern, path in IMPORTS.items():
        is_used = any(re.fullmatch(pattern, token) and any(source[at - 1] != "::" for at in places)
                      for token, places in source.found.items())
        if is_used and not (is_std and path.startswith("alloc::")):
            before = source.text[:source.start((uses or items)[0].first)]
            start = re.search(r"(^ *///.*\n)*\Z", before, re.M).start()
            source.edits.append((start, start, f"use {path};\n"))


def additions(text):
    """What `rust/additions.txt` adds: to `NAME`, `TYPE::NAME`, `TYPE.FIELD`, `FUNCTION.PARAMETER`, the imports
    `CRATE::*`, or to one of these in one folder, as `FOLDER/NAME`."""
    added = defaultdict(list)
    for line in re.sub(r"#.*|\n +", " ", text).splitlines():
        for name in line.split()[1:]:
            added[name].append(line.split()[0].replace(",", ", ").replace("=", " = "))
    return added


def take_by_reference(source, it):
    """A method takes what it took by value by reference, and reads it there."""
    if source[it.opening + 1] != "self":
        source.stop(it.fn, f"`{it.name}` doesn't take `self`")
    for at in (at for at in source.places("self") if it.opening < at < source.close[it.body]):
        if source[at + 1] != "." or at == it.opening + 1:
            source.replace_tokens(at, at + 1, "&self" if at == it.opening + 1 else "*self")


def add(source, added, found):
    """Adds attributes to items, and words before a `fn` or a field."""
    for it in source.functions:
        if not it.trait and BY_REFERENCE in added.get(f"{it.owner}::{it.name}", ()):
            take_by_reference(source, it)
    places = [("::".join(filter(None, (it.owner, it.trait, it.name))), it.first, it.fn)
              for it in source.functions]
    for it in source.items:
        if it.word in ("enum", "mod", "struct", "trait", "use"):
            places.append((it.name + "::*" * (it.word == "use"), it.first, it.head))
        if it.word == "struct" and source[brace := source.past(it.head, "; {")] == "{":
            places += [(f"{it.name}.{source[at]}", at, at) for at, _ in source.list_of(brace, True)]
    places += [(f"{Path(source.path).parent.name}/{name}", first, at) for name, first, at in places]
    for name, first, at in (place for place in places if place[0] in added):
        found.add(name)
        start, place = source.start(first), source.start(at)
        indent = "\n" + source.text[:start].rpartition("\n")[2]
        derive = next((i for i in range(first, at) if source.is_at(i, "derive (")), 0)
        for word in added[name]:
            if WITHOUT.fullmatch(word) or word == BY_REFERENCE:
                continue
            if word in WORDS_ADDED:
                source.replace(place, place, word + " ")
            elif derive and word.startswith("derive("):
                end = source.start(source.close[derive + 1])
                source.replace(end, end, ", " + word[len("derive("):-1])
            else:
                source.replace(start, start, f"#[{word}]{indent}")


def make_constants(text):
    """An array of numbers becomes a constant: a caller's crate knows its numbers, and none of a static.
    Rust writes it to no stack. So do tables of choices. A row of rewrites is one by reference."""
    text = text.replace(", and a constant would be written to the stack at each\n/// use.", ".")
    text = re.sub(r"(?m)^static (\w+): (\[u64; \d+\]|\[Table<\w+>; \d+\]) =(\s+)", r"const \1: &\2 =\3&", text)
    text = re.sub(r"(?m)^static (?=\w+: (&\[)?Table\b)", "const ", text)
    return re.sub(r"(let \$row = )(?=\$crate::rewrite_rows::\$part!)", r"\1&", text)


def move_into_assertions(text):
    """A value that only the assertion behind it reads is computed there: a release computes neither."""
    def moved(found):
        indent, name, value, test = found.groups()
        rest = text[found.end():]
        is_read = re.search(rf"\b{name}\b", rest[:rest.find("\n}")])
        test, count = re.subn(rf"\b{name}\b", lambda _: value, test)
        return found[0] if is_read or count != 1 else f"{indent}debug_assert!({test});\n"
    return re.sub(r"(?m)^( *)let (\w+) = ([\w.:()]+);\n\1debug_assert!\((.*)\);\n", moved, text)


def erase(source, contracts, moved, is_std, taking, added, found):
    """The text of a file as ordinary Rust."""
    if contracts:
        state_requirements(source, contracts)
    remove_ghosts(source)
    rename_calls(source, TAKING | taking)
    drop_imports(source)
    rename_tokens(source, moved)
    cast_signs(source, is_std)
    refuse_chains(source)
    for at, token in enumerate(source.tokens):
        is_method = source[at - 1] in (".", "::") and (
            token in NOT_KNOWN or token in GROWING and source[at + 1] != "(")
        if at not in source.gone and (token in LEFT or not token.isascii() or is_method):
            source.stop(at, f"`{token}` is not known here")
    for then, *more in (add_imports, is_std), (add, added, found):
        source = Source(source.path, source.erased()) if source.edits else source
        then(source, *more)
    text = move_into_assertions(make_constants(source.erased()))
    text = re.sub(r"(\n *///)? Contracts see [^.]*\.", "", text)
    # the library's macros are none of its interface
    for name in re.findall(r"(?m)^macro_rules! (\w+)", text):
        text = re.sub(rf"(?m)^pub (?=use {name};)", "pub(crate) ", text)
    # an addition that inlines takes the place of the source's
    text = re.sub(r"(#\[(?:cfg_attr\(.*, inline\(always\)\)|inline(?:\(always\))?)\]\n(?: *#\[.*\]\n)*?)"
                  r" *#\[inline(?:\(always\))?\]\n",
                  r"\1", text)
    # in docs, and in `use` of exports: a module here has the items of all of these there
    for there, here in SHOWN_AS.items():
        text = re.sub(rf"(?m)^( *//[/!].*)\blinker_{there}::", rf"\1linker_utils::{here}::", text)
        text = re.sub(rf"(?m)^(use linker_utils::source::){there}::", rf"\1{here}::", text)
    text = re.sub(r"(?m)^ *//[/!].*", lambda line: MODULE.sub(r"`\1`", line[0]), text)
    text = re.sub(r"(\{\n|\n\n|\A)\n+", r"\1", text)
    return re.sub(r"\n+(\n *\})", r"\1", text)


def add_pages(text, folder, found):
    """Ends the docs of functions by the texts in a folder: `FUNCTION.md`, and before it `FUNCTION.*.md`.
    That of a module is for the functions of each module with its name."""
    for page in sorted(folder.glob("*.md")):
        include = f'#[doc = include_str!("../../doc/{folder.name}/{page.name}")]\n'
        name = page.name.partition(".")[0]
        text, count = re.subn(rf"(?m)^(?=pub (const )?fn {name}\()", lambda _: include, text)
        found += [page] * count
    return text


def without_texts(text, library):
    """A text whose readers are those of a library that allocate nothing."""
    return re.sub(r"\butils::(?=read_u32\(|read_uleb128\()", f"{library}::readers::", text)


def erase_exports(text):
    """A file of exports: its modules are public, and its readers allocate nothing."""
    text = re.sub(r"(?m)^mod ", "pub mod ", text)
    return without_texts(text, "linker_utils")


def make_readers(utils):
    """The readers of numbers with a typed error, of those with a text."""
    text = MADE + "crates/linker_base/src/utils.rt.\n"
    text += (ROOT / "rust/head/readers.rs").read_text()
    for name in ("read_u32", "read_uleb128"):
        found = re.search(rf"(///.*\n)+#\[cfg\(feature = \"readers\"\)\]\n((?!///).*\n)*?pub fn {name}\("
                          r"(?s:.*?)\n\}\n", utils)
        reader = found[0].replace('#[cfg(feature = "readers")]\n', "").replace("::utils::", "::readers::")
        text += "\n" + re.sub(r"-> Result<(\w+)>", r"-> Result<\1, ReadError>", reader)
    return text


def make_layer(name, made):
    """A file of `rust/head` whose functions are inlined over those of the source. In place of a line
    `//= PATH: WAS = IS, ..` stand the docs of what has this path, with other names of parameters and without
    its example: a function, or `TYPE.MEMBER`. The docs of a function move there, and leave the example, which is
    still tested."""
    def documented(found):
        indent, path, renames, more = found.groups()
        *module, item = path.split("::")
        file = f"rust/src/{'/'.join(module)}.rs"
        of, _, member = item.rpartition(".")
        body = re.search(rf"(?m)^pub (?:struct|enum) {of} \{{\n(?s:.*?)^\}}", made[file])[0] if of else made[file]
        docs = re.search(rf"(?m)((?:^ *///.*\n)+)(?:^ *#\[.*\]\n)*^ *(?:pub )?(?:fn )?{member or item}[:(<]", body)[1]
        if not of:
            examples = "".join(re.findall(r"///\n/// ```\n(?:///.*\n)*?/// ```\n", docs))
            examples = re.sub(r"linker_utils::(?=(?:recognise|rewriting|runs|section)::)", "linker_utils::source::", examples)
            made[file] = made[file].replace(
                docs, f"/// `crate::{name}::{item}`, with more parameters.\n{examples}", 1)
        text = re.sub(r"(?m)^ *", "", re.sub(r" *///\n */// ```\n(?: *///.*\n)*? */// ```\n", "", docs))
        for was, new in (each.split(" = ") for each in (renames or "").split(", ") if each):
            text = re.sub(r"`[^`\n]*`", lambda span: re.sub(rf"(?<![\w.:]){was}(?!\w|\()", new, span[0]), text)
        text, mark, requires = text.partition("///\n/// # Requires\n")
        made_of = text + re.sub(r"(?m)^ *", "", more) + mark + requires
        return re.sub(r"(?m)^", indent, made_of.rstrip("\n")) + "\n"

    text = (ROOT / f"rust/head/{name}.rs").read_text()
    text = re.sub(r"(?m)^( *)//= ([\w:.]+)(?:: (.*))?\n((?: *///.*\n)*)", documented, text)
    return f"{MADE}rust/head/{name}.rs.\n{text}"


def make_heads(made):
    """The exports as C calls them, of the heads of the exporting functions: a slice is a pointer and
    a length, and a reference is a pointer."""
    structs = set(re.findall(r"#\[repr\(C\)\]\n(?:#\[.*\]\n)*pub struct (\w+)", "".join(made.values())))
    heads, imports = "", {}

    def lines(elements, indent):
        return "".join(f"{' ' * indent}{it},\n" for it in elements)

    def named(kind, source, at, is_pointed=False):
        if is_pointed and kind in structs:
            used = re.search(rf"(?m)^use ([\w:]+::)(?:\{{[^}}]*\b{kind}\b[^}}]*\}}|{kind});", source.text)
            path = used[1] if used else f"crate::{source.path.stem}::"
            if imports.setdefault(kind, path) != path:
                source.stop(at, f"a second type `{kind}`")
        elif kind not in NUMBERS:
            source.stop(at, f"the type `{kind}` is not known here in the head of an export")
        return kind

    for path in sorted((ROOT / "crates/linker_utils_c/src").rglob("*.rt")):
        exported = re.findall(r'(?m)^pub extern "C" fn (\w+)', path.read_text())
        name = f"{EXPORTS}/{path.stem}.rs"
        if not exported:
            continue
        source = Source(Path(name), made[name])
        functions = {it.name: it for it in source.functions if not it.owner}
        for function in (functions[name] for name in exported):
            parameters, passed = [], []
            for word, kind in function.parameters.items():
                mutable = kind.startswith("&mut")
                pointed, pointer = kind.removeprefix("&").removeprefix("mut"), "*mut" if mutable else "*const"
                if kind[0] != "&":
                    parameters.append(f"{word}: {named(kind, source, function.fn)}")
                    passed.append(word)
                elif pointed[0] == "[":
                    parameters.append(f"{word}: {pointer} {named(pointed[1:-1], source, function.fn, True)}")
                    parameters.append(f"{word}_len: usize")
                    passed.append(f"from_raw_parts{'_mut' * mutable}({word}, {word}_len)")
                else:
                    parameters.append(f"{word}: {pointer} {named(pointed, source, function.fn, True)}")
                    passed.append(f"&{'mut ' * mutable}*{word}")
            arrow = f" -> {named(function.result, source, function.fn)}" if function.result else ""
            head = f'extern "C" fn {function.name}(\n' + lines(parameters, 4) + f"){arrow} {{\n"
            call = f"crate::{path.stem}::{function.name}(\n"
            heads += "\n#[unsafe(no_mangle)]\n"
            if passed == list(function.parameters):
                heads += f"{head}    {call}{lines(passed, 8)}    )\n}}\n"
            else:
                heads += f"unsafe {head}    // SAFETY: the arguments are as the head of the header says.\n"
                heads += f"    unsafe {{\n        {call}{lines(passed, 12)}        )\n    }}\n}}\n"
    uses = "".join(sorted(f"use {path}{kind};\n" for kind, path in imports.items()))
    return (MADE + "the heads of the exports in crates/linker_utils_c/src.\n"
            "//! The exports as C calls them: a slice is a pointer and a length, a reference a pointer.\n"
            "#![allow(unsafe_code, reason = \"the pointers are the caller's\")]\n\n"
            + uses + "use core::slice::{from_raw_parts, from_raw_parts_mut};\n" + heads)


# What the program has of the runtime, and what it is here.
RUNTIME = {r"(struct \w+ \{\n) +alloc: Global,\n": r"\1", r"(?m)^ {8}alloc,\n": "",
           r"\bself\.alloc\b": "alloc", r" \+ Drop\b": "", r"\bfn (insert|to_vec)\(": r"fn fallible_\1(",
           # there is room
           r"\bcalls\.push\((.*)\)\?;": r"calls.push_reserved(\1);",
           r"\bformat!\(in alloc; ": "try_format!(", r"\brt\.std(in|out)\(": r"std::io::std\1("}
# Laws alone, which do nothing here; and of the program what is written by hand, and its tests.
LEFT_OUT = {"linkfix/src/sections.rt", "linkfix/src/tests.rt", "linker_output/src/laws.rt",
            "linker_rewriting/src/laws.rt", "linker_runs/src/laws.rt"}
ARCHITECTURES = ["aarch64", "loongarch64", "ppc64", "riscv64", "x86_64"]
# The crates of the library that are a module here, and paths of crates here.
MODULES = [f"linker_{name}" for name in ("base", "elf", "riscv64", "runs", "reading", "section", "rewriting", "output")]
PATHS = {crate: f"crate::{crate}" for crate in MODULES} | {"linker_utils": "crate"}
# Each crate of the source: its folder and root here, and its paths that move. What its root begins with
# stands in `rust/head`.
TARGETS = [
    *((crate, f"rust/src/{crate}", f"rust/src/{crate}.rs", PATHS | {"crate": f"crate::{crate}"})
      for crate in MODULES),
    ("linker_utils", "rust/src", "rust/src/lib.rs", PATHS),
    ("vectors", "rust/vectors/src", "rust/vectors/src/lib.rs", {}),
    ("linkfix", "rust/linkfix/src", "rust/linkfix/src/main.rs", {"std": "std"}),
    ("linker_utils_c", EXPORTS, f"{EXPORTS}/lib.rs",
     {f"linker_{name}": f"linker_utils::source::{name}"
      for name in ("runs", "reading", "section", "rewriting", "output")}),
]


def name_of(source, folder, root):
    """The file that is made of one of the source."""
    module = "/".join(source.path.parts[3:]).removesuffix(".rt")
    return root if module in ("lib", "main") else f"{folder}/{module}.rs"


def read(path):
    """A text without the calls of functions that only have laws and do nothing, and the program's
    without its runtime."""
    text = re.sub(r"(?m)^ *linker_laws::\w+::\w+\(\);\n", "", path.read_text())
    for pattern, new in RUNTIME.items() if path.parts[-3] == "linkfix" else ():
        text = re.sub(pattern, new, text)
    return text


def make():
    """The text of each file of `rust/` that is made."""
    sources = {crate: [Source(path.relative_to(ROOT), read(path))
                       for path in sorted((ROOT / "crates" / crate / "src").rglob("*.rt"))
                       if path.relative_to(ROOT / "crates").as_posix() not in LEFT_OUT]
               for crate, *_ in TARGETS}
    contracts = Contracts([source for crate, *_ in TARGETS for source in sources[crate]
                           if crate not in ("linkfix", "vectors", "linker_utils_c")])
    taking = {name for listed in sources.values() for source in listed for name in taken(source)}
    names = {name_of(source, folder, root) for crate, folder, root, _ in TARGETS for source in sources[crate]}
    added, found, made = additions((ROOT / ADDITIONS).read_text()), set(), {}
    pages = []
    for crate, folder, root, moved in TARGETS:
        is_library = folder.startswith("rust/src")
        for source in sources[crate]:
            erased = erase(source, contracts if is_library else None, moved, crate in ("linkfix", "vectors"), taking,
                           added if is_library else {}, found)
            for module, types in RENAMED.items():
                if source.path.as_posix().startswith(f"crates/{module}"):
                    for was, new in types.items():
                        erased = re.sub(rf"\b{was}\b", new, erased)
            if folder == EXPORTS:
                erased = erase_exports(erased)
            if crate in ("linker_elf", "linker_section"):
                erased = without_texts(erased, "crate")
            name = name_of(source, folder, root)
            if name == root:
                for it in LEFT_OUT:
                    if it.startswith(f"{crate}/"):
                        is_there = (ROOT / folder / f"{Path(it).stem}.rs").exists()
                        erased = erased if is_there else re.sub(
                            rf"(#\[.*\]\n)*(pub )?mod {Path(it).stem};\n", "", erased)
            if is_library and name != root:
                above = Path(name).parent if crate == "linker_utils" else Path(root)
                for of in (Path(name).stem, above.stem):
                    erased = add_pages(erased, ROOT / "rust/doc" / of, pages)
            docs = re.match(r"(//!.*\n)*", erased)[0]
            module = Path(root).stem if name == root else name.removeprefix(folder + "/").removesuffix(".rs")
            head, page = ROOT / f"rust/head/{crate}.rs", ROOT / f"rust/doc/{module}.md"
            begin = "\n" + head.read_text() if name == root and head.exists() else ""
            # a private module may have the name of a public one
            is_shown = name == f"rust/src/{module}.rs" or f"rust/src/{module}.rs" not in names
            if is_library and is_shown and page.exists():
                # without a line of its own rustdoc drops the blank one that the page begins with
                up = "../" * (name.count("/") - 1)
                begin = f'//!\n#![doc = include_str!("{up}doc/{module}.md")]\n' + begin
            made[name] = f"{MADE}{source.path}.\n" + docs + begin + erased[len(docs):]
    for name in added.keys() - found:
        sys.exit(f"{ADDITIONS}: there is no `{name}`")
    for page in (ROOT / "rust/doc").glob("*/*.md"):
        # the choices of each architecture share a folder
        if not pages.count(page) or pages.count(page) > 1 and page.parent.name != "choices":
            sys.exit(f"{page}: {pages.count(page)} functions have this name")
    made |= {f"rust/src/{name}.rs": make_layer(name, made) for name in LAYERS}
    made |= gate({name: text for name, text in made.items() if name.startswith("rust/src/")},
                 lambda name, text: Source(Path(name), text), added)
    made["rust/src/readers.rs"] = make_readers(made["rust/src/linker_base/utils.rs"])
    made[f"{EXPORTS}/exported.rs"] = make_heads(made)
    made |= link_docs({name: text for name, text in made.items() if name.startswith("rust/src/")},
                      {name for name, words in added.items() if "doc(hidden)" in words},
                      [f"rust/src/{name}.rs" for name in LAYERS])
    return made


def no_longer_made(made):
    """The files that were made, and of which the source is gone."""
    for path in (path for *_, folder, _, _ in TARGETS for path in (ROOT / folder).rglob("*.rs")):
        name = str(path.relative_to(ROOT))
        if name not in made and path.read_text().startswith(MADE):
            yield name
