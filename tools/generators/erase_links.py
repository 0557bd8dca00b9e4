# SPDX-License-Identifier: MIT OR Apache-2.0
"""Links in the docs of public items: a name of the crate's interface that is of one item, and of no member or
parameter of another, is a link to where users find it, and so is a member of it."""
import re
from collections import defaultdict

ITEM = r"(?m)^pub (?:const )?(struct|enum|trait|fn|const) (\w+)"
# a `pub use` of one name or of several
USE = re.compile(r"(?m)^ *pub use ((?:\w+::)+)(\{[^}]*\}|\w+);")
MODULE = re.compile(r"(?ms)^pub mod (\w+) \{\n(.*?)^\}")
# docs, with the attributes and the first word of what they are of; and those of a file
DOCS = re.compile(r"(?m)^(?:(?: *///.*\n)+(?= *(?:#.*\n *)*(?:pub (?!\()|[A-Z]\w*(?:[,({ ]|$)|fn ))|(?://!.*\n)+)")
SPAN = re.compile(r"(?<![`\[\w])`(\w+)(?:::(\w+))?(\(\))?`(?![`\]])")


def found_by_users(texts, hidden, layers):
    """The path of each item that users have, with `()` after a function; of an item with several the first.
    What is in a layer is for users, and not what it is over."""
    kinds, paths = defaultdict(list), {}
    of_layers = {name: [kind] for layer in layers for kind, name in re.findall(ITEM, texts[layer])}
    for text in texts.values():
        for kind, name in re.findall(ITEM, text):
            kinds[name].append(kind)
    kinds |= of_layers

    def add(module, text):
        listed = [name for _, names in USE.findall(text) for name in re.findall(r"\w+", names)]
        for name in [*listed, *(name for _, name in re.findall(ITEM, text))]:
            if len(kinds[name]) == 1 and name not in hidden:
                paths.setdefault(name, f"crate::{module}::{name}" + "()" * (kinds[name] == ["fn"]))

    lib = texts["rust/src/lib.rs"]
    for module, text in MODULE.findall(lib):
        if module not in ("source", "link_in_ten_calls"):
            add(module, text)
    for module in re.findall(r"(?m)^pub mod (\w+);", lib):
        if f"rust/src/{module}.rs" in texts:
            add(module, MODULE.sub("", texts[f"rust/src/{module}.rs"]))
    for module in re.findall(r"\w+", re.search(r"pub use crate::linker_base::\{(.*?)\}", lib)[1]):
        add(module, texts[f"rust/src/linker_base/{module}.rs"])
    return paths


def members(texts):
    """The public members of types: fields, variants, and functions."""
    found = defaultdict(set)
    for text in texts.values():
        for name, body in re.findall(r"(?ms)^pub (?:struct|enum|trait) (\w+)[^;{]*\{\n(.*?)^\}", text):
            found[name] |= set(re.findall(r"(?m)^    (?:pub |fn )?([A-Za-z]\w*)(?=[:,({ ])", body))
        for name, body in re.findall(r"(?ms)^impl(?:<[^>]*>)? (\w+)(?:<[^>]*>)? \{\n(.*?)^\}", text):
            found[name] |= set(re.findall(r"(?m)^    pub (?:const )?fn (\w+)", body))
    return found


def link_docs(texts, hidden, layers):
    """The texts of files, with the links."""
    of_type = members(texts)
    others = set().union(*of_type.values(), *(re.findall(r"[(,]\s*(\w+): ", text) for text in texts.values()))
    paths = found_by_users(texts, hidden, layers)

    def linked(span):
        name, member, call = span.groups()
        path = paths.get(name)
        is_other = member not in of_type[name] if member else name in others
        if not path or is_other or f"{name}::{member}" in hidden:
            return span[0]
        return f"[{span[0]}]({path}{f'::{member}' if member else ''})"

    def of_docs(docs):
        is_text, lines = True, docs[0].split("\n")
        for at, line in enumerate(lines):
            is_fence = re.match(r" *//[/!] ```", line)
            is_text ^= bool(is_fence)
            if is_text and not is_fence and not re.match(r" *//[/!] +#+ ", line):
                lines[at] = SPAN.sub(linked, line)
        return "\n".join(lines)

    return {name: DOCS.sub(of_docs, text) for name, text in texts.items()}
