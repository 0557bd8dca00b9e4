# SPDX-License-Identifier: MIT OR Apache-2.0
"""Copies of the front page, docs/MANUAL.md: in rust/doc/lib.md its sections with the examples in Rust,
between two lines of marks. Copies of a function of two examples in docs/LINK.md, and of what is of Rust
there in rust/doc/link_in_ten_calls.md.
"""
import re
import sys
from pathlib import Path

ROOT = Path(__file__).resolve().parents[2]
RUST, BEGIN, END = "rust/doc/lib.md", "<!-- of docs/MANUAL.md, by tools/generate -->", "<!-- end -->"
PART = re.compile(r"(.*?)\n\n(.*?)```rust\n(.*?)```\n\n(?:[^`].*?\n\n)?```c\n(.*?)```\n", re.S)
MOST = 8  # lines of an example
PAGE, RUST_PAGE = "docs/LINK.md", "rust/doc/link_in_ten_calls.md"
# by the language of a block of the page: the file, and how the line with its function begins
FUNCTIONS = {"rust": ("rust/examples/link_in_ten_calls.rs", "fn link("),
             "c": ("bindings/c/linking.c", "static int link_section(")}


def parts():
    sections = (ROOT / "docs/MANUAL.md").read_text().split("\n## ")[1:]
    found = [PART.fullmatch(section.rstrip("\n") + "\n") for section in sections]
    if not all(found):
        sys.exit("docs/MANUAL.md: each section has a text, an example in Rust, perhaps a text on C, and then an example in C")
    found = [match.groups() for match in found]
    for title, _, rust, c in found:
        for example in (rust, c):
            if example.count("\n") > MOST or max(map(len, example.split("\n"))) > 93 + 7 * (example is rust):
                sys.exit(f"docs/MANUAL.md: an example of {title} has more than {MOST} lines, or a line of more "
                         "than 93 columns")
    return found


def in_rust(found):
    """The sections, with those lines hidden in an example that stand in the ones before it."""
    before = ""
    for title, text, rust, _ in found:
        yield f"## {title}\n\n{text}```\n{before}{rust}```\n"
        before += "".join(f"# {line}\n" for line in rust.split("\n") if line)


def program():
    """The examples in C as one program."""
    body = "\n".join(c for _, _, _, c in parts())
    includes = "".join(f"#include <{name}>\n" for name in ("assert.h", "elf.h", "linker_utils.h"))
    return f"{includes}\nint main(void) {{\n{body}    return 0;\n}}\n"


def function(name, head):
    """A function of a file, with the comment before it."""
    lines = (ROOT / name).read_text().split("\n")
    at = next(n for n, line in enumerate(lines) if line.startswith(head))
    end = lines.index("}", at)
    while lines[at - 1]:
        at -= 1
    return "\n".join(lines[at:end + 1])


def page():
    """The page with the functions in its blocks."""
    text = (ROOT / PAGE).read_text()
    for language, (name, head) in FUNCTIONS.items():
        before, begin, rest = text.partition(f"```{language}\n")
        _, end, after = rest.partition("```\n")
        if not end:
            sys.exit(f"{PAGE} has no block of {language}")
        text = f"{before}{begin}{function(name, head)}\n{end}{after}"
    return text


def rust_page(text):
    """What is of Rust on the page, where each name of a call is a link: rustdoc fails at one that isn't
    a call. The lines of the program that the function needs are hidden."""
    text = text.partition("\n## Programs\n")[0].partition("\n\n")[2]
    text = re.sub(r"(?m)^(\|.*\|)[^|]*\|$", r"\1", text)
    name, head = FUNCTIONS["rust"]
    program = function(name, head)
    needed = (ROOT / name).read_text().partition(program)[0]
    hidden = "".join(f"# {line}\n" for line in needed.split("\n") if line and not line.startswith("//"))
    linked = re.sub(r"`[^`]+`", r"[\g<0>]", text)
    return f"{linked}\n```\n{hidden}{program}\n```\n"


def make():
    before, _, rest = (ROOT / RUST).read_text().partition(BEGIN + "\n")
    _, is_there, after = rest.partition(END + "\n")
    if not is_there:
        sys.exit(f"{RUST} lacks the lines of tools/generate")
    text = "\n" + "\n".join(in_rust(parts())) + "\n"
    return {RUST: f"{before}{BEGIN}\n{text}{END}\n{after}", PAGE: page(), RUST_PAGE: rust_page(page())}
