# SPDX-License-Identifier: MIT OR Apache-2.0
"""docs/DEFINITIONS.md: the definitions that contracts of public functions cite, by crate and by file of
its specs/, with the comments that stand there above them. With --check a difference between the files and
those that docs/PROOFS.md lists is an error too.

A definition is listed under the heading (`-- ---- TEXT`) that it stands below, first those without a
comment of their own. The definitions of `Inner` are left out, since no public contract cites them, and so are the
definitions that only `linker_final::emulated` cites.
"""
import re
import sys
import textwrap
from pathlib import Path

ROOT = Path(__file__).resolve().parents[2]
PAGE, PROOFS = "docs/DEFINITIONS.md", ROOT / "docs/PROOFS.md"
ARCHITECTURES = ["AArch64", "RiscV", "LoongArch", "Ppc64", "X86"]
IMPORT = re.compile(r"ghost use Rattle\.(\w+)\.specs\.([\w.]+)\.\{([^}]*)\}")
WHOLE_FILE = re.compile(r"ghost use Rattle\.(\w+)\.specs\.([\w.]+) as (\w+);")
FUNCTION = re.compile(r"\s*(pub )?(?:const )?(?:extern \"C\" )?fn \w")
DEFINITION = re.compile(r"(?:abbrev pub|pub record|pub data|data pub|pub|record pub) ([^\s:({]+)")
HEAD = """\
# Definitions

The definitions that the contracts of public functions cite, by the crate and the file of `specs/`
that has them. `tools/generate` makes this page of the comments there, and `tools/quick`
compares. All numbers are whole numbers, and a `u64` is one from 0 to 2^64 - 1. Lists of bytes and
words are little-endian, and bits are counted from the lowest. `ARCH` stands for an architecture, as
in `aarch64_row`. `docs/PROOFS.md` says what is proved with these definitions.
"""


def cited(source, names):
    """Those of the names that a contract of a public function or of a trait's function names."""
    found, is_trait, lines = set(), False, iter(source.split("\n"))
    for line in lines:
        if re.match(r"(pub )?(trait|impl)\b", line):
            is_trait = line.startswith(("pub trait", "trait"))
        ghost = is_trait and re.match(r"\s+ghost \w+: (.*)", line)
        if ghost:
            found |= names & set(re.findall(r"[\w_']+", ghost[1]))
        head = FUNCTION.match(line)
        if not head or not (head[1] or is_trait):
            continue
        indent, text = line[: len(line) - len(line.lstrip())], line
        while not (line == indent + "{" or line.endswith((";", " {"))):
            line = next(lines, ";")
            text += "\n" + line
        for clause in re.split(r"\b(?:ensures|requires)\b", text)[1:]:
            found |= names & set(re.findall(r"[\w_']+", clause))
    return found


def comment_above(lines, at):
    text = []
    while at and lines[at - 1].startswith("--") and not lines[at - 1].startswith("-- ----"):
        at -= 1
        text.insert(0, lines[at][2:].strip())
    return " ".join(text)


def sentence(text):
    """A comment as a sentence of the page."""
    if "`" not in text:
        text = re.sub(r"(?<!\w)(\w+_\w+)(?!\w)", r"`\1`", text)
    return text.replace("*", "\\*").rstrip(".:") + "."


def fields(lines, at):
    """The fields of the record that begins there, with their comments."""
    found = []
    for at in range(at + 1, len(lines)):
        if lines[at] and not lines[at].startswith(" "):
            break
        field = re.match(r"  pub (\w+) :", lines[at])
        above = at
        while field and lines[above - 1].startswith("  --"):
            above -= 1
        text = " ".join(line.strip()[2:].strip() for line in lines[above:at]) if field else ""
        if text:
            found.append(f"`{field[1]}`: {text.rstrip('.')}")
    return f" Its fields: {'; '.join(found)}." if found else ""


def definitions(path):
    """What the file is about, and by heading the names that it defines with their comments."""
    lines = path.read_text().split("\n")
    about, groups, at = [], [("", [])], 0
    while lines[at].startswith("--") and not lines[at].startswith("-- ----"):
        about.append(lines[at][2:].strip())
        at += 1
    for at in range(at, len(lines)):
        if lines[at].startswith("-- ---- "):
            text = lines[at][8:].strip()
            below = at + 1
            while lines[below].startswith("-- ") and lines[below - 1].startswith("--") and lines[below] != "--":
                text += " " + lines[below][2:].strip()
                below += 1
            groups.append((text, []))
        defined = DEFINITION.match(lines[at])
        if defined and not lines[at].startswith("pub mod"):
            text, of_fields = comment_above(lines, at), ""
            if "record" in lines[at]:
                of_fields = fields(lines, at)
            groups[-1][1].append((defined[1], text, of_fields))
    return " ".join(about), groups


def page():
    yield HEAD.rstrip()
    crates = [line.split(":")[0].split()[0] for line in (ROOT / "crates.txt").read_text().split("\n") if line]
    uses = {}
    for source in sorted(ROOT.glob("crates/*/src/**/*.rt")):
        if "emulated" in (source.stem, source.parent.name):
            continue
        text = source.read_text()
        imports = [(crate, module, {name.split(" as ")[0].strip() for name in names.split(",")})
                   for crate, module, names in IMPORT.findall(text)]
        imports += [(crate, module, set(re.findall(rf"\b{alias}\.(\w+)", text)))
                    for crate, module, alias in WHOLE_FILE.findall(text)]
        for crate, module, names in imports:
            if "declared" in module or "contracts" in module or module.startswith("Inner"):
                continue
            uses.setdefault((crate, module), set()).update(cited(text, names))
    for crate in crates:
        files = sorted(module for of, module in uses if of == crate and uses[of, module])
        files = [module for module in files if (ROOT / f"crates/{crate}/specs/{module}.antt").exists()]
        if not files:
            continue
        yield f"\n## `{crate}`\n"
        for module in files:
            about, groups = definitions(ROOT / f"crates/{crate}/specs/{module}.antt")
            first = f"**{module}.** {sentence(about)}" if about else f"**{module}.**"
            parts = []
            for heading, defined in groups:
                listed = [it for it in defined if it[0] in uses[crate, module]]
                bare = ", ".join(f"`{name}`" for name, text, _ in listed if not text)
                if listed and heading:
                    text = sentence(heading)[:-1]
                    parts.append((1, f"{text[0].upper()}{text[1:]}:" + (f" {bare}." if bare else "")))
                elif bare:
                    first += f" Here: {bare}."
                parts += [(2 if heading else 1, f"`{name}`: {sentence(text)}{of_fields}")
                          for name, text, of_fields in listed if text]
            for depth, part in [(0, first), *parts]:
                yield "\n".join(textwrap.wrap(f"{'  ' * depth}- {part}", 100, subsequent_indent="  " * (depth + 1),
                                              break_long_words=False, break_on_hyphens=False))


def trusted():
    """The files that docs/PROOFS.md lists as trusted, by crate, and the names behind the table."""
    listed, behind = {}, set()
    for line in PROOFS.read_text().partition("| Crate | Trusted definitions")[2].split("\n")[2:]:
        row = re.match(r"\| `(\w+)` \| (.*) \|$", line)
        if not row:
            behind |= set(re.findall(r"`(\w+)`", line))
            continue
        names = re.findall(r"`(\w+)`", row[2])
        listed[row[1]] = {of + name[4:] for name in names if name.startswith("ARCH") for of in ARCHITECTURES}
        listed[row[1]] |= {name for name in names if not name.startswith("ARCH")}
    return listed, behind


def check(made):
    """An error where a file of the page isn't among the trusted ones, or one of these isn't there."""
    listed, behind = trusted()
    crate = ""
    for line in made[PAGE].split("\n"):
        of = re.match(r"## `(\w+)`|- \*\*(\w+)\.\*\*", line)
        crate = of[1] if of and of[1] else crate
        if of and of[2] and of[2] not in listed[crate] | behind:
            sys.exit(f"docs/PROOFS.md doesn't list {of[2]} of {crate} as trusted, which public contracts cite")
    for crate, names in listed.items():
        files = {file.stem for file in ROOT.glob(f"crates/{crate}/specs/*.antt")}
        # modules whose files are listed after them
        gone = names - files - {file.stem for file in ROOT.glob(f"crates/{crate}/src/*.rt")}
        if gone:
            sys.exit(f"docs/PROOFS.md lists {', '.join(sorted(gone))} of {crate}, which has no such file in specs/")


def make():
    return {PAGE: "\n".join(page()) + "\n"}
