# SPDX-License-Identifier: MIT OR Apache-2.0
"""`rust/interface.txt`: the public interface of the crate in `rust/`, a line an item. A struct with `{ .. }`
has private fields, and a `required` item of a trait has no default.

rustdoc writes the items as JSON. Its form isn't stable: a form that isn't known here is an error, with
which nothing is compared or written. A function with more than MOST_PARAMETERS is an error too.
"""
import json
import os
import subprocess
import sys
from pathlib import Path

ROOT = Path(__file__).resolve().parents[2]
LIST, FORM = "rust/interface.txt", 57
MOST_PARAMETERS = 6
# What rustc implements for nearly all types, and not for users.
LEFT_OUT = {"Freeze", "RefUnwindSafe", "StructuralPartialEq", "Unpin", "UnsafeUnpin", "UnwindSafe"}
# what of an item of a trait is its default
DEFAULTS = {"function": "has_body", "assoc_const": "value", "assoc_type": "type"}
COMMAND = ("cargo rustdoc --offline --quiet --all-features --target-dir target/interface -- "
           "-Z unstable-options --output-format json")


def listed(parts, between=", "):
    return between.join(parts)


def arguments(args):
    """The arguments of a path."""
    if not args:
        return ""
    if "parenthesized" in args:
        within = args["parenthesized"]
        result = f" -> {kind(within['output'])}" if within["output"] else ""
        return f"({listed(map(kind, within['inputs']))}){result}"
    within = args["angle_bracketed"]
    all_of = [value if form == "lifetime" else kind(value) if form == "type" else value["expr"]
              for arg in within["args"] for form, value in arg.items()]
    all_of += [f"{it['name']} = {kind(it['binding']['equality']['type'])}" for it in within["constraints"]]
    return f"<{listed(all_of)}>" if all_of else ""


def path(it):
    return it["path"].rpartition("::")[2] + arguments(it["args"])


def bounds(them):
    return listed((path(it["trait_bound"]["trait"]) if "trait_bound" in it else str(*it.values())
                   for it in them), " + ")


def kind(it):
    """The text of a type."""
    (form, value), = it.items()
    match form:
        case "primitive" | "generic":
            return value
        case "resolved_path":
            return path(value)
        case "tuple":
            return f"({listed(map(kind, value))})"
        case "slice":
            return f"[{kind(value)}]"
        case "array":
            return f"[{kind(value['type'])}; {value['len']}]"
        case "borrowed_ref":
            lifetime = value["lifetime"] + " " if value["lifetime"] else ""
            return f"&{lifetime}{'mut ' * value['is_mutable']}{kind(value['type'])}"
        case "qualified_path":
            return f"{kind(value['self_type'])}::{value['name']}"
        case "impl_trait":
            return f"impl {bounds(value)}"
        case "function_pointer":
            return "fn" + head(value["sig"], ())
    return json.dumps(it)


def head(signature, parameters):
    generics = [it["name"] + (f": {bounds(it['kind']['type']['bounds'])}"
                              if it["kind"].get("type", {}).get("bounds") else "")
                for it in parameters if not it["kind"].get("type", {}).get("is_synthetic")]
    result = f" -> {kind(signature['output'])}" if signature["output"] else ""
    return (f"<{listed(generics)}>" if generics else "") + (
        f"({listed(kind(of) for _, of in signature['inputs'])}){result}")


def is_of(it, number):
    return it.get("resolved_path", {}).get("id") == number


def lines(index, number, at, seen, within=""):
    """The lines of an item and of all that is in it."""
    it = index[str(number)]
    (form, inner), = it["inner"].items()
    name = f"{at}::{it['name']}" if at else it["name"] or ""
    required = "required " * (within == "trait" and not inner.get(DEFAULTS.get(form)))
    marks = "".join(f"#[{mark}] " for mark in it["attrs"] if mark == "non_exhaustive")
    if form == "use":
        target = index.get(str(inner["id"]))
        if inner["is_glob"] or not target or number in seen or inner["id"] in seen:
            is_same = f"::{inner['source']}".endswith(f"::{inner['name']}")
            ending = "::*" if inner["is_glob"] else "" if is_same else f" as {inner['name']}"
            yield f"use {inner['source']}{ending} in {at or 'the crate'}"
        else:
            yield from lines(index, inner["id"], at, seen)
        return
    seen.add(number)
    members, impls = [], [index[str(each)] for each in inner.get("impls", ()) if str(each) in index]
    match form:
        case "module":
            members = sorted(inner["items"], key=lambda each: (
                index[str(each)]["name"] == "compat", index[str(each)]["name"] or ""))
            name = name if at or it["name"] != "linker_utils" else ""
        case "function":
            if len(inner["sig"]["inputs"]) > MOST_PARAMETERS:
                sys.exit(f"tools/generate: {name} has more than {MOST_PARAMETERS} parameters")
            yield f"{required}{'const ' * inner['header']['is_const']}fn {name}" + head(
                inner["sig"], inner["generics"]["params"])
        case "struct":
            of = inner["kind"] if inner["kind"] != "unit" else {"tuple": ()}
            members = of["tuple"] if "tuple" in of else of["plain"]["fields"]
            is_private = None in members if "tuple" in of else of["plain"]["has_stripped_fields"]
            yield f"{marks}struct {name}{' { .. }' * is_private}"
        case "enum" | "trait":
            members = inner.get("variants") or inner["items"]
            yield f"{marks}{form} {name}"
        case "variant":
            of = inner["kind"]
            members = () if of == "plain" else of.get("tuple") or of["struct"]["fields"]
            number_of = inner["discriminant"]
            yield name + (f" = {number_of['value']}" if number_of else "")
        case "struct_field":
            yield f"{name}: {kind(inner)}"
        case "constant" | "assoc_const":
            yield f"{required}const {name}: {kind(inner['type'])}"
        case "assoc_type":
            yield f"{required}type {name}"
        case _:
            yield f"{form} {name}"
    impls = [each["inner"]["impl"] for each in impls if form != "trait"]
    traits = sorted(path(each["trait"]) + ("" if is_of(each["for"], number) else f" for {kind(each['for'])}")
                    for each in impls if each["trait"] and not each["blanket_impl"])
    if traits:
        yield f"impl {listed(each for each in traits if each not in LEFT_OUT)} for {name}"
    own = [each for impl in impls if not impl["trait"] for each in impl["items"]]
    for member in [*members, *own]:
        if member is not None:
            yield from lines(index, member, name, seen, form)


def make():
    subprocess.run(COMMAND.split(), cwd=ROOT / "rust", env=os.environ | {"RUSTC_BOOTSTRAP": "1"}, check=True)
    made = json.loads((ROOT / "rust/target/interface/doc/linker_utils.json").read_text())
    if made["format_version"] != FORM:
        sys.exit(f"tools/generate: rustdoc's JSON has the form {made['format_version']}, and this reads {FORM}: "
                 "the interface is neither compared nor written")
    return {LIST: "".join(line + "\n" for line in lines(made["index"], made["root"], "", set()))}
