#!/usr/bin/env python3
# SPDX-License-Identifier: MIT OR Apache-2.0
"""The arguments with which the kit's compiler reads a crate over the libraries below it that
`rt ci` proved and left in out/, with their statements only. `rt check` and `rt lib` would prove
these a second time.

usage: tools/shared/over_rt_ci.py CRATE    prints them, one a line
       tools/shared/over_rt_ci.py --wait LOG CRATE    returns once `rt ci`, which writes LOG, has
                                                      proved all libraries below
       tools/shared/over_rt_ci.py --build CRATE    proves and builds the libraries below by `rt lib`,
                                                   on all processors
status: 0; 2 after wrong arguments; 1 where a library isn't there, or is one of the checkout's own
checks, which `rt ci` leaves; where `rt ci` ended before; where one isn't proved
"""
import os
import re
import shutil
import subprocess
import sys
import time
from concurrent.futures import FIRST_COMPLETED, ThreadPoolExecutor
from concurrent.futures import wait as wait_for
from pathlib import Path

sys.dont_write_bytecode = True
ROOT = Path(__file__).resolve().parents[2]
sys.path.insert(0, str(ROOT / "tools"))
from shared import usage

KIT = Path(shutil.which("rt")).resolve().parent.parent


def commit():
    """The number of the commit, which chooses samples."""
    hashed = subprocess.run(["git", "rev-parse", "HEAD"], cwd=ROOT, stdout=subprocess.PIPE, check=True, text=True)
    return int(hashed.stdout, 16)


def crates():
    """The lines of crates.txt: each crate, whether it is a static library, and its dependencies."""
    listed = {}
    for line in (ROOT / "crates.txt").read_text().splitlines():
        head, _, needs = line.partition("#")[0].partition(":")
        if not head.strip():
            continue
        name, *kind = head.split()
        listed[name] = ("staticlib" in kind, needs.split())
    return listed


def libraries(name):
    """The repository's libraries below a crate: those that it uses, and those that these use."""
    listed = crates()
    below = [need for need in listed[name][1] if need in listed]
    for need in below:
        below += [other for other in listed[need][1] if other in listed and other not in below]
    return below


def wait(log, name):
    """Waits for the libraries below a crate, and returns whether `rt ci` proved them."""
    own = libraries(name)
    while True:
        said = Path(log).read_text(errors="replace") if Path(log).exists() else ""
        if all(re.search(rf"^rt: {need} (proved|is kept)\b", said, re.MULTILINE) for need in own):
            return True
        if re.search(r"^\d+ passed, \d+ failed$", said, re.MULTILINE):
            return False
        time.sleep(1)


def size(name):
    """How many bytes of source and proofs a crate has."""
    return sum(file.stat().st_size for part in ("src", "specs", "proofs")
               for file in (ROOT / "crates" / name / part).rglob("*.*"))


def build_one(name, jobs):
    """Whether a library is built, in so many jobs."""
    ran = subprocess.run(["rt", "lib", "--jobs", str(jobs)], cwd=ROOT / "crates" / name, stdin=subprocess.DEVNULL)
    return ran.returncode == 0


def build(name):
    """Builds the libraries below a crate, each once those below it are built, the largest first. Each has
    twice its share of the processors, since none takes all of its jobs to its end. Returns whether all
    are built."""
    processors = len(os.sched_getaffinity(0))
    left, built, running = set(libraries(name)), set(), {}
    with ThreadPoolExecutor(processors) as pool:
        while left or running:
            ready = [lib for lib in left if built.issuperset(libraries(lib))]
            ready = sorted(ready, key=size, reverse=True)[:processors - len(running)]
            for lib in ready:
                jobs = min(max(2 * processors // (len(running) + len(ready)), 1), processors)
                running[pool.submit(build_one, lib, jobs)] = lib
            left -= set(ready)
            if not running:
                return False
            for one in wait_for(running, return_when=FIRST_COMPLETED).done:
                lib = running.pop(one)
                built |= {lib} if one.result() else set()
    return built.issuperset(libraries(name))


def arguments(name, is_of_rt_ci=True):
    """The arguments for a crate, or None where a library below it isn't one of `rt ci`, or else of `rt lib`."""
    is_static, needs = crates()[name]
    folders = {need: ROOT / "crates" / need / "out/rlib" for need in libraries(name)}
    for need, folder in folders.items():
        # `rt ci` writes no stamp
        if not (folder / f"{need}.rlib/format").exists() or (folder / "stamp").exists() == is_of_rt_ci:
            return None
    root = next(it for it in ("src/lib.rt", "src/main.rt") if (ROOT / "crates" / name / it).exists())
    words = ["--crate-name", name, root, "-L", f"dependency={KIT}/rlibs"]
    for need in ["std", *needs]:
        words += ["--extern", f"{need}={folders.get(need, KIT / 'rlibs')}/{need}.rlib"]
    for folder in folders.values():
        words += ["-L", f"dependency={folder}"]
    words += ["--antt-project", f"{KIT}/rattle/logic/antt-project.json"]
    words += ["--logic-built", f"{KIT}/logic_built", "--links", f"{name}="]
    return words + ["--crate-type", "staticlib"] * is_static


def main(words):
    if words[-1] not in crates():
        usage.reject(f"no crate: {words[-1]}")
    if words[0] == "--wait":
        return not wait(*words[1:])
    if words[0] == "--build":
        return not build(*words[1:])
    if (found := arguments(*words)) is None:
        return 1
    print("\n".join(found))
    return 0


if __name__ == "__main__":
    sys.exit(main(sys.argv[1:]))
