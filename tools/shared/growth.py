# SPDX-License-Identifier: MIT OR Apache-2.0
"""Runs of proved programs in which one allocation fails, or reads and writes do: what `test_linkfix`
and `test_refused_growth` share."""
import subprocess

from shared import over_rt_ci

ROOT = over_rt_ci.ROOT


def build(program, crate, command):
    """Builds what `rt ci` or the command hasn't built since the sources of a crate and of those below it changed."""
    sources = [file.stat().st_mtime for crate in [crate, *over_rt_ci.libraries(crate)]
               for part in ("src", "specs", "proofs")
               for file in (ROOT / "crates" / crate / part).rglob("*")]
    if not program.exists() or program.stat().st_mtime < max(sources):
        subprocess.run(command, cwd=program.parent.parent, stdin=subprocess.DEVNULL, check=True)


def preloaded(room, name):
    """The library of `tools/shared/NAME.c`, made in a folder."""
    library = f"{room}/{name}.so"
    subprocess.run(["gcc", "-shared", "-fPIC", "-O2", "-Wall", "-Werror", "-o", library,
                    ROOT / f"tools/shared/{name}.c"], check=True)
    return library


def failing(library, number):
    """How a program is run whose allocation of a number fails. Its standard error begins with `!`
    where there was such an allocation."""
    return {"stderr": subprocess.PIPE, "env": {"LD_PRELOAD": library, "FAIL_AT": str(number)}}


def altered(library, **variables):
    """How a program is run whose reads and writes are altered, as `tools/shared/altered_io.c` says."""
    named = {name: str(value) for name, value in variables.items()}
    return {"stderr": subprocess.PIPE, "env": {"LD_PRELOAD": library, **named}}
