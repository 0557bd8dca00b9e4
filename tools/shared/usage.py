# SPDX-License-Identifier: MIT OR Apache-2.0
"""Answers `--help` of the script that runs, and rejects wrong arguments, by usage.sh."""
import subprocess
import sys
from pathlib import Path

if Path(sys.argv[0]).is_file():
    check = ["bash", "-c", 'check=$1; shift; . "$check"; exit 100', sys.argv[0]]
    check += [Path(__file__).with_name("usage.sh"), *sys.argv[1:]]
    status = subprocess.run(check).returncode
    if status != 100:
        sys.exit(status)


def reject(why):
    """Ends the script after an argument of which usage.sh doesn't know that it is wrong."""
    usages = sys.modules["__main__"].__doc__.partition("usage: ")[2].strip()
    print(f"{sys.argv[0]}: {why}\nusage: {usages}", file=sys.stderr)
    sys.exit(2)
