#!/usr/bin/env python3
"""Tries the must-fail edits that the gate leaves out: python3 tools/try_edits.py [CRATE..]

The first edit of a crate costs a whole check of it. So the edits of a crate whose check takes long lie in its folder
`edits`, where `rt ci` doesn't look. This script copies the crates, puts these edits where `rt must-fail` looks for them,
and calls it for the crates that are named, or for all that have such edits. Its status is that of `rt must-fail`.
"""

import os
import shutil
import subprocess
import sys
import tempfile

ROOT = os.path.dirname(os.path.dirname(os.path.abspath(__file__)))


def with_edits():
    """The crates that have edits which the gate leaves out."""
    crates = f"{ROOT}/crates"
    return sorted(it for it in os.listdir(crates) if os.path.isdir(f"{crates}/{it}/edits"))


def copied(room, names):
    """Copies what the checks of crates read, and puts the edits of these crates where they are looked for."""
    for name in ("crates.txt", "HANDLES"):
        shutil.copy(f"{ROOT}/{name}", room)
    for crate in sorted(os.listdir(f"{ROOT}/crates")):
        for part in sorted(os.listdir(f"{ROOT}/crates/{crate}")):
            here = f"{ROOT}/crates/{crate}/{part}"
            if part in ("out", "must-fail") or part == "edits" and crate not in names:
                continue
            to = f"{room}/crates/{crate}/{'must-fail' if part == 'edits' else part}"
            os.makedirs(os.path.dirname(to), exist_ok=True)
            if os.path.isdir(here):
                shutil.copytree(here, to)
            else:
                shutil.copy(here, to)


def main(words):
    """Tries the edits of these crates, and returns the status."""
    known = with_edits()
    unknown = [it for it in words if it not in known]
    if unknown:
        print(f"try_edits.py: {unknown[0]} has no folder of edits; those that have one: {' '.join(known)}", file=sys.stderr)
        return 2
    names = words or known
    with tempfile.TemporaryDirectory(prefix="try-edits-") as room:
        copied(room, names)
        return subprocess.run(["rt", "must-fail", *names], cwd=room).returncode


if __name__ == "__main__":
    sys.exit(main(sys.argv[1:]))
