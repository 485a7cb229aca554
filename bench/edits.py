#!/usr/bin/env python3
"""Tries the wrong bodies that the gate no longer tries: those of docs/edits, a folder a crate.

    bench/edits.py             all of them
    bench/edits.py NAME..      those of these crates

They are tried as those of a crate's must-fail/ are, by `rt must-fail` in a copy of the crates, so the status is 0 where
the prover refuses each. The first call proves the crates anew that have changed since the last one.
"""
import os
import shutil
import subprocess
import sys
import tempfile

TOP = os.path.dirname(os.path.dirname(os.path.abspath(__file__)))
EDITS = f"{TOP}/docs/edits"


def copied(to, names):
    """Copies what the crates are made of, with the edits of these crates in place of their own."""
    os.makedirs(f"{to}/.git")
    for file in ("crates.txt", "HANDLES"):
        shutil.copy(f"{TOP}/{file}", to)
    shutil.copytree(f"{TOP}/crates", f"{to}/crates", ignore=shutil.ignore_patterns("out", "must-fail"))
    for name in names:
        shutil.copytree(f"{EDITS}/{name}", f"{to}/crates/{name}/must-fail")


def main(words):
    stand = sorted(os.listdir(EDITS))
    stand = [it for it in stand if os.path.isdir(f"{EDITS}/{it}")]
    lacking = [it for it in words if it not in stand]
    if lacking:
        print(f"docs/edits has no folder {lacking[0]}; it has {' '.join(stand)}", file=sys.stderr)
        return 2
    names = words or stand
    with tempfile.TemporaryDirectory(prefix="cip-edits-") as room:
        copied(room, names)
        return subprocess.run(["rt", "must-fail", *names], cwd=room, stdin=subprocess.DEVNULL).returncode


if __name__ == "__main__":
    sys.exit(main(sys.argv[1:]))
