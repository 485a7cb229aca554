#!/usr/bin/env python3
"""Lists what proofs cost by function, most first.

    bench/proof_costs.py [NUMBER [CRATE..]]

It reads the times of the files in crates/CRATE/out/incremental, which are right where the crate was checked from
nothing by `rt check --jobs 1` (first `rm -rf out`), with nothing beside it: the time since the file before is a
file's own. Beside the sum of a function stand its costliest parts: Lts (owned values along all paths), Proof (goals
without a written answer), Answers, Tie. A name without a dot is a file of lemmas.
"""
import collections
import glob
import os
import re
import sys

PARTS = (
    "Lts|Proof|Answers|Invariants|Tie|Reads|Key|Code|Kinds|Carried|Layout|Named|Symbol|Statement|Met|TheLink|"
    "Given|Goals"
)


def files_of(folder):
    found = []
    for at, _, names in os.walk(folder):
        for name in names:
            found.append((os.stat(os.path.join(at, name)).st_mtime_ns, name))
    return sorted(found)


def costs_of(folder):
    costs = collections.defaultdict(collections.Counter)
    files = files_of(folder)
    for (before, _), (now, name) in zip(files, files[1:]):
        module = re.match(r"Rattle-\w+-(?:proofs|specs)\.(.*?)(?:\.decls)?\.oantt$", name)
        if not module:
            continue
        part = re.match(rf"(.*?)\.({PARTS})(?:[.-].*)?$", module.group(1))
        function, part = (part.group(1), part.group(2)) if part else (module.group(1), "-")
        costs[function.removeprefix("contracts.")][part] += (now - before) / 1e9
    return costs


def main():
    number = int(sys.argv[1]) if len(sys.argv) > 1 else 50
    top = os.path.join(os.path.dirname(os.path.abspath(__file__)), "..", "crates")
    rows = []
    for folder in sorted(glob.glob(os.path.join(top, "*", "out", "incremental"))):
        crate = os.path.relpath(folder, top).split(os.sep)[0]
        if len(sys.argv) > 2 and crate not in sys.argv[2:]:
            continue
        for function, parts in costs_of(folder).items():
            shown = ", ".join(f"{part} {cost:.1f}" for part, cost in parts.most_common(4) if cost >= 0.3)
            rows.append((sum(parts.values()), crate, function, shown))
    for cost, crate, function, shown in sorted(rows, reverse=True)[:number]:
        print(f"{cost:6.1f} {crate:18} {function} [{shown}]")


main()
