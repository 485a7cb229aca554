#!/usr/bin/env python3
"""Searches with the built-in plugins, each of them switched off, and with each alone: plugins.py PROGRAM TEXT..

For each text in free MPS or LP and each kit the nodes and the processor time, beside those of a search with --plain. At
the end stands for each kit the geometric mean of the quotients: nodes; time over the texts on which --plain takes 5 ms
or more, and 20 ms or more; and the worst time. The nodes are the least number of `--nodes` that doesn't end by it. Costs
that differ are told, and the status is then 1. With the word `--kits NAME..` in front of PROGRAM, joined by commas, only
these kits are tried: `all`, `less-NAME`, `only-NAME`, or names of plugins joined by `+`."""
import os
import sys

sys.path.insert(0, os.path.dirname(os.path.abspath(__file__)))
from presolved import cost_of, mean, nodes_of, run, word_of

NAMES = "linear knapsack setpack setpart rounding cover mir activity redcost round dive exchange pseudo mostfrac first".split()
KITS = ["all", *(f"less-{name}" for name in NAMES), *(f"only-{name}" for name in NAMES), "cover+mir+round+pseudo"]


def off_of(kit):
    """The names that are off."""
    if kit == "all":
        return []
    if kit.startswith("less-"):
        return [kit.removeprefix("less-")]
    wanted = kit.removeprefix("only-").split("+")
    return [name for name in NAMES if name not in wanted]


def search(program, text, kit):
    """The answer's word and cost, the nodes and the processor time; none where it takes too long."""
    off = off_of(kit) if kit != "plain" else []
    words = [program, "solve", text, *(["--plain"] if kit == "plain" else []), *(["--off", ",".join(off)] if off else [])]
    answer = run(words)
    if answer is None:
        return None
    lines, spent = answer
    return word_of(lines), cost_of(lines), nodes_of(words, spent), max(spent, 1e-3)


def main(words):
    kits = KITS
    if words[0] == "--kits":
        kits, words = words[1].split(","), words[2:]
    program, texts = words[0], words[1:]
    found, wrong = {kit: [] for kit in kits}, 0
    for text in texts:
        plain, others = search(program, text, "plain"), [search(program, text, kit) for kit in kits]
        name = text.rsplit("/", 1)[-1]
        for kit, other in zip(kits, others):
            tell = lambda it: "over" if it is None else f"{it[0]} {it[2] or '?'} nodes {it[3]:.3f} s"
            print(f"{name}: {kit}: {tell(other)}; plain {tell(plain)}", flush=True)
            if plain and other and plain[0] == other[0] and plain[1] != other[1]:
                wrong += 1
                print(f"{text}, {kit}: {other[1]} beside {plain[1]}")
            found[kit].append((name, plain, other))
    print("\n| kit | texts | nodes | time, from 5 ms | time, from 20 ms | worst | ends where --plain doesn't |\n|---|---|---|---|---|---|---|")
    for kit in kits:
        both = [(plain, other) for _, plain, other in found[kit] if plain and other]
        nodes = [other[2] / plain[2] for plain, other in both if plain[2] and other[2]]
        times = {least: [other[3] / plain[3] for plain, other in both if plain[3] >= least] for least in (0.005, 0.02)}
        more = sum(plain is None and other is not None for _, plain, other in found[kit])
        less = sum(plain is not None and other is None for _, plain, other in found[kit])
        print(f"| `{kit}` | {len(both)} | {mean(nodes):.3f} | {mean(times[0.005]):.2f} | {mean(times[0.02]):.2f} "
              f"| {max(times[0.005], default=float('nan')):.2f} | {more} (and {less} the other way) |")
    return 1 if wrong else 0


if __name__ == "__main__":
    sys.exit(main(sys.argv[1:]))
