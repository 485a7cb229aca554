#!/usr/bin/env python3
"""Counts the ways down through crates.txt, from each crate to all that it stands on.

    bench/ways.py          prints the sum, and the crates with the most ways
    bench/ways.py NAME     prints for each library that NAME lists how many ways go through it, and through which other
                           one of its libraries it could be reached

Some kits go down each way again for each crate that they prove, and read the sources along it: with 4.4 million ways a
gate would take hours before its first proof. A crate that takes a name from a library which passes it on needn't list
the one that it comes from.
"""
import functools
import os
import sys

TOP = os.path.dirname(os.path.dirname(os.path.abspath(__file__)))


def listed():
    """The libraries of this repository that each crate lists."""
    found = {}
    with open(f"{TOP}/crates.txt", encoding="utf-8") as it:
        for line in it:
            name, _, libraries = line.partition("#")[0].partition(":")
            if name.strip():
                found[name.split()[0]] = libraries.split()
    return {name: [it for it in libraries if it in found] for name, libraries in found.items()}


def main(words):
    uses = listed()

    @functools.lru_cache(maxsize=None)
    def ways(name):
        return 1 + sum(map(ways, uses[name]))

    @functools.lru_cache(maxsize=None)
    def below(name):
        return frozenset().union(uses[name], *map(below, uses[name]))

    if not words:
        print(f"{sum(map(ways, uses))} ways from {len(uses)} crates")
        for name in sorted(uses, key=ways)[:-13:-1]:
            print(f"{ways(name):8} {name}, which lists {len(uses[name])}")
        return 0
    for it in sorted(uses[words[0]], key=ways, reverse=True):
        through = [other for other in uses[words[0]] if it in below(other)]
        print(f"{ways(it):8} {it}" + (f", also below {through[-1]}" if through else ""))
    return 0


if __name__ == "__main__":
    sys.exit(main(sys.argv[1:]))
