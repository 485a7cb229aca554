#!/usr/bin/env python3
"""Roots of random programs: roots.py PROGRAM [FOLDER] [NODES]

PROGRAM is the built `cip` (crates/cip/out/built/cip). It takes one node of covering and packing programs, and a line is
printed for each: rows and columns, the seconds of the processor, the bound that `cip` prints, the optimum of the linear
program by a dual simplex method in doubles, and by what share of it the bound differs. FOLDER keeps the texts.

A coefficient is there with a chance of 1 in 10, from 1 to 9; columns are whole from 0 to 10 and cost 1 to 20; a row
wants (covering), or may take (packing), one to three times the sum of its coefficients. One more column isn't whole and
stands in no row: so costs aren't whole, and bounds aren't rounded up.

With NODES the programs have no such column, so that bounds are rounded up, and a second search takes so many nodes."""
import os
import random
import resource
import subprocess
import sys
import tempfile
from dataclasses import dataclass

SIZES = [(10, 200), (20, 200), (40, 200), (80, 200), (160, 200), (40, 50), (40, 100), (40, 400), (40, 800)]
HIGH = 10


@dataclass
class Program:
    """Costs by column; rows, each with its terms and its side, which is a low one of a covering program."""

    covers: bool
    costs: list
    rows: list


def program(covers, rows, columns):
    chance = random.Random(f"{covers} {rows} {columns}")
    costs = [chance.randint(1, 20) * (1 if covers else -1) for _ in range(columns)]
    made = []
    for _ in range(rows):
        chosen = [k for k in range(columns) if chance.random() < 0.1] or [0]
        terms = [(k, chance.randint(1, 9)) for k in chosen]
        total = sum(factor for _, factor in terms)
        made.append((terms, chance.randint(total, 3 * total)))
    return Program(covers, costs, made)


def text(it, is_whole):
    lines = ["NAME ROOT", "ROWS", " N COST"]
    lines += [f" {'G' if it.covers else 'L'} R{r}" for r in range(len(it.rows))]
    lines += ["COLUMNS", *([] if is_whole else [" y COST 1"]), " M1 'MARKER' 'INTORG'"]
    entries = [[] for _ in it.costs]
    for r, (terms, _) in enumerate(it.rows):
        for k, factor in terms:
            entries[k].append(f" x{k} R{r} {factor}")
    for k, cost in enumerate(it.costs):
        lines += [f" x{k} COST {cost}", *entries[k]]
    lines += [" M2 'MARKER' 'INTEND'", "RHS"]
    lines += [f" RHS R{r} {side}" for r, (_, side) in enumerate(it.rows)]
    lines += ["BOUNDS", *([] if is_whole else [" UP BND y 1"]), *(f" UP BND x{k} {HIGH}" for k in range(len(it.costs))), "ENDATA"]
    return "\n".join(lines) + "\n"


def least(it):
    """The optimum of the linear program: a dual simplex method from all rows basic, each column at its better side."""
    m, n = len(it.rows), len(it.costs)
    table = [[0.0] * n for _ in range(m)]
    for line, (terms, _) in zip(table, it.rows):
        for k, factor in terms:
            line[k] = float(factor)
    rates = [float(cost) for cost in it.costs]
    sides = [(0.0, float(HIGH))] * n
    sides += [(float(side), float("inf")) if it.covers else (float("-inf"), float(side)) for _, side in it.rows]
    basic, loose = list(range(n, n + m)), list(range(n))
    values = [0.0 if cost >= 0 else float(HIGH) for cost in it.costs]
    for _ in range(100_000):
        sums = [sum(a * v for a, v in zip(line, values)) for line in table]
        gaps = [max(sides[b][0] - s, s - sides[b][1]) for b, s in zip(basic, sums)]
        row = max(range(m), key=gaps.__getitem__)
        if gaps[row] < 1e-7:
            whole = {b: s for b, s in zip(basic, sums)} | dict(zip(loose, values))
            return sum(cost * whole[k] for k, cost in enumerate(it.costs))
        enter, side = entering(table[row], rates, sides, loose, values, sums[row] < sides[basic[row]][0])
        if enter is None:
            return None
        goal = sides[basic[row]][0 if side else 1]
        exchange(table, rates, row, enter)
        basic[row], loose[enter] = loose[enter], basic[row]
        values[enter] = goal
    return None


def entering(line, rates, sides, loose, values, below):
    best, found = float("inf"), None
    for k, a in enumerate(line):
        low, high = sides[loose[k]]
        rises = (a > 0) == below
        if abs(a) < 1e-9 or values[k] == (high if rises else low):
            continue
        ratio = abs(rates[k] / a)
        if ratio < best - 1e-12 or (ratio < best + 1e-12 and abs(a) > abs(line[found])):
            best, found = min(best, ratio), k
    return found, below


def exchange(table, rates, row, enter):
    pivot = table[row][enter]
    line = [-a / pivot for a in table[row]]
    line[enter] = 1 / pivot
    table[row] = line
    for other in [*(it for k, it in enumerate(table) if k != row), rates]:
        factor = other[enter]
        if factor:
            other[:] = [a + factor * b for a, b in zip(other, line)]
            other[enter] = factor / pivot


def search(solver, file, nodes):
    before = resource.getrusage(resource.RUSAGE_CHILDREN).ru_utime
    said = subprocess.run([solver, "solve", file, "--nodes", str(nodes), "--plain"], capture_output=True, text=True).stdout
    bound = dict(line.split(" ", 1) for line in said.splitlines() if " " in line).get("bound", "none")
    return resource.getrusage(resource.RUSAGE_CHILDREN).ru_utime - before, bound


def number(bound):
    top, _, bottom = bound.partition("/")
    return int(top) / int(bottom or 1)


def look(solver, folder, nodes, covers, rows, columns):
    kind = "covering" if covers else "packing"
    it = program(covers, rows, columns)
    name = f"{folder}/{kind}-{rows}x{columns}.mps"
    with open(name, "w", encoding="utf-8") as file:
        file.write(text(it, nodes is not None))
    seconds, bound = search(solver, name, 1)
    wanted = least(it)
    away = abs(number(bound) - wanted) / max(1, abs(wanted)) if bound != "none" else float("inf")
    line = f"{kind} {rows} x {columns}: {seconds:.3f} s, bound {bound[:40]}"
    more = "" if nodes is None else f", {nodes} nodes {search(solver, name, nodes)[0]:.3f} s"
    print(f"{line}, linear program {wanted:.4f}, away {away:.1e}{more}", flush=True)


def main(words):
    if not words:
        print(__doc__, file=sys.stderr)
        return 2
    with tempfile.TemporaryDirectory() as room:
        folder = words[1] if len(words) > 1 else room
        os.makedirs(folder, exist_ok=True)
        nodes = int(words[2]) if len(words) > 2 else None
        for covers in (True, False):
            for rows, columns in SIZES:
                look(os.path.abspath(words[0]), folder, nodes, covers, rows, columns)
    return 0


if __name__ == "__main__":
    sys.exit(main(sys.argv[1:]))
