#!/usr/bin/env python3
"""Prices the blocks of random programs by cip_price, and compares with an exact linear program over all their points.

    bench/pricing_rounds.py build FOLDER       makes the crate of the program in FOLDER: a copy of crates/ with
                                               crates/pricing_rounds beside them; `rt run` in its folder builds it
    bench/pricing_rounds.py PROGRAM            prints the table, by crates/pricing_rounds/out/pricing_rounds

The program prices the blocks of an LP text with a pricer that goes through all points of 0 and 1 of a block. Its sources
are pricing/rounds.rt.txt and those of crates/cip_cert_tests. The status is 0 where each program is closed at the least
cost of a mixture, which this script works out by itself, in fractions.
"""
import itertools
import os
import random
import resource
import shutil
import subprocess
import sys
import tempfile
from fractions import Fraction
from math import lcm

TOP = os.path.dirname(os.path.dirname(os.path.abspath(__file__)))
SIZES = [(2, 3), (2, 6), (3, 6), (3, 9), (4, 8), (5, 10), (6, 10), (8, 12)]
SEEDS = 10
USES = "cip_lp cip_blocks cip_price cip_master cip_simplex " \
    "cip_bland cip_lagrange cip_columns cip_cert cip_model cip_lin " \
    "cip_frac cip_pricing cip_problem cip_rational anyhow"


def build(folder):
    """Copies the crates, with that of the program beside them."""
    shutil.copytree(f"{TOP}/crates", f"{folder}/crates", ignore=shutil.ignore_patterns("out", "must-fail"))
    crate, tests = f"{folder}/crates/pricing_rounds", f"{TOP}/crates/cip_cert_tests"
    for part in ("src", "specs", "proofs/fill", "proofs/fill_block", "proofs/walks/+grow"):
        os.makedirs(f"{crate}/{part}")
    shutil.copy(f"{TOP}/bench/pricing/rounds.rt.txt", f"{crate}/src/main.rt")
    for name in ("pricers", "walks"):
        shutil.copy(f"{tests}/src/{name}.rt", f"{crate}/src/")
    for name in ("fill", "fill_block"):
        shutil.copy(f"{TOP}/bench/pricing/{name}.antt.txt", f"{crate}/proofs/{name}/Invariants.antt")
    with open(f"{tests}/proofs/walks/+grow/Invariants.antt", encoding="utf-8") as it:
        grow = it.read().replace("cip_cert_tests", "pricing_rounds")
    for path, text in (("proofs/walks/+grow/Invariants", grow), ("proofs/Lib", ""), ("specs/Lib", "")):
        with open(f"{crate}/{path}.antt", "w", encoding="utf-8") as it:
            it.write(text)
    shutil.copy(f"{TOP}/HANDLES", folder)
    with open(f"{TOP}/crates.txt", encoding="utf-8") as it:
        lines = it.read()
    with open(f"{folder}/crates.txt", "w", encoding="utf-8") as it:
        it.write(f"{lines}pricing_rounds: {USES}\n")


def program(rng, blocks, columns, masters):
    """Costs, rows of each block and master rows: each row is at most its right-hand side."""
    costs = [[rng.randint(-9, 9) for _ in range(columns)] for _ in range(blocks)]
    rows = []
    for _ in range(blocks):
        own = [[rng.randint(1, 5) for _ in range(columns)] for _ in range(2)]
        rows.append([(coefs, max(1, sum(coefs) // 2)) for coefs in own])
    links = []
    for _ in range(masters):
        coefs = [[rng.randint(0, 3) for _ in range(columns)] for _ in range(blocks)]
        links.append((coefs, max(1, sum(map(sum, coefs)) // 4)))
    return costs, rows, links


def form(terms):
    """Terms as an LP text has them."""
    return " ".join(f"{'-' if coef < 0 else '+'} {abs(coef)} {name}" for coef, name in terms if coef)


def texts(made):
    """The LP text of a program, and the text of its blocks."""
    costs, rows, links = made
    names = [[f"x{block}_{column}" for column in range(len(own))] for block, own in enumerate(costs)]
    every = [it for own in names for it in own]
    lines = ["Minimize", f" COST: {form(zip((c for own in costs for c in own), every))}", "Subject To"]
    for block, own in enumerate(rows):
        lines += [f" R{block}_{at}: {form(zip(coefs, names[block]))} <= {high}" for at, (coefs, high) in enumerate(own)]
    lines += [f" M{at}: {form(zip((c for own in coefs for c in own), every))} <= {high}" for at, (coefs, high) in enumerate(links)]
    lines += ["Binaries", *every, "End", ""]
    words = [f"NBLOCKS {len(rows)}"]
    for block, own in enumerate(rows):
        words += [f"BLOCK {block + 1}", *(f"R{block}_{at}" for at in range(len(own)))]
    words += ["MASTERCONSS", *(f"M{at}" for at in range(len(links))), ""]
    return "\n".join(lines), "\n".join(words)


def points(made, block):
    """All points of a block."""
    costs, rows, _ = made
    every = itertools.product((0, 1), repeat=len(costs[block]))
    return [v for v in every if all(sum(map(int.__mul__, coefs, v)) <= high for coefs, high in rows[block])]


def least(columns, costs, rhs, slack):
    """The least cost over weights of at least 0: the rows are equalities, the first `slack` of them with a slack variable
    that begins in the basis, the others with an artificial one. By the simplex method in fractions."""
    rows, count = len(rhs), len(columns)
    big = 1 + 2 * sum(abs(c) for c in costs) if costs else 1
    columns = columns + [tuple(int(i == k) for i in range(rows)) for k in range(rows)]
    costs = costs + [0] * slack + [big] * (rows - slack)
    basis, inverse = list(range(count, count + rows)), [[Fraction(int(i == k)) for k in range(rows)] for i in range(rows)]
    values, turn = [Fraction(it) for it in rhs], 0
    while True:
        prices = [sum((costs[basis[i]] * inverse[i][k] for i in range(rows)), Fraction(0)) for k in range(rows)]
        over = lcm(*(it.denominator for it in prices))
        whole, found, turn = [int(it * over) for it in prices], None, turn + 1
        for at, column in enumerate(columns):
            rest = costs[at] * over - sum(map(int.__mul__, whole, column))
            if rest < 0 and (found is None or rest < found[0]):
                found = (rest, at)
                if turn > 500:
                    break
        if found is None:
            break
        enters = columns[found[1]]
        along = [sum((inverse[i][k] * enters[k] for k in range(rows) if enters[k]), Fraction(0)) for i in range(rows)]
        ratio, _, leaves = min((values[i] / along[i], basis[i], i) for i in range(rows) if along[i] > 0)
        values = [v - ratio * a for v, a in zip(values, along)]
        values[leaves], basis[leaves] = ratio, found[1]
        inverse[leaves] = [it / along[leaves] for it in inverse[leaves]]
        for i in range(rows):
            if i != leaves and along[i]:
                inverse[i] = [it - along[i] * lead for it, lead in zip(inverse[i], inverse[leaves])]
    if any(basis[i] >= count + slack and values[i] > 0 for i in range(rows)):
        return None
    return sum(costs[basis[i]] * values[i] for i in range(rows))


def least_mixture(made):
    """The least cost of a mixture that satisfies the master rows."""
    costs, rows, links = made
    columns, prices = [], []
    for block in range(len(rows)):
        for point in points(made, block):
            sums = [sum(map(int.__mul__, coefs[block], point)) for coefs, _ in links]
            columns.append(tuple(sums + [int(block == it) for it in range(len(rows))]))
            prices.append(sum(map(int.__mul__, costs[block], point)))
    return least(columns, prices, [high for _, high in links] + [1] * len(rows), len(links)), len(columns)


def seconds():
    """The processor time of what was run."""
    used = resource.getrusage(resource.RUSAGE_CHILDREN)
    return used.ru_utime + used.ru_stime


def priced(name, files, count, rounds=1000, moves=10_000):
    """The program's asks, points and answer, with its time."""
    before = seconds()
    ran = subprocess.run([name, *files, str(count), str(rounds), str(moves)], capture_output=True, text=True, check=True)
    asks, held, answer = ran.stdout.split(" ", 2)
    return int(asks), int(held), answer.strip(), seconds() - before


def bound_of(answer):
    """The bound of an answer that is closed."""
    end, bound = answer.split()
    return Fraction(bound) if end == "closed" else None


def written(room, made):
    """The files of a program."""
    names = (f"{room}/model.lp", f"{room}/blocks.txt")
    for name, text in zip(names, texts(made)):
        with open(name, "w", encoding="utf-8") as it:
            it.write(text)
    return names


def fewest_moves(name, files, count):
    """The least limit of moves at which it is closed."""
    low, high = 0, 10_000
    while low < high:
        half = (low + high) // 2
        if bound_of(priced(name, files, count, moves=half)[2]) is None:
            low = half + 1
        else:
            high = half
    return low


def compare(name, room):
    """The table of random programs; whether each is closed at the least cost."""
    right = True
    print("blocks x columns | programs | points | closed at the least cost | rounds | points held | moves | seconds")
    for blocks, columns in SIZES:
        every, rounds, held, moves, times, closed = [], [], [], [], [], 0
        for seed in range(SEEDS):
            made = program(random.Random(f"{blocks} {columns} {seed}"), blocks, columns, 1 + seed % 3)
            files = written(room, made)
            cost, number = least_mixture(made)
            asks, kept, answer, time = priced(name, files, 0)
            closed += cost is not None and bound_of(answer) == cost
            every.append(number)
            rounds.append(asks // blocks)
            held.append(kept)
            moves.append(fewest_moves(name, files, 0))
            times.append(time)
        right = right and closed == SEEDS
        spans = " | ".join(f"{min(it)} to {max(it)}" for it in (every,))
        others = " | ".join(f"{min(it)} to {max(it)}" for it in (rounds, held, moves))
        print(f"{blocks} x {columns} | {SEEDS} | {spans} | {closed} | {others} | {sum(times) / SEEDS:.4f}", flush=True)
    return right


def fill(name, room):
    """The table of pools that hold points to begin with."""
    print("points a block | held at first | rounds | held at the end | moves | seconds")
    made = program(random.Random("fill"), 4, 12, 3)
    files = written(room, made)
    for count in (0, 10, 100, 1000):
        first = priced(name, files, count, rounds=0)
        asks, kept, answer, time = priced(name, files, count)
        moves = fewest_moves(name, files, count)
        print(f"{count} | {first[1]} | {asks // 4} | {kept} | {moves} | {time - first[3]:.4f} | {bound_of(answer)}", flush=True)


def main(words):
    if len(words) == 2 and words[0] == "build":
        build(words[1])
        return 0
    if len(words) != 1:
        print(__doc__, file=sys.stderr)
        return 2
    with tempfile.TemporaryDirectory(prefix="cip-pricing-") as room:
        right = compare(words[0], room)
        fill(words[0], room)
    return 0 if right else 1


if __name__ == "__main__":
    sys.exit(main(sys.argv[1:]))
