#!/usr/bin/env python3
"""Solves random programs with semi-continuous columns by cip and by cbc, and prints where their answers differ.

    bench/semi.py PROGRAM [--count N] [--seed N]

PROGRAM is the built `cip` (crates/cip/out/built/cip). Each of N programs (50) has from 2 to 8 columns, about two of three
of them semi-continuous, some of the others whole, and from 1 to 5 rows. A line tells of a program whose statuses differ,
or whose costs differ by more than a millionth, and what cbc finds where each choice is made in front, so that no column
is semi-continuous for it. The last line counts the programs, those that differ, those that differ from the choices
made in front, and the seconds of both."""
import argparse
import itertools
import os
import random
import subprocess
import tempfile
import time
from fractions import Fraction


def text_of(draw):
    """A random program as a text of free MPS, which cbc reads too."""
    columns, rows = draw.randint(2, 8), draw.randint(1, 5)
    kinds = [draw.choice(["semi", "semi", "semi", "semi", "whole", "plain"]) for _ in range(columns)]
    lines = ["NAME SEMI FREE", "ROWS", " N COST"]
    lines += [f" {draw.choice('GGGGLL')} R{row}" for row in range(rows)]
    lines.append("COLUMNS")
    for column, kind in enumerate(kinds):
        if kind == "whole":
            lines.append(f" M{column} 'MARKER' 'INTORG'")
        lines.append(f" x{column} COST {draw.randint(-9, 20)}")
        lines += [f" x{column} R{row} {draw.randint(1, 9)}" for row in range(rows) if draw.random() < 0.7]
        if kind == "whole":
            lines.append(f" N{column} 'MARKER' 'INTEND'")
    lines += ["RHS"] + [f" RHS R{row} {draw.randint(1, 40)}" for row in range(rows)] + ["BOUNDS"]
    for column, kind in enumerate(kinds):
        if kind == "semi":
            low = draw.choice([0, 1, 2, 3, 5])
            lines += [f" LO B x{column} {low}", f" SC B x{column} {low + draw.randint(1, 9)}"]
        else:
            lines.append(f" UP B x{column} {draw.randint(1, 12)}")
    return "\n".join(lines + ["ENDATA", ""])


def cip_answer(program, path):
    """The status and the cost by cip."""
    out = subprocess.run([program, "solve", path], capture_output=True, text=True).stdout
    said = dict(line.split(" ", 1) for line in out.splitlines() if " " in line)
    status = said.get("status")
    return status, Fraction(said["cost"]) if status == "optimal" else None


def cbc_answer(path):
    """The same by cbc, whose cost is a decimal; its preprocessing breaks off on some semi-continuous columns."""
    words = ["cbc", path, "-preprocess", "off", "-ratio", "0", "-solve", "-quit"]
    out = subprocess.run(words, capture_output=True, text=True).stdout
    cost = None
    for line in out.splitlines():
        if line.startswith("Objective value:"):
            return "optimal", Fraction(line.split()[-1])
        if line.startswith("Optimal objective"):
            cost = Fraction(line.split()[2])
    if cost is not None:
        return "optimal", cost
    return ("infeasible" if "infeasible" in out else "unknown"), None


def chosen(text, on):
    """The text with each semi-continuous column off, or on, so that none is left."""
    lines = []
    for line in text.splitlines():
        kind, column = (line.split() + ["", "", ""])[0], (line.split() + ["", "", ""])[2]
        if kind == "SC":
            line = f" UP B {column} {line.split()[3]}" if on[column] else f" UP B {column} 0"
        if kind != "LO" or on[column]:
            lines.append(line)
    return "\n".join(lines + [""])


def enumerated(text, path):
    """The least cost by cbc over all choices."""
    columns = [line.split()[2] for line in text.splitlines() if line.startswith(" SC")]
    found = []
    for choices in itertools.product([False, True], repeat=len(columns)):
        with open(path, "w") as file:
            file.write(chosen(text, dict(zip(columns, choices))))
        found.append(cbc_answer(path))
    costs = [cost for status, cost in found if status == "optimal"]
    return ("optimal", min(costs)) if costs else ("infeasible", None)


def is_near(ours, theirs):
    """Whether statuses agree, and costs but for a millionth."""
    if ours[0] != theirs[0] or ours[1] is None or theirs[1] is None:
        return ours == theirs
    return abs(ours[1] - theirs[1]) <= Fraction(1, 10 ** 6)


def main():
    words = argparse.ArgumentParser()
    words.add_argument("program")
    words.add_argument("--count", type=int, default=50)
    words.add_argument("--seed", type=int, default=1)
    asked = words.parse_args()
    draw, differ, wrong, spent = random.Random(asked.seed), 0, 0, [0.0, 0.0]
    with tempfile.TemporaryDirectory() as folder:
        for number in range(asked.count):
            path = os.path.join(folder, f"semi{number}.mps")
            text = text_of(draw)
            with open(path, "w") as file:
                file.write(text)
            begun = time.time()
            ours = cip_answer(asked.program, path)
            between = time.time()
            theirs = cbc_answer(path)
            spent[0] += between - begun
            spent[1] += time.time() - between
            if not is_near(ours, theirs):
                by_choices = enumerated(text, path)
                differ += 1
                wrong += not is_near(ours, by_choices)
                print(f"program {number}: cip {ours[1]}, cbc {theirs[1]}, by choices {by_choices[1]}")
    print(f"{asked.count} programs, {differ} differ, {wrong} by choices; cip {spent[0]:.1f} s, cbc {spent[1]:.1f} s")


if __name__ == "__main__":
    main()
