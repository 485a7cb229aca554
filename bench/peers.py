#!/usr/bin/env python3
"""Solves generated programs by cip and by the peers that are installed, and prints a table of seconds and answers.

    peers.py PROGRAM [--seconds S] [--seed N] [--only WORD]

PROGRAM is the built `cip` (crates/cip/out/built/cip). Peers: z3, which is exact, and glpsol, cbc, lp_solve, which are
not. QSopt_ex's esolver solves linear programs alone, so it is left out of programs with whole columns, as all of these
are. A time is the processor's, of the whole process, so that other work beside it counts for little. `>S` stands where
the limit of S seconds (20) was reached, by the processor or, beside other work, six times as long by the clock, and
what ended otherwise is told by its word. A cost that differs from cip's (for a peer that isn't exact by more than a
millionth) has a `!`, and such lines are counted at the end."""
import argparse
import os
import re
import resource
import shutil
import subprocess
import sys
import tempfile
from fractions import Fraction

import families


def run(words, seconds):
    """What a process printed, its status (None past the limit) and its seconds."""
    def limit():
        resource.setrlimit(resource.RLIMIT_CPU, (seconds + 1, seconds + 2))

    before = spent_so_far()
    try:
        ended = subprocess.run(words, capture_output=True, text=True, timeout=6 * seconds, preexec_fn=limit)
    except subprocess.TimeoutExpired:
        return "", None, seconds
    spent = spent_so_far() - before
    if ended.returncode < 0 or spent > seconds:
        return "", None, seconds
    return ended.stdout, ended.returncode, spent


def spent_so_far():
    """The processor seconds of all processes that were run and have ended."""
    used = resource.getrusage(resource.RUSAGE_CHILDREN)
    return used.ru_utime + used.ru_stime


def found(pattern, text):
    match = re.search(pattern, text, re.M)
    return match.group(1) if match else None


def cip(program, path, seconds):
    text, status, spent = run([program, "solve", path], seconds)
    word, cost = found(r"^status (\S+)", text), found(r"^cost (\S+)", text)
    if status is None:
        return None, ">", spent
    if word == "refused":
        return None, f"refused {found(r'^kind (.*)', text)} at line {found(r'^line (.*)', text)}", spent
    return (Fraction(cost) if word == "optimal" else None), word, spent


def glpsol(path, seconds):
    with tempfile.NamedTemporaryFile() as out:
        words = ["glpsol", "--freemps", path + ".mps", "--tmlim", str(seconds), "-o", out.name]
        _, status, spent = run(words, seconds)
        text = open(out.name).read()
    ended = status is not None and re.search(r"^Status:\s+INTEGER OPTIMAL|^Status:\s+OPTIMAL", text, re.M)
    return found(r"^Objective:\s+\S+ = (\S+)", text) if ended else None, spent


def cbc(path, seconds):
    text, status, spent = run(["cbc", path + ".mps", "-seconds", str(seconds), "-solve", "-quit"], seconds)
    ended = status is not None and "Optimal solution found" in text
    return found(r"^Objective value:\s+(\S+)", text) if ended else None, spent


def lp_solve(path, seconds):
    words = ["lp_solve", "-fmps", path + ".mps", "-timeout", str(seconds), "-S3"]
    text, status, spent = run(words, seconds)
    return found(r"^Value of objective function:\s+(\S+)", text) if status == 0 else None, spent


def z3(path, seconds):
    text, status, spent = run(["z3", f"-T:{6 * seconds}", path + ".smt2"], seconds)
    value = found(r"\(objectives\s*\(\(\+.*\)\s+(.+)\)\s*\)", text.replace("\n", " "))
    return value if status == 0 and "sat" in text.split() else None, spent


def number(text):
    """A number as a peer prints it: decimal, or in z3's form `(- (/ 1 3))`."""
    words = re.findall(r"[-/]|[\d.]+(?:e[+-]?\d+)?", text)
    sign = -1 if words and words[0] == "-" else 1
    digits = [Fraction(word) for word in words if word not in "-/"]
    return sign * (digits[0] / digits[1] if "/" in words else digits[0])


PEERS = {"z3": (z3, True), "glpsol": (glpsol, False), "cbc": (cbc, False), "lp_solve": (lp_solve, False)}


def differs(cost, other, exact):
    return other != cost if exact else abs(other - cost) > Fraction(1, 10**6) * max(1, abs(cost))


def cell(answer, spent, seconds, cost, exact):
    """A peer's seconds, marked where its answer isn't cip's; and whether it is marked."""
    if answer is None:
        return (f">{seconds}" if spent >= seconds else "none"), False
    marked = cost is not None and differs(cost, number(answer), exact)
    return f"{spent:.2f}" + (f"! {answer}" if marked else ""), marked


def main():
    reader = argparse.ArgumentParser(description=__doc__, formatter_class=argparse.RawDescriptionHelpFormatter)
    reader.add_argument("program")
    reader.add_argument("--seconds", type=int, default=20)
    reader.add_argument("--seed", type=int, default=1)
    reader.add_argument("--only", default="")
    asked = reader.parse_args()
    peers = {name: told for name, told in PEERS.items() if shutil.which(name)}
    missing = [name for name in PEERS if name not in peers]
    marks = 0
    print("| program | rows x columns | cip | answer | " + " | ".join(peers) + " |")
    print("|" + "---|" * (4 + len(peers)))
    with tempfile.TemporaryDirectory() as folder:
        for name, program in families.programs(asked.seed):
            if asked.only not in name:
                continue
            path = os.path.join(folder, name)
            for end, text in ((".mps", families.mps(name, program)), (".smt2", families.smt(program))):
                with open(path + end, "w") as out:
                    out.write(text)
            cost, word, spent = cip(asked.program, path + ".mps", asked.seconds)
            cells = [f">{asked.seconds}" if word == ">" else f"{spent:.2f}", str(cost) if cost is not None else word]
            for solve, exact in peers.values():
                text, marked = cell(*solve(path, asked.seconds), asked.seconds, cost, exact)
                cells.append(text)
                marks += marked
            size = f"{len(program.rows)} x {len(program.columns)}"
            print(f"| {name} | {size} | " + " | ".join(cells) + " |", flush=True)
    print(f"\n{marks} answers differ. Not installed: {', '.join(missing) or 'none'}. Left out: esolver (whole columns).")
    return 1 if marks else 0


if __name__ == "__main__":
    sys.exit(main())
