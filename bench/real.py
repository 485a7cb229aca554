#!/usr/bin/env python3
"""Real programs by cip and by the peers that are installed: real.py fetch FOLDER, and real.py PROGRAM FOLDER

`fetch` puts texts in MPS into FOLDER, out of the sources of Debian's packages ppl, coinutils and glpk: linear programs of
the collection netlib (adlittle, afiro, blend, boeing, brandy, e226, finnis, kb2, sc105, share2b ..) and programs with
whole columns of miplib (egout, lseu, markshare, mas74, modglob, noswot, p0033, p0201, p0548, pk1, rout ..). They are no
part of this repository.

PROGRAM is the built `cip`. A line is printed for each text that is free MPS: rows x columns and how many of these are
whole, cip's word, its cost or bound in doubles and the processor's seconds, with the built-in plugins and with --plain,
and the seconds of glpsol, cbc and, where no column is whole, of QSopt_ex's esolver, which is exact. `>S` stands where the
limit of S seconds (--seconds, 20) was reached. A cost that differs by more than a millionth is marked with a `!`, and
such lines are counted; the status is 1 where there are any. With the word `--only NAME..` only these are solved."""
import argparse
import hashlib
import io
import os
import shutil
import sys
import tarfile
import tempfile
import urllib.request
from fractions import Fraction

import peers

POOL = "http://deb.debian.org/debian/pool/main/"
SOURCES = {
    "p/ppl/ppl_1.2.orig.tar.xz": "691f0d5a4fb0e206f4e132fc9132c71d6e33cdda168470d40ac3cf62340e9a60",
    "c/coinutils/coinutils_2.11.4+repack1.orig.tar.xz": "a9d2bdcb22a00a571c397ce55c3107730729f7d07fb3e60f1058668c5884c074",
    "g/glpk/glpk_5.0.orig.tar.gz": "4a1013eebb50f728fc601bdd833b0b2870333c3b3e5a816eeba921d95bec6f15",
}


def fetch(folder):
    """Puts the texts of the packages into a folder."""
    os.makedirs(folder, exist_ok=True)
    for path, digest in SOURCES.items():
        packed = urllib.request.urlopen(POOL + path).read()
        if hashlib.sha256(packed).hexdigest() != digest:
            sys.exit(f"{path} isn't the file that is known")
        with tarfile.open(fileobj=io.BytesIO(packed)) as archive:
            for member in archive:
                if member.isfile() and member.name.endswith(".mps"):
                    with open(os.path.join(folder, os.path.basename(member.name)), "wb") as out:
                        out.write(archive.extractfile(member).read())


def size_of(path):
    """Rows, columns and whole columns of a text, as far as its sections say so."""
    rows, columns, whole, section, marked = 0, set(), set(), "", False
    for line in open(path, errors="replace"):
        words = line.split()
        if not words or line.startswith("*"):
            continue
        if not line[0].isspace():
            section = words[0]
        elif section == "ROWS":
            rows += words[0] in "LGE"
        elif section == "COLUMNS" and "'MARKER'" in words:
            marked = "'INTORG'" in words
        elif section == "COLUMNS":
            columns.add(words[0])
            if marked:
                whole.add(words[0])
        elif section == "BOUNDS" and words[0] in ("BV", "LI", "UI"):
            whole.add(words[2])
    return rows, len(columns), len(whole)


def cip(words, path, seconds):
    """The word of an answer, its cost or else its bound, and the seconds."""
    text, status, spent = peers.run([*words[:1], "solve", path, *words[1:]], seconds)
    if status is None:
        return ">", None, spent
    word, cost, bound = (peers.found(rf"^{name} (\S+)", text) for name in ("status", "cost", "bound"))
    if word == "refused":
        return f"refused {peers.found(r'^kind (.*)', text)} at line {peers.found(r'^line (.*)', text)}", None, spent
    figure = cost if cost not in (None, "none") else bound
    return word, None if figure in (None, "none") else Fraction(figure), spent


def esolver(path, seconds):
    """QSopt_ex, which is exact: its cost and its seconds."""
    with tempfile.NamedTemporaryFile(suffix=".sol") as out:
        _, status, spent = peers.run(["esolver", "-O", out.name, path + ".mps"], seconds)
        text = open(out.name).read()
    value = peers.found(r"^\s*Value = (\S+)", text)
    return value if status == 0 else None, spent


def cell(word, figure, spent, seconds):
    if word == ">":
        return f">{seconds}"
    said = "" if figure is None else f" {float(figure):.9g}"
    return f"{spent:.2f} s, {word}{said}"


def line_of(program, path, seconds, installed):
    """The line of a text, and how many figures are marked in it."""
    rows, columns, whole = size_of(path)
    word, figure, spent = cip([program], path, seconds)
    if word.startswith("refused"):
        return f"| {os.path.basename(path)[:-4]} | {word} |", 0
    plain = cip([program, "--plain"], path, seconds)
    cells = [cell(word, figure, spent, seconds), cell(*plain, seconds)]
    cost = figure if word == "optimal" else None
    marks = cost is not None and plain[0] == "optimal" and plain[1] != cost
    for name, (solve, exact) in installed.items():
        if name == "esolver" and whole:
            cells.append("")
            continue
        text, marked = peers.cell(*solve(path[:-4], seconds), seconds, cost, False)
        cells.append(text)
        marks += marked
    return f"| {os.path.basename(path)[:-4]} | {rows} x {columns}, {whole} | " + " | ".join(cells) + " |", marks


def main():
    if sys.argv[1:2] == ["fetch"] and len(sys.argv) == 3:
        return fetch(sys.argv[2])
    reader = argparse.ArgumentParser(description=__doc__, formatter_class=argparse.RawDescriptionHelpFormatter)
    reader.add_argument("program")
    reader.add_argument("folder")
    reader.add_argument("--seconds", type=int, default=20)
    reader.add_argument("--only", nargs="*", default=[])
    asked = reader.parse_args()
    every = {"glpsol": (peers.glpsol, False), "cbc": (peers.cbc, False), "esolver": (esolver, True)}
    installed = {name: told for name, told in every.items() if shutil.which(name)}
    marks = 0
    print("| program | rows x columns, whole | cip | --plain | " + " | ".join(installed) + " |")
    print("|" + "---|" * (4 + len(installed)))
    for name in sorted(os.listdir(asked.folder)):
        if name.endswith(".mps") and (not asked.only or name[:-4] in asked.only):
            line, marked = line_of(asked.program, os.path.join(asked.folder, name), asked.seconds, installed)
            marks += marked
            print(line, flush=True)
    print(f"\n{marks} answers differ.")
    return 1 if marks else 0


if __name__ == "__main__":
    sys.exit(main())
