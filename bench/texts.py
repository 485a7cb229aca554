#!/usr/bin/env python3
"""Writes texts that a reader's time and memory are measured on: texts.py FOLDER [SCALE]. Where nothing is said they are
in free MPS.

sorted     the limits of a text: 65,536 rows and columns, 4,194,304 entries, a column's rows in their order; and the
           same program as an LP text, a row's columns in their order
random     the same entries, a column's rows in random order; as an LP text a row's columns in random order
wide       an LP text with as many entries in 64 rows over 65,536 columns, in random order
long       names of 255 bytes
digits     numbers of a million digits
line       one line of 60 MB
still-500, still-5000
           linear programs of 500 rows over 1,000 columns and 5,000 over 10,000, of whose coefficients 1 percent are
           there; costs are above 0, so that the first dictionary is optimal
moving-500, moving-5000
           the same with costs below 0
SCALE (1 where nothing is said) divides rows, columns and entries."""
import os
import random
import sys


def as_lp(path, by_row, columns, chance=None):
    """The program of these rows, lists of a column's number and a coefficient, as an LP text, eight terms a line."""
    with open(path, "w") as out:
        out.write("Minimize\n")
        out.writelines(" + 0 c%x\n" % k for k in range(columns))
        out.write("Subject To\n")
        for row, terms in enumerate(by_row):
            if chance:
                chance.shuffle(terms)
            out.write(" r%x:" % row)
            for at in range(0, len(terms), 8):
                out.write("".join(" + %d c%x" % (value, k) for k, value in terms[at : at + 8]) + "\n")
            out.write(" <= 9\n" if terms else " 0 <= 9\n")
        out.write("Bounds\n")
        out.writelines(" c%x <= 9\n" % k for k in range(columns))
        out.write("Generals\n")
        out.writelines(" c%x\n" % k for k in range(columns))
        out.write("End\n")


def limits(path, rows, columns, entries, in_order, name_bytes=0):
    """A program of so many rows, columns and entries, two entries a line; the numbers of its columns by rows."""
    chance = random.Random(7)
    by_row = [[] for _ in range(rows)]
    row = lambda k: ("r%x" % k).ljust(name_bytes, "_")
    column = lambda k: ("c%x" % k).ljust(name_bytes, "_")
    per_column = entries // columns
    with open(path, "w") as out:
        out.write("NAME limits\nROWS\n N COST\n")
        out.writelines(" L %s\n" % row(k) for k in range(rows))
        out.write("COLUMNS\n M 'MARKER' 'INTORG'\n")
        for k in range(columns):
            chosen = chance.sample(range(rows), per_column)
            if in_order:
                chosen.sort()
            for at, it in enumerate(chosen):
                by_row[it].append((k, 3 if at == per_column - 1 and per_column % 2 else 1 + at % 2))
            for at in range(0, per_column - 1, 2):
                out.write(" %s %s 1 %s 2\n" % (column(k), row(chosen[at]), row(chosen[at + 1])))
            if per_column % 2:
                out.write(" %s %s 3\n" % (column(k), row(chosen[-1])))
        out.write(" M 'MARKER' 'INTEND'\nRHS\n")
        out.writelines(" RHS %s 9\n" % row(k) for k in range(rows))
        out.write("BOUNDS\n")
        out.writelines(" UP B %s 9\n" % column(k) for k in range(columns))
        out.write("ENDATA\n")
    return by_row


def digits(path, count):
    """Entries whose numbers have a million zeros before or behind the point."""
    with open(path, "w") as out:
        out.write("NAME digits\nROWS\n N COST\n L R\nCOLUMNS\n M 'MARKER' 'INTORG'\n")
        for k in range(count):
            out.write(" c%d R %s7.5%s\n" % (k, "0" * 500000, "0" * 500000))
        out.write(" M 'MARKER' 'INTEND'\nBOUNDS\n")
        out.writelines(" UP B c%d 9\n" % k for k in range(count))
        out.write("ENDATA\n")


def one_line(path, size):
    """A comment of one line, between two others."""
    with open(path, "w") as out:
        out.write("NAME line\n*" + "x" * size + "\nROWS\n N COST\nCOLUMNS\nENDATA\n")


def sparse(path, rows, columns, sign):
    """A linear program of which 1 percent of the coefficients are there, columns from 0 to 10."""
    chance = random.Random(1)
    per_column = max(1, rows // 100)
    with open(path, "w") as out:
        out.write("NAME sparse\nROWS\n N COST\n")
        out.writelines(" L R%d\n" % k for k in range(rows))
        out.write("COLUMNS\n")
        for k in range(columns):
            out.write(" x%d COST %d\n" % (k, sign * chance.randint(1, 20)))
            for row in sorted(chance.sample(range(rows), per_column)):
                out.write(" x%d R%d %d\n" % (k, row, chance.randint(1, 9)))
        out.write("RHS\n")
        out.writelines(" RHS R%d %d\n" % (k, chance.randint(50, 500)) for k in range(rows))
        out.write("BOUNDS\n")
        out.writelines(" UP B x%d 10\n" % k for k in range(columns))
        out.write("ENDATA\n")


def main():
    folder = sys.argv[1]
    scale = int(sys.argv[2]) if len(sys.argv) > 2 else 1
    os.makedirs(folder, exist_ok=True)
    at = lambda name: os.path.join(folder, name + ".mps")
    rows, columns, entries = 65536 // scale, 65536 // scale, 4194304 // scale
    lp_at = lambda name: os.path.join(folder, name + ".lp")
    as_lp(lp_at("sorted"), limits(at("sorted"), rows, columns, entries, True), columns)
    as_lp(lp_at("random"), limits(at("random"), rows, columns, entries, False), columns, random.Random(8))
    wide = [[(k, 1 + k % 2) for k in range(columns)] for _ in range(entries // columns)]
    as_lp(lp_at("wide"), wide, columns, random.Random(9))
    limits(at("long"), rows // 16, columns // 16, 60000 // scale, True, 255)
    digits(at("digits"), 60 // scale)
    one_line(at("line"), 60000000 // scale)
    for rows in (500, 5000):
        sparse(at("still-%d" % rows), rows, 2 * rows, 1)
        sparse(at("moving-%d" % rows), rows, 2 * rows, -1)


main()
