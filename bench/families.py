#!/usr/bin/env python3
"""Writes generated programs, each in free MPS and in SMT-LIB: families.py FOLDER [SEED].

knapsack    one row, columns of 0 or 1
multi       several rows, columns of 0 or 1 (multi-dimensional knapsack)
cover       each row wants one of its sets (set cover)
assign      jobs to machines with capacities (generalised assignment)
network     flows over arcs that are opened at a fixed cost (fixed charge, mixed)
lots        production, stock and set-ups over periods (lot sizing, mixed)

Each family comes in three sizes. All minimise, all numbers are whole, and the same seed (1 where none is given) gives
the same files."""
import os
import random
import sys
from dataclasses import dataclass, field


@dataclass
class Column:
    """Its cost, whether it is whole, and its sides; no high side is None."""

    cost: int
    whole: bool
    high: int | None
    low: int = 0


@dataclass
class Program:
    """Columns by name; rows by name, each with its terms, its type (L, G or E) and its right-hand side."""

    columns: dict = field(default_factory=dict)
    rows: dict = field(default_factory=dict)

    def column(self, name, cost, whole=True, high=1):
        self.columns[name] = Column(cost, whole, high)

    def row(self, name, terms, kind, side):
        self.rows[name] = ([(name, factor) for name, factor in terms if factor], kind, side)


def knapsack(chance, items):
    program = Program()
    sizes = [chance.randint(20, 120) for _ in range(items)]
    for k, size in enumerate(sizes):
        program.column(f"x{k}", -(size + chance.randint(-10, 10)))
    program.row("SIZE", [(f"x{k}", size) for k, size in enumerate(sizes)], "L", sum(sizes) // 2)
    return program


def multi(chance, rows, items):
    program = Program()
    for k in range(items):
        program.column(f"x{k}", -chance.randint(10, 100))
    for r in range(rows):
        sizes = [chance.randint(5, 60) for _ in range(items)]
        program.row(f"R{r}", [(f"x{k}", size) for k, size in enumerate(sizes)], "L", sum(sizes) // 2)
    return program


def cover(chance, rows, sets):
    program = Program()
    for k in range(sets):
        program.column(f"s{k}", chance.randint(1, 20))
    for r in range(rows):
        chosen = sorted(chance.sample(range(sets), max(2, sets // 8)))
        program.row(f"R{r}", [(f"s{k}", 1) for k in chosen], "G", 1)
    return program


def assign(chance, machines, jobs):
    program = Program()
    sizes = [[chance.randint(5, 25) for _ in range(jobs)] for _ in range(machines)]
    for m in range(machines):
        for j in range(jobs):
            program.column(f"x{m}_{j}", chance.randint(10, 50))
    for j in range(jobs):
        program.row(f"JOB{j}", [(f"x{m}_{j}", 1) for m in range(machines)], "E", 1)
    for m in range(machines):
        room = sum(sizes[m]) * 4 // (5 * machines)
        program.row(f"ROOM{m}", [(f"x{m}_{j}", sizes[m][j]) for j in range(jobs)], "L", max(room, max(sizes[m])))
    return program


def network(chance, sources, sinks):
    program = Program()
    wants = [chance.randint(3, 12) for _ in range(sinks)]
    for s in range(sources):
        for t in range(sinks):
            program.column(f"open{s}_{t}", chance.randint(5, 30))
            program.column(f"flow{s}_{t}", chance.randint(1, 9), whole=False, high=None)
    for t in range(sinks):
        program.row(f"WANT{t}", [(f"flow{s}_{t}", 1) for s in range(sources)], "G", wants[t])
    for s in range(sources):
        program.row(f"HAVE{s}", [(f"flow{s}_{t}", 1) for t in range(sinks)], "L", sum(wants) * 2 // sources + 1)
        for t in range(sinks):
            program.row(f"ARC{s}_{t}", [(f"flow{s}_{t}", 1), (f"open{s}_{t}", -wants[t])], "L", 0)
    return program


def lots(chance, periods):
    program = Program()
    most = 60
    for t in range(periods):
        program.column(f"make{t}", chance.randint(1, 5), whole=False, high=None)
        program.column(f"stock{t}", chance.randint(1, 3), whole=False, high=None)
        program.column(f"set{t}", chance.randint(20, 60))
    for t in range(periods):
        before = [(f"stock{t - 1}", 1)] if t else []
        program.row(f"FLOW{t}", before + [(f"make{t}", 1), (f"stock{t}", -1)], "E", chance.randint(5, 25))
        program.row(f"SET{t}", [(f"make{t}", 1), (f"set{t}", -most)], "L", 0)
    return program


FAMILIES = {
    "knapsack": (knapsack, [(10,), (20,), (35,)]),
    "multi": (multi, [(3, 10), (5, 20), (5, 30)]),
    "cover": (cover, [(10, 15), (20, 30), (30, 40)]),
    "assign": (assign, [(3, 6), (4, 8), (5, 10)]),
    "network": (network, [(2, 3), (4, 6), (6, 10)]),
    "lots": (lots, [(4,), (8,), (12,)]),
}


def mps(name, program):
    """The text in free MPS. FREE behind the name is what some readers want to see."""
    lines = [f"NAME {name} FREE", "ROWS", " N COST"]
    lines += [f" {kind} {row}" for row, (_, kind, _) in program.rows.items()]
    lines.append("COLUMNS")
    entries = {column: [] for column in program.columns}
    for row, (terms, _, _) in program.rows.items():
        for column, factor in terms:
            entries[column].append((row, factor))
    # whole columns first, between the markers
    for whole in (True, False):
        chosen = [c for c, told in program.columns.items() if told.whole == whole]
        if whole and chosen:
            lines.append(" M1 'MARKER' 'INTORG'")
        for column in chosen:
            lines.append(f" {column} COST {program.columns[column].cost}")
            lines += [f" {column} {row} {factor}" for row, factor in entries[column]]
        if whole and chosen:
            lines.append(" M2 'MARKER' 'INTEND'")
    lines.append("RHS")
    lines += [f" RHS {row} {side}" for row, (_, _, side) in program.rows.items() if side]
    lines.append("BOUNDS")
    lines += [f" UP BND {c} {told.high}" for c, told in program.columns.items() if told.high is not None]
    return "\n".join(lines + ["ENDATA", ""])


def smt(program):
    """The same for solvers of SMT."""
    whole = lambda n: f"(- {-n})" if n < 0 else str(n)
    total = lambda terms: "(+ 0 " + " ".join(f"(* {whole(f)} {c})" for c, f in terms) + ")"
    lines = []
    for column, told in program.columns.items():
        lines.append(f"(declare-const {column} {'Int' if told.whole else 'Real'})")
        lines.append(f"(assert (>= {column} {whole(told.low)}))")
        if told.high is not None:
            lines.append(f"(assert (<= {column} {whole(told.high)}))")
    for terms, kind, side in program.rows.values():
        sign = {"L": "<=", "G": ">=", "E": "="}[kind]
        lines.append(f"(assert ({sign} {total(terms)} {whole(side)}))")
    lines.append(f"(minimize {total([(c, told.cost) for c, told in program.columns.items()])})")
    return "\n".join(lines + ["(check-sat)", "(get-objectives)", ""])


def programs(seed):
    """Each program with its name, smaller ones first."""
    for family, (make, sizes) in FAMILIES.items():
        for size in sizes:
            name = family + "-" + "x".join(map(str, size))
            yield name, make(random.Random(f"{seed} {name}"), *size)


def main():
    folder = sys.argv[1]
    seed = int(sys.argv[2]) if len(sys.argv) > 2 else 1
    os.makedirs(folder, exist_ok=True)
    for name, program in programs(seed):
        with open(os.path.join(folder, name + ".mps"), "w") as out:
            out.write(mps(name, program))
        with open(os.path.join(folder, name + ".smt2"), "w") as out:
            out.write(smt(program))


if __name__ == "__main__":
    main()
