#!/usr/bin/env python3
"""Runs searches with random kits of plugins, and judges each answer by that of the search without plugins.

    bench/kits.py PROGRAM [--programs N] [--kits N] [--seed N] [--chunk N] [--keep FOLDER]

PROGRAM is the built `cip_run_rows` (`rt run` in its folder leaves it in `out`), or a command in quotes. Each of N
programs (200) has from 2 to 4 columns and from 1 to 3 rows, and is searched once without plugins and with N kits (50);
the program is called on N of them at once (20). FOLDER keeps what it is called on.
A kit has up to six plugins and up to three on its shelf, of all kinds that are asked: most propose and wish at random,
right and wrong, and some want memory at each call. One search of four may take few nodes.

Judged are, by fractions: that the status is the same, with the same cost and bound where it is optimal; where nodes are
few, that cost and bound have the optimum between them; that the point is feasible at its cost; that all plugins are
spent, with their numbers in order; and that the words of each are those of a life, by lines numbered from 1. A line
tells of a search where that isn't so. The last lines count searches, words and faults; the exit status is 1 where a
search is wrong."""
import argparse
import collections
import os
import random
import re
import shlex
import subprocess
import sys
import tempfile
from dataclasses import dataclass
from fractions import Fraction

KINDS = ["separator", "propagator", "heuristic", "rule", "handler", "watcher"]
ASKED = {"separate", "propagate", "search", "branch", "enforce", "on_event"}
NOTED = {"nomemory", "dropped", "refused"}


@dataclass
class Program:
    """A program to be minimised or maximised: columns with kinds and high sides, low sides are 0; rows with types."""

    maximises: bool
    costs: list
    whole: list
    highs: list
    rows: list


def program_by(draw):
    columns = draw.randint(2, 4)
    whole = [draw.random() < 0.75 for _ in range(columns)]
    highs = [draw.randint(1, 4) if is_whole or draw.random() < 0.8 else None for is_whole in whole]
    rows = []
    for _ in range(draw.randint(1, 3)):
        terms = [draw.choice([-2, -1, 0, 1, 1, 2, 2, 3, 4]) for _ in range(columns)]
        rows.append((terms, draw.choice("LLLGGE"), draw.randint(0, 9)))
    return Program(draw.random() < 0.5, [draw.randint(-5, 5) for _ in range(columns)], whole, highs, rows)


def text_of(program):
    lines = ["OBJSENSE MAX" if program.maximises else "OBJSENSE MIN", "ROWS", " N COST"]
    lines += [f" {kind} R{row}" for row, (_, kind, _) in enumerate(program.rows)] + ["COLUMNS"]
    for column, cost in enumerate(program.costs):
        lines.append(f" x{column} COST {cost}")
        lines += [f" x{column} R{row} {terms[column]}" for row, (terms, _, _) in enumerate(program.rows)]
    lines += ["RHS"] + [f" RHS R{row} {side}" for row, (_, _, side) in enumerate(program.rows)] + ["BOUNDS"]
    for column, high in enumerate(program.highs):
        kind = "UI" if program.whole[column] else "UP"
        lines.append(f" {kind} B x{column} {high}" if high is not None else f" PL B x{column}")
    return lines + ["ENDATA"]


def cost_at(program, point):
    """The cost of a point; None where it isn't feasible."""
    for value, is_whole, high in zip(point, program.whole, program.highs):
        if value < 0 or (high is not None and value > high) or (is_whole and value.denominator != 1):
            return None
    for terms, kind, side in program.rows:
        activity = sum(term * value for term, value in zip(terms, point))
        if (kind in "LE" and activity > side) or (kind in "GE" and activity < side):
            return None
    return sum(cost * value for cost, value in zip(program.costs, point))


def plugin_by(draw, place, number):
    kind = draw.choice(KINDS)
    does = "memory" if draw.random() < 0.1 else f"random {draw.randrange(2**32)}"
    return f"{place} {kind} {place}{number} {draw.randint(-2, 2)} always {does}"


def kit_by(draw):
    lines = [plugin_by(draw, "start", number) for number in range(draw.randint(1, 6))]
    lines += [plugin_by(draw, "shelf", number) for number in range(draw.randint(0, 3))]
    if draw.random() < 0.25:
        lines += ["word --nodes", f"word {draw.randint(1, 4)}"]
    return lines


@dataclass
class Answer:
    """What a search printed: its status, the cost, the bound, the point, the trace, and the line on a kit, if any."""

    status: str
    cost: Fraction
    bound: Fraction
    point: list
    trace: list
    kit: str


def number_in(text):
    return None if text in (None, "none") else Fraction(text)


def answer_in(lines):
    """The answer of the lines behind those of a call."""
    told = [line[2:] for line in lines if line.startswith("> ")]
    kit = next((line for line in lines if line.startswith("kit ")), "")
    if not told or told[-1] != "end":
        return Answer("broken off", None, None, [], [], kit)
    said = dict(line.split(" ", 1) for line in told[:-1] if not line.startswith(("trace ", "ray ")))
    point = [Fraction(value) for name, value in said.items() if re.fullmatch(r"x\d", name)]
    trace = [line.split(" ", 4)[1:] for line in told if line.startswith("trace ")]
    return Answer(said["status"], number_in(said.get("cost")), number_in(said.get("bound")), point, trace, kit)


def answers_in(lines, runs):
    """The answers of the lines behind the name of a row file whose runs have these lines of their own."""
    answers, at = [], 0
    for own in runs:
        if lines[at : at + 1 + len(own)] != ["run"] + own:
            break
        at += 1 + len(own)
        end = at
        while end < len(lines) and lines[end] != "run":
            end += 1
        answers.append(answer_in(lines[at:end]))
        at = end
    return answers


def fault_of_life(words):
    """What is wrong about the words of a plugin, which begin as it is included."""
    stage, enabled = 0, True
    for word in words:
        head = word.split(" ")[0]
        if head in NOTED:
            continue
        if head in ("init", "init_solve", "exit_solve", "exit"):
            expected = ["init", "init_solve", "exit_solve", "exit", None][stage]
            if head != expected:
                return f"{head} in place of {expected}"
            stage += 1
        elif stage != 2:
            return f"{head} at stage {stage}"
        elif head in ASKED:
            if not enabled:
                return f"{head} of a disabled plugin"
        elif head in ("disabled", "enabled"):
            if enabled == (head == "enabled"):
                return f"{head} twice"
            enabled = head == "enabled"
        else:
            return f"an unknown word {head}"
    return None if stage == 4 else f"a life that ends at stage {stage}"


def fault_of_kit(answer, own):
    """What is wrong about the trace of a search, and about what is left of its kit."""
    start = sum(line.startswith("start ") for line in own)
    shelf = sum(line.startswith("shelf ") for line in own)
    words, names = collections.defaultdict(list), {}
    for at, (number, plugin, name, word) in enumerate(answer.trace, 1):
        if int(number) != at:
            return f"line {number} in place of {at}"
        if names.setdefault(int(plugin), name) != name:
            return f"two names of {plugin}"
        words[int(plugin)].append(word)
    seated = len(words)
    if any(names.get(plugin) != f"start{plugin}" for plugin in range(start)) or set(words) != set(range(seated)):
        return "numbers that aren't those of the start"
    spent = [str(plugin) for plugin in range(seated)] + ["-"] * (start + shelf - seated)
    if answer.kit != " ".join(["kit 0 0, spent"] + spent):
        return f"a kit that is left as {answer.kit}"
    faults = [fault_of_life(words[plugin]) for plugin in range(seated)]
    return next((fault for fault in faults if fault), None)


def fault_of_answer(program, plain, answer, own):
    """What is wrong about an answer, where this is the one without plugins."""
    sign = -1 if program.maximises else 1
    if answer.cost is not None and cost_at(program, answer.point) != answer.cost:
        return "a point that isn't feasible at the cost"
    if "word --nodes" in own and answer.status == "nodelimit":
        if plain.status != "optimal":
            if plain.status == "infeasible" and answer.cost is not None:
                return "a point of a program that has none"
            return None
        if answer.cost is not None and sign * answer.cost < sign * plain.cost:
            return "a better point than the best"
        if answer.bound is not None and sign * answer.bound > sign * plain.cost:
            return "a bound past the best point"
        return None
    if answer.status != plain.status:
        return f"status {answer.status} in place of {plain.status}"
    if plain.status == "optimal" and (answer.cost, answer.bound) != (plain.cost, plain.bound):
        return f"cost {answer.cost} and bound {answer.bound} in place of {plain.cost}"
    return None


def row_by(draw, kits, path):
    """Writes a row file with a search without plugins and searches with kits: the program, and the lines of each."""
    program = program_by(draw)
    runs = [[]] + [kit_by(draw) for _ in range(kits)]
    lines = ["word solve", "word M", "word --trace", "room 4000000"] + [line for own in runs for line in ["run"] + own]
    with open(path, "w") as file:
        file.write("\n".join(lines + ["text M"] + text_of(program)) + "\n")
    return program, runs


def outputs_of(command, paths):
    """What the program prints of each file, by its lines."""
    done = subprocess.run(command + paths, capture_output=True, text=True)
    outputs, last = {path: [] for path in paths}, []
    for line in done.stdout.splitlines():
        if line in outputs:
            last = outputs[line]
        else:
            last.append(line)
    return outputs, done.stderr[-300:]


class Tally:
    """What was seen so far, and how many searches were wrong."""

    def __init__(self):
        self.words, self.statuses = collections.Counter(), collections.Counter()
        self.searches = self.wrong = 0

    def tell(self, path, fault):
        self.wrong += 1
        print(f"{path}: {fault}", flush=True)

    def take(self, path, program, runs, lines, errors):
        answers = answers_in(lines, runs)
        if len(answers) != len(runs):
            self.tell(path, f"{len(answers)} answers of {len(runs)} {errors}")
        for at, answer in enumerate(answers):
            self.searches += 1
            self.statuses[answer.status] += 1
            for _, _, _, word in answer.trace:
                parts = word.split(" ")
                self.words[" ".join(parts[: 2 if parts[0] == "refused" else 1])] += 1
            fault = fault_of_answer(program, answers[0], answer, runs[at])
            if at > 0:
                fault = fault or fault_of_kit(answer, runs[at])
            if fault:
                self.tell(f"{path}: run {at}", fault)


def main():
    words = argparse.ArgumentParser(description=__doc__, formatter_class=argparse.RawDescriptionHelpFormatter)
    words.add_argument("program")
    words.add_argument("--programs", type=int, default=200)
    words.add_argument("--kits", type=int, default=50)
    words.add_argument("--seed", type=int, default=1)
    words.add_argument("--chunk", type=int, default=20)
    words.add_argument("--keep")
    given = words.parse_args()
    folder = given.keep or tempfile.mkdtemp()
    tally = Tally()
    for first in range(0, given.programs, given.chunk):
        rows = {}
        for number in range(first, min(first + given.chunk, given.programs)):
            path = os.path.join(folder, f"kits{number}")
            rows[path] = row_by(random.Random(f"{given.seed} {number}"), given.kits, path)
        outputs, errors = outputs_of(shlex.split(given.program), list(rows))
        for path, (program, runs) in rows.items():
            tally.take(path, program, runs, outputs[path], errors)
    print(f"{given.programs} programs, {tally.searches} searches, {tally.wrong} wrong")
    for counts in (tally.statuses, tally.words):
        print(", ".join(f"{word} {count}" for word, count in sorted(counts.items())))
    sys.exit(1 if tally.wrong else 0)


if __name__ == "__main__":
    main()
