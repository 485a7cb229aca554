#!/usr/bin/env python3
"""Searches with presolve and the built-in plugins beside searches with --plain: presolved.py PROGRAM TEXT..

For each text in free MPS or LP a line: the word, the nodes and the processor time of both. The nodes are the least
number of `--nodes` that doesn't end by it, found by halves, where a search takes under two seconds. Costs that differ are
told, and the status is then 1. At the end stand the geometric means of the quotients, over all texts on which both end
and over those on which --plain takes 20 ms or more."""
import math
import resource
import subprocess
import sys

SECONDS = 20
MOST_NODES = 2**20


def run(words):
    """The lines of an answer and the processor time, or None where it takes too long."""
    before = resource.getrusage(resource.RUSAGE_CHILDREN)
    try:
        said = subprocess.run(words, capture_output=True, text=True, timeout=SECONDS).stdout
    except subprocess.TimeoutExpired:
        return None
    after = resource.getrusage(resource.RUSAGE_CHILDREN)
    return said.split("\n"), after.ru_utime + after.ru_stime - before.ru_utime - before.ru_stime


def word_of(lines):
    return lines[0].removeprefix("status ")


def cost_of(lines):
    return next((line for line in lines if line.startswith("cost ")), "cost none")


def ends_within(words, nodes):
    answer = run(words + ["--nodes", str(nodes)])
    return answer is not None and word_of(answer[0]) != "nodelimit"


def nodes_of(words, spent):
    """How many nodes a search takes, or None where that takes too long to find."""
    if spent > 2:
        return None
    high = 1
    while not ends_within(words, high):
        high *= 2
        if high > MOST_NODES:
            return None
    low = high // 2
    while high - low > 1:
        middle = (low + high) // 2
        low, high = (low, middle) if ends_within(words, middle) else (middle, high)
    return high


def mean(quotients):
    return math.exp(sum(math.log(q) for q in quotients) / len(quotients)) if quotients else float("nan")


def main(words):
    program, texts = words[0], words[1:]
    times, long_times, nodes, wrong = [], [], [], 0
    print("| text | with presolve and plugins | --plain |\n|---|---|---|")
    for text in texts:
        both = [[program, "solve", text], [program, "solve", text, "--plain"]]
        answers = [run(one) for one in both]
        cells = []
        for one, answer in zip(both, answers):
            if answer is None:
                cells.append((None, None, f"over {SECONDS} s"))
                continue
            lines, spent = answer
            taken = nodes_of(one, spent)
            cells.append((spent, taken, f"{word_of(lines)}, {taken or '?'} nodes, {spent:.3f} s"))
        print(f"| {text.rsplit('/', 1)[-1]} | {cells[0][2]} | {cells[1][2]} |", flush=True)
        if answers[0] and answers[1]:
            if word_of(answers[0][0]) == word_of(answers[1][0]) and cost_of(answers[0][0]) != cost_of(answers[1][0]):
                wrong += 1
                print(f"{text}: {cost_of(answers[0][0])} beside {cost_of(answers[1][0])}")
            times.append(max(cells[0][0], 1e-3) / max(cells[1][0], 1e-3))
            if cells[1][0] >= 0.02:
                long_times.append(times[-1])
            if cells[0][1] and cells[1][1]:
                nodes.append(cells[0][1] / cells[1][1])
    print(f"\ntime {mean(times):.2f} over {len(times)}, from 20 ms {mean(long_times):.2f} over {len(long_times)}, "
          f"nodes {mean(nodes):.3f} over {len(nodes)}; {wrong} costs differ")
    return 1 if wrong else 0


if __name__ == "__main__":
    sys.exit(main(sys.argv[1:]))
