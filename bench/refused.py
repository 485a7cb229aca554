#!/usr/bin/env python3
"""Refuses memory to searches, one growth after the other, and judges what is printed.

    bench/refused.py PROGRAM ROW..

PROGRAM is the built `cip_run_rows` (`rt run` in its folder leaves it in `out`), each ROW a file of its `data`. It is
run once as it is, which counts its requests for memory, and then once for each of them, of which that one is refused.
A call of the row may then print the same bytes, trace lines left aside, with the same status; or want of memory (6)
without figures, or with a cost that isn't better and a bound that isn't worse than those; or the program ends, where
the refused memory was its own. A line tells of what is none of these; the last one counts. The C compiler `cc` makes
the library that refuses, which the program is started with."""
import collections
import os
import re
import subprocess
import sys
import tempfile
from fractions import Fraction

LIBRARY = r"""
#define _GNU_SOURCE
#include <dlfcn.h>
#include <errno.h>
#include <stdio.h>
#include <stdlib.h>

static long count, refused = -1;

__attribute__((constructor)) static void begin(void) {
  const char *number = getenv("REFUSED");
  if (number) refused = atol(number);
}

__attribute__((destructor)) static void end(void) {
  const char *path = getenv("COUNTED");
  FILE *file;
  long told = count;
  refused = -1;
  if (path && (file = fopen(path, "w"))) {
    fprintf(file, "%ld", told);
    fclose(file);
  }
}

static int is_refused(void) {
  if (++count != refused) return 0;
  errno = ENOMEM;
  return 1;
}

void *malloc(size_t size) {
  static void *(*real)(size_t);
  if (!real) real = dlsym(RTLD_NEXT, "malloc");
  return is_refused() ? NULL : real(size);
}

void *realloc(void *old, size_t size) {
  static void *(*real)(void *, size_t);
  if (!real) real = dlsym(RTLD_NEXT, "realloc");
  return is_refused() ? NULL : real(old, size);
}

void *aligned_alloc(size_t alignment, size_t size) {
  static void *(*real)(size_t, size_t);
  if (!real) real = dlsym(RTLD_NEXT, "aligned_alloc");
  return is_refused() ? NULL : real(alignment, size);
}
"""


def calls_in(text):
    """The calls that a program printed: the status of each, and its lines but those of a trace."""
    calls = []
    for part in text.split("\nrun\n")[1:]:
        status = re.search(r"^status (\d+)", part, re.M)
        told = [line[2:] for line in part.split("\n") if line.startswith("> ") and not line.startswith("> trace ")]
        if status and told and told[-1] == "end":
            calls.append((int(status.group(1)), told))
    return calls


def figure(told, word):
    found = [line.split(" ")[1] for line in told if line.startswith(word + " ")]
    return Fraction(found[0]) if found and found[0] != "none" else None


def fault_of(call, whole, sign):
    """What is wrong about a call, where this is the one that had its memory."""
    status, told = call
    if call == whole:
        return None
    if status != 6:
        return f"status {status} with {told}"
    if told == ["status nomemory", "end"]:
        return None
    cost, bound, best = figure(told, "cost"), figure(told, "bound"), figure(whole[1], "cost")
    if cost is not None and best is not None and sign * cost < sign * best:
        return f"a cost that is better: {told}"
    if bound is not None and best is not None and sign * bound > sign * best:
        return f"a bound that is worse: {told}"
    return None


def run(program, row, environment):
    words = dict(os.environ, **environment)
    return subprocess.run([program, row], capture_output=True, text=True, env=words)


def try_row(program, row, library, folder):
    """Tries all growths of a row; what came of them, by kinds, and how many were wrong."""
    counted = os.path.join(folder, "counted")
    whole = calls_in(run(program, row, {"LD_PRELOAD": library, "COUNTED": counted}).stdout)
    with open(counted) as file:
        growths = int(file.read())
    with open(row) as file:
        sign = -1 if "MAX" in file.read() else 1
    seen, wrong = collections.Counter(), 0
    for number in range(1, growths + 1):
        done = run(program, row, {"LD_PRELOAD": library, "REFUSED": str(number)})
        calls = calls_in(done.stdout)
        seen["ended by itself" if len(calls) == len(whole) else "broken off"] += 1
        if done.returncode not in (0, 1) or (done.returncode == 0) != (len(calls) == len(whole)):
            wrong += 1
            print(f"{row}: growth {number}: ended with {done.returncode}, {done.stderr[-200:]}", flush=True)
        for call, full in zip(calls, whole):
            if call[0] == 6:
                seen["nomemory"] += 1
            fault = fault_of(call, full, sign)
            if fault:
                wrong += 1
                print(f"{row}: growth {number}: {fault}", flush=True)
    print(f"{row}: {growths} growths, {wrong} wrong, {dict(seen)}", flush=True)
    return wrong


def main():
    if len(sys.argv) < 3:
        sys.exit(__doc__)
    with tempfile.TemporaryDirectory() as folder:
        source, library = os.path.join(folder, "refuse.c"), os.path.join(folder, "refuse.so")
        with open(source, "w") as file:
            file.write(LIBRARY)
        subprocess.run(["cc", "-O1", "-shared", "-fPIC", "-o", library, source, "-ldl"], check=True)
        wrong = sum(try_row(sys.argv[1], row, library, folder) for row in sys.argv[2:])
    sys.exit(1 if wrong else 0)


if __name__ == "__main__":
    main()
