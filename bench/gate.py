#!/usr/bin/env python3
"""What a gate costs by crate, in seconds of processor time: its proof, its tests, and its wrong bodies.

    bench/gate.py              runs `rt ci --anew` at the top of the repository, and prints the table behind its output
    bench/gate.py NAME..       the same for these crates and those below them (`rt ci --anew NAME..`)
    bench/gate.py --kept ..    without --anew: only what earlier runs on this machine have not passed

Where the kit's `rt ci` knows no --anew, it proves all from nothing, and takes no names.

Each check is a process of its own. While the gate runs, the processes below it are looked at four times a second, and
what each has used of a processor is counted for the crate that it is called with: for its wrong bodies where it runs
in a copy that such a body is tried in, for its tests where it checks or compiles these, else for its proof (with the
code that is made of it). The line 'other' holds rt itself, the linkers, and the runs of programs and tests.
"""
import os
import subprocess
import sys
import time

TOP = os.path.dirname(os.path.dirname(os.path.abspath(__file__)))
TICK = os.sysconf("SC_CLK_TCK")
KINDS = ("proof", "tests", "edits")


def stat_of(pid):
    """The parent of a process, the seconds that it used by itself and when it began, or None where it is gone."""
    try:
        with open(f"/proc/{pid}/stat", encoding="utf-8", errors="replace") as it:
            fields = it.read().rpartition(")")[2].split()
    except OSError:
        return None
    return int(fields[1]), sum(map(int, fields[11:13])) / TICK, fields[19]


def place_of(pid):
    """The crate and the kind of a check, or None for a process that is none."""
    try:
        with open(f"/proc/{pid}/cmdline", "rb") as it:
            words = it.read().decode(errors="replace").split("\0")
        folder = os.readlink(f"/proc/{pid}/cwd")
    except OSError:
        return None
    if os.path.basename(words[0]) != "rattle" or "--crate-name" not in words:
        return None
    name = words[words.index("--crate-name") + 1]
    if os.path.basename(folder).startswith("rt-edit-"):
        return name, "edits"
    return name, "tests" if "--test" in words else "proof"


def below(root, parents):
    """The processes below one, by what each of all is the child of."""
    found, grows = {root}, True
    while grows:
        more = {pid for pid, parent in parents.items() if parent in found} - found
        found, grows = found | more, bool(more)
    return found


def watch(run):
    """The seconds of each check that ran, by its process, until the run ends."""
    seconds, places = {}, {}
    while run.poll() is None:
        stats = {int(it): stat_of(it) for it in os.listdir("/proc") if it.isdigit()}
        stats = {pid: it for pid, it in stats.items() if it}
        for pid in below(run.pid, {pid: it[0] for pid, it in stats.items()}):
            if pid not in stats:
                continue
            # (numbers of processes are used again, and one that is just being made has its maker's name)
            of, used = (pid, stats[pid][2]), stats[pid][1]
            places[of] = places.get(of) or place_of(pid)
            if places[of]:
                seconds[of] = max(seconds.get(of, 0.0), used)
        time.sleep(0.25)
    return [(*places[of], used) for of, used in seconds.items()]


def table(checks, whole):
    """The lines of the table, the costliest crate first."""
    rows = {}
    for name, kind, used in checks:
        rows.setdefault(name, dict.fromkeys(KINDS, 0.0))[kind] += used
    order = sorted(rows, key=lambda it: -sum(rows[it].values()))
    sums = {kind: sum(rows[it][kind] for it in rows) for kind in KINDS}
    line = "{:22s}" + " {:>8s}" * 4
    yield line.format("crate", *KINDS, "sum")
    for name in order:
        cells = [rows[name][kind] for kind in KINDS]
        yield line.format(name, *[f"{it:.0f}" if it else "" for it in cells], f"{sum(cells):.0f}")
    yield line.format("all, in seconds", *[f"{sums[it]:.0f}" for it in KINDS], f"{sum(sums.values()):.0f}")
    yield line.format("all, in minutes", *[f"{sums[it] / 60:.1f}" for it in KINDS], f"{sum(sums.values()) / 60:.1f}")
    yield line.format("other, in minutes", "", "", "", f"{(whole - sum(sums.values())) / 60:.1f}")


def main(words):
    given = [it for it in words if it != "--kept"]
    # (a kit whose `rt ci` keeps nothing has no such word: it takes neither names nor --kept)
    help_text = subprocess.run(["rt", "help"], capture_output=True, text=True, check=False)
    knows = "--anew" in help_text.stdout + help_text.stderr
    anew = ["--anew"] if knows and "--kept" not in words else []
    begun = time.time()
    run = subprocess.Popen(["rt", "ci", *anew, *given], cwd=TOP, stdin=subprocess.DEVNULL)
    checks = watch(run)
    times = os.times()
    whole = times.children_user + times.children_system
    print(f"\n{time.time() - begun:.0f} seconds by the clock, {os.cpu_count()} processors\n")
    print("\n".join(table(checks, whole)), flush=True)
    return run.returncode


if __name__ == "__main__":
    sys.exit(main(sys.argv[1:]))
