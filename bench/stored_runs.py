#!/usr/bin/env python3
"""Runs the built program on words and files, and compares its status and its output with what was worked out by hand.

    stored_runs.py [PROGRAM]       PROGRAM is the built `cip`, crates/cip/out/built/cip where nothing is said

What `run` answers is proved and shown by rows; this shows that the program hands it the words of the system, its files
and the standard output, and ends with its status. So a run stands here for each of these, and not for each rule of a
text. Each is made in a folder with the files of FILES. The status is 0 where all runs are as expected, 1 where one
differs, and 2 where there is no program. It belongs to no gate: run it by hand once the program is built.
"""
import os
import pathlib
import subprocess
import sys
import tempfile
import threading
import time

TOP = os.path.dirname(os.path.dirname(os.path.abspath(__file__)))
BUILT = f"{TOP}/crates/cip/out/built/cip"

THREE = pathlib.Path(f"{TOP}/examples/three_columns.mps").read_text(encoding="utf-8")
TWO = pathlib.Path(f"{TOP}/examples/two_products.lp").read_text(encoding="utf-8")


def one_column(rhs):
    """MAX x, where 2x is at most this number, and x is whole from 0 to 9."""
    return ("OBJSENSE MAX\nROWS\n N COST\n L R1\n"
            "COLUMNS\n M1 'MARKER' 'INTORG'\n x COST 1 R1 2\n M2 'MARKER' 'INTEND'\n"
            f"RHS\n RHS R1 {rhs}\nBOUNDS\n UP B x 9\nENDATA\n")


# MIN x + y + z, where 2x + 2y + 2z = 3, each 0 or 1: no point, and the linear program of the root has the least cost
# 3/2, which is rounded up since all costs are whole.
ODD = ("ROWS\n N COST\n E R1\nCOLUMNS\n x COST 1 R1 2\n y COST 1 R1 2\n z COST 1 R1 2\nRHS\n RHS R1 3\n"
       "BOUNDS\n BV B x\n BV B y\n BV B z\nENDATA\n")

# The files of each run, beside the folder D and the pipe P, through which three_columns.mps comes in pieces of 7 bytes.
# The names of three differ by blanks.
FILES = {
    "M": THREE,
    " M": one_column(7),
    "M ": one_column(11),
    "plan.lp": TWO,
    "--odd": ODD,
    "no_objective": "ROWS\n L R1\nCOLUMNS\nENDATA\n",
    "best": "a 2\nb 0\nc 1\n",
    "past": "a 3\nb 0\nc 0\n",
    "short": "a 2\nb 0\n",
    "blocks": "NBLOCKS 1\nBLOCK 1\nR1 R2 R3\n",
    "no_blocks": "a 2\n",
}

# The optimum of three_columns.mps is 5 2 + 3 1 = 13 at 2, 0, 1.
THIRTEEN = "status optimal\ncost 13\nbound 13\na 2\nb 0\nc 1\nend\n"
USAGE = "status usage\nend\n"
NO_FILE = "status readfault\nend\n"


def optimal_at(x):
    """The answer to `one_column`."""
    return f"status optimal\ncost {x}\nbound {x}\nx {x}\nend\n"


# Words, the status and what is printed.
RUNS = [
    # The words, from the first behind the program's name.
    (["solve", "M"], 0, THIRTEEN),
    (["solve", "--plain", "--nodes", "1000", "M"], 0, THIRTEEN),
    (["solve", "--gap=0", "M"], 0, THIRTEEN),
    (["solve", "M", "--trace", "--plain"], 0, THIRTEEN),
    ([], 2, USAGE),
    (["solve"], 2, USAGE),
    (["M"], 2, USAGE),
    (["solve", "M", "M"], 2, USAGE),
    (["solve", "M", "--nodes", "0"], 2, USAGE),
    (["--help"], 2, USAGE),
    (["--version"], 2, USAGE),
    (["solve", ""], 3, NO_FILE),
    # A word that isn't UTF-8.
    (["solve", b"M\xff"], 2, USAGE),
    # Behind `--` a word is a name, whatever it begins with.
    (["solve", "--", "M"], 0, THIRTEEN),
    (["solve", "--odd"], 2, USAGE),
    (["solve", "--", "--nodes"], 3, NO_FILE),
    (["check", "--", "M", "best"], 0, "status feasible\ncost 13\nend\n"),
    # Files: one that isn't there, a folder, names with blanks at their ends, a text that comes in short pieces.
    (["solve", "N"], 3, NO_FILE),
    (["solve", "D"], 3, NO_FILE),
    (["solve", " M"], 0, optimal_at(3)),
    (["solve", "M "], 0, optimal_at(5)),
    (["solve", "M  "], 3, NO_FILE),
    (["solve", "P"], 0, THIRTEEN),
    # An LP text, by its name.
    (["solve", "plan.lp"], 0, "status optimal\ncost 31\nbound 31\nchair 2\ntable 5\nend\n"),
    # A second file behind the first one.
    (["solve", "M", "--blocks", "blocks"], 0, THIRTEEN),
    (["solve", "M", "--blocks", "no_blocks"], 4, "status refused\ntext blocks\nline 1\nkind 1 BadWord\nend\n"),
    (["solve", "M", "--blocks", "N"], 3, NO_FILE),
    # The other statuses.
    (["check", "M", "best"], 0, "status feasible\ncost 13\nend\n"),
    # 2 3 = 6, and the high side of R1 is 5.
    (["check", "M", "past"], 1, "status broken\nrow R1 6 above 5\nend\n"),
    (["check", "M", "short"], 4, "status refused\ntext point\nline 3\nkind 5 ColumnMissing\nend\n"),
    (["check", "M", "N"], 3, NO_FILE),
    (["solve", "no_objective"], 4, "status refused\ntext model\nline 4\nkind 16 NoObjective\nend\n"),
    (["solve", "--plain", "--nodes", "1", "--", "--odd"], 10, "status nodelimit\ncost none\nbound 2\nend\n"),
    # The least cost 3/2 makes x + y + z at most 1, and at least 2: the cut ends the root.
    (["solve", "--nodes", "1", "--", "--odd"], 0, "status infeasible\nend\n"),
    (["solve", "--", "--odd"], 0, "status infeasible\nend\n"),
]

# Words, what standard output is, and the status.
LOST = [
    (["solve", "M"], "full", 5),
    (["--help"], "full", 5),
    (["solve", "M"], "closed", 5),
]


def fed(path, text):
    """Writes the text to a pipe in pieces of 7 bytes, so that a read gives less than it has room for."""
    out = os.open(path, os.O_WRONLY)
    for at in range(0, len(text), 7):
        os.write(out, text[at:at + 7])
        time.sleep(0.001)
    os.close(out)


def made(folder):
    """Writes the files into the folder."""
    for name, text in FILES.items():
        pathlib.Path(f"{folder}/{name}").write_text(text, encoding="utf-8")
    os.mkdir(f"{folder}/D")
    os.mkfifo(f"{folder}/P")


def answered(program, words, folder):
    """The status of a run and what it prints."""
    if "P" in words:
        threading.Thread(target=fed, args=(f"{folder}/P", THREE.encode()), daemon=True).start()
    ended = subprocess.run([program, *words], cwd=folder, stdin=subprocess.DEVNULL, stdout=subprocess.PIPE, timeout=60)
    return ended.returncode, ended.stdout


def lost(program, words, output, folder):
    """The status of a run whose output is a full device, or closed."""
    close = (lambda: os.close(1)) if output == "closed" else None
    with open("/dev/full", "wb") as full:
        return subprocess.run([program, *words], cwd=folder, stdin=subprocess.DEVNULL, stdout=full, timeout=60,
                              preexec_fn=close).returncode


def main(words):
    program = os.path.abspath(words[0] if words else BUILT)
    if not os.access(program, os.X_OK):
        print(f"there is no program {program}: call ./cip once", file=sys.stderr)
        return 2
    wrong = 0
    with tempfile.TemporaryDirectory(prefix="cip-runs-") as folder:
        made(folder)
        for asked, status, text in RUNS:
            got = answered(program, asked, folder)
            if got != (status, text.encode()):
                wrong += 1
                print(f"{asked}: status {got[0]} and {got[1]!r} in place of {status} and {text.encode()!r}")
        for asked, output, status in LOST:
            got = lost(program, asked, output, folder)
            if got != status:
                wrong += 1
                print(f"{asked}, output {output}: status {got} in place of {status}")
    print(f"{len(RUNS) + len(LOST)} runs, {wrong} differ")
    return 1 if wrong else 0


if __name__ == "__main__":
    sys.exit(main(sys.argv[1:]))
