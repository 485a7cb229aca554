#!/usr/bin/env python3
"""Lists the definitions that the headline rests on: headline.py [--files | --table] [--apart FIELD ..]

From the names in the contract of `run` (crates/cip_main/src/running.rt) it follows names through the files in specs/:
what a definition speaks of, what that speaks of, and so on. A definition is an abbreviation, an unfoldable one, a
record or a data type; lemmas that definitions rest on are not followed, since the check proves them.

Without a word it prints each definition with the line that says it in words, file by file. --files prints the files
with their counts, --table a table of crates for docs/ARCHITECTURE.md. A definition that is reached only through these
fields (`Runs.work`, `Runs.kit` and `SelfClause.told` where nothing is said: how a search worked, and what became of the
plugins, beside the headline) has a star.
Types of code, and words of std and clap, end the way; they are named at the end."""
import argparse
import re
import sys
from dataclasses import dataclass, field
from pathlib import Path

CRATES = Path(__file__).resolve().parent.parent / "crates"
DEFINES = re.compile(r"^(?:(?:abbrev|unfoldable)(?: pub)?|(?:pub )?record|(?:pub )?data) (?!use )(?!pub )(\S+)")
LEMMA = re.compile(r"^(?:pub )?(\S+) :(?: |$)")
USE = re.compile(r"^(?:unfoldable )?(?:pub )?(?:ghost )?use (\S+?)(?:\.\{(.*)\}| as (\S+))?;?$")
WORD = re.compile(r"[^\s(){},;\[\]]+")


@dataclass
class Definition:
    """A definition: its file, its name, the line above it, and its text, without field names of a record."""

    file: tuple
    name: str
    says: str
    is_record: bool
    lines: list = field(default_factory=list)

    def parts(self):
        """Its text in parts, each with the field that it belongs to, if it is a record."""
        if not self.is_record:
            return [(None, "\n".join(self.lines))]
        parts = [(None, self.lines[0])]
        for line in self.lines[1:]:
            started = re.match(r"^  (?:pub )?([\w'-]+) :\s*(.*)$", line)
            if started:
                parts.append((started[1], started[2]))
            else:
                parts[-1] = (parts[-1][0], parts[-1][1] + "\n" + line)
        return parts


@dataclass
class File:
    """The definitions of a file by name, those of its constructors, and what its names from elsewhere stand for."""

    definitions: dict = field(default_factory=dict)
    constructors: dict = field(default_factory=dict)
    names: dict = field(default_factory=dict)
    modules: dict = field(default_factory=dict)
    reexports: dict = field(default_factory=dict)


def passed_on(crate, name):
    """The path that a crate passes on by this name from a crate below it, if it does."""
    lib = CRATES / crate / "specs" / "Lib.antt"
    for line in lib.read_text().split("\n") if lib.is_file() else ():
        found = re.match(r"^pub use (Rattle\.\S+)$", line)
        if found and found[1].split(".")[-1] == name:
            return found[1]
    return None


def module_of(path):
    """The crate and the file of a module path, its place in code where it is a type of code, or None for a library."""
    steps = path.split(".")
    if len(steps) < 4 or steps[0] != "Rattle" or not (CRATES / steps[1]).is_dir():
        return None
    if steps[3] == "declared":
        return ("code", steps[1], ".".join(steps[4:6]))
    if not (CRATES / steps[1] / "specs" / ("/".join(steps[3:]) + ".antt")).is_file():
        below = passed_on(steps[1], steps[3])
        if below:
            return module_of(".".join([below, *steps[4:]]))
    return ("specs", steps[1], "/".join(steps[3:]))


def note_use(file, line):
    """Notes what a line of `use` brings."""
    used = USE.match(line)
    if not used:
        return
    module = module_of(used[1])
    if used[3]:
        file.modules[used[3]] = (module, used[1])
    for item in (used[2] or "").split(","):
        words = item.split()
        if words:
            file.names[words[-1]] = (module, words[0], used[1])
            if line.startswith("pub "):
                file.reexports[words[-1]] = (module, words[0])


def lines_of(crate, name):
    """The lines of a file of specs/, those of a module inside it moved to the left."""
    is_inside = False
    for line in (CRATES / crate / "specs" / (name + ".antt")).read_text().split("\n"):
        if line and not line.startswith(" "):
            is_inside = line.startswith("module _")
        yield line[2:] if is_inside and line.startswith("  ") else line


def read_file(crate, name):
    """The definitions of a file of specs/."""
    file = File()
    says, now = [], None
    for line in lines_of(crate, name):
        if line.startswith("--"):
            says.append(line[2:].strip())
            continue
        if not line.strip():
            says, now = [], None if not line else now
            continue
        if line.startswith(("use ", "pub use ")):
            note_use(file, line)
            continue
        defined = DEFINES.match(line)
        if defined:
            words = [s for s in says if not s.startswith("----")]
            is_record = bool(re.match(r"^(?:pub )?record ", line))
            now = Definition((crate, name), defined[1], " ".join(words), is_record)
            file.definitions[now.name] = now
        elif not line.startswith(" ") and LEMMA.match(line):
            now = None
        says = []
        if now:
            now.lines.append(line)
            made = re.match(r"^  ([A-Za-z]\S*) :", line)
            if made and not now.is_record:
                file.constructors[made[1]] = now.name
    return file


FILES = {}


def file_of(crate, name):
    if (crate, name) not in FILES:
        FILES[crate, name] = read_file(crate, name)
    return FILES[crate, name]


def bound_names(text):
    """The variables that a text binds: in front of a type, behind a lambda or `let`, and in front of `=`."""
    names = set()
    for group in re.findall(r"[({]([^(){}:=]+?) :", text):
        names.update(group.split())
    for group in re.findall(r"λ ([^.]+)\.", text):
        names.update(WORD.findall(group))
    names.update(re.findall(r"\blet (\S+) ", text))
    for line in text.split("\n"):
        head = line.split(" = ")[0] if " = " in line else (line[:-2] if line.endswith(" =") else "")
        if head and not line.startswith(" ") and ":" not in head:
            names.update(w for w in WORD.findall(head)[1:] if re.match(r"^[a-z]", w) and "." not in w)
    return names


def field_names(text):
    """The fields that a text sets: `record { field = .. }`."""
    return re.sub(r"([{;]\s*(?:record [\w.]+ \{\s*)?)[\w-]+ = ", r"\1 ", text)


def words_of(text):
    """The words of a text, with the parts of names that have places for operands."""
    return [word for word in WORD.findall(field_names(text)) if not re.match(r"^\d+$", word)]


def mixfix(file):
    """The names of a file that have places for operands, by each of their parts."""
    parts = {}
    for name in list(file.definitions) + list(file.names):
        if "◌" in name:
            for part in name.split("◌"):
                if part:
                    parts[part] = name
    return parts


def target(place, name):
    """What a name of a module is: a definition, a type of code, or None."""
    if place is None:
        return None
    kind, crate, module = place
    if kind == "code":
        return ("code", crate, module)
    file = file_of(crate, module)
    if name in file.definitions:
        return ("specs", crate, module, name)
    if name in file.constructors:
        return ("specs", crate, module, file.constructors[name])
    if name in file.reexports:
        return target(*file.reexports[name])
    return None


def resolve(file, place, word, bound, parts):
    """What a word of a definition stands for, and what it takes from a library."""
    steps = word.split(".")
    first = parts.get(steps[0], steps[0])
    if first in bound:
        return None
    if first in file.modules and len(steps) > 1:
        module, path = file.modules[first]
        return target(module, steps[1]) if module else ("library", path.split(".")[1])
    if first in file.definitions:
        return ("specs", *place, first)
    if first in file.constructors:
        return ("specs", *place, file.constructors[first])
    if first in file.names:
        module, original, path = file.names[first]
        return target(module, original) if module else ("library", path.split(".")[1])
    return None


def reached_from(definition):
    """What each part of a definition speaks of, with its field."""
    file = file_of(*definition.file)
    parts = mixfix(file)
    bound = bound_names("\n".join(definition.lines))
    for name, text in definition.parts():
        for word in words_of(text):
            found = resolve(file, definition.file, word, bound, parts)
            if found:
                yield name, found


def roots():
    """The definitions that the contract of `run` names."""
    text = (CRATES / "cip_main" / "src" / "running.rt").read_text()
    file = File()
    for line in text.split("\n"):
        if line.startswith("ghost use "):
            note_use(file, line)
    contract = text[text.index("pub fn run<"):]
    contract = contract[contract.index("requires"):contract.index("\n{")]
    for word in words_of(contract):
        module, original, _ = file.names.get(word, (None, None, None))
        found = target(module, original)
        if found:
            yield found


def follow(starts, apart=()):
    """All that is reached, without what only these fields, each named as Record.field, speak of."""
    seen, waiting = {}, list(starts)
    while waiting:
        now = waiting.pop()
        if now in seen:
            continue
        seen[now] = True
        if now[0] != "specs":
            continue
        definition = file_of(now[1], now[2]).definitions[now[3]]
        waiting += [found for name, found in reached_from(definition) if f"{definition.name}.{name}" not in apart]
    return seen


def crates_in_order():
    lines = (CRATES.parent / "crates.txt").read_text().split("\n")
    return [line.split(":")[0] for line in lines if ":" in line and not line.startswith("#")]


def print_files(reached, figures, how):
    """Prints the definitions that were reached, file by file; answers how many files and lines there are."""
    order = {name: number for number, name in enumerate(crates_in_order())}
    places = sorted({found[1:3] for found in reached if found[0] == "specs"},
                    key=lambda place: (order.get(place[0], len(order)), place[1]))
    lines, rows = 0, {}
    for place in places:
        found = [d for d in file_of(*place).definitions.values() if ("specs", *place, d.name) in reached]
        starred = [d.name for d in found if ("specs", *place, d.name) not in figures]
        lines += sum(len(d.lines) for d in found)
        rows.setdefault(place[0], []).append(f"`{place[1]}.antt`" + ("*" if len(starred) == len(found) else ""))
        if how == "files":
            print(f"{place[0]}/specs/{place[1]}.antt: {len(found)}" + (f", {len(starred)}*" if starred else ""))
        elif how == "all":
            print(f"\n{place[0]}/specs/{place[1]}.antt")
            for d in found:
                print(f"  {'*' if d.name in starred else ' '} {d.name}" + (f"      {d.says}" if d.says else ""))
    if how == "table":
        print("| Crate | Files of `specs/` |\n|---|---|")
        for crate, files in rows.items():
            print(f"| `{crate}` | {', '.join(files)} |")
    return len(places), lines


def main():
    reader = argparse.ArgumentParser(description=__doc__, formatter_class=argparse.RawDescriptionHelpFormatter)
    reader.add_argument("--files", dest="how", action="store_const", const="files", default="all")
    reader.add_argument("--table", dest="how", action="store_const", const="table")
    reader.add_argument("--apart", nargs="*", default=["Runs.work", "Runs.kit", "SelfClause.told"])
    asked = reader.parse_args()
    starts = list(roots())
    reached, figures = follow(starts), follow(starts, tuple(asked.apart))
    files, lines = print_files(reached, figures, asked.how)
    total = sum(1 for found in reached if found[0] == "specs")
    apart = total - sum(1 for found in figures if found[0] == "specs")
    print(f"\n{total} definitions in {files} files, {lines} lines; {apart} of them only through "
          f"{', '.join(asked.apart) or 'nothing'} (*)")
    types = sorted({f"{found[1]} {found[2].split('.')[-1]}" for found in reached if found[0] == "code"})
    print("types of code: " + ", ".join(types))
    print("words of: " + ", ".join(sorted({found[1] for found in reached if found[0] == "library"})))
    return 0


if __name__ == "__main__":
    sys.exit(main())
