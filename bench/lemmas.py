#!/usr/bin/env python3
"""Lists lemmas that nothing cites, and lemmas that stand more than once.

    bench/lemmas.py [STD]

STD is the folder with the sources of std's lemmas (/opt/rattle/rattle where none is named). Two lemmas are alike where
their statements are, up to the names of what they bind. One is listed where its own crate, a crate that its crate
names, or std states it, too. Answers are no lemmas, and worked examples need no one who cites them.
"""
import collections
import functools
import os
import re
import sys

WORD = r"[^\W\d][\w']*(?:-[\w']+)*"
EXAMPLES = re.compile(r"Tried|Examples|Small|examples")


def files_of(top, kind):
    found = {}
    for at, folders, names in os.walk(top):
        # what a build leaves
        folders[:] = [folder for folder in folders if folder != "out"]
        for name in names if f"/{kind}" in at else []:
            if name.endswith((".rt", ".antt")):
                with open(f"{at}/{name}") as file:
                    found[f"{at}/{name}"] = file.read()
    return found


def module_of(path):
    crate, _, rest = path.removeprefix("crates/").partition("/")
    return f"Rattle.{crate}." + rest.removesuffix(".antt").replace("/", ".")


def crates_below():
    below = {}
    for line in open("crates.txt"):
        head, colon, tail = line.split("#")[0].partition(":")
        if colon:
            below[head.split()[0]] = tail.split()
    return below


def imports_of(text):
    """The module and the name there of each name that a file brings in."""
    found = {}
    for _, module, names in re.findall(r"^(pub )?use ([^\s{]+)\.\{([^}]*)\}", text, re.M):
        for name in names.split(","):
            its, _, here = name.strip().partition(" as ")
            found[here or its] = module, its
    return found


def lemmas_of(text):
    """The lemmas on the left margin: name, statement, and the lines that the lemma has."""
    lines, found, at = text.split("\n"), [], 0
    while at < len(lines):
        head = re.match(rf"(?:pub )?({WORD}) : ", lines[at])
        if not head or "goal." in lines[at]:
            at += 1
            continue
        name, end = head.group(1), at + 1
        while end < len(lines) and lines[end].startswith((" ", ")", "]", "}")):
            end += 1
        statement, last = " ".join(lines[at:end]), end

        def goes_on(k):
            own = lines[k].startswith((" ", ")", "]", "}", "unfolding")) or lines[k].split(" ")[0] == name
            return own or lines[k] == "" and k + 1 < len(lines) and lines[k + 1].startswith(" ")

        while last < len(lines) and goes_on(last):
            last += 1
        found.append((name, re.sub(r"\s+", " ", statement.removeprefix("pub ")[len(name) :]), at, last))
        at = last
    return found


def renamed(statement, name_of):
    """A statement with what it binds numbered, and all other words as `name_of` says."""
    bound = {}
    binders = re.findall(rf"[({{]((?:{WORD}\s+)*{WORD})\s+:", statement) + re.findall(r"λ\s+([^.]*)\.", statement)
    for names in binders:
        for name in re.findall(WORD, names):
            bound.setdefault(name, f"#{len(bound)}")
    return re.sub(WORD, lambda word: bound.get(word.group(0)) or name_of(word.group(0)), statement)


@functools.lru_cache(None)
def origin(module, name):
    """Where a name of `specs` is defined, past the files that pass it on."""
    for _ in range(9):
        text = SPECS.get(module)
        passed = text and re.search(rf"^pub use ([^\s{{]+)\.\{{[^}}]*\b{re.escape(name)}\b[^}}]*\}}", text, re.M)
        if passed:
            module = passed.group(1)
            continue
        if text:
            break
        top = module
        while top and top not in PASSED:
            top = top.rpartition(".")[0]
        if not top:
            break
        module = PASSED[top] + module[len(top) :]
    return f"{module}.{name}"


def statement_here(path, text, statement):
    imported, own = imports_of(text), {name for name, *_ in lemmas_of(text)}
    own.update(re.findall(rf"^(?:abbrev )?(?:pub )?(?:record |data )?({WORD})\b", text, re.M))

    def name_of(word):
        if word in imported:
            module, name = imported[word]
            return f"@{name}" if module.startswith("Rattle.std") else origin(module, name)
        return f"{path}.{word}" if word in own else word

    return renamed(statement, name_of)


def statements_in(text):
    """The lemmas of a file of std: name and statement."""
    imported = imports_of(text)
    for name, statement, *_ in lemmas_of(text):
        yield name, renamed(statement, lambda word: f"@{word}" if word in imported else word)


def statements_of_std(folder):
    """Each statement of the lemmas that std exports, with a module that has it and its name there."""
    found = {}
    for path, text in files_of(f"{folder}/std/proofs/lemmas", "proofs").items():
        module = "Rattle" + path.removeprefix(folder).removesuffix(".antt").replace("/", ".")
        for name, statement in statements_in(text):
            if re.search(rf"^pub {re.escape(name)} :", text, re.M):
                found.setdefault(statement, (module, name))
        for here, (other, its) in imports_of("\n".join(re.findall(r"^pub use .*", text, re.M))).items():
            source = f"{folder}/" + other.removeprefix("Rattle.").replace(".", "/") + ".antt"
            if other.startswith("Rattle.") and os.path.exists(source):
                with open(source) as file:
                    for name, statement in statements_in(file.read()):
                        if name == its:
                            found.setdefault(statement, (module, here))
    return found


def twice(below, std):
    alike = collections.defaultdict(list)
    for path, text in PROOFS.items():
        for name, statement, *_ in lemmas_of(text):
            if "(" in statement or "{" in statement:
                alike[statement_here(path, text, statement)].append((path.split("/")[1], path, name))
    for statement, lemmas in alike.items():
        for crate, path, name in lemmas if statement in std else lemmas[1:]:
            others = [other for other in lemmas if other[1:] != (path, name) and other[0] in (crate, *below[crate])]
            if statement in std:
                yield path, name, ".".join(std[statement])
            elif others:
                yield path, name, f"{module_of(others[0][1])}.{others[0][2]}"


def uncited():
    everything = [*PROOFS.values(), *SPECS.values(), *CODE.values()]
    cited = {(module, name) for text in everything for module, name in imports_of(text).values()}
    whole = set(re.findall(r"use (Rattle\.\S+) as \w+", "\n".join(everything)))
    in_code = set(re.findall(rf"::({WORD})", "\n".join(CODE.values())))
    for path, text in PROOFS.items():
        lines = text.split("\n")
        for name, _, at, last in lemmas_of(text):
            if EXAMPLES.search(path) or module_of(path) in whole or (module_of(path), name) in cited or name in in_code:
                continue
            rest = re.sub(r"--.*", "", "\n".join(lines[:at] + lines[last:]))
            if not re.search(rf"(?<![\w'.-]){re.escape(name)}(?![\w'-])", rest):
                yield path, name


os.chdir(os.path.dirname(os.path.dirname(os.path.abspath(__file__))))
PROOFS, CODE = files_of("crates", "proofs"), files_of("crates", "src")
SPECS = {module_of(path): text for path, text in files_of("crates", "specs").items()}
PASSED = {}
for module, text in SPECS.items():
    if module.endswith(".specs.Lib"):
        for other in re.findall(r"^pub use (Rattle\.\S+)$", text, re.M):
            PASSED[module.removesuffix("Lib") + other.rpartition(".")[2]] = other

if __name__ == "__main__":
    for path, name in uncited():
        print(f"{path}: nothing cites {name}")
    for path, name, other in twice(crates_below(), statements_of_std((sys.argv[1:] or ["/opt/rattle/rattle"])[0])):
        print(f"{path}: {name} is {other}")
