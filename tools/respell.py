#!/usr/bin/env python3
"""Respells the repository's own names of specs/ and proofs/ for today's Rattle: words are joined by _ where they were joined by -.

usage: python3 tools/respell.py    at the top of a checkout on which port.py has run

A name is the repository's own where a file of specs/ or a lemma file of proofs/ declares or binds it; names that a file imports from
the kit keep their spelling. The files turned are those of specs/ and proofs/, the clauses and ghost imports of src/, the must-fail
edits, and the names between backticks in comments, README.md and docs/. Functions of src/, exported names, strings, inputs and outputs
are left alone.

Two names fell together in port.py: treeOf, the tree of a plan, and tree-of, the tree of a lent record. By the text of HEAD, which has
both, the second becomes tree_of_rows here. What is named after treeOf, and recordOf, are in snake case too.
"""

import glob
import re
import subprocess
import sys

TOKEN = re.compile(r"[A-Za-z0-9_'ℕ]+(?:-[A-Za-z0-9_'ℕ]+)+")
# A name of antt ends at a space, a bracket or a dot; what has another sign beside it is not a name of ours.
BEFORE = r"(?<![A-Za-z0-9_'ℕ+*◌·/∷-])"
AFTER = r"(?![A-Za-z0-9_'ℕ+*◌·-])"
NAME = re.compile(BEFORE + TOKEN.pattern + AFTER)
USE = re.compile(r"use ([^;{}\n]*?)\.\{([^}]*)\}")
QUOTED = re.compile(r"`[^`\n]*`")


def read(path):
    with open(path, encoding="utf-8") as file:
        return file.read()


def crates():
    lines = read("crates.txt").splitlines()
    return [line.split(":")[0].split()[0] for line in lines if line.strip() and not line.startswith("#")]


def is_own(module, names):
    return any(module.startswith(f"Rattle.{name}.") for name in names)


def foreign_in(text, names):
    """The hyphenated names that the text imports from the kit."""
    found = set()
    for module, items in USE.findall(text):
        if not is_own(module, names):
            found.update(part for item in items.split(",") for part in item.split(" as ") for part in [part.strip()])
    return {name for name in found if "-" in name}


def code_of(line, mark):
    """The line's code and its comment."""
    at = line.find(mark)
    return (line, "") if at < 0 else (line[:at], line[at:])


TREE_NAMES = re.compile(r"(?<![\w'.-])(treeOf|tree-of|tree_of)(?![\w'-])")


def before(path):
    """The text of HEAD."""
    shown = subprocess.run(["git", "show", f"HEAD:{path}"], capture_output=True, check=False)
    return shown.stdout.decode("utf-8")


def set_apart(path):
    """Gives the two trees that fell together different names again."""
    text = read(path)
    old, new = TREE_NAMES.findall(before(path)), TREE_NAMES.findall(text)
    if new and len(set(old)) == 1:
        old = old * len(new)
    if new and len(old) < len(new):
        print("respell: by hand:", path)
        return
    names = iter("tree_of_rows" if name == "tree-of" else "tree_of" for name in old)
    text = TREE_NAMES.sub(lambda match: next(names), text)
    text = text.replace("treeOf-", "tree_of-").replace("recordOf", "record_of")
    if text != read(path):
        with open(path, "w", encoding="utf-8") as file:
            file.write(text)


def turned(match):
    return match.group().replace("-", "_")


def main():
    names = crates()
    lemmas = sorted(glob.glob("crates/*/specs/*.antt") + glob.glob("crates/*/proofs/*.antt"))
    walked = sorted(set(glob.glob("crates/*/proofs/*/**/*.antt", recursive=True)))
    sources = sorted(glob.glob("crates/*/src/**/*.rt", recursive=True))
    edits = sorted(glob.glob("crates/*/must-fail/*.edit"))
    pages = sorted(glob.glob("docs/*.md") + ["README.md"])
    for path in lemmas + walked + sources + edits + pages:
        set_apart(path)
    foreign = {path: foreign_in(read(path), names) for path in lemmas + walked + sources}
    kit = set().union(*foreign.values())
    own = set()
    for path in lemmas:
        for line in read(path).splitlines():
            own.update(name for name in NAME.findall(code_of(line, "--")[0]) if name not in foreign[path])
    clash = sorted(own & kit)
    if clash:
        print("respell: names of ours and of the kit:", *clash)

    def respell(text):
        return NAME.sub(lambda match: turned(match) if match.group() in own else match.group(), text)

    # port.py has respelled some names already, in the files of specs/ and proofs/ alone.
    words = set(re.findall(r"[\w']+", "".join(read(path) for path in lemmas)))

    def quoted(text):
        def named(match):
            name = match.group()
            return turned(match) if name in own or name.replace("-", "_") in words else name

        return QUOTED.sub(lambda match: NAME.sub(named, match.group()), text)

    def write(path, text):
        old = read(path)
        if text != old:
            with open(path, "w", encoding="utf-8") as file:
                file.write(text)

    for path in lemmas + walked:
        here = foreign[path]

        def local(text):
            return NAME.sub(lambda match: turned(match) if match.group() in own and match.group() not in here else match.group(), text)

        lines = []
        for line in read(path).split("\n"):
            code, comment = code_of(line, "--")
            lines.append(local(code) + quoted(comment))
        write(path, "\n".join(lines))
    for path in sources:
        lines = []
        for line in read(path).split("\n"):
            is_clause = re.match(r"\s*(requires|ensures|ghost)\b", line) is not None
            code, comment = code_of(line, "//")
            lines.append((respell(code) if is_clause else code) + quoted(comment))
        write(path, "\n".join(lines))
    for path in edits:
        lines = [respell(line) if re.match(r"(old|new): ", line) else line for line in read(path).split("\n")]
        write(path, "\n".join(lines))
    for path in pages:
        write(path, quoted(read(path)))
    print(f"respell: {len(own)} names")
    return 0


if __name__ == "__main__":
    sys.exit(main())
