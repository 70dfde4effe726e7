#!/usr/bin/env python3
"""Spells the repository's own definitions and lemmas as Rattle's library spells its words.

usage: python3 tools/respell.py [--list]     at the top of the repository; --list only prints the names

A name with dashes that the repository defines in specs/ or proofs/ becomes a word in snake case, and one that begins with a
capital, a fact or a type, a word in camel case. Names that Rattle makes (goals, steps, fields of goals) keep their dashes, and so
do the library's: a name that a file imports from elsewhere is left alone there. Functions of src/, strings and outputs are not touched.
"""

import os
import re
import sys

NAME = re.compile(r"(?<![\w'\-·◌])([A-Za-z][\w']*(?:-[\w']+)+)(?![\w'\-·◌])")
SIGNED = re.compile(r"^\s*(?:abbrev\s+|unfoldable\s+)?(?:pub\s+)?(?:record\s+|data\s+)?([A-Za-z][\w']*(?:-[\w']+)+)\s*(?:\{[^}]*\}\s*|\([^)]*\)\s*)*:(?!\s*goal\.)")
TYPE = re.compile(r"^\s*pub\s+(?:record|data)\s+([A-Za-z][\w']*(?:-[\w']+)+)[\s({:]")
FIELD = re.compile(r"^\s+pub ([a-z][\w']*(?:-[\w']+)+)\s*:", re.M)
USE = re.compile(r"^(?:ghost )?use ([\w.·]+)\.\{([^}]*)\}", re.M)

# names that would fall together with a word of the code or of the library
KEPT_APART = {
    # the trait of labels has a ghost member turns_back
    "turns-back": "turned_twice",
}


def files():
    for folder, dirs, names in os.walk("crates"):
        dirs[:] = sorted(d for d in dirs if d != "out")
        for name in sorted(names):
            if name.endswith((".rt", ".antt", ".edit")):
                yield os.path.join(folder, name)


def read(path):
    with open(path, encoding="utf-8") as f:
        return f.read()


def respelled(name):
    if name in KEPT_APART:
        return KEPT_APART[name]
    if name[0].isupper():
        return "".join(part[0].upper() + part[1:] for part in name.split("-"))
    return name.replace("-", "_")


def goal_file(path):
    return os.path.basename(path) in ("Answers.antt", "Invariants.antt", "Proof.antt", "Choices.antt")


def defined():
    """The names with dashes that the repository defines, and those under which its files import others."""
    names = set()
    for path in files():
        text = read(path)
        for _, items in USE.findall(text):
            names |= {item.split(" as ")[1].strip() for item in items.split(",") if " as " in item and "-" in item.split(" as ")[1]}
        if not path.endswith(".antt"):
            continue
        for line in text.split("\n"):
            m = SIGNED.match(line) or TYPE.match(line)
            if m and not (goal_file(path) and re.match(r"\s*(abbrev )?(pub )?\S+ :\s*(goal|given)\.", line)):
                names.add(m.group(1))
    return names


def turned(path, text, names):
    """The text with its names respelled, strings of src/ left alone. Comments are not told apart."""
    foreign = set()
    for module, items in USE.findall(text):
        if not module.startswith(tuple("Rattle." + crate + "." for crate in CRATES)):
            foreign |= {item.split(" as ")[0].strip() for item in items.split(",")} - {item.split(" as ")[1].strip() for item in items.split(",") if " as " in item}

    def one(m):
        name = m.group(1)
        if name not in names or name in foreign:
            return name
        # behind a dot stands a step or a goal that Rattle names, unless the repository has a field of that name
        if text[m.start() - 1 : m.start()] == "." and name not in FIELDS:
            return name
        return respelled(name)

    if path.endswith(".antt"):
        return NAME.sub(one, text)
    # In src/ only clauses, ghost items and ghost imports have such names; code has none, since a dash is no letter there.
    parts = re.split(r'("(?:\\.|[^"\\\n])*")', text)
    return "".join(part if i % 2 else NAME.sub(one, part) for i, part in enumerate(parts))


def fields():
    """The names with dashes of the fields of the repository's records."""
    return {m.group(1) for path in files() if path.endswith(".antt") for m in FIELD.finditer(read(path))}


CRATES = sorted(os.listdir("crates"))
FIELDS = set()


def main():
    names = defined()
    FIELDS.update(fields())
    if "--list" in sys.argv[1:]:
        for name in sorted(names):
            print(name, respelled(name))
        return
    changed = 0
    for path in files():
        if path.endswith(".edit"):
            continue
        text = read(path)
        new = turned(path, text, names)
        if new != text:
            with open(path, "w", encoding="utf-8") as f:
                f.write(new)
            changed += 1
    print(f"{len(names)} names, {changed} files")


main()
