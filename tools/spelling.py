#!/usr/bin/env python3
"""Brings the names of definitions and lemmas to snake case, as today's Rattle spells them.

usage: python3 tools/spelling.py        at the top of the repository, once, after port.py

Each name that begins in lower case and has an upper case letter, as firstTaken, becomes first_taken in the .rt and .antt files of crates/, in
the must-fail edits and in the pages. A lemma that would then have its definition's name gets `_lem`. Functions of src/ are in snake case
already and keep their names. The files are laid out again by rt fmt.
"""
import os
import re
import subprocess
import sys

NAME = re.compile(r"(?<![\w'·₀-₉-])([a-zA-Z][\w'₀-₉-]*)")
CAMEL = re.compile(r"^[a-z][a-z0-9]*[A-Z]")
# Lemmas whose spelling falls together with that of the definition that they speak of, as that is named before.
LEMMAS = {"assignment": "isFound", "explaining": "noneOver", "marking": "noneOver"}


def snake(name):
    return re.sub(r"([a-z0-9])([A-Z])", lambda m: m.group(1) + "_" + m.group(2).lower(), name)


def texts(folder, endings):
    for at, folders, files in os.walk(folder):
        folders[:] = sorted(x for x in folders if x not in ("out", ".git", "target"))
        for name in sorted(files):
            if name.endswith(endings):
                yield os.path.join(at, name)


def read(path):
    with open(path, encoding="utf-8") as file:
        return file.read()


def lemmas(root, names):
    for crate, definition in LEMMAS.items():
        if definition not in names:
            continue
        name = snake(definition)
        for path in texts(os.path.join(root, "crates", crate), (".antt",)):
            old = read(path)
            new = re.sub(r"(?<![\w'.·-])" + name + r"(?![\w'-])", name + "_lem", old)
            if new != old:
                with open(path, "w", encoding="utf-8") as file:
                    file.write(new)


def main():
    root = "."
    if not os.path.isdir("crates"):
        sys.exit("spelling: run it at the top of the repository")
    names = set()
    for path in texts("crates", (".rt", ".antt")):
        names.update(n for n in NAME.findall(read(path)) if CAMEL.match(n))
    lemmas(root, names)
    turn = lambda m: snake(m.group(1)) if m.group(1) in names else m.group(1)
    pages = [p for p in texts(".", (".md", ".1")) if not p.startswith("./crates")]
    for path in [*texts("crates", (".rt", ".antt", ".edit")), *pages]:
        old = read(path)
        new = NAME.sub(turn, old)
        if new != old:
            with open(path, "w", encoding="utf-8") as file:
                file.write(new)
    for crate in sorted(os.listdir("crates")):
        subprocess.run(["rt", "fmt"], cwd=os.path.join("crates", crate), check=True, stdout=subprocess.DEVNULL)
    print(f"spelling: {len(names)} names")


main()
