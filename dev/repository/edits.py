"""The edits which must fail, counted: those of crates/*/must-fail, which the gate tries, and those of mutants/, which dev/mutant tries."""

import glob
import os
import re
from collections import Counter

from . import TOP
from .crates import group_name, read_crates

PAGE = os.path.join("docs", "TRUST.md")
TABLE = re.compile(r"There are \d+[^\n]*:\n\n\| Crates \|[^\n]*\n\|[-|]+\|\n(?:\|.*\|\n)+")


def counted(folder, top=TOP):
    """The number of edits by crate: `folder` is the pattern of their folders, with one star for the crate."""
    before = folder.index("*")
    names = glob.glob(os.path.join(top, folder, "*.edit"))
    return Counter(os.path.relpath(name, top)[before:].split(os.sep)[0] for name in names)


def both(top=TOP):
    """The numbers of edits by crate: of those that the gate tries, and of those in mutants/."""
    return counted(os.path.join("crates", "*", "must-fail"), top), counted(os.path.join("mutants", "*"), top)


def by_crate(top=TOP):
    """A line for each crate that has edits, those with the most first."""
    gate, mutants = both(top)
    for crate in sorted({*gate, *mutants}, key=lambda it: (-gate[it] - mutants[it], it)):
        yield f"{crate}: {gate[crate]} in the gate, {mutants[crate]} in mutants/"


def table_of(top=TOP):
    """The sentence with the number of all edits, and a table with a row for each group of crates that has some."""
    (gate, mutants), crates = both(top), read_crates(top)
    inside = {}
    for name, it in crates.items():
        inside.setdefault(group_name(it.group), []).append(name)
    sums = [(group, [sum(many[it] for it in names) for many in (gate, mutants)]) for group, names in inside.items()]
    rows = "".join(f"| {group} | {many[0]} | {many[1]} |\n" for group, many in sums if any(many))
    head = f"There are {sum(gate.values())} that the gate tries, and {sum(mutants.values())} in `mutants/`:"
    return f"{head}\n\n| Crates | Tried by the gate | In `mutants/` |\n|---|---|---|\n{rows}"


def page_with_table(top=TOP):
    """The page as it should be."""
    with open(os.path.join(top, PAGE), encoding="utf-8") as file:
        return TABLE.sub(lambda _: table_of(top), file.read())
