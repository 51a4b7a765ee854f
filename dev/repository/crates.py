"""The crates of the repository, as crates.txt lists them, and the levels that they are on."""

import os
import re
from dataclasses import dataclass

from . import TOP, read_lines


@dataclass(frozen=True)
class Crate:
    """A crate: its name, the group of crates.txt that it is in, and the crates of the repository that it depends on."""

    name: str
    group: str
    below: tuple


def read_crates(top=TOP):
    """The crates by name, in the order of crates.txt. Libraries of the kit are left out of what they depend on."""
    group, found = "", {}
    for line in read_lines(os.path.join(top, "crates.txt")):
        head, colon, below = line.partition(":")
        if line.startswith("# "):
            group = line[2:]
        elif colon and head.strip():
            found[head.split()[0]] = (group, below.split("#")[0].split())
    return {name: Crate(name, group, tuple(it for it in below if it in found)) for name, (group, below) in found.items()}


def group_name(group):
    """The name of a group, without what else its line in crates.txt says."""
    return re.split(r"[:.,]", group)[0].strip()


def levels(crates):
    """The level of each crate: 1 where it depends on no other, and else one more than the highest level below it."""
    found = {}

    def level(name):
        """The level of a crate, which is found once."""
        if name not in found:
            found[name] = 1 + max(map(level, crates[name].below), default=0)
        return found[name]

    for name in crates:
        level(name)
    return found


def reached(crates, name):
    """All crates below a crate."""
    found, left = set(), list(crates[name].below)
    while left:
        below = left.pop()
        if below not in found:
            found.add(below)
            left += crates[below].below
    return found


def direct(crates, name):
    """The crates that a crate depends on and that none of the others brings along."""
    below = crates[name].below
    return [it for it in below if not any(it in reached(crates, other) for other in below)]


def head_of(name, top=TOP):
    """The first sentence of the first source file of a crate, without its full stop."""
    folder = os.path.join(top, "crates", name, "src")
    path = next((it for it in (os.path.join(folder, file) for file in ("lib.rt", "main.rt")) if os.path.exists(it)), None)
    lines = [it[3:].strip() for it in read_lines(path) if it.startswith("//!")] if path else []
    text = " ".join(lines[: lines.index("")] if "" in lines else lines)
    return re.split(r"(?<=[^.])\.(?= |$)", text)[0]
