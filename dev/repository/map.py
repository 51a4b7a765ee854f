"""The map of the crates: a picture with every crate on its level, and a line for each that says what it is. docs/ARCHITECTURE.md has it."""

import os

from . import TOP, read_lines
from .crates import group_name, head_of, levels, reached, read_crates

PAGE = os.path.join("docs", "ARCHITECTURE.md")
BEGIN, END = "<!-- Written by dev/map from crates.txt and the heads of the crates. -->", "<!-- The end of what dev/map writes. -->"
WIDTH = 100
LAWS = "Laws"
ELSEWHERE = {
    LAWS: "What each law says is in [TRUST.md](../docs/TRUST.md#laws-and-library-calls).",
    "Tests": "Programs that read cases are in [CASES.md](../reference/CASES.md), and the other kinds in [CONTRIBUTING.md](../docs/CONTRIBUTING.md#tests).",
}
"""Groups of which another page says what their crates are, with the sentence that leads there."""


class NoPlace(Exception):
    """The page has not the two lines between which the map is written."""


def rows(level, names):
    """The rows of a level in the picture."""
    row = f"{level:4} "
    for name in names:
        if len(row) + len(name) + 1 > WIDTH:
            yield row
            row = " " * 5
        row += " " + name
    yield row


def groups(crates):
    """The names of the crates by their groups, in the order of crates.txt."""
    found = {}
    for name, it in crates.items():
        found.setdefault(it.group, []).append(name)
    return found


def picture(crates):
    """The levels of each group, the highest first. A group that rests on others is above them."""
    level, lines = levels(crates), []
    for group, inside in reversed(groups(crates).items()):
        lines += ["", group_name(group)]
        for number in sorted({level[it] for it in inside}, reverse=True):
            lines += rows(number, [it for it in inside if level[it] == number])
    return lines[1:]


def title_of(head):
    """The head of a crate up to its colon, where more than two words stand before it: what follows explains them."""
    before, _, _ = head.partition(": ")
    return before if len(before.split()) > 2 else head


def lists(crates, top=TOP):
    """A list for each group: its crates with what they are, the lowest first. Or a sentence, where another page has that."""
    for group, inside in groups(crates).items():
        yield from ("", f"## {group_name(group)}", "")
        rest = group.removeprefix(group_name(group)).lstrip(":., ")
        if rest:
            yield from (rest[0].upper() + rest[1:], "")
        if group_name(group) in ELSEWHERE:
            yield ELSEWHERE[group_name(group)]
            continue
        for crate in inside:
            yield f"- [`{crate}`](../crates/{crate}): {title_of(head_of(crate, top))}"


def the_map(crates, top=TOP):
    """The map in Markdown."""
    return "\n".join(["```", *picture(crates), "```", *lists(crates, top)]) + "\n"


def above_its_group(crates):
    """Crates that rest on one of a later group, as pairs. A crate of laws may be rested on by all."""
    order = list(groups(crates))
    for name, it in crates.items():
        for below in it.below:
            group = crates[below].group
            if order.index(group) > order.index(it.group) and not group.startswith(LAWS):
                yield name, below


def faults_of(crates, top=TOP):
    """What is wrong with crates.txt or with the head of a crate."""
    folders = sorted(os.listdir(os.path.join(top, "crates")))
    yield from (f"crates.txt: {name} rests on {below}, which is in a later group" for name, below in above_its_group(crates))
    yield from (f"crates.txt does not list crates/{it}" for it in folders if it not in crates)
    yield from (f"crates/{it} is not there" for it in crates if it not in folders)
    yield from (f"the head of crates/{it} does not say what it is" for it in crates if it in folders and not head_of(it, top))


def page_with_map(top=TOP):
    """The page as it should be."""
    page = "\n".join(read_lines(os.path.join(top, PAGE))) + "\n"
    before, begin, rest = page.partition(BEGIN)
    _, end, after = rest.partition(END)
    if not begin or not end:
        raise NoPlace("docs/ARCHITECTURE.md has not the two lines between which dev/map writes")
    return f"{before}{BEGIN}\n\n{the_map(read_crates(top), top)}\n{END}{after}"


def around(crates, name):
    """What a crate rests on, and what rests on it: a change of the crate is proved together with the latter."""
    below = reached(crates, name)
    above = [it for it in crates if name in reached(crates, it)]
    yield f"{name}: {head_of(name)}"
    yield "rests on: " + (" ".join(it for it in crates if it in below) or "no other crate")
    yield "rested on by: " + (" ".join(above) or "no other crate")
