"""Pages in Markdown, read: their sections and tables. And the same text for a manual page."""

import os
import re
from dataclasses import dataclass

from . import TOP


class NotOnThePage(Exception):
    """A section or a table that a script reads is not on the page any more."""


@dataclass(frozen=True)
class Table:
    """A table: the names of its columns, and its rows."""

    columns: tuple
    rows: tuple


def read_page(name, top=TOP):
    """The text of a page, by its path from the top of the repository."""
    with open(os.path.join(top, name), encoding="utf-8") as file:
        return file.read()


def section(page, heading):
    """The text below a heading of the second level, up to the next one."""
    found = re.search(rf"(?ms)^## {re.escape(heading)}\n(.*?)(?=^## |\Z)", page)
    if not found:
        raise NotOnThePage(f"the page has no section {heading}")
    return found[1]


def cells(line):
    """The cells of a row. A | that is written with a backslash belongs to its cell."""
    inside = line.strip().removeprefix("|").removesuffix("|")
    return tuple(it.strip().replace("\\|", "|") for it in re.split(r"(?<!\\)\|", inside))


def table_with(text, first):
    """The first table of a text whose first column has this name."""
    for found in re.finditer(r"(?m)^(\|.*)\n\|[-|: ]+\|\n((?:\|.*\n?)*)", text):
        columns = cells(found[1])
        if columns[0] == first:
            return Table(columns, tuple(cells(line) for line in found[2].splitlines()))
    raise NotOnThePage(f"the section has no table with the first column {first}")


def roff_text(text):
    """A text as it stands in a manual page, where a backslash, a hyphen and what begins a line have a meaning."""
    text = text.replace("\\", "\\e").replace("-", "\\-")
    return re.sub(r"(?m)^([.'])", r"\\&\1", text)


def roff(markdown):
    """Markdown without its links, with code in bold, as it stands in a manual page."""
    plain = re.sub(r"\[([^\]]*)\]\([^)]*\)", r"\1", markdown)
    parts = re.split(r"`([^`]*)`|\*\*([^*]*)\*\*", plain)
    said = []
    for text, code, strong in zip(parts[::3], [*parts[1::3], None], [*parts[2::3], None]):
        said += [roff_text(text), *(f"\\fB{roff_text(it)}\\fR" for it in (code, strong) if it)]
    return "".join(said)
