"""Links of pages that lead to a line of a source, as [`name`](path#L12): what their line has to begin, and where a name is now."""

import functools
import os
import re

# What a line begins that a link may lead to, by the kind of file: a definition or a field of one, a function, a type or a clause.
BEGINS = {
    ".antt": re.compile(r"\s*(abbrev |pub |record |data )+[^\s:]+( .*)? (:|where)( |$)|[^\s:]+ : "),
    ".rt": re.compile(r"\s*(pub(\([a-z]+\))? )?(const )?(fn|struct|enum|trait|type) \w|\s*(pub )?const \w+:|\s*(ensures|requires)\b|impl\b"),
    ".py": re.compile(r"\s*(def|class) \w|[A-Z_]+ = "),
}
LESSER = re.compile(r"\s*(ensures|requires)\b|\s+pub ")
LINK = re.compile(r"\[`(?P<name>[\w':]+)`\]\((?P<path>[^)#\s]+)#L(?P<line>[0-9?]+)\)")


@functools.cache
def lines_of(path):
    """The lines of a source."""
    with open(path, encoding="utf-8") as file:
        return file.read().splitlines()


def names(line, name):
    """Whether a line has a name, which may be given with the type or module before it, as Hub::step."""
    return re.search(rf"(?<![\w']){re.escape(name.split('::')[-1])}(?![\w'])", line)


def begun_name(line):
    """The part of a line that says what it begins: up to its first sign that is no part of a name."""
    return re.split(r"[:({<]", line.strip(), maxsplit=1)[0]


def wrong_line(path, number, name=None):
    """What is wrong with a link to a line of a source, or None. `name` is what the link says, if that is a name."""
    lines, kind = lines_of(path), os.path.splitext(path)[1]
    if not 0 < number <= len(lines) or not BEGINS[kind].match(lines[number - 1]):
        return "leads to a line that begins no definition, function or clause"
    if name and not names(begun_name(lines[number - 1]), name):
        return f"leads to a line that does not begin {name}"
    return None


def line_of(path, name):
    """The number of the line that begins what has this name, or None. A definition goes before a field or a clause."""
    begins = BEGINS[os.path.splitext(path)[1]]
    found = [(number, it) for number, it in enumerate(lines_of(path), 1) if begins.match(it) and names(begun_name(it), name)]
    found.sort(key=lambda row: bool(LESSER.match(row[1])))
    return found[0][0] if found else None


def renumbered(page, text):
    """The text of a page with the lines of its links as they are now, and the links whose names their files do not have."""
    lost = []

    def anew(link):
        path = os.path.join(os.path.dirname(page), link["path"])
        known = os.path.splitext(path)[1] in BEGINS and os.path.isfile(path)
        number = line_of(path, link["name"]) if known else None
        if number is None:
            lost.append(link[0])
            return link[0]
        return f"[`{link['name']}`]({link['path']}#L{number})"

    return LINK.sub(anew, text), lost
