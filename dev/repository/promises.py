"""What each command promises, read from the records in the specs of the top calls: a row for each field, in the words of its comment.

A row has the field of editlens and that of edithub, side by side. Where edithub has the same words, with the hub in place of the state, they
are written once. Words that an earlier command has for the same field are not written again.
"""

import os
import re

from . import TOP
from .pages import read_page

PAGE = os.path.join("docs", "TRUST.md")
OF_STORES = [
    ("`apply`", "store_run/specs/Applies", ["StoreGoesOn", "Applies"]),
    ("`show`, `verify`", "store_run/specs/Shows", ["ReadsStore"]),
    ("`pack`", "store_run/specs/Packs", ["KeepsState", "Packs"]),
    ("`undo`", "store_run/specs/Undoes", ["TakesChangesBack", "Undoes"]),
]
"""The commands that both programs have, with the file and the records that say what they promise: of every kind of session."""

EDITLENS = [
    ("`run`, `check`, `hub`, `link`", "editlens_main/specs/Runs", ["RunsScript"]),
    ("`gen`", "editlens_main/specs/Generates", ["Generates"]),
    ("`init`", "editlens_main/specs/MakesStore", ["MakesStore"]),
    ("`import`", "editlens_main/specs/ImportsStore", ["ImportsStore"]),
    *OF_STORES,
]
EDITHUB = [
    ("`init`", "edithub_main/specs/MakesHub", ["MakesHub"]),
    *OF_STORES,
    ("`add`", "edithub_main/specs/HubAdds", ["AddsOn", "HubAdds"]),
]
HEAD = "| Command | `editlens` | `edithub` | In words |"
TABLE = re.compile(re.escape(HEAD) + r"\n\|[-|]+\|\n(?:\|.*\|\n)+")
FIELD = re.compile(r"\s+pub (\w+) :")


def fields_of(path, record, top=TOP):
    """The fields of a record, each with its line and the comment above it; a field without a comment only holds other records."""
    with open(os.path.join(top, path), encoding="utf-8") as text:
        lines = text.read().split("\n")
    begin = next(at for at, line in enumerate(lines) if re.match(rf"\s*pub record {record}\b", line))
    depth = len(lines[begin]) - len(lines[begin].lstrip())
    fields, words = [], []
    for at in range(begin + 1, len(lines)):
        line = lines[at]
        if line.strip() and len(line) - len(line.lstrip()) <= depth:
            break
        if line.strip().startswith("-- "):
            words.append(line.strip()[3:])
        elif field := FIELD.match(line):
            if words:
                fields.append((field[1], at + 1, " ".join(words)))
            words = []
    return fields


def promised(commands, top=TOP):
    """The promises of the commands of a top call: of each command a link and words, by the name of the field."""
    found = {}
    for command, file, records in commands:
        path = os.path.join("crates", file + ".antt")
        fields = [field for record in records for field in fields_of(path, record, top)]
        found[command] = {name: (f"[`{name}`](../{path}#L{line})", words.rstrip(".")) for name, line, words in fields}
    return found


SAME = [(" of a hub", ""), ("the programs alone", "the program alone"), ("They represent", "That represents"), ("their lenses", "the lens")]
"""Words of edithub, with those of editlens that say the same."""


def of_state(words):
    """Words with the state in place of the hub and of the triple, and one lens in place of many, to compare them."""
    for hub, pair in SAME:
        words = words.replace(hub, pair)
    return re.sub(r"\b(?:hub|triple)\b", "state", words).lower()


def sentence(words, seen, name, command):
    """The words as a sentence, or where they were written before."""
    earlier = seen.setdefault((name, of_state(words)), command)
    return f"As of {earlier}." if earlier != command else words[0].upper() + words[1:] + "."


def rows_of(command, pair, hub, seen):
    """The rows of a command: a row for each field that either program has."""
    first = command
    for name in [*pair, *(it for it in hub if it not in pair)]:
        (link, words), (hub_link, hub_words) = pair.get(name, ("", "")), hub.get(name, ("", ""))
        said = [sentence(words, seen, name, command)] if words else []
        if hub_words and of_state(hub_words) != of_state(words):
            own = sentence(hub_words, seen, name, command)
            said += [] if own in said else [f"Of `edithub`: {own[0].lower()}{own[1:]}" if words else own]
        yield f"| {first} | {link} | {hub_link} | {' '.join(said)} |"
        first = ""


def table_of(top=TOP):
    """The table of what the commands of both programs promise."""
    pair, hub, seen = promised(EDITLENS, top), promised(EDITHUB, top), {}
    rows = [row for command in {**pair, **hub} for row in rows_of(command, pair.get(command, {}), hub.get(command, {}), seen)]
    return "\n".join([HEAD, "|---|---|---|---|", *rows]) + "\n"


def page_with_table(top=TOP):
    """The page as it should be."""
    return TABLE.sub(lambda _: table_of(top), read_page(PAGE, top))
