"""Writes the cases of case_lenses: the programs and the entries of the cases of case_commands that run a lens.

Refused programs are left out, and lines that are not entries.
"""

import json
import os

from .. import TOP
from ..steps import read_steps
from . import lines_of

CASES = os.path.join(TOP, "crates", "case_commands", "data")
NAMES = ("lenses", "lenses_reference", "commands", "runs")
MOST_BYTES = 20_000
SEPARATOR = "\n---\n"
REFUSED = "program refused"


def is_entry(value):
    """Whether a JSON value has the members of an entry, and a side."""
    return isinstance(value, dict) and sorted(value) == ["edit", "side"] and value["side"] in ("left", "right")


def entries(lines):
    """The lines of a journal that are entries."""
    found = []
    for line in lines.split("\n"):
        try:
            value = json.loads(line, object_pairs_hook=no_repeats)
        except ValueError:
            continue
        if is_entry(value):
            found.append(line)
    return found


def no_repeats(pairs):
    """An object; refused where a member is repeated."""
    if len({name for name, _ in pairs}) != len(pairs):
        raise ValueError("a member is repeated")
    return dict(pairs)


def case(script, output):
    """The case of a script, or None where its program is refused or it has no entry."""
    try:
        text = script.decode()
    except UnicodeDecodeError:
        return None
    if SEPARATOR not in text or output.decode(errors="replace").startswith(REFUSED):
        return None
    program, journal = text.split(SEPARATOR, 1)
    found = entries(journal)
    return {"program": program, "entries": found} if found else None


def cases():
    """The cases of all files, each once."""
    found = {}
    for name in NAMES:
        with open(os.path.join(CASES, f"{name}.cases"), "rb") as file:
            for head, parts, _ in read_steps(file.read()):
                is_run = head["words"] == ["run"] and len(parts["input"]) < MOST_BYTES
                it = case(parts["input"], parts["output"]) if is_run else None
                if it:
                    found[lines_of([it])] = it
    return found


def files():
    """The file of cases."""
    yield "case_lenses/data/lenses.jsonl", b"".join(cases())
