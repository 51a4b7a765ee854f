"""An edit in words, as a person reads them: a line for each change, with the place before it. Items and places count from 0."""

from __future__ import annotations

from typing import Any, Iterator

from .json_text import shown, write_json
from .types import write_name


def sentences(edit: Any, path: tuple[str, ...] = ()) -> Iterator[str]:
    """A sentence for each change that an edit makes. An empty edit has none."""
    for primitive in edit:
        name, content = next(iter(primitive.items()))
        if name in ("at", "stay", "mod"):
            yield from sentences(content[1], (*path, _step(name, content[0])))
        else:
            place = ", ".join(path)
            yield f"{place}: {_SAID[name](content)}" if place else _SAID[name](content)
            if name == "switch":
                yield from sentences(content[2], (*path, write_name(content[1])))


def _step(name, place):
    if name != "mod":
        return write_name(place)
    if isinstance(place, list):
        return _node(place)
    return f"key {write_json(place)}" if isinstance(place, str) else f"item {place}"


def _node(path):
    return f"node {'.'.join(map(str, path))}" if path else "the root"


def _counted(count, what):
    return f"{count:,} {what}" if count != 1 else f"1 {what.removesuffix('s')}"


def _spliced(content):
    place, count, text = content
    return f"{_counted(count, 'characters')} from place {place} replaced by {shown(text)}"


_SAID = {
    "set": lambda it: f"set to {shown(it)}",
    "add": lambda it: f"{it} added to the number",
    "splice": _spliced,
    "switch": lambda it: f"{write_name(it[0])} becomes {write_name(it[1])}",
    "ins": lambda it: f"{_counted(it, 'items')} added at the end",
    "del": lambda it: f"{_counted(it, 'items')} deleted from the end",
    "move": lambda it: f"item {it[0]} moved to place {it[1]}",
    "reorder": lambda it: f"{_counted(len(it), 'items')} put in another order",
    "put": lambda it: f"key {write_json(it)} added",
    "drop": lambda it: f"key {write_json(it)} deleted",
    "rename": lambda it: f"key {write_json(it[0])} is now {write_json(it[1])}",
    "graft": lambda it: f"a node added below {_node(it)}",
    "prune": lambda it: f"the last node below {_node(it)} deleted",
    "shift": lambda it: f"child {it[1]} of {_node(it[0])} moved to place {it[2]}",
    "hang": lambda it: f"{_node(it[0])} moved below {_node(it[1])}",
}
