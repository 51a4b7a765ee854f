"""The operations of a JSON Patch (RFC 6902): their form, and what they make of a tree."""

from __future__ import annotations

import re
from typing import Any, Iterable, Sequence

from ..json_text import place_name, read_pointer
from .text import is_equal, shown, write_file

WITH_VALUE = ("add", "replace", "test")
WITH_FROM = ("move", "copy")
NAMES = ("add", "remove", "replace", "move", "copy", "test")
MOST_COPIED = 1 << 20
"""How many bytes the copies of one patch may have together. A line with an edit has no more."""
MOST_PLACE = 20
"""More digits than the number of an item has."""


class Stop(Exception):
    """Why an operation is not done. `may_wait` says that later operations may make it right."""

    def __init__(self, reason: str, may_wait: bool = False) -> None:
        super().__init__(reason)
        self.may_wait = may_wait


def operation_fault(op: Any) -> str | None:
    """What is wrong with the form of an operation, or None."""
    if not isinstance(op, dict) or op.get("op") not in NAMES:
        return f"not an operation of a JSON Patch: {shown(op)}"
    wanted = ["path"] + ["value"] * (op["op"] in WITH_VALUE) + ["from"] * (op["op"] in WITH_FROM)
    for member in wanted:
        if member not in op:
            return f"the operation has no {member}: {shown(op)}"
        if member != "value" and not isinstance(op[member], (str, list)):
            return f"{member} is a JSON Pointer, and not {shown(op[member])}"
    return None


def steps_of(place: str | Iterable[Any]) -> list[Any]:
    """The steps of a JSON Pointer, or of a list of steps."""
    if not isinstance(place, str):
        return list(place)
    if re.search("~(?![01])", place):
        raise Stop(f"{shown(place)} is not a JSON Pointer: behind a ~ comes 0 or 1")
    try:
        return read_pointer(place)
    except ValueError as why:
        raise Stop(str(why)) from None


def number_in(steps: Sequence[Any], count: int, has_end: bool = False) -> int:
    """The number that the last step of a pointer names in a list of some items."""
    text = str(steps[-1])
    if text == "-" and has_end:
        return count
    if not text.isascii() or not text.isdigit() or (text[0] == "0" and text != "0"):
        raise Stop(f"{place_name(steps)}: {text} is no place of a list")
    if len(text) > MOST_PLACE or int(text) >= count + has_end:
        raise Stop(f"{place_name(steps)}: there is no place {text} in a list of {count}")
    return int(text)


def value_at(tree: Any, steps: Sequence[Any], before: Sequence[Any] = ()) -> Any:
    """What a tree has at some steps."""
    for number, step in enumerate(steps):
        here = (*before, *steps[: number + 1])
        if isinstance(tree, list):
            tree = tree[number_in(here, len(tree))]
        elif isinstance(tree, dict) and step in tree:
            tree = tree[step]
        else:
            raise Stop(f"{place_name(here)}: there is no such place")
    return tree


def need_equal(value: Any, op: dict[str, Any], steps: Sequence[Any]) -> None:
    """Refuses a `test` that fails."""
    if not is_equal(value, op["value"]):
        raise Stop(f"{place_name(steps)}: the test fails, here is {shown(value)}")


def need_apart(origin: list[Any], steps: list[Any]) -> None:
    """Refuses to move a value into itself."""
    if steps[: len(origin)] == origin and len(steps) > len(origin):
        raise Stop(f"{place_name(origin)}: a value cannot be moved into itself")


class Patching:
    """A file that operations of a patch change, one after another. `tree` is the file now; no tree that was there is changed.

    The copies of a patch together have a bound, since each copy may double what the next one copies.
    """

    def __init__(self, tree: Any) -> None:
        self.tree, self._room = tree, MOST_COPIED

    def apply(self, op: dict[str, Any]) -> None:
        """Does an operation. Raises Stop where it does not apply."""
        if op["op"] == "copy":
            self._room -= len(write_file(value_at(self.tree, steps_of(op["from"]))))
            if self._room < 0:
                raise Stop(f"the copies of a patch have at most {MOST_COPIED:,} bytes together")
        self.tree = patched(self.tree, op)


def patched(tree: Any, op: dict[str, Any]) -> Any:
    """A new tree, as an operation makes it of this one."""
    name, steps = op["op"], steps_of(op["path"])
    if name == "test":
        need_equal(value_at(tree, steps), op, steps)
        return tree
    if name in WITH_FROM:
        origin = steps_of(op["from"])
        value = value_at(tree, origin)
        if name == "copy":
            return _put(tree, steps, value)
        need_apart(origin, steps)
        return tree if origin == steps else _put(_without(tree, origin), steps, value)
    if name == "remove":
        return _without(tree, steps)
    if name == "replace":
        value_at(tree, steps)
        return _put(tree, steps, op["value"], is_there=True)
    return _put(tree, steps, op["value"])


def _inside(tree, steps, change):
    """A tree with a change of what is at some steps."""
    if not steps:
        return change(tree)
    value_at(tree, steps[:1])
    copied = list(tree) if isinstance(tree, list) else dict(tree)
    at = int(steps[0]) if isinstance(tree, list) else steps[0]
    copied[at] = _inside(tree[at], steps[1:], change)
    return copied


def _put(tree, steps, value, is_there=False):
    if not steps:
        return value

    def change(inside):
        if isinstance(inside, dict):
            return {**inside, steps[-1]: value}
        if not isinstance(inside, list):
            raise Stop(f"{place_name(steps)}: there is no such place")
        place = number_in(steps, len(inside), not is_there)
        return [*inside[:place], value, *inside[place + is_there :]]

    return _inside(tree, steps[:-1], change)


def _without(tree, steps):
    if not steps:
        raise Stop("a document cannot be removed")
    value_at(tree, steps)

    def change(inside):
        if isinstance(inside, dict):
            left = dict(inside)
            del left[steps[-1]]
            return left
        return [*inside[: int(steps[-1])], *inside[int(steps[-1]) + 1 :]]

    return _inside(tree, steps[:-1], change)
