"""The edits that build a document from the initial one, part by part. Nothing is compared with an earlier version."""

from __future__ import annotations

import copy
from typing import Any, Iterable, Iterator, Tuple

from .edits import MOST_ITEMS, paths_of
from .json_text import read_json, write_json
from .types import Ty, initial

Path = Tuple[Any, ...]
"""Where a step goes: pairs of a primitive and a name, from the outermost inwards."""

Step = Tuple[Path, Any]
"""A path, and the primitive that is done there."""

MOST_BYTES = 4_000
"""About so many bytes of an entry are built before the next one begins. An entry has at most 1,048,576."""


def set_steps(ty: Any, document: Any, path: Path = ()) -> Iterator[Step]:
    """Steps that make the initial document of a type this one: each a path, of pairs of a primitive and a name, and a primitive.

    Keys come in the order in which the document has them.
    """
    if ty.kind == "record":
        for name, inner in ty.fields:
            yield from set_steps(inner, document[name], (*path, ("at", name)))
    elif ty.kind == "alternatives":
        first, tag = ty.fields[0][0], next(iter(document))
        if tag != first:
            yield path, {"switch": [first, tag, []]}
        yield from set_steps(ty.field(tag), document[tag], (*path, ("stay", tag)))
    elif ty.kind == "list":
        yield from insert_steps(len(document), path)
        for place, item in enumerate(document):
            yield from set_steps(ty.inner, item, (*path, ("mod", place)))
    elif ty.kind == "keyed":
        for key in document:
            yield path, {"put": key}
            yield from set_steps(ty.inner, document[key], (*path, ("mod", key)))
    elif ty.kind == "tree":
        yield from _tree_steps(ty, document, path)
    elif document != initial(ty):
        yield path, {"set": document}


def insert_steps(count: int, path: Path) -> Iterator[Step]:
    """Steps that add so many items at the end of a list."""
    yield from _counted("ins", count, path)


def delete_steps(count: int, path: Path) -> Iterator[Step]:
    """Steps that take so many items off the end of a list."""
    yield from _counted("del", count, path)


def _counted(name, count, path):
    while count:
        some = min(count, MOST_ITEMS)
        yield path, {name: some}
        count -= some


def _tree_steps(ty, document, path):
    for place, item in zip(paths_of(document["depths"]), document["items"]):
        if place:
            yield path, {"graft": place[:-1]}
        yield from set_steps(ty.inner, item, (*path, ("mod", place)))


def replace_steps(ty: Any, old: Any, new: Any, path: Path = ()) -> Iterator[Step]:
    """Steps that replace a value as a whole: a record field by field, alternatives, lists, maps and trees by new contents.

    What is the same as a whole has no steps, and so has what is below the root of a tree. Equal items inside are not looked for.
    """
    if old == new:
        return
    if ty.kind == "record":
        for name, inner in ty.fields:
            yield from replace_steps(inner, old[name], new[name], (*path, ("at", name)))
    elif ty.kind == "alternatives":
        tag, other = next(iter(old)), next(iter(new))
        if tag == other:
            yield from replace_steps(ty.field(tag), old[tag], new[tag], (*path, ("stay", tag)))
        else:
            yield path, {"switch": [tag, other, []]}
            yield from set_steps(ty.field(other), new[other], (*path, ("stay", other)))
    elif ty.kind == "list":
        yield from delete_steps(len(old), path)
        yield from set_steps(ty, new, path)
    elif ty.kind == "keyed":
        for key in sorted(old):
            yield path, {"drop": key}
        yield from set_steps(ty, new, path)
    elif ty.kind == "tree":
        is_below_same = (old["depths"], old["items"][1:]) == (new["depths"], new["items"][1:])
        for _ in range(0 if is_below_same else old["depths"].count(1)):
            yield path, {"prune": []}
        yield from replace_steps(ty.inner, old["items"][0], new["items"][0], (*path, ("mod", [])))
        if is_below_same:
            return
        for place in paths_of(new["depths"])[1:]:
            yield path, {"graft": place[:-1]}
        for place, item in list(zip(paths_of(new["depths"]), new["items"]))[1:]:
            yield from set_steps(ty.inner, item, (*path, ("mod", place)))
    else:
        yield path, {"set": new}


def add_step(word: list[Any], path: Path, primitive: Any) -> None:
    """Puts a step at the end of a word, inside the last primitive where that one goes to the same place."""
    for name, place in path:
        last = word[-1] if word else {}
        if name == "stay" and last.get("switch", ["", None])[1] == place:
            word = last["switch"][2]
        elif last.get(name, [None])[0] == place:
            word = last[name][1]
        else:
            inner: list[Any] = []
            word.append({name: [place, inner]})
            word = inner
    # What stands behind a switch goes inside it, so the word has a copy of its own.
    word.append(copy.deepcopy(primitive))


def word_of(steps: Iterable[Step]) -> list[Any]:
    """One word of all the steps."""
    word: list[Any] = []
    for path, primitive in steps:
        add_step(word, path, primitive)
    return word


def words_of(steps: Iterable[Step], most: int = MOST_BYTES) -> Iterator[list[Any]]:
    """The steps as words of about so many bytes each."""
    word: list[Any] = []
    size = 0
    for path, primitive in steps:
        cost = len(write_json(primitive)) + sum(len(write_json(place)) + 10 for _, place in path)
        if word and size + cost > most:
            yield word
            word, size = [], 0
        add_step(word, path, primitive)
        size += cost
    if word:
        yield word


def construct(ty: Ty, document: Any) -> list[Any]:
    """The word that makes the initial document of a type this one, with its keys in byte order."""
    return word_of(set_steps(ty, read_json(write_json(document))))
