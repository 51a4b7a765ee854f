"""The shapes of lists, keyed maps and trees, with their places as numbers, and the plans of edits.

The shape of a list is its number of items, that of a map its keys in byte order, and that of a tree its depths in preorder.
"""

from __future__ import annotations

from typing import Any, List, Optional

from ..plans import RESHAPINGS, children_of, end_of, node_at, paths_of


def shape_of(kind: str, document: Any) -> Any:
    """The shape of a document of a kind."""
    if kind == "list":
        return len(document)
    return sorted(document) if kind == "keyed" else document["depths"]


def size(kind: str, shape: Any) -> int:
    """How many places a shape has."""
    return int(shape) if kind == "list" else len(shape)


def number_of(kind: str, shape: Any, place: Any) -> int | None:
    """The number of a place that an edit names, or None where the shape does not have it."""
    if kind == "tree":
        return node_at(shape, place) if isinstance(place, list) else None
    if kind == "keyed":
        return shape.index(place) if place in shape else None
    return place if type(place) is int and 0 <= place < shape else None


def name_of(kind: str, shape: Any, number: int) -> Any:
    """How an edit names a place."""
    if kind == "list":
        return number
    return shape[number] if kind == "keyed" else path_of(shape, number)


def planned(kind: str, shape: Any, edits: list[tuple[str, Any]]) -> tuple[Any, List[Optional[int]]]:
    """The shape after edits, one after another, and for each of its places the old place, or None where it is fresh. Raises NoPlan."""
    value: Any = list(range(size(kind, shape)))
    if kind == "keyed":
        value = dict(zip(shape, value))
    elif kind == "tree":
        value = {"depths": shape, "items": value}
    for name, content in edits:
        value = RESHAPINGS[kind][name](value, content, lambda: None)
    if kind == "list":
        return len(value), value
    if kind == "keyed":
        keys = sorted(value)
        return keys, [value[key] for key in keys]
    return value["depths"], value["items"]


def path_of(depths: list[int], node: int) -> list[int]:
    """The path of a node of a tree."""
    return paths_of(depths[: node + 1])[-1]


def parent_of(depths: list[int], node: int) -> int:
    """The parent of a node of a tree, which is not the root."""
    return next(above for above in range(node - 1, -1, -1) if depths[above] < depths[node])


def block_of(depths: list[int], node: int) -> range:
    """The nodes of a subtree."""
    return range(node, end_of(depths, node))


def without_block(depths: list[int], node: int) -> tuple[list[int], list[int]]:
    """The tree that remains when a subtree is taken off: its depths, and the old number of each of its nodes."""
    left = [it for it in range(len(depths)) if it not in block_of(depths, node)]
    return [depths[it] for it in left], left


__all__ = [
    "block_of",
    "children_of",
    "name_of",
    "node_at",
    "number_of",
    "parent_of",
    "path_of",
    "planned",
    "shape_of",
    "size",
    "without_block",
]
