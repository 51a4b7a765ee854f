"""Places of documents as a user's file has them."""

from __future__ import annotations

from dataclasses import replace as changed
from typing import Any

from ..edits import paths_of
from ..load import NOTHING, Disagreement
from .forms import Shape
from .places import NotWritable, Place, key_order, to_file
from .text import shown


def in_file(shape: Shape, document: Any, disagreement: Disagreement) -> Disagreement:
    """A disagreement of `load` with its place and its values as the user's file of the document has them."""
    steps, there = file_place(shape, document, list(disagreement.path))
    values = (_in_file(there, it) for it in (disagreement.by_left, disagreement.found))
    return changed(disagreement, path=tuple(steps), **dict(zip(("by_left", "found"), values)), show=shown)


def _in_file(shape, value):
    if shape is None or value is NOTHING:
        return value
    try:
        return NOTHING if Place(shape, value).is_missing() else to_file(shape, value)
    except NotWritable:
        return value


def file_place(shape: Shape, value: Any, path: list[Any]) -> tuple[list[Any], Shape | None]:
    """The steps in a file to the place at a path in its document, and the shape there; or None where the file writes it in a form's own way.

    Where the document has no such key, the steps end with the key.
    """
    if not path:
        return [], shape
    step, rest, form, kind = path[0], path[1:], shape.form, shape.kind
    if kind == "one":
        return _behind([0], shape.inner["*"], value, path)
    if shape.is_key_list():
        return _in_rows(shape, value, path)
    if kind == "tree" and "children" in form:
        return _in_nodes(shape, value, rest) if step == "items" and rest else ([], None)
    if kind == "tree":
        return _behind([step], shape.inner["*"], value["items"][rest[0]], rest[1:], [rest[0]]) if step == "items" and rest else ([step], None)
    if kind == "keyed" and step not in value:
        return [step], shape.inner["*"]
    inner = shape.inner[step] if kind in ("record", "alternatives") else shape.inner["*"]
    is_here = "flat" in inner.form if kind == "record" else shape.is_untagged() or "kind" in form
    own = [form["content"]] if "kind" in form and "content" in form else [] if is_here else [step]
    return _behind(own, inner, value[step], rest)


def _behind(steps, shape, value, path, more=()):
    inside, there = file_place(shape, value, path)
    return [*steps, *more, *inside], there


def _in_rows(shape, value, path):
    """The place of a list by key: the path names a key of the map, behind the field of the map where there is an order."""
    keys, held = key_order(shape, value), value
    if shape.kind == "record":
        if path[0] == shape.form["order"] or not path[1:]:
            return [], None
        held, path = value[path[0]], path[1:]
    if path[0] not in held:
        return [path[0]], shape.content()
    own = [shape.form["content"]] if "content" in shape.form and path[1:] else []
    return _behind([keys.index(path[0])], shape.content(), held[path[0]], path[1:], own)


def _in_nodes(shape, value, path):
    """The place in a nested tree of a node with a number, or of what its content has inside."""
    steps = [it for number in paths_of(value["depths"])[path[0]] for it in (shape.form["children"], number)]
    own = [shape.form["content"]] if "content" in shape.form and path[1:] else []
    return _behind(steps, shape.inner["*"], value["items"][path[0]], path[1:], own)
