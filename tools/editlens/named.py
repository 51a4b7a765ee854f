"""Edits that name an item or a node by what it has: `{"where": {"id": "t7"}}` in place of a number or of a path."""

from __future__ import annotations

from typing import Any

from .edits import act, form_fault, node_at, paths_of
from .json_text import pointer, shown
from .types import Ty, initial

WITH_EDIT = ("at", "stay", "switch", "mod")


class NotFound(ValueError):
    """No place has what an edit names, or several have."""


def with_places(ty: Ty, document: Any, edit: Any) -> tuple[Any, list[Any]]:
    """The edit with every place by its position in the document now, and these positions in order: numbers of items, paths of nodes.

    Each primitive is resolved when those before it have acted. Raises NotFound, and NoApply or NotAnEdit where one does not act.
    """
    places: list[Any] = []
    return _word(ty, document, edit, (), places), places


def _word(ty, value, edit, path, places):
    if not isinstance(edit, list) or not _names(edit):
        return edit
    found = []
    for primitive in edit:
        if not isinstance(primitive, dict) or len(primitive) != 1:
            return edit
        name, body = next(iter(primitive.items()))
        body = _placed(ty, value, name, body, path, places)
        if name in WITH_EDIT and isinstance(body, list) and len(body) == (3 if name == "switch" else 2) and _names(body[-1:]):
            body = [*body[:-1], _inside(ty, value, name, body, path, places)]
        found.append({name: body})
        value = act(ty, value, found[-1:]) if form_fault(found[-1:]) is None else value
    return found


def _names(tree):
    """Whether a place is named in a tree, which may nest deeper than Python calls."""
    left = [tree]
    while left:
        part = left.pop()
        if isinstance(part, dict):
            if "where" in part:
                return True
            left.extend(part.values())
        elif isinstance(part, list):
            left.extend(part)
    return False


def _inside(ty, value, name, body, path, places):
    """The word inside a primitive."""
    if name in ("at", "stay") and ty.field(body[0]) and body[0] in value:
        return _word(ty.field(body[0]), value[body[0]], body[1], (*path, body[0]), places)
    if name == "switch" and ty.field(body[1]):
        return _word(ty.field(body[1]), initial(ty.field(body[1])), body[2], (*path, body[1]), places)
    if name == "mod" and ty.kind == "tree":
        node = node_at(value["depths"], body[0])
        return body[1] if node is None else _word(ty.inner, value["items"][node], body[1], (*path, "items", node), places)
    if name == "mod" and ty.kind == "list" and body[0] < len(value) or ty.kind == "keyed" and body[0] in value:
        return _word(ty.inner, value[body[0]], body[1], (*path, body[0]), places)
    return body[1]


def _placed(ty, value, name, body, path, places):
    """What a primitive has behind its name, with positions."""

    def at(place, there=value):
        if not isinstance(place, dict):
            return place
        found = _position(ty, there, place, path)
        places.append(found)
        return found

    if name in ("graft", "prune"):
        return at(body)
    if not isinstance(body, list) or not any(isinstance(it, dict) for it in body[:2]):
        return body
    if name == "hang" and len(body) == 2 and ty.kind == "tree":
        origin = at(body[0])
        return [origin, at(body[1], _without(value, origin)) if isinstance(body[1], dict) else body[1]]
    return [at(body[0]), *body[1:]] if name in ("mod", "shift", "move") and body else body


def _without(value, path):
    """A tree without a subtree: in it the path `to` of a hang is read."""
    nodes = [(it, depth, item) for it, depth, item in zip(paths_of(value["depths"]), value["depths"], value["items"]) if it[: len(path)] != path]
    return {"depths": [depth for _, depth, _ in nodes], "items": [item for _, _, item in nodes]}


def _position(ty, value, place, path):
    """The position of the only item or node that has what a place says."""
    wanted = place.get("where")
    if set(place) != {"where"} or not isinstance(wanted, dict) or not wanted:
        raise NotFound(f'a place is named by {{"where": {{"FIELD": VALUE}}}}, and not by {shown(place)}')
    if ty.kind not in ("list", "tree"):
        raise NotFound(f"{pointer(path) or 'the document'} is neither a list nor a tree, so nothing in it is found by {shown(place)}")
    items, positions = (value, range(len(value))) if ty.kind == "list" else (value["items"], paths_of(value["depths"]))
    found = [position for position, item in zip(positions, items) if _has(ty.inner, item, wanted)]
    if len(found) != 1:
        here = pointer(path) or "the document"
        raise NotFound(f"{len(found)} places in {here} have {shown(wanted)}: {shown(found)}" if found else f"no place in {here} has {shown(wanted)}")
    return found[0]


def _has(ty, item, wanted):
    """Whether an item has the fields that are wanted, also inside alternatives."""
    while ty.kind == "alternatives":
        tag = next(iter(item))
        ty, item = ty.field(tag), item[tag]
    return ty.kind == "record" and all(name in item and type(item[name]) is type(it) and item[name] == it for name, it in wanted.items())
