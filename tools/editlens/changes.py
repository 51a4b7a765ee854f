"""The places that an edit changed, as they are called in the document after it. They follow from the edit: nothing is compared."""

from __future__ import annotations

from typing import Any, Callable

from .edits import act, node_at
from .types import Ty, initial

SET, NEW, MOVED = "set", "new", "moved"


class Change:
    """What was done at a place and inside it. `parts` has the same form as the value there, and None where nothing was done."""

    def __init__(self, sort: str | None = None) -> None:
        self.sort = sort
        self.parts: Any = None

    def inside(self, place: Any, make_parts: Callable[[], Any]) -> Change:
        """The change at a place inside."""
        if self.parts is None:
            self.parts = make_parts()
        if self.parts[place] is None:
            self.parts[place] = Change()
        return self.parts[place]


def changed_places(ty: Ty, document: Any, edit: Any) -> list[tuple[tuple[Any, ...], str]]:
    """The places that an edit changed, each with what was done there: pairs of a path in the document after it and a sort."""
    top = Change()
    _follow(ty, document, edit, top)
    return list(_listed(ty, top, ()))


def _follow(ty, value, edit, change):
    for primitive in edit:
        name, content = next(iter(primitive.items()))
        if name in ("at", "stay", "mod"):
            _go_inside(ty, value, content, change)
        elif name == "switch":
            change.sort, change.parts = SET, None
            inner = ty.field(content[1])
            _follow(inner, initial(inner), content[2], change.inside(content[1], lambda: {content[1]: Change(NEW)}))
        elif name in _SHAPES:
            _reshape(ty, value, name, content, change)
        else:
            change.sort = change.sort or SET
        value = act(ty, value, [primitive])


def _go_inside(ty, value, content, change):
    place, edit = content
    if not edit:
        return
    if ty.kind == "tree":
        node = node_at(value["depths"], place)
        inner, item = ty.inner, value["items"][node]
        place = node
    else:
        inner, item = ty.inner or ty.field(place), value[place]
    _follow(inner, item, edit, change.inside(place, lambda: _no_parts(ty, value)))


def _no_parts(ty, value):
    if ty.kind == "tree":
        return [None] * len(value["items"])
    if ty.kind == "list":
        return [None] * len(value)
    return dict.fromkeys(value)


_SHAPES = ("ins", "del", "move", "reorder", "put", "drop", "rename", "graft", "prune", "shift", "hang")


def _reshape(ty, value, name, content, change):
    """Moves what was done to the contents as the contents move. A fresh place has the initial value of a type that says so."""
    if change.parts is None:
        change.parts = _no_parts(ty, value)
    parts = {"depths": value["depths"], "items": change.parts} if ty.kind == "tree" else change.parts
    before = {id(it) for it in _contents(parts) if it}
    fresh = Ty(ty.kind, inner=Ty("unit", start=Change(NEW)))
    after = act(fresh, parts, [{name: content}])
    change.parts = after["items"] if ty.kind == "tree" else after
    is_fresh = [it is not None and it.sort == NEW and id(it) not in before for it in _contents(after)]
    for place, fresh_here in zip(_keys(change.parts), is_fresh):
        if fresh_here:
            change.parts[place] = Change(NEW)
    for place in _moved(ty, value, name, content):
        part = change.inside(place, dict)
        part.sort = part.sort or MOVED
    change.sort = change.sort or (SET if name in ("del", "drop", "prune") else None)


def _contents(parts):
    if isinstance(parts, dict) and set(parts) == {"depths", "items"} and isinstance(parts["items"], list):
        return parts["items"]
    return list(parts.values()) if isinstance(parts, dict) else parts


def _keys(parts):
    return list(parts) if isinstance(parts, dict) else range(len(parts))


def _moved(ty, value, name, content):
    """The places, after a primitive, of what it moved."""
    if name == "move":
        return [content[1]]
    if name == "rename":
        return [content[1]]
    if name == "reorder":
        return [place for place, origin in enumerate(content) if place != origin]
    if name == "shift":
        after = act(ty, value, [{name: content}])
        return [node_at(after["depths"], [*content[0], content[2]])]
    if name == "hang":
        after = act(ty, value, [{name: content}])
        children = 0
        while node_at(after["depths"], [*content[1], children + 1]) is not None:
            children += 1
        return [node_at(after["depths"], [*content[1], children])]
    return []


def _listed(ty, change, path):
    if change.sort:
        yield path, change.sort
    parts = change.parts
    if parts is None:
        return
    for place in _keys(parts):
        if parts[place] is not None:
            inner = ty.inner or ty.field(place)
            step = ("items", place) if ty.kind == "tree" else (place,)
            yield from _listed(inner, parts[place], (*path, *step))
