"""The bridge that an edit makes: from the document before it to the one after it."""

from __future__ import annotations

from typing import Any

from ..edits import act
from ..types import Ty
from .bridges import SAME, Arm, Away, Bridge, Cells, Lost, Other, Parts, Places
from .links import all_same, far_planned, with_inner
from .runs import far_spliced
from .shapes import children_of, node_at, number_of, planned, shape_of


def bridge_of(ty: Ty, word: Any, document: Any, before: Bridge = SAME) -> Bridge:
    """The bridge from a document to what the word makes of it.

    With `before`, a bridge to the document, it begins where that one does. Raises NoApply or NotAnEdit where the word does not act.
    """
    bridge = before
    for primitive in word:
        after = act(ty, document, [primitive])
        name, content = next(iter(primitive.items()))
        bridge = _after_one(ty, document, bridge, name, content)
        document = after
    return bridge


def _after_one(ty: Any, value: Any, bridge: Bridge, name: str, content: Any) -> Bridge:
    if name in ("set", "add"):
        return Lost() if ty.kind == "text" else Other()
    if name == "splice":
        return _after_splice(bridge, *content)
    if name == "at":
        field, word = content
        parts = dict(bridge.fields) if isinstance(bridge, Parts) else {}
        parts[field] = bridge_of(ty.field(field), word, value[field], parts.get(field, SAME))
        return Parts(parts)
    if name == "stay":
        return _after_stay(ty, value, bridge, *content)
    if name == "switch":
        return Away(bridge.near if isinstance(bridge, Away) else content[0], content[1])
    held = bridge if isinstance(bridge, Places) else all_same(ty.kind, shape_of(ty.kind, value))
    if name == "mod":
        return _after_mod(ty, value, held, *content)
    return far_planned(held, *planned(held.kind, held.far, [(name, content)]), _moved_by(held, name, content))


def _after_splice(bridge: Bridge, place: int, count: int, text: str) -> Bridge:
    if isinstance(bridge, Lost):
        return bridge
    runs = bridge.runs if isinstance(bridge, Cells) else ()
    return Cells(far_spliced(runs, place, count, len(text)))


def _after_stay(ty: Any, value: Any, bridge: Bridge, tag: str, word: Any) -> Bridge:
    if isinstance(bridge, Away):
        return bridge
    return Arm(tag, bridge_of(ty.field(tag), word, value[tag], bridge.inner if isinstance(bridge, Arm) else SAME))


def _after_mod(ty: Any, value: Any, held: Places, place: Any, word: Any) -> Places:
    """A place that the near shape does not have changes nothing."""
    number = number_of(held.kind, held.far, place)
    if number not in held.links:
        return held
    near = held.links.index(number)
    content = value["items"][number] if held.kind == "tree" else value[place]
    return with_inner(held, near, bridge_of(ty.inner, word, content, held.inner.get(near, SAME)))


def _moved_by(held: Places, name: str, content: Any) -> list[int]:
    """The far places that an edit takes out of their order."""
    if name == "move" and content[0] != content[1]:
        return [content[0]]
    if name == "shift" and content[1] != content[2]:
        return [children_of(held.far, _node(held, content[0]))[content[1]]]
    return [_node(held, content[0])] if name == "hang" else []


def _node(held: Places, path: list[int]) -> int:
    node = node_at(held.far, path)
    assert node is not None, "the edit has a plan"
    return node
