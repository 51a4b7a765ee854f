"""The shape edits of the far container that do there what one does to the near container.

Those of lists follow the definitions of the crate bridge_lists. An edit that inserts needs no more than its new name; what stands where
is decided by *gaps*: what is put somewhere stands in front of the next thing to the right that edits of the far container have not moved,
or at the end. So what was inserted there before comes first.
"""

from __future__ import annotations

from bisect import bisect, insort
from typing import Any, Callable, Dict, Iterable, List, Tuple

from .bridges import Places
from .causes import Cause, NotCarried
from .shapes import block_of, children_of, node_at, parent_of, path_of, without_block

Edit = Tuple[str, Any]
"""The name of an edit, and what is behind it."""

Answer = Tuple[List[Edit], Iterable[int]]
"""Edits of the far container, one after another, and the near places that stand after them where the near edit has put them."""


def far_edits(held: Places, name: str, content: Any) -> Answer:
    """What an edit, which has a plan for the near shape, is for the far one. Raises NotCarried."""
    return _EDITS[name](held, content)


def far_place(held: Places, near: int) -> int:
    """The far place of a near one. Raises NotCarried where it is gone."""
    far = held.links[near]
    if far is None:
        raise NotCarried(Cause.GONE)
    return far


def _same_edit(name):
    return lambda held, content: ([(name, content)], [])


def _gap(held, behind, row):
    """How many places of a row of the far container stand in front of the gap for what has these near places behind it."""
    numbers = {far: number for number, far in enumerate(row)}
    for near in behind:
        far = held.links[near]
        if far in numbers and near not in held.moved:
            return numbers[far]
    return len(row)


# ---- lists


def _moved(old, new):
    return [] if old == new else [("move", [old, new])]


def _move(held, content):
    old, new = content
    far = far_place(held, old)
    if old == new:
        return [], []
    behind = [it for it in range(held.near) if it != old][new:]
    row = [it for it in range(held.far) if it != far]
    return _moved(far, _gap(held, behind, row)), [old]


def _delete(held: Places, count: int) -> Answer:
    """The items are moved to the end, the last one first, each in front of those before it, and removed there together."""
    edits: List[Edit] = []
    parked: List[int] = []
    for near in range(held.near - 1, held.near - 1 - count, -1):
        far = held.links[near]
        if far is not None:
            edits += _moved(far - bisect(parked, far), held.far - len(parked) - 1)
            insort(parked, far)
    return edits + ([("del", len(parked))] if parked else []), []


def _reorder(held, order):
    """The items that both lists have get the order among themselves, at the places that they have; the others stay."""
    mine = [held.links[it] for it in order if held.links[it] is not None]
    new = list(range(held.far))
    for place, item in zip(sorted(mine), mine):
        new[place] = item
    return [] if new == sorted(new) else [("reorder", new)], range(len(order))


# ---- keyed maps


def _need_free(held, key):
    if key in held.far:
        raise NotCarried(Cause.TAKEN)


def _put(held, key):
    _need_free(held, key)
    return [("put", key)], []


def _drop(held, key):
    far = held.links[held.near.index(key)]
    return [] if far is None else [("drop", held.far[far])], []


def _rename(held, keys):
    old, new = keys
    now = held.far[far_place(held, held.near.index(old))]
    if old == new:
        return [], []
    if now != new:
        _need_free(held, new)
    return [("rename", [now, new])], []


# ---- trees


def _graft(held, path):
    return [("graft", path_of(held.far, far_place(held, node_at(held.near, path))))], []


def _shifted(depths, node, new):
    """The edit that makes a node the child with a number, unless it is."""
    above = parent_of(depths, node)
    old = children_of(depths, above).index(node)
    return [] if old == new else [("shift", [path_of(depths, above), old, new])]


def _prune(held, path):
    """The last child goes, where it is now, unless something that stays in the near tree is below it."""
    child = children_of(held.near, node_at(held.near, path))[-1]
    far = held.links[child]
    if far is None:
        return [], []
    lost, going = block_of(held.near, child), block_of(held.far, far)
    if any(place in going and near not in lost for near, place in enumerate(held.links) if place is not None):
        raise NotCarried(Cause.KEPT)
    above = parent_of(held.far, far)
    last = len(children_of(held.far, above)) - 1
    return [*_shifted(held.far, far, last), ("prune", path_of(held.far, above))], []


def _shift(held, content):
    """Nothing where the node is not a child there any more."""
    path, old, new = content
    node = node_at(held.near, path)
    children = children_of(held.near, node)
    child = far_place(held, children[old])
    if old == new or held.links[node] is None or parent_of(held.far, child) != held.links[node]:
        return [], []
    behind = [it for it in children if it != children[old]][new:]
    row = [it for it in children_of(held.far, held.links[node]) if it != child]
    return _shifted(held.far, child, _gap(held, behind, row)), [children[old]]


def _hang(held, content):
    path, to = content
    node = node_at(held.near, path)
    left, numbers = without_block(held.near, node)
    far, target = far_place(held, node), far_place(held, numbers[node_at(left, to)])
    if target in block_of(held.far, far):
        raise NotCarried(Cause.CYCLE)
    left, numbers = without_block(held.far, far)
    return [("hang", [path_of(held.far, far), path_of(left, numbers.index(target))])], [node]


_EDITS: Dict[str, Callable[[Places, Any], Answer]] = {
    "ins": _same_edit("ins"),
    "del": _delete,
    "move": _move,
    "reorder": _reorder,
    "put": _put,
    "drop": _drop,
    "rename": _rename,
    "graft": _graft,
    "prune": _prune,
    "shift": _shift,
    "hang": _hang,
}
