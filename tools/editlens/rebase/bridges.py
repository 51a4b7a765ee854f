"""What a bridge is: how a document, the far one, differs from another, the near one. Bridges are never changed."""

from __future__ import annotations

from dataclasses import dataclass
from typing import Any, Dict, FrozenSet, Mapping, Optional, Tuple, Union

from .runs import Run, turned
from .shapes import size


@dataclass(frozen=True)
class Same:
    """Both documents are the same."""


@dataclass(frozen=True)
class Other:
    """Both are bools, ints or members of an enum, any two."""


@dataclass(frozen=True)
class Lost:
    """Both are texts of which one was set, so no character of the near one is followed."""


@dataclass(frozen=True)
class Cells:
    """Both are texts, and the runs say which characters are in both, or in one alone. Behind the last run both have the same."""

    runs: Tuple[Run, ...]


@dataclass(frozen=True)
class Parts:
    """Both are records. A field that is not named here is the same in both."""

    fields: Mapping[str, Bridge]


@dataclass(frozen=True)
class Arm:
    """Both have this tag, with a bridge of the contents."""

    tag: str
    inner: Bridge


@dataclass(frozen=True)
class Away:
    """The near one has one tag, and the far one was switched to the other, which may be the same."""

    near: str
    far: str


@dataclass(frozen=True)
class Places:
    """Both are containers of this kind: a list, a keyed map or a tree.

    `near` and `far` are their shapes. `links` has for each near place its far place, or None where it is gone. The places in `moved` are
    those that edits of the far one have moved. A place that `inner` does not name has the same content in both.
    """

    kind: str
    near: Any
    far: Any
    links: Tuple[Optional[int], ...]
    moved: FrozenSet[int]
    inner: Mapping[int, Bridge]


@dataclass(frozen=True)
class Then:
    """A bridge to a document between both, and one from there."""

    first: Bridge
    second: Bridge


Bridge = Union[Same, Other, Lost, Cells, Parts, Arm, Away, Places, Then]
SAME: Bridge = Same()


def then(first: Bridge, second: Bridge) -> Bridge:
    """The bridge over two changes, one after another. What is carried through it goes through the first and then through the second."""
    if isinstance(first, Same):
        return second
    return first if isinstance(second, Same) else Then(first, second)


def flipped(bridge: Bridge) -> Bridge:
    """The same bridge from the far document to the near one."""
    if isinstance(bridge, Cells):
        return Cells(turned(bridge.runs))
    if isinstance(bridge, Parts):
        return Parts({name: flipped(inner) for name, inner in bridge.fields.items()})
    if isinstance(bridge, Arm):
        return Arm(bridge.tag, flipped(bridge.inner))
    if isinstance(bridge, Away):
        return Away(bridge.far, bridge.near)
    if isinstance(bridge, Places):
        return _flipped_places(bridge)
    if isinstance(bridge, Then):
        return Then(flipped(bridge.second), flipped(bridge.first))
    return bridge


def _flipped_places(bridge: Places) -> Places:
    links: list[Optional[int]] = [None] * size(bridge.kind, bridge.far)
    moved: set[int] = set()
    inner: Dict[int, Bridge] = {}
    for near, far in enumerate(bridge.links):
        if far is not None:
            links[far] = near
            moved.update([far] if near in bridge.moved else [])
            inner.update({far: flipped(bridge.inner[near])} if near in bridge.inner else {})
    return Places(bridge.kind, bridge.far, bridge.near, tuple(links), frozenset(moved), inner)
