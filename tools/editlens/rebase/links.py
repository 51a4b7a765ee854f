"""The links between the places of two containers, after plans of either shape, by the definitions of the crate bridge_links."""

from __future__ import annotations

from dataclasses import replace
from typing import Any, Iterable, List, Optional

from .bridges import Bridge, Places
from .shapes import size


def all_same(kind: str, shape: Any) -> Places:
    """The bridge between two containers that are the same."""
    return Places(kind, shape, shape, tuple(range(size(kind, shape))), frozenset(), {})


def with_inner(held: Places, near: int, inner: Bridge) -> Places:
    """The same bridge with another one of the contents of a near place."""
    return replace(held, inner={**held.inner, near: inner})


def settled(held: Places, places: Iterable[int]) -> Places:
    """The same bridge where these near places count as not moved: an edit of the near shape has put them where they stand."""
    return replace(held, moved=held.moved - set(places))


def far_planned(held: Places, shape: Any, origins: List[Optional[int]], movers: Iterable[int] = ()) -> Places:
    """The bridge after a plan of the far shape: each link follows its place. `movers` are the old far places that the plan moves."""
    now, movers = {old: new for new, old in enumerate(origins)}, set(movers)
    links = tuple(None if old is None else now.get(old) for old in held.links)
    moved = {near for near, old in enumerate(held.links) if near in held.moved or old in movers}
    inner = {near: it for near, it in held.inner.items() if links[near] is not None}
    return Places(held.kind, held.near, shape, links, frozenset(near for near in moved if links[near] is not None), inner)


def near_planned(held: Places, shape: Any, origins: List[Optional[int]], fresh: Iterable[int]) -> Places:
    """The bridge after a plan of the near shape: each place has the link of its old place, and a fresh one the next far place of `fresh`."""
    following = iter(fresh)
    links = tuple(next(following) if old is None else held.links[old] for old in origins)
    moved = frozenset(new for new, old in enumerate(origins) if old in held.moved)
    inner = {new: held.inner[old] for new, old in enumerate(origins) if old is not None and old in held.inner}
    return Places(held.kind, shape, held.far, links, moved, inner)
