"""What two documents share: which places of the left type a lens ties to which places of the right type.

A place of a type is a tuple of steps: `("at", FIELD)`, `("stay", TAG)`, and `("mod",)` into what a list, a map or a tree holds. A place
that is tied to nothing is kept by its own document alone, and an edit there changes nothing on the other side.
"""

from __future__ import annotations

from typing import Any, Collection, Iterator

from .lenses import Lens
from .types import Ty

INSIDE = ("mod",)


def places(ty: Ty, path: tuple[Any, ...] = ()) -> Iterator[tuple[tuple[Any, ...], Ty]]:
    """Every place of a type, the outer ones first."""
    yield path, ty
    if ty.kind in ("record", "alternatives"):
        step = "at" if ty.kind == "record" else "stay"
        for name, inner in ty.fields:
            yield from places(inner, (*path, (step, name)))
    elif ty.inner:
        yield from places(ty.inner, (*path, INSIDE))


def ties(lens: Lens) -> Any:
    """The pairs of a left and a right place that a lens ties."""
    return _TIES[lens.kind](lens)


def _under(pairs, left, right):
    return {((*left, *one), (*right, *other)) for one, other in pairs}


def _of_equal(lens):
    return {(path, path) for path, _ in places(lens.types[0])}


def _of_rows(lens):
    step, found = "at" if lens.kind == "record" else "stay", {((), ())}
    for row in lens.rows:
        if row.lens:
            found |= _under(ties(row.lens), ((step, row.left),), ((step, row.right),))
    return found


def _of_contents(lens):
    return {((), ())} | _under(ties(lens.inner[0]), (INSIDE,), (INSIDE,))


def _of_part(lens):
    found = {((), ())}
    for tag, ty in zip(lens.tags, lens.types):
        found |= {((), (("at", tag),)), ((INSIDE,), (("at", tag),))}
        found |= _under({(path, path) for path, _ in places(ty)}, (INSIDE, ("stay", tag)), (("at", tag), INSIDE))
    return found


def _of_composed(lens):
    first, second = (ties(it) for it in lens.inner)
    behind = {}
    for middle, right in second:
        behind.setdefault(middle, []).append(right)
    return {(left, right) for left, middle in first for right in behind.get(middle, ())}


_TIES = {
    "id": _of_equal,
    "disc": lambda lens: set(),
    "bij": lambda lens: {((), ())},
    "then": _of_composed,
    "record": _of_rows,
    "alternatives": _of_rows,
    "each": _of_contents,
    "keyed": _of_contents,
    "tree": _of_contents,
    "part": _of_part,
    "inv": lambda lens: {(right, left) for left, right in ties(lens.inner[0])},
}


def shared_places(lens: Lens) -> dict[str, set[Any]]:
    """The places of the left and of the right type that are tied to something on the other side."""
    pairs = ties(lens)
    return {"left": {left for left, _ in pairs}, "right": {right for _, right in pairs}}


def is_shared(ty: Ty, path: tuple[Any, ...], shared: Collection[Any]) -> bool:
    """Whether the other side knows something of a place: of the value there, or of a field of the record there."""
    if ty.kind == "record" and ty.fields:
        return any(is_shared(inner, (*path, ("at", name)), shared) for name, inner in ty.fields)
    return path in shared
