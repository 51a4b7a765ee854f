"""The fields of a document in the order in which a lens program has them. The types that `check` prints have them by bytes."""

from __future__ import annotations

from .lenses import Lens
from .types import Ty

OTHER = {"left": "right", "right": "left"}


def in_written_order(ty: Ty, lens: Lens, side: str) -> Ty:
    """A type of a side with the names of its records in the order of the program. Where the program names none, they stay by bytes."""
    return _ordered(ty, _written(lens, side))


def _written(lens, side):
    """The type of a side as the program writes it. It has the fields that the program names, and None for a type that it does not name."""
    place = ("left", "right").index(side)
    if lens.kind in ("record", "alternatives"):
        return _of_rows(lens, side)
    if lens.kind == "part":
        arms = tuple(zip(lens.tags, lens.types))
        if side == "left":
            return Ty("list", inner=Ty("alternatives", fields=arms))
        return Ty("record", fields=tuple((tag, Ty("list", inner=inner)) for tag, inner in arms), written=lens.tags)
    if lens.kind == "then":
        return _written(lens.inner[place], side)
    if lens.kind == "inv":
        return _written(lens.inner[0], OTHER[side])
    if lens.inner:
        return Ty("list", inner=_written(lens.inner[0], side))
    return lens.types[min(place, len(lens.types) - 1)] if lens.types else None


def _of_rows(lens, side):
    rows = [(getattr(it, side), it) for it in lens.rows if getattr(it, side) is not None]
    fields = tuple((name, row.type or _written(row.lens, side)) for name, row in rows)
    return Ty(lens.kind, fields=fields, written=tuple(name for name, _ in rows))


def _ordered(ty, written):
    if written is None:
        return ty
    if ty.inner:
        return Ty(ty.kind, inner=_ordered(ty.inner, written.inner))
    if not ty.fields:
        return ty
    fields = tuple((name, _ordered(inner, written.field(name))) for name, inner in ty.fields)
    return Ty(ty.kind, fields=fields, written=written.written)
