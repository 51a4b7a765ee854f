"""What a lens remembers, in a sentence."""

from __future__ import annotations

from typing import Any

from ..lenses import Lens
from ..types import write_name

MANY = 12


def remembered(lens: Lens, complement: Any) -> str:
    """A sentence on what a complement remembers that the documents do not show."""
    orders = list(_orders(lens, complement, ()))
    if orders:
        return " ".join(_order_said(where, tags) for where, tags in orders[:3]) + _more(orders)
    if _has_contents(lens):
        return "It remembers nothing else than the documents show: how many items, which keys and which alternatives they have."
    return "It remembers nothing: each document says all that the other one shares with it."


def _more(orders):
    return f" And so for {len(orders) - 3:,} more lists." if len(orders) > 3 else ""


def _order_said(where, tags):
    place = f"the list at {', '.join(where)}" if where else "the list"
    if not tags:
        return f"It remembers in which order the kinds come in {place}, which is empty."
    some = ", ".join(write_name(it) for it in tags[:MANY])
    rest = f" and {len(tags) - MANY:,} more" if len(tags) > MANY else ""
    return f"It remembers in which order the kinds come in {place}: {some}{rest}."


def _orders(lens, complement, where):
    """The lists that the other side has in pieces: where they are, by names of the left side, and the kinds of their items."""
    if lens.kind == "part":
        yield where, complement["tags"]
    elif lens.kind == "then":
        for inner, part in zip(lens.inner, complement["then"]):
            yield from _orders(inner, part, where)
    elif lens.kind == "record":
        for row, part in zip((it for it in lens.rows if it.lens), complement["rec"]):
            yield from _orders(row.lens, part, (*where, write_name(row.left)))
    elif lens.kind == "alternatives":
        tag, part = complement["alt"]
        row = next(it for it in lens.rows if it.left == tag)
        yield from _orders(row.lens, part, (*where, write_name(tag)))
    elif lens.kind == "inv":
        yield from _orders(lens.inner[0], complement, where)
    else:
        for name, part in _contents(lens.kind, complement):
            yield from _orders(lens.inner[0], part, (*where, name))


def _contents(kind, complement):
    if kind == "each":
        return [(f"item {place}", it) for place, it in enumerate(complement["list"])]
    if kind == "keyed":
        return [(f'key "{key}"', it) for key, it in complement["keyed"].items()]
    if kind == "tree":
        return [(f"node {place}", it) for place, it in enumerate(complement["tree"]["items"])]
    return []


def _has_contents(lens):
    if lens.kind in ("each", "keyed", "tree", "alternatives", "part"):
        return True
    rows = (it.lens for it in lens.rows if it.lens)
    return any(map(_has_contents, (*lens.inner, *rows)))
