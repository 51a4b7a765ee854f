"""Documents, types and lenses in the form in which the page reads them.

JavaScript reads no 64-bit numbers and puts the keys of an object into an order of its own. So numbers are sent as strings, and records
and maps as arrays. The type says which is which.
"""

from __future__ import annotations

from typing import Any, Iterable

from ..json_text import pointer
from ..lenses import Lens
from ..sharing import INSIDE, is_shared, shared_places
from ..types import Ty
from ..written import in_written_order


def drawn_document(ty: Any, document: Any) -> Any:
    """A document as arrays and strings."""
    if ty.kind == "int":
        return str(document)
    if ty.kind == "record":
        return [drawn_document(inner, document[name]) for name, inner in ty.fields]
    if ty.kind == "alternatives":
        tag = next(iter(document))
        return [tag, drawn_document(ty.field(tag), document[tag])]
    if ty.kind == "list":
        return [drawn_document(ty.inner, it) for it in document]
    if ty.kind == "keyed":
        return [[key, drawn_document(ty.inner, document[key])] for key in sorted(document, key=str.encode)]
    if ty.kind == "tree":
        return [[depth, drawn_document(ty.inner, it)] for depth, it in zip(document["depths"], document["items"])]
    return document


def drawn_type(ty: Ty, shared: set[Any], path: tuple[Any, ...] = ()) -> dict[str, Any]:
    """A type with a mark at each place: whether the other side knows something of it."""
    drawn = {"kind": ty.kind, "shared": is_shared(ty, path, shared)}
    if ty.kind in ("record", "alternatives"):
        step = "at" if ty.kind == "record" else "stay"
        drawn["fields"] = [[name, drawn_type(inner, shared, (*path, (step, name)))] for name, inner in ty.fields]
        drawn["order"] = [ty.names().index(it) for it in ty.written or ty.names()]
    elif ty.inner:
        drawn["inner"] = drawn_type(ty.inner, shared, (*path, INSIDE))
    elif ty.kind == "enum":
        drawn["members"] = list(ty.members)
    if ty.kind in ("int", "text", "enum"):
        drawn["start"] = drawn_document(ty, ty.start)
    return drawn


def drawn_types(types: dict[str, Ty], lens: Lens) -> dict[str, Any]:
    """The types of both sides, marked by what the lens ties. Documents have the fields of a record by bytes; `order` is that of the program."""
    shared = shared_places(lens)
    return {side: drawn_type(in_written_order(ty, lens, side), shared[side]) for side, ty in types.items()}


def drawn_lens(lens: Lens) -> dict[str, Any]:
    """A lens as far as the page needs it to find what a place is tied to."""
    drawn: dict[str, Any] = {"kind": lens.kind, "inner": [drawn_lens(it) for it in lens.inner]}
    if lens.rows:
        drawn["rows"] = [[row.left, row.right, drawn_lens(row.lens)] for row in lens.rows if row.lens]
    if lens.tags:
        drawn["tags"] = list(lens.tags)
    return drawn


def drawn_changes(changes: Iterable[tuple[tuple[Any, ...], str]]) -> list[list[str]]:
    """The places that changed, as JSON Pointers, each with what was done there."""
    return [[pointer(path), sort] for path, sort in changes]
