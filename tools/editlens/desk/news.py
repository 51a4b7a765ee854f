"""What an edit replaced in a document: the places whose values a window needs that has the document before it."""

from __future__ import annotations

from typing import Any, Iterable

from ..types import Ty

INSIDE = ("at", "stay", "mod")


def replaced(ty: Ty, edit: Any) -> list[tuple[Any, ...]]:
    """The paths of the places that an edit replaced, the outermost alone. Each leads to the same place before the edit and after it.

    A list, a map or alternatives are one such place where anything was added, removed, moved, renamed or switched, and so is a tree.
    """
    found: set[tuple[Any, ...]] = set()
    _replaced(ty, edit, (), found)
    return sorted((it for it in found if not any(it[:size] in found for size in range(len(it)))), key=repr)


def _replaced(ty, edit, path, found):
    if edit and (ty.kind == "tree" or any(next(iter(it)) not in INSIDE for it in edit)):
        found.add(path)
        return
    for primitive in edit:
        place, inner = next(iter(primitive.values()))
        _replaced(ty.inner or ty.field(place), inner, (*path, place), found)


def at_path(ty: Ty, document: Any, path: Iterable[Any]) -> tuple[Ty, Any]:
    """The type and the value at a path."""
    for step in path:
        ty, document = ty.inner or ty.field(step), document[step]
    return ty, document
