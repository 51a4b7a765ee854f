"""A JSON document held against a type: every place that does not fit, with what was wanted there."""

from __future__ import annotations

from dataclasses import dataclass
from typing import Any, Iterator, cast

from .json_text import pointer, shown
from .plans import MOST_DEPTH
from .types import LEAST_INT, MOST_INT, Ty, write_name, write_type


@dataclass(frozen=True)
class Misfit:
    """A place of a document that does not fit its type."""

    path: tuple
    wanted: str
    found: str

    def __str__(self) -> str:
        return f"{pointer(self.path) or '(the document)'}: wanted {self.wanted}, found {self.found}"


def is_int(tree: Any) -> bool:
    """Whether a number is an int of editlens: whole, without fraction or exponent, within 64 bits."""
    return type(tree) is int and LEAST_INT <= tree <= MOST_INT


def is_depth_list(depths: Any) -> bool:
    """Whether a list has the depths of the nodes of a tree in preorder."""
    if not isinstance(depths, list) or not depths or not all(type(it) is int for it in depths):
        return False
    steps = zip(depths, depths[1:])
    return depths[0] == 0 and all(1 <= later <= min(depth + 1, MOST_DEPTH) for depth, later in steps)


def _wanted(ty):
    if ty.kind == "unit":
        return "null"
    if ty.kind == "bool":
        return "true or false"
    if ty.kind == "int":
        return "a whole number within 64 bits, without fraction or exponent"
    if ty.kind == "text":
        return "a string"
    if ty.kind == "enum":
        return "one of " + ", ".join(f'"{it}"' for it in ty.members)
    if ty.kind == "record":
        return f"an object with the fields {', '.join(map(write_name, ty.names())) or 'of an empty record'}"
    if ty.kind == "alternatives":
        one = ty.names()[0] if len(ty.fields) == 1 else "one of " + ", ".join(map(write_name, ty.names()))
        return f"an object with exactly one member, {one}"
    if ty.kind == "list":
        return "an array"
    if ty.kind == "keyed":
        return "an object, used as a map"
    return "an object with exactly the members depths and items"


def _is_simple(ty, tree):
    if ty.kind == "unit":
        return tree is None
    if ty.kind == "bool":
        return isinstance(tree, bool)
    if ty.kind == "int":
        return is_int(tree)
    if ty.kind == "text":
        return isinstance(tree, str)
    return isinstance(tree, str) and tree in ty.members


def misfits(ty: Ty, tree: Any, path: tuple[Any, ...] = ()) -> Iterator[Misfit]:
    """Every place at which the tree does not fit the type. There is none if and only if it is a document of the type."""
    if ty.kind == "record" and isinstance(tree, dict):
        for name, inner in ty.fields:
            if name in tree:
                yield from misfits(inner, tree[name], (*path, name))
            else:
                yield Misfit((*path, name), f"a field of type {write_type(inner)}", "nothing")
        for name in sorted(set(tree) - set(ty.names())):
            yield Misfit((*path, name), "no such field", shown(tree[name]))
    elif ty.kind == "alternatives" and isinstance(tree, dict) and len(tree) == 1 and ty.field(next(iter(tree))):
        tag = next(iter(tree))
        yield from misfits(ty.field(tag), tree[tag], (*path, tag))
    elif ty.kind == "list" and isinstance(tree, list):
        for number, item in enumerate(tree):
            yield from misfits(cast(Ty, ty.inner), item, (*path, number))
    elif ty.kind == "keyed" and isinstance(tree, dict):
        for key in sorted(tree):
            yield from misfits(cast(Ty, ty.inner), tree[key], (*path, key))
    elif ty.kind == "tree" and isinstance(tree, dict) and set(tree) == {"depths", "items"}:
        yield from _tree_misfits(ty, tree, path)
    elif ty.kind in ("record", "alternatives", "list", "keyed", "tree") or not _is_simple(ty, tree):
        yield Misfit(path, _wanted(ty), shown(tree))


def _tree_misfits(ty, tree, path):
    depths, items = tree["depths"], tree["items"]
    if not is_depth_list(depths):
        wanted = f"depths in preorder: 0 first, then from 1 to one more than the depth before, at most {MOST_DEPTH}"
        yield Misfit((*path, "depths"), wanted, shown(depths))
    if not isinstance(items, list):
        yield Misfit((*path, "items"), "an array", shown(items))
        return
    if isinstance(depths, list) and len(items) != len(depths):
        yield Misfit((*path, "items"), f"{len(depths)} contents, one for each depth", f"{len(items)}")
    for number, item in enumerate(items):
        yield from misfits(cast(Ty, ty.inner), item, (*path, "items", number))


def fits(ty: Ty, tree: Any) -> bool:
    """Whether the tree is a document of the type."""
    return next(misfits(ty, tree), None) is None
