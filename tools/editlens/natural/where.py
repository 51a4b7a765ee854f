"""Places that are named by what they have: `{"where": {"id": "t7"}}` in place of a number or of a path.

A name is read by the file of that moment, also between operations after which it fits no type: so a shape only says what nests.
"""

from __future__ import annotations

from dataclasses import dataclass
from typing import Any

from ..json_text import place_name, pointer
from .forms import Shape, sorts
from .operations import Stop, number_in, steps_of, value_at
from .text import is_equal, shown, sort_of

MOST_SHOWN = 4


def is_where(one: Any) -> bool:
    """Whether a step names a place by what it has."""
    return isinstance(one, dict) and set(one) == {"where"} and isinstance(one["where"], dict) and bool(one["where"])


def resolved(shape: Shape, file: Any, op: dict[str, Any]) -> list[dict[str, Any]]:
    """An operation with every place by its position in the file now. A `move` may become two, since its path is read without what moves."""
    root = Spot(shape, file)
    found: dict[str, Any] = {it: _positions(root, steps_of(op[it])) for it in ("path", "from") if isinstance(op.get(it), list)}
    if op["op"] == "move" and "path" in found:
        steps, named = found["path"]
        return _moves(file, op, steps, named, steps_of(op["from"]) if "from" not in found else found["from"][0])
    return [{**op, **{it: pointer(steps) for it, (steps, _) in found.items()}}]


def _moves(file, op, steps, named, origin):
    """The moves to a place that was found with the moved value still there. `named` are the numbers of the steps that a name gave."""
    last, siblings = len(origin) - 1, value_at(file, origin[:-1]) if origin else None
    if isinstance(siblings, list) and last in named and steps[:last] == origin[:-1]:
        if steps[last] == origin[-1]:
            raise Stop(f"{place_name(origin)}: a value cannot be moved into itself")
        if int(steps[last]) > int(origin[-1]):
            steps[last] = str(int(steps[last]) - 1)
    if steps[: last + 1] != origin or len(steps) <= len(origin):
        return [{**op, "from": pointer(origin), "path": pointer(steps)}]
    # The path now leads below the origin, where another item is by then: the value goes to the end first.
    end = pointer([*origin[:-1], len(siblings) - 1])
    return [{"op": "move", "from": pointer(origin), "path": end}, {**op, "from": end, "path": pointer(steps)}]


@dataclass(frozen=True)
class Spot:
    """A place of a file that need not fit: the shape that it should have, or None, and what is there.

    `role` is that of a Place: `item`, `node`, `children` and `items` are places that a form has beside those of the type.
    """

    shape: "Shape | None"
    tree: Any
    role: str = ""

    def inside(self, name: Any) -> Spot:
        """The place at a name or a number of what is there."""
        shape, role = _shape_at(self.shape, self.role, self.tree, name)
        return Spot(shape, self.tree[name], role)

    def is_tree(self) -> bool:
        """Whether nested nodes should be here, this one being the root."""
        return self.shape is not None and self.role == "" and "children" in self.shape.form


def _shape_at(shape, role, tree, name):
    """The shape and the role of what has a name or a number in a tree that should have a shape."""
    if shape is None:
        return None, ""
    form, kind = shape.form, shape.kind
    if kind == "one":
        return shape.inner["*"], ""
    if role == "children":
        return shape, "node"
    if role == "items" or kind in ("list", "keyed") and not shape.is_key_list():
        return shape.inner["*"], ""
    if shape.is_key_list():
        return _beside(shape.content(), form, form["key"] if "in" not in form else None, tree, name) if role == "item" else (shape, "item")
    if kind == "tree" and "children" in form:
        return (shape, "children") if name == form["children"] else _beside(shape.inner["*"], form, None, tree, name)
    if kind == "tree":
        return (shape, "items") if name == "items" else (None, "")
    if shape.is_untagged():
        return _shape_at(_of_sort(shape, sort_of(tree)), "", tree, name)
    if "kind" in form:
        tag = tree.get(form["kind"])
        return _beside(shape.inner.get(tag) if isinstance(tag, str) else None, form, form["kind"], tree, name)
    inner = shape.inner.get(name)
    return (inner, "") if inner and "flat" not in inner.form else _shape_at(_flat_with(shape, name), "", tree, name)


def _beside(content, form, added, tree, name):
    """What has a name in an object of a content and of a member that a form adds."""
    if name == added:
        return None, ""
    if "content" in form:
        return (content, "") if name == form["content"] else (None, "")
    return _shape_at(content, "", tree, name)


def _of_sort(shape, sort):
    return next((it for it in shape.inner.values() if it.kind != "unit" and sort in sorts(it)), None)


def _flat_with(shape, name):
    """The flat field of a record that has a member, or None."""
    flat = (it for it in shape.inner.values() if "flat" in it.form and name in it.names.known)
    return next(flat, shape.inner.get(shape.open_field))


def _positions(root, steps):
    """The steps of a pointer with a number in place of each name, and the numbers of the steps that names gave."""
    spot, found, named = root, [], []
    for number, one in enumerate(steps):
        if is_where(one):
            more = _one(spot, one["where"], found)
            named += range(len(found), len(found) + len(more))
        elif not isinstance(one, (str, int)) or isinstance(one, bool):
            raise Stop(f'a step is a name, a number or {{"where": ..}}, and not {shown(one)}')
        else:
            more = [str(one)]
        for it in more:
            found.append(it)
            spot = _next(spot, found, number == len(steps) - 1)
    return found, named


def _next(spot, found, is_last):
    """The place at the last of the steps that were found, or None where it is not there yet."""
    tree = spot.tree if spot else None
    if isinstance(tree, list) and not (is_last or found[-1] == "-"):
        return spot.inside(number_in(found, len(tree)))
    return spot.inside(found[-1]) if isinstance(tree, dict) and found[-1] in tree else None


def _one(spot, wanted, before):
    """The steps to the only item or node that has these members."""
    if spot is None:
        raise Stop(f"{place_name(before)}: there is no such place")
    found = [steps for steps, tree in _candidates(spot) if _has(tree, wanted)]
    here = pointer(before) or "the document"
    if len(found) > 1:
        there = ", ".join(pointer([*before, *steps]) for steps in found[:MOST_SHOWN])
        raise Stop(f"{len(found)} places in {here} have {shown(wanted)}: {there}")
    if not found:
        raise Stop(f"no place in {here} has {shown(wanted)}")
    return found[0]


def _candidates(spot):
    """The steps to the items of a list, or to the nodes of a tree, or of the trees of a list, at any depth; with what is there."""
    if spot.is_tree():
        yield from _nodes(spot.tree, spot.shape.form["children"], [])
    elif isinstance(spot.tree, list):
        for number, tree in enumerate(spot.tree):
            inside = spot.inside(number) if spot.shape else None
            if inside and inside.is_tree():
                yield from _nodes(tree, inside.shape.form["children"], [str(number)])
            else:
                yield [str(number)], tree


def _nodes(tree, name, steps):
    yield steps, tree
    below = tree.get(name) if isinstance(tree, dict) else None
    for number, it in enumerate(below if isinstance(below, list) else ()):
        yield from _nodes(it, name, [*steps, name, str(number)])


def _has(tree, wanted):
    return isinstance(tree, dict) and all(_has_member(tree, name, value) for name, value in wanted.items())


def _has_member(tree, name, value):
    """Whether a member has a value. A name that begins with / and is no member is a JSON Pointer to what is further inside."""
    if name in tree or not name.startswith("/"):
        return name in tree and is_equal(tree[name], value)
    try:
        return is_equal(value_at(tree, steps_of(name)), value)
    except Stop:
        return False
