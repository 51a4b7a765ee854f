"""Documents of users' files: a file held against the shape of a type, and the document that it shows."""

from __future__ import annotations

from collections.abc import Mapping
from typing import Any, Iterable, Sequence

from ..documents import MOST_DEPTH, Misfit, is_depth_list, is_int
from ..json_text import pointer
from ..types import write_name
from .forms import Shape, field_of, is_object, sorts
from .places import Place, content, members
from .text import is_same, number_text, read_number, shown, sort_of, write_file

NOTHING = object()
"""What a record has for a member that is not there."""


class DoesNotFit(ValueError):
    """A file that does not fit: every place, as a Misfit."""

    def __init__(self, places: Sequence[Any]) -> None:
        super().__init__("\n".join(map(str, places)))
        self.places = places


def to_document(shape: Shape, tree: Any, path: Iterable[Any] = ()) -> Any:
    """The document that a user's file shows. Raises DoesNotFit with every place that does not fit."""
    return _all_of(lambda reader: reader.read(shape, tree, tuple(path)))


def lost_orders(shape: Shape, document: Any) -> list[tuple[Any, ...]]:
    """The places of the lists by key whose order is not kept, and is not the byte order of their keys. Raises NotWritable."""
    return sorted(_lost_orders(Place(shape, document), ()))


def _lost_orders(place, path):
    inside, there = members(place), content(place)
    if not there.role and there.shape.is_key_list() and "order" not in there.shape.form and list(there.value) != sorted(there.value, key=str.encode):
        yield pointer(path)
    for step, it in inside.items() if isinstance(inside, Mapping) else enumerate(inside or []):
        yield from _lost_orders(it, (*path, step))


def item_of(shape: Shape, tree: Any, path: Iterable[Any] = ()) -> tuple[str, Any]:
    """The key and the content of an item of a list by key. Raises DoesNotFit."""
    return _all_of(lambda reader: reader.item(shape, tree, tuple(path)))


def nodes_of(shape: Shape, trees: Iterable[Any], path: Iterable[Any] = (), number: int = 0) -> list[tuple[int, Any]]:
    """The nodes of nested trees in preorder, each a depth and a content. The first tree has a number in its list. Raises DoesNotFit."""
    nodes: list[tuple[int, Any]] = []

    def read(reader):
        for place, tree in enumerate(trees, number):
            reader.node(shape, tree, (*path, place), 0, nodes)
        return nodes

    return _all_of(read)


def node_of(shape: Shape, tree: Any, path: Iterable[Any] = ()) -> list[tuple[int, Any]]:
    """The nodes of one nested tree in preorder. Raises DoesNotFit."""
    nodes: list[tuple[int, Any]] = []

    def read(reader):
        reader.node(shape, tree, tuple(path), 0, nodes)
        return nodes

    return _all_of(read)


def _all_of(read):
    reader = _Reader()
    found = read(reader)
    if reader.misfits:
        raise DoesNotFit(reader.misfits)
    return found


def wanted(shape: Shape) -> str:
    """What a place of a file wants, for a person."""
    kind, form = shape.kind, shape.form
    if kind == "one":
        return "an array of exactly one item"
    if shape.is_untagged():
        return "one of: " + "; ".join(wanted(it) for tag, it in shape.inner.items() if form.get("missing") != tag)
    if kind == "enum":
        return "one of " + ", ".join(write_file(form.get("members", {}).get(it, it)) for it in shape.ty.members)
    if kind == "text" and ("number" in form or "decimal" in form):
        return "a number" if "number" in form else "a string with the text of a number"
    if kind == "list" or shape.is_key_list():
        return "an array" + (f" of objects with the member {key_name(shape)}" if shape.is_key_list() else "")
    if "kind" in form:
        return f"an object with the member {form['kind']}, one of " + ", ".join(f'"{it}"' for it in shape.inner)
    if "children" in form:
        return f"an object with the member {form['children']}"
    if kind == "alternatives":
        return "an object with exactly one member, " + ("one of " if len(shape.inner) > 1 else "") + ", ".join(map(write_name, shape.inner))
    if kind == "record":
        return "an object with the members " + (", ".join(map(write_name, _written_names(shape))) or "of an empty record")
    simple = {"unit": "null", "bool": "true or false", "text": "a string", "int": "a whole number within 64 bits, without fraction or exponent"}
    return {**simple, "keyed": "an object, used as a map", "tree": "an object with exactly the members depths and items"}[kind]


def key_name(shape: Shape) -> str:
    """The member with the key of an item, or its place in it."""
    return shape.form["key"] if "in" not in shape.form else pointer(shape.key_paths[0])


def taken_out(places: dict[str, Any], tree: Any, path: tuple[Any, ...] = ()) -> tuple[dict[tuple[Any, ...], Any], Any]:
    """The values of the nested places of the key in an item of a list by key, or in a part of it, by their paths; and what is left."""
    if not isinstance(tree, (dict, list)):
        return {}, tree
    found: dict[tuple[Any, ...], Any] = {}
    left: Any = dict(tree) if isinstance(tree, dict) else list(tree)
    for name, below in places.items():
        at = name if isinstance(tree, dict) else int(name) if name == "0" and tree else None
        if at is None or isinstance(tree, dict) and at not in tree:
            continue
        if below is True:
            found[(*path, name)] = left.pop(at)
        else:
            more, left[at] = taken_out(below, left[at], (*path, name))
            found.update(more)
    return found, left


def without_empty(
    shape: Shape | None, places: dict[str, Any], tree: Any, path: tuple[Any, ...] = (), left_over: dict[tuple[Any, ...], Any] | None = None
) -> Any:
    """What is left of an item without the objects that were there for a key alone: those that the shape of the content does not have.

    What such an object has else is no member of the content. It is added to `left_over` by its path.
    """
    if isinstance(tree, list):
        return [without_empty(field_of(shape, "0"), places.get("0", {}), it, (*path, 0), left_over) for it in tree]
    if not isinstance(tree, dict):
        return tree
    left = dict(tree)
    for name in [it for it, below in places.items() if below is not True and it in tree]:
        inner = field_of(shape, name)
        left[name] = without_empty(inner, places[name], left[name], (*path, name), left_over)
        if inner is None and isinstance(left[name], dict):
            gone = left.pop(name)
            if left_over is not None:
                left_over.update({(*path, name, it): value for it, value in gone.items()})
    return left


def _written_names(shape):
    """The names of a record that a message lists: those of the members, or of the fields where any name may come."""
    found = shape.names
    return shape.inner if found.is_open or not found.known else found.known


class _Reader:
    """Reads a file by a shape, and collects what does not fit. Where something does not, what is read means nothing."""

    def __init__(self):
        self.misfits = []

    def wrong(self, path, wanted_there, found):
        self.misfits.append(Misfit(path, wanted_there, found if isinstance(found, str) else shown(found[0])))

    def read(self, shape, tree, path):
        if shape.is_untagged():
            return self.untagged(shape, tree, path)
        if tree is NOTHING or sort_of(tree) not in sorts(shape):
            self.wrong(path, wanted(shape), "nothing" if tree is NOTHING else (tree,))
            return None
        if shape.is_key_list():
            return self.key_list(shape, tree, path)
        return getattr(self, shape.kind, self.simple)(shape, tree, path)

    def untagged(self, shape, tree, path):
        form, sort = shape.form, "missing" if tree is NOTHING else sort_of(tree)
        if sort in form:
            return {form[sort]: None}
        for tag, inner in shape.inner.items():
            if tag not in (form.get("missing"), form.get("null")) and sort in sorts(inner):
                return {tag: self.read(inner, tree, path)}
        self.wrong(path, wanted(shape), "nothing" if tree is NOTHING else (tree,))
        return None

    def simple(self, shape, tree, path):
        form, kind = shape.form, shape.kind
        if "number" in form:
            return number_text(tree)
        if "json" in form:
            return write_file(tree)
        if kind == "enum":
            found = next((it for it in shape.ty.members if is_same(form.get("members", {}).get(it, it), tree)), None)
            if found is None:
                self.wrong(path, wanted(shape), (tree,))
            return found
        if kind == "int" and not is_int(tree) or "decimal" in form and read_number(tree) is None:
            self.wrong(path, wanted(shape), (tree,))
        return tree

    def record(self, shape, tree, path):
        """A record. What no field takes goes to the flat field whose members are not known, where there is one."""
        found, left, rest = {}, dict(tree), shape.open_field
        for name, inner in shape.inner.items():
            if "flat" not in inner.form:
                found[name] = self.read(inner, left.pop(name, NOTHING), (*path, name))
            elif name != rest:
                found[name] = self.read(inner, {it: left.pop(it) for it in inner.names.known if it in left}, path)
        if rest is None:
            self.unknown(left, path)
        else:
            found[rest] = self.read(shape.inner[rest], left, path)
        return found

    def unknown(self, left, path):
        for name in sorted(left):
            self.wrong((*path, name), "no such member", (left[name],))

    def one(self, shape, tree, path):
        if len(tree) == 1:
            return self.read(shape.inner["*"], tree[0], (*path, 0))
        self.wrong(path, wanted(shape), f"{len(tree)} items")
        return None

    def list(self, shape, tree, path):
        return [self.read(shape.inner["*"], item, (*path, number)) for number, item in enumerate(tree)]

    def keyed(self, shape, tree, path):
        return {key: self.read(shape.inner["*"], tree[key], (*path, key)) for key in tree}

    def alternatives(self, shape, tree, path):
        form, left = shape.form, dict(tree)
        if "kind" not in form:
            if len(tree) != 1 or next(iter(tree)) not in shape.inner:
                self.wrong(path, wanted(shape), (tree,))
                return None
            tag = next(iter(tree))
            return {tag: self.read(shape.inner[tag], tree[tag], (*path, tag))}
        tag = left.pop(form["kind"], NOTHING)
        if tag is NOTHING or not isinstance(tag, str) or tag not in shape.inner:
            tags = "one of " + ", ".join(f'"{it}"' for it in shape.inner)
            self.wrong((*path, form["kind"]), tags, "nothing" if tag is NOTHING else (tag,))
            return None
        return {tag: self.content(shape, shape.inner[tag], left, path)}

    def content(self, shape, inner, left, path):
        """A content without the members that a form adds to it."""
        if "content" in shape.form:
            name = shape.form["content"]
            found = self.read(inner, left.pop(name, NOTHING), (*path, name))
            self.unknown(left, path)
            return found
        if is_object(inner):
            return self.read(inner, left, path)
        self.unknown(left, path)
        return None

    def tree(self, shape, tree, path):
        if "children" in shape.form:
            nodes = []
            self.node(shape, tree, path, 0, nodes)
            return {"depths": [depth for depth, _ in nodes], "items": [item for _, item in nodes]}
        if set(tree) != {"depths", "items"}:
            self.wrong(path, wanted(shape), (tree,))
            return None
        if not is_depth_list(tree["depths"]):
            text = f"depths in preorder: 0 first, then from 1 to one more than the depth before, at most {MOST_DEPTH}"
            self.wrong((*path, "depths"), text, (tree["depths"],))
        if not isinstance(tree["items"], list):
            self.wrong((*path, "items"), "an array", (tree["items"],))
            return None
        if isinstance(tree["depths"], list) and len(tree["depths"]) != len(tree["items"]):
            self.wrong((*path, "items"), f"{len(tree['depths'])} contents, one for each depth", str(len(tree["items"])))
        items = [self.read(shape.inner["*"], item, (*path, "items", number)) for number, item in enumerate(tree["items"])]
        return {"depths": tree["depths"], "items": items}

    def node(self, shape, tree, path, depth, nodes):
        """A node of a nested tree with all below it, appended to the nodes."""
        form = shape.form
        if not isinstance(tree, dict) or depth > MOST_DEPTH:
            self.wrong(path, wanted(shape) if depth <= MOST_DEPTH else f"at most {MOST_DEPTH + 1} levels", (tree,))
            return
        left = dict(tree)
        below = left.pop(form["children"], NOTHING)
        if below is NOTHING and "leaf" in form:
            below = []
        elif not isinstance(below, list) or not below and form.get("leaf") == "missing":
            text = "an array" + (" that is not empty, or no such member" if "leaf" in form else "")
            self.wrong((*path, form["children"]), text, "nothing" if below is NOTHING else (below,))
            below = []
        nodes.append((depth, self.content(shape, shape.inner["*"], left, path)))
        for number, item in enumerate(below):
            self.node(shape, item, (*path, form["children"], number), depth + 1, nodes)

    def key_list(self, shape, tree, path):
        form, found = shape.form, {}
        for number, item in enumerate(tree):
            key, value = self.item(shape, item, (*path, number))
            if key in found:
                at = tuple(shape.key_paths[0])
                self.wrong((*path, number, *at), "a key that no other item has", (taken_out(shape.key_places, item)[0].get(at),))
            found[key] = value
        if "order" not in form:
            return found
        return {shape.map_field(): found, form["order"]: list(found)}

    def item(self, shape, tree, path):
        """The key and the content of an item of a list by key."""
        form = shape.form
        if not isinstance(tree, dict):
            self.wrong(path, f"an object with the member {key_name(shape)}", (tree,))
            return path, None
        keys, left = taken_out(shape.key_places, tree)
        first, *others = [(steps, keys.get(tuple(steps), NOTHING)) for steps in shape.key_paths]
        text = number_text(first[1]) if "number" in form else first[1]
        if not isinstance(text, str):
            sort = "a number" if "number" in form else "a string"
            self.wrong((*path, *first[0]), sort, "nothing" if first[1] is NOTHING else (first[1],))
            text = path
        for steps, key in others:
            if text is not path and (key is NOTHING or not is_same(key, first[1])):
                self.wrong((*path, *steps), f"{shown(first[1])}, the key of this item", "nothing" if key is NOTHING else (key,))
        left_over = {}
        left = without_empty(shape.content(), shape.key_places, left, (), left_over)
        for steps, value in left_over.items():
            self.wrong((*path, *steps), "no such member", (value,))
        return text, self.content(shape, shape.content(), left, path)
