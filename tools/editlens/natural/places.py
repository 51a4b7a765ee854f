"""The places of a user's file, each with the place of the document that it shows and the way of an edit there."""

from __future__ import annotations

from collections.abc import Mapping, Sequence
from dataclasses import dataclass, replace as changed
from functools import partial
from typing import Any, Callable, Iterable, Iterator

from ..edits import children_of, paths_of
from ..json_text import pointer
from ..plans import need_node
from .forms import Shape
from .text import read_file, read_number, shown, write_file


class NotWritable(ValueError):
    """A document that no file of this form shows: the place in the document, and why. `side` is set where a patch of the other one is refused."""

    side = None

    def __init__(self, path: Iterable[Any], reason: str) -> None:
        steps = [it for name, place in path for it in (("items", place) if name == "mod" and isinstance(place, list) else (place,))]
        super().__init__(f"{pointer(steps) or '(the document)'}: {reason}")

    def __str__(self) -> str:
        said = super().__str__()
        return said if self.side is None else f"the {self.side} file could not show what comes of it: {said}"


@dataclass(frozen=True)
class Keys:
    """The places of a key in a part of an item: the item, the nested places, and how many steps lead from the item to the part."""

    item: "Place"
    places: dict
    depth: int

    def inside(self, step: str) -> Keys:
        """The same in what is at a step."""
        return Keys(self.item, self.places[step], self.depth + 1)


@dataclass(frozen=True)
class Place:
    """A place of a user's file. `value` is what the document has for it, and `path` the way of an edit there.

    Some members belong to a form and not to the document. Their `role` says what they are, and `owner` is the place with the form:
    `kind` and `key` are the members that say a tag or a key, `item` an object of a list by key, `children` the list of a node's children,
    `node` a node, `depths` and `items` the members of a tree without a form, and `entry` a member of a map. `name` is the key or the
    path of a node.

    Where a key stands inside its item, the places on the way have `keys`: the places of the key in them. Their role is `around` where they
    are there for the key alone; they have the item's path and value then.
    """

    shape: Shape
    value: Any
    path: tuple = ()
    role: str = ""
    owner: Any = None
    name: Any = None
    keys: "Keys | None" = None

    def is_missing(self) -> bool:
        """Whether the file has no such member now."""
        if self.role == "children":
            return self.owner.shape.form.get("leaf") == "missing" and not child_nodes(self)
        return not self.role and "missing" in self.shape.form and self.shape.form["missing"] in self.value

    def at(self, primitive: str, step: Any, shape: Shape, value: Any, **more: Any) -> Place:
        """A place inside this one."""
        return Place(shape, value, (*self.path, (primitive, step)), **more)


class Items(Sequence):
    """The places of the items of a list. Each is made where it is asked for, since a list may be long.

    `held` are the shape of the contents, a call that returns the content with a number, and the keys where the items have them.
    """

    def __init__(self, count: int, make: Callable[[int], Place], held: Any = None) -> None:
        self._count, self._make, self.held = count, make, held

    def __len__(self) -> int:
        return self._count

    def __getitem__(self, number: Any) -> Any:
        numbers = range(self._count)[number]
        return self._make(numbers) if isinstance(numbers, int) else [self._make(it) for it in numbers]


class Entries(Mapping):
    """The places of the members of a map, by their keys. Each is made where it is asked for. `shape` is that of the contents."""

    def __init__(self, values: dict[str, Any], make: Callable[[str], Place], shape: Shape) -> None:
        self.values_by_key, self._make, self.shape = values, make, shape

    def __len__(self) -> int:
        return len(self.values_by_key)

    def __iter__(self) -> Iterator[str]:
        return iter(self.values_by_key)

    def __contains__(self, key: object) -> bool:
        return key in self.values_by_key

    def __getitem__(self, key: str) -> Place:
        if key not in self.values_by_key:
            raise KeyError(key)
        return self._make(key)


class Written:
    """The files of documents of one shape, one after another. What a document shares with the one before it is not written again."""

    def __init__(self) -> None:
        self._before: dict[Any, Any] = {}
        self._now: dict[Any, Any] = {}

    def of(self, shape: Shape, document: Any) -> Any:
        """The user's file of a document, which is never changed later. Raises NotWritable."""
        self._now = {}
        file = written(Place(shape, document), self)
        self._before = self._now
        return file

    def held(self, shape: Shape, value: Any, key: Any, write: Callable[[], Any]) -> Any:
        """What the file has for a value that a container holds, by a call where it is new. The file has the key, too, where it is given."""
        # The value is kept with what was written, so no other one has its number meanwhile.
        name = id(value), id(shape), key
        found = self._now.get(name) or self._before.get(name) or (value, write())
        self._now[name] = found
        return found[1]


def content(place: Place) -> Place:
    """The place itself, or the content of alternatives that are written by their content alone."""
    while place.shape.is_untagged() and place.role in ("", "entry"):
        tag = next(iter(place.value))
        place = place.at("stay", tag, place.shape.inner[tag], place.value[tag])
    return place


def members(place: Place) -> Any:
    """What a place of a file has inside: the places of members by their names, the Items of a list, or None for a simple value.

    Members that are missing now are among them.
    """
    place = content(place)
    shape, value = place.shape, place.value
    if place.keys:
        return _with_keys(place)
    if shape.kind == "one" and place.role in ("", "entry"):
        return Items(1, lambda number: changed(place, shape=shape.inner["*"], role="", owner=None))
    if place.role in _BY_ROLE:
        return _BY_ROLE[place.role](place)
    if shape.is_key_list():
        return _key_items(place)
    if shape.kind == "record":
        return _fields(place)
    if shape.kind == "list":
        inner = shape.inner["*"]
        return Items(len(value), lambda number: place.at("mod", number, inner, value[number]), (inner, value.__getitem__, None))
    if shape.kind == "keyed":
        inner = shape.inner["*"]
        return Entries(value, lambda key: place.at("mod", key, inner, value[key], role="entry", owner=place, name=key), inner)
    if shape.kind == "alternatives" and "kind" not in shape.form:
        tag = next(iter(value))
        return {tag: place.at("stay", tag, shape.inner[tag], value[tag])}
    if shape.kind == "alternatives":
        return _joined(place, shape.form, {shape.form["kind"]: changed(place, role="kind", owner=place)})
    if shape.kind == "tree" and "children" in shape.form:
        return _node_members(changed(place, owner=place, name=[]))
    if shape.kind == "tree":
        return {role: changed(place, role=role, owner=place) for role in ("depths", "items")}
    return None


def core(place: Place) -> Place | None:
    """The place of the content that a form adds members to, in an object of alternatives, of a node or of a list by key. Or None."""
    shape, value = place.shape, place.value
    if place.role == "item":
        return changed(place, role="", owner=None)
    if place.role == "node" or "children" in shape.form:
        tree, path = (place.owner, place.name) if place.role == "node" else (place, [])
        return tree.at("mod", path, tree.shape.inner["*"], tree.value["items"][need_node(tree.value["depths"], path)])
    if "kind" in shape.form:
        tag = next(iter(value))
        return place.at("stay", tag, shape.inner[tag], value[tag])
    return None


def taker(place: Place) -> Place | None:
    """The map that takes the members of an object for which there is no place yet, or None."""
    place = content(place)
    if place.role == "around" or place.shape.kind == "one":
        return None
    inside, owner = core(place), place.owner if place.role in ("item", "node") else place
    if inside:
        return None if "content" in owner.shape.form else taker(inside)
    if place.role not in ("", "entry") or place.shape.is_key_list():
        return None
    name = place.shape.open_field if place.shape.kind == "record" else None
    if name is not None:
        return taker(place.at("at", name, place.shape.inner[name], place.value[name]))
    return place if place.shape.kind == "keyed" else None


def _joined(place, form, own):
    """The members that a form adds to a content, and those of the content."""
    inside = core(place)
    if "content" in form:
        return {**own, form["content"]: inside}
    return {**own, **_apart(place, own, members(inside) or {})}


def _apart(place, own, more):
    twice = next((name for name in more if name in own), None)
    if twice is not None:
        raise NotWritable(place.path, f"the member {twice} would come twice")
    return more


def _fields(place):
    found, rest = {}, place.shape.open_field
    for name, inner in place.shape.inner.items():
        there = place.at("at", name, inner, place.value[name])
        if "flat" not in inner.form:
            found[name] = there
        elif name == rest:
            found.update(_apart(place, place.shape.other_names, members(there)))
        else:
            found.update(members(there))
    return found


def key_order(shape: Shape, value: Any) -> list[str]:
    """The keys of a map that is written as a list, in the order of the list."""
    if "order" not in shape.form:
        return list(value)
    keys, order = value[shape.map_field()], value[shape.form["order"]]
    if len(order) == len(keys) and keys.keys() == set(order):
        return order
    listed = [key for key in dict.fromkeys(order) if key in keys]
    return listed if len(listed) == len(keys) else listed + sorted(set(keys) - set(listed), key=str.encode)


def map_place(place: Place) -> Place:
    """The place of the map itself of a list by key."""
    if place.shape.kind == "keyed":
        return place
    name = place.shape.map_field()
    return place.at("at", name, place.shape.inner[name], place.value[name])


def _key_items(place):
    inside, shape = map_place(place), place.shape.content()
    keys = key_order(place.shape, place.value)
    held = shape, lambda number: inside.value[keys[number]], keys
    return Items(len(keys), lambda number: key_item(place, inside, shape, keys[number]), held)


def key_item(place: Place, inside: Place, shape: Shape, key: str) -> Place:
    """The place of the item of a list by key that has a key. `inside` is the place of the map, and `shape` that of its contents."""
    return inside.at("mod", key, shape, inside.value[key], role="item", owner=place, name=key)


def _with_keys(place):
    """The members of a part of an item in which its key stands, also further inside."""
    keys, bare = place.keys, changed(place, keys=None)
    if place.shape.kind == "one" and place.role == "":
        return Items(1, lambda number: changed(members(bare)[number], keys=keys.inside("0")))
    found = dict(members(bare) or {}) if place.role != "around" else {}
    for name, below in keys.places.items():
        there = found.get(name)
        if there is not None and (below is True or there.role):
            raise NotWritable(place.path, f"the member {name} would come twice")
        there = there or changed(keys.item, role="key" if below is True else "around")
        found[name] = there if below is True else changed(there, keys=keys.inside(name))
    return found


def _item_members(place):
    form = place.owner.shape.form
    if "in" in form or "repeat" in form:
        return _with_keys(changed(core(place), keys=Keys(place, place.owner.shape.key_places, 0)))
    return _joined(place, form, {form["key"]: changed(place, role="key")})


def _node_members(place):
    form = place.owner.shape.form
    return _joined(changed(place, role="node"), form, {form["children"]: changed(place, role="children")})


def child_nodes(place: Place) -> list[int]:
    """The numbers of the children of a place of the role `children`."""
    depths = place.owner.value["depths"]
    return children_of(depths, need_node(depths, place.name))


def _children(place):
    return Items(len(child_nodes(place)), lambda number: changed(place, role="node", name=[*place.name, number]))


def _items(place):
    paths, inner, items = paths_of(place.value["depths"]), place.shape.inner["*"], place.value["items"]
    return Items(len(items), lambda number: place.owner.at("mod", paths[number], inner, items[number]), (inner, items.__getitem__, None))


_BY_ROLE = {
    "kind": lambda place: None,
    "key": lambda place: None,
    "depths": lambda place: None,
    "item": _item_members,
    "node": _node_members,
    "children": _children,
    "items": _items,
}


def written(place: Place, known: Written | None = None) -> Any:
    """What the file has at a place, by a Written where there is one. Raises NotWritable."""
    place = content(place)
    if place.role in ("", "entry") and "children" in place.shape.form:
        return _nested(place, known)
    inside = members(place)
    if known and isinstance(inside, Entries):
        shape, values = inside.shape, inside.values_by_key
        return {key: known.held(shape, value, None, partial(_written_at, inside, key, known)) for key, value in values.items()}
    if isinstance(inside, Mapping):
        return {name: written(it, known) for name, it in inside.items() if not it.is_missing()}
    if known and isinstance(inside, Items) and inside.held:
        shape, value_of, keys = inside.held
        numbers = range(len(inside))
        return [known.held(shape, value_of(it), keys and keys[it], partial(_written_at, inside, it, known)) for it in numbers]
    if isinstance(inside, Items):
        return [written(it, known) for it in inside]
    return _simple(place)


def _written_at(inside, name, known):
    return written(inside[name], known)


def _node_content(tree, path, item, known):
    """The members of a node of a nested tree, but for its children."""
    form, inside = tree.shape.form, tree.at("mod", path, tree.shape.inner["*"], item)
    here = {form["content"]: inside} if "content" in form else members(inside) or {}
    _apart(tree, {form["children"]: None}, here)
    return {name: written(place, known) for name, place in here.items() if not place.is_missing()}


def _nested(tree, known=None):
    """The nested objects of a tree, made in one pass."""
    name, is_bare, made = tree.shape.form["children"], tree.shape.form.get("leaf") == "missing", {}
    known = known or Written()
    for path, item in zip(paths_of(tree.value["depths"]), tree.value["items"]):
        node = dict(known.held(tree.shape.inner["*"], item, "", lambda path=path, item=item: _node_content(tree, path, item, known)))
        if not is_bare:
            node[name] = []
        made[tuple(path)] = node
        if path:
            made[tuple(path[:-1])].setdefault(name, []).append(node)
    return made[()]


def _simple(place):
    if place.role == "kind":
        return next(iter(place.value))
    if place.role == "key":
        return _number(place, place.name) if "number" in place.owner.shape.form else place.name
    if place.role == "depths":
        return place.value["depths"]
    form = place.shape.form
    if "number" in form:
        return _number(place, place.value)
    if "decimal" in form:
        _number(place, place.value)
    if "json" in form:
        return _json(place, place.value)
    return form["members"].get(place.value, place.value) if "members" in form else place.value


def _number(place, text):
    number = read_number(text)
    if number is None:
        raise NotWritable(place.path, f"{shown(text)} is not the text of a number")
    return number


def _json(place, text):
    """The value of a text of JSON. A text with other spaces or another order would come back as another one, so no file shows it."""
    try:
        tree = read_file(text)
    except ValueError:
        raise NotWritable(place.path, f"{shown(text)} is not the text of a JSON value") from None
    if write_file(tree) != text:
        raise NotWritable(place.path, f"{shown(text)} is JSON, but not as a file has it: without spaces, members by their bytes")
    return tree


def to_file(shape: Shape, document: Any) -> Any:
    """The user's file of a document. Raises NotWritable where no file of this form shows the document."""
    return written(Place(shape, document))
