"""The steps of an edit that do to the document what one operation of a JSON Patch does to the file."""

from __future__ import annotations

from collections.abc import Mapping
from dataclasses import replace as changed
from typing import Any, Iterable

from ..construct import replace_steps, set_steps, word_of
from ..documents import Misfit
from ..edits import act, paths_of, subtree
from ..json_text import place_name, pointer
from .documents import DoesNotFit, item_of, node_of, nodes_of, taken_out, to_document, without_empty
from .operations import Stop, need_apart, number_in, steps_of, value_at
from .places import Items, Place, content, key_order, map_place, members, taker, written
from .text import is_same, number_text, shown

EXACTLY_ONE = "this list has exactly one item"
BY_PRIMITIVES = "the nodes of a tree come and go by graft, prune, shift and hang, or as children where a form writes them so"


def step(place: Place, steps: list[Any]) -> Place:
    """The place inside this one at the last of some steps."""
    inside = members(place)
    if isinstance(inside, Items):
        return inside[number_in(steps, len(inside))]
    if isinstance(inside, Mapping) and steps[-1] in inside and not inside[steps[-1]].is_missing():
        return inside[steps[-1]]
    # An operation inside a value that is kept as a text of JSON is done to the whole text.
    raise Stop(f"{place_name(steps)}: there is no such place", may_wait="json" in content(place).shape.form)


def walk(place: Place, steps: list[Any]) -> Place:
    """The place at some steps."""
    for number in range(1, len(steps) + 1):
        place = step(place, steps[:number])
    return place


def steps_for(root: Place, file: Any, op: dict[str, Any]) -> list[Any]:
    """The steps of one operation of a patch of a file, which the root shows. Raises Stop or DoesNotFit where there are none."""
    name, steps = op["op"], steps_of(op["path"])
    if name == "test":
        return []
    if name == "replace":
        return replaced(walk(root, steps), op["value"], steps)
    if name == "add":
        return _added(root, steps, op["value"])
    if name == "remove":
        return _removed(root, steps)
    origin = steps_of(op["from"])
    if name == "copy":
        return _added(root, steps, value_at(file, origin))
    return _moved(root, origin, steps)


def replaced(place: Place, value: Any, steps: Iterable[Any]) -> list[Any]:
    """Replaces what is at a place of the file."""
    path = tuple(steps)
    if place.keys:
        return _replaced_with_keys(place, value, path)
    if place.role in ("", "entry") and "children" in place.shape.form:
        return _new_node(changed(place, role="node", owner=place, name=[]), value, path)
    if place.role in ("", "entry"):
        return list(replace_steps(place.shape.ty, place.value, to_document(place.shape, value, path), place.path))
    if place.role == "key":
        _need_every_place(place, value, path)
        return _renamed(place, _key(place.owner, value, path), path)
    if place.role == "item":
        key, inside = item_of(place.owner.shape, value, path)
        if key != place.name:
            return _another_item(place, key, inside, path)
        return list(replace_steps(place.shape.ty, place.value, inside, place.path))
    if place.role == "children":
        return _new_children(place, value, path)
    if place.role == "node":
        return _new_node(place, value, path)
    if place.role == "kind":
        raise Stop(f"{place_name(path)}: with this kind the rest of the object does not fit", may_wait=True)
    raise Stop(f"{place_name(path)}: {BY_PRIMITIVES}", may_wait=place.role in ("depths", "items"))


def _replaced_with_keys(place, value, path):
    """Replaces a part of an item in which its key stands, which stays the same."""
    keys = place.keys
    found, rest = taken_out(keys.places, value)
    key = written(changed(keys.item, role="key"))
    if len(found) < count_of(keys.places) or not all(is_same(it, key) for it in found.values()):
        wanted = f"the key {shown(key)} at every place that has it, or another one at all of them"
        raise DoesNotFit([Misfit(path[: len(path) - keys.depth], wanted, shown(value))])
    left_over = {}
    rest = without_empty(None if place.role == "around" else place.shape, keys.places, rest, (), left_over)
    if place.role == "around":
        left_over.update({(it,): value for it, value in rest.items()})
    if left_over:
        raise Stop(f"{place_name((*path, *next(iter(left_over))))}: there is no such member", may_wait=True)
    return replaced(changed(place, keys=None), rest, path) if place.role != "around" else []


def count_of(places: dict[str, Any]) -> int:
    """How many places a key has in nested places."""
    return sum(1 if it is True else count_of(it) for it in places.values())


def _need_every_place(place, value, path):
    """Refuses another key at one place of several."""
    paths = place.owner.shape.key_paths
    if len(paths) == 1 or is_same(value, written(place)):
        return
    item = next((path[: len(path) - len(it)] for it in paths if list(map(str, path[len(path) - len(it) :])) == it), path)
    wanted = f"the same key at {', '.join(map(pointer, paths))}"
    raise DoesNotFit([Misfit(item, wanted, shown(value))])


def renaming(root: Place, ops: list[dict[str, Any]]) -> list[Any] | None:
    """The steps by which an item gets another key, where operations replace it at every place that it has. Or None."""
    places: dict[tuple[str, ...], Place] = {}
    for op in ops:
        steps = steps_of(op["path"])
        if op["op"] != "replace" or not is_same(op["value"], ops[0]["value"]):
            return None
        try:
            place = walk(root, steps)
        except Stop:
            return None
        if place.role != "key" or places and next(iter(places.values())).path != place.path:
            return None
        places[tuple(map(str, steps))] = place
    first = next(iter(places), None)
    if first is None or len(places) < len(places[first].owner.shape.key_paths):
        return None
    return _renamed(places[first], _key(places[first].owner, ops[0]["value"], first), first)


def _key(owner, value, path):
    text = number_text(value) if "number" in owner.shape.form else value
    if not isinstance(text, str):
        raise Stop(f"{place_name(path)}: a key is a {'number' if 'number' in owner.shape.form else 'text'}")
    return text


def _renamed(place, key, path):
    """Gives an item of a list by key another key."""
    if key == place.name:
        return []
    return [*_listed_as(place, key, path), (map_place(place.owner).path, {"rename": [place.name, key]})]


def _another_item(place, key, value, path):
    """An item of a list by key is replaced by one with another key. That is another item, which gets nothing of what the first one had."""
    owner, there = place.owner, map_place(place.owner)
    if "order" not in owner.shape.form and key_order(owner.shape, owner.value)[-1] != place.name:
        raise Stop(f"{place_name(path)}: this list by key keeps no order, so another item comes at its end", may_wait=True)
    replaced_key = [(there.path, {"drop": place.name}), (there.path, {"put": key})]
    return [*_listed_as(place, key, path), *replaced_key, *set_steps(place.shape.ty, value, (*there.path, ("mod", key)))]


def _listed_as(place, key, path):
    """The steps by which an order names an item by another key, where there is an order."""
    owner = place.owner
    if key in map_place(owner).value:
        raise Stop(f"{place_name(path)}: another item has the key {key}", may_wait=True)
    if "order" not in owner.shape.form:
        return []
    tidied, order = _tidied(owner)
    number = key_order(owner.shape, owner.value).index(place.name)
    return [*tidied, ((*order, ("mod", number)), {"set": key})]


def _tidied(owner):
    """The steps that make the order of a list by key name each key once, and the way to it."""
    name = owner.shape.form["order"]
    path, keys = (*owner.path, ("at", name)), key_order(owner.shape, owner.value)
    return list(replace_steps(owner.shape.inner[name].ty, owner.value[name], keys, path)), path


def _added(root, steps, value):
    if not steps:
        return replaced(root, value, steps)
    parent, path = walk(root, steps[:-1]), tuple(steps)
    inside = members(parent)
    if isinstance(inside, Items):
        return _inserted(parent, inside, number_in(steps, len(inside), True), value, path)
    if parent.role == "depths":
        raise Stop(f"{place_name(path)}: {BY_PRIMITIVES}")
    if inside is None:
        raise Stop(f"{place_name(path)}: there is no such place", may_wait="json" in content(parent).shape.form)
    if steps[-1] in inside:
        return replaced(inside[steps[-1]], value, steps)
    there = taker(parent)
    if there is None:
        raise Stop(f"{place_name(path)}: there is no such member", may_wait=True)
    inner, key = there.shape.inner["*"], steps[-1]
    return [(there.path, {"put": key}), *set_steps(inner.ty, to_document(inner, value, path), (*there.path, ("mod", key)))]


def _inserted(parent, inside, number, value, path):
    parent, count = content(parent), len(inside)
    if parent.role == "children":
        owner = parent.owner
        return _grafted(owner, parent.name, number, count, nodes_of(owner.shape, [value], path[:-1], number))
    if parent.role == "items":
        raise Stop(f"{place_name(path)}: {BY_PRIMITIVES}")
    if parent.shape.kind == "one":
        raise Stop(f"{place_name(path)}: {EXACTLY_ONE}", may_wait=True)
    if parent.shape.is_key_list():
        return _inserted_key(parent, number, count, value, path)
    inner = parent.shape.inner["*"]
    document = to_document(inner, value, path)
    return [*_new_item(parent.path, number, count), *set_steps(inner.ty, document, (*parent.path, ("mod", number)))]


def _new_item(path, number, count):
    return [(path, {"ins": 1}), *([(path, {"move": [count, number]})] if number < count else [])]


def _gone_item(path, number, count):
    return [*([(path, {"move": [number, count - 1]})] if number < count - 1 else []), (path, {"del": 1})]


def _inserted_key(parent, number, count, value, path):
    key, inside = item_of(parent.shape, value, path)
    there, steps = map_place(parent), []
    if key in there.value:
        raise Stop(f"{place_name(path)}: another item has the key {key}", may_wait=True)
    if "order" in parent.shape.form:
        tidied, order = _tidied(parent)
        steps = [*tidied, *_new_item(order, number, count), ((*order, ("mod", number)), {"set": key})]
    elif number < count:
        raise Stop(f"{place_name(path)}: this list by key keeps no order, so items are added at its end")
    return [*steps, (there.path, {"put": key}), *set_steps(parent.shape.content().ty, inside, (*there.path, ("mod", key)))]


def _grafted(tree, parent, number, count, nodes):
    """New nodes in preorder, of which the first becomes a child of a node."""
    top, inner = [*parent, number], tree.shape.inner["*"].ty
    steps = [(tree.path, {"graft": parent})]
    if number < count:
        steps.append((tree.path, {"shift": [parent, count, number]}))
    paths = paths_of([depth for depth, _ in nodes])
    steps += [(tree.path, {"graft": [*top, *path[:-1]]}) for path in paths[1:]]
    for path, (_, item) in zip(paths, nodes):
        steps += set_steps(inner, item, (*tree.path, ("mod", [*top, *path])))
    return steps


def _new_children(place, value, path):
    if not isinstance(value, list) or not value and place.owner.shape.form.get("leaf") == "missing":
        raise Stop(f"{place_name(path)}: an array is wanted" + (" that is not empty" if value == [] else ""), may_wait=True)
    tree, steps = place.owner, []
    for number, item in enumerate(value):
        steps += _grafted(tree, place.name, number, number, nodes_of(tree.shape, [item], path, number))
    return [*_no_children(place), *steps]


def _no_children(place):
    return [(place.owner.path, {"prune": place.name}) for _ in members(place)]


def _new_node(place, value, path):
    """A node gets another content, and what is below it is made anew where it is not the same."""
    tree, at, nodes = place.owner, place.name, node_of(place.owner.shape, value, path)
    (_, old), *old_below = subtree(tree.value, at)
    (_, new), *below = nodes
    inner = tree.shape.inner["*"].ty
    steps = list(replace_steps(inner, old, new, (*tree.path, ("mod", at))))
    if below == old_below:
        return steps
    paths = [[*at, *it] for it in paths_of([depth for depth, _ in nodes])[1:]]
    pruned = [(tree.path, {"prune": at}) for depth, _ in old_below if depth == 1]
    grafted = [(tree.path, {"graft": it[:-1]}) for it in paths]
    return pruned + steps + grafted + [step for it, (_, item) in zip(paths, below) for step in set_steps(inner, item, (*tree.path, ("mod", it)))]


def _removed(root, steps):
    if not steps:
        raise Stop("a document cannot be removed")
    place, path = walk(root, steps), tuple(steps)
    parent = content(walk(root, steps[:-1]))
    inside = members(parent)
    if isinstance(inside, Items):
        return _taken_out(parent, int(steps[-1]), len(inside), path)
    if place.role == "entry":
        return [(place.owner.path, {"drop": place.name})]
    if place.role == "children" and "leaf" in place.owner.shape.form:
        return _no_children(place)
    if place.role == "" and "missing" in place.shape.form:
        return list(replace_steps(place.shape.ty, place.value, {place.shape.form["missing"]: None}, place.path))
    raise Stop(f"{place_name(path)}: this member is never missing", may_wait=True)


def _taken_out(parent, number, count, path):
    if parent.role == "children":
        if count == 1 and parent.owner.shape.form.get("leaf") == "missing":
            raise Stop(f"{place_name(path)}: the last child: remove {pointer(path[:-1])}, which a node without children does not have", may_wait=True)
        shifted = [(parent.owner.path, {"shift": [parent.name, number, count - 1]})] if number < count - 1 else []
        return [*shifted, (parent.owner.path, {"prune": parent.name})]
    if parent.role == "items":
        raise Stop(f"{place_name(path)}: {BY_PRIMITIVES}")
    if parent.shape.kind == "one":
        raise Stop(f"{place_name(path)}: {EXACTLY_ONE}", may_wait=True)
    if not parent.shape.is_key_list():
        return _gone_item(parent.path, number, count)
    key = key_order(parent.shape, parent.value)[number]
    dropped = (map_place(parent).path, {"drop": key})
    if "order" not in parent.shape.form:
        return [dropped]
    tidied, order = _tidied(parent)
    return [*tidied, *_gone_item(order, number, count), dropped]


def _moved(root, origin, steps):
    need_apart(origin, steps)
    place = walk(root, origin)
    if origin == steps:
        return []
    if not steps:
        return replaced(root, written(place), steps)
    parent = content(walk(root, origin[:-1]))
    if origin[:-1] == steps[:-1] and isinstance(members(parent), Items):
        count = len(members(parent))
        return _moved_inside(parent, int(origin[-1]), number_in(steps, count - 1, True), count, steps)
    if origin[:-1] == steps[:-1] and place.role == "entry" and taker(parent) is not None:
        other = members(parent).get(steps[-1])
        if other is None or other.role == "entry":
            gone = [(place.owner.path, {"drop": steps[-1]})] if other is not None else []
            return [*gone, (place.owner.path, {"rename": [origin[-1], steps[-1]]})]
    value, removed = written(place), _removed(root, origin)
    after = Place(root.shape, act(root.shape.ty, root.value, word_of(removed)))
    if place.role == "node":
        target = content(walk(after, steps[:-1]))
        if target.role == "children" and target.owner.path == place.owner.path:
            count = len(members(target))
            return _hung(place, target, number_in(steps, count, True), count)
    return removed + _added(after, steps, value)


def _moved_inside(parent, number, to, count, steps):
    if number == to:
        return []
    if parent.role == "children":
        return [(parent.owner.path, {"shift": [parent.name, number, to]})]
    if parent.role == "items":
        raise Stop(f"{place_name(steps)}: {BY_PRIMITIVES}")
    if not parent.shape.is_key_list():
        return [(parent.path, {"move": [number, to]})]
    if "order" not in parent.shape.form:
        raise Stop(f"{place_name(steps)}: this list by key keeps no order, so nothing moves in it")
    tidied, order = _tidied(parent)
    return [*tidied, (order, {"move": [number, to]})]


def _hung(place, target, number, count):
    """Moves a node with all below it below another node. The path of that one is read when the subtree is taken off."""
    steps = [(place.owner.path, {"hang": [place.name, target.name]})]
    if number < count:
        steps.append((place.owner.path, {"shift": [target.name, count, number]}))
    return steps
