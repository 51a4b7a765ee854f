"""Edits of documents become JSON Patches (RFC 6902) of the users' files that show them.

The patch is applied to the file before the edit, and compared with the file after it. Where it makes another one, as where a document
between two primitives is in no file, the file comes as a whole.
"""

from __future__ import annotations

from dataclasses import replace as changed
from typing import Any

from ..edits import act, children_of, node_at
from ..json_text import pointer
from .forms import Shape
from .operations import Patching, Stop
from .places import NotWritable, Place, Written, core, key_item, key_order, map_place, members, to_file, written
from .text import is_same

SIMPLE = ("unit", "bool", "int", "text", "enum")


def to_patch(shape: Shape, document: Any, edit: Any, files: Written | None = None) -> list[Any]:
    """The patch that makes of the file what the edit makes of its document. `files` is a Written of the shape.

    Raises NoApply or NotAnEdit where the edit does not act on the document, and NotWritable where no file shows what it makes.
    """
    files = files or Written()
    after = act(shape.ty, document, edit)
    wanted = files.of(shape, after)
    try:
        patch = _patch(Place(shape, document), edit, (), False)
        if _is_made(files.of(shape, document), patch, wanted):
            return patch
    except NotWritable:
        pass
    return [{"op": "replace", "path": "", "value": to_file(shape, after)}]


def _is_made(file, patch, wanted):
    """Whether a patch makes of a file the one that is wanted."""
    try:
        patching = Patching(file)
        for op in patch:
            patching.apply(op)
    except Stop:
        return False
    return is_same(patching.tree, wanted)


def _patch(place, edit, at, is_merged):
    """The operations of an edit at a place. If `is_merged`, the members of the place are among others in one object."""
    if place.shape.kind == "one":
        return _patch(changed(place, shape=place.shape.inner["*"]), edit, (*at, 0), False)
    if place.shape.kind in SIMPLE and len(edit) > 1:
        return _anew(place, changed(place, value=act(place.shape.ty, place.value, edit)), at, is_merged)
    ops = []
    for primitive in edit:
        name, body = next(iter(primitive.items()))
        after = changed(place, value=act(place.shape.ty, place.value, [primitive]))
        ops += _primitive(place, after, name, body, at, is_merged)
        place = after
    return ops


def _primitive(place, after, name, body, at, is_merged):
    shape, kind = place.shape, place.shape.kind
    if shape.is_untagged():
        return _untagged(place, after, name, body, at, is_merged)
    if shape.is_key_list():
        return _of_key_list(place, after, name, body, at)
    if kind == "record":
        inside, is_here = place.at("at", body[0], shape.inner[body[0]], place.value[body[0]]), "flat" in shape.inner[body[0]].form
        return _patch(inside, body[1], at if is_here else (*at, body[0]), is_here)
    if kind == "alternatives" and name == "stay":
        inside = place.at("stay", body[0], shape.inner[body[0]], place.value[body[0]])
        return _patch(inside, body[1], *_content_at(shape.form, at, () if "kind" in shape.form else body[:1]))
    if kind == "tree" and "children" in shape.form:
        return _OF_NODES[name](place, after, body, at)
    if kind == "tree" and name == "mod":
        node = node_at(place.value["depths"], body[0])
        return _patch(place.at("mod", body[0], shape.inner["*"], place.value["items"][node]), body[1], (*at, "items", node), False)
    if kind in ("list", "keyed"):
        return _of_container(place, after, name, body, at)
    return _anew(place, after, at, is_merged)


def _content_at(form, at, tag=()):
    """Where the content of an object with a kind, a key or children is, and whether it is among other members."""
    if tag:
        return (*at, *tag), False
    return ((*at, form["content"]), False) if "content" in form else (at, True)


def _anew(place, after, at, is_merged):
    """Writes a place anew: as a whole, or member by member where others are in the same object."""
    if not is_merged:
        return [{"op": "replace", "path": pointer(at), "value": written(after)}]
    old, new = written(place), written(after)
    gone = [{"op": "remove", "path": pointer((*at, it))} for it in old if it not in new]
    return gone + [{"op": "replace" if it in old else "add", "path": pointer((*at, it)), "value": new[it]} for it in new]


def _untagged(place, after, name, body, at, is_merged):
    if name == "stay":
        return _patch(place.at("stay", body[0], place.shape.inner[body[0]], place.value[body[0]]), body[1], at, is_merged)
    if is_merged:
        return _anew(place, after, at, True)
    if after.is_missing():
        return [] if place.is_missing() else [{"op": "remove", "path": pointer(at)}]
    return [{"op": "add" if place.is_missing() else "replace", "path": pointer(at), "value": written(after)}]


def _of_container(place, after, name, body, at):
    """A list or a map."""
    path, count = pointer(at), len(place.value)
    if name == "mod":
        return _patch(place.at("mod", body[0], place.shape.inner["*"], place.value[body[0]]), body[1], (*at, body[0]), False)
    if name == "ins":
        return [{"op": "add", "path": path + "/-", "value": written(it)} for it in members(after)[count:]]
    if name == "del":
        return [{"op": "remove", "path": f"{path}/{number}"} for number in range(count - 1, count - 1 - body, -1)]
    if name == "move":
        return _moves([body], path)
    if name == "reorder":
        return _moves(_reordering(range(count), body), path)
    if name == "put":
        return [{"op": "add", "path": pointer((*at, body)), "value": written(members(after)[body])}]
    if name == "drop":
        return [{"op": "remove", "path": pointer((*at, body))}]
    old, new = (pointer((*at, it)) for it in body)
    return [{"op": "move", "from": old, "path": new}] if old != new else []


def _moves(pairs, path):
    return [{"op": "move", "from": f"{path}/{old}", "path": f"{path}/{new}"} for old, new in pairs if old != new]


def _reordering(now, wanted):
    """The moves, each from a place to a place, that bring items into an order."""
    now = list(now)
    for place, item in enumerate(wanted):
        origin = now.index(item, place)
        now.insert(place, now.pop(origin))
        yield origin, place


def _of_key_list(place, after, name, body, at):
    """A map that is written as a list. An edit of a record of a map and an order is one of either."""
    shape = place.shape
    if name == "at":
        ops = []
        for primitive in body[1]:
            later = changed(place, value=act(shape.ty, place.value, [{"at": [body[0], [primitive]]}]))
            inner, more = next(iter(primitive.items()))
            ops += _of_key_list(place, later, inner if body[0] != shape.form["order"] else "order", more, at)
            place = later
        return ops
    old = key_order(shape, place.value)
    if name == "mod":
        return _patch(core(_item(place, body[0])), body[1], *_content_at(shape.form, (*at, old.index(body[0]))))
    ops = []
    if name == "rename" and body[0] != body[1]:
        number = old.index(body[0])
        old = [*old[:number], body[1], *old[number + 1 :]]
        key = written(changed(_item(after, body[1]), role="key"))
        ops = [{"op": "replace", "path": pointer((*at, number, *path)), "value": key} for path in shape.key_paths]
    return ops + _other_keys(old, key_order(shape, after.value), after, at)


def _item(place, key):
    return key_item(place, map_place(place), place.shape.content(), key)


def _other_keys(old, new, after, at):
    """The operations that make one list of keys another one: what goes, what moves and what comes."""
    if old == new:
        return []
    path, count = pointer(at), len(old)
    if new[:count] == old:
        return [{"op": "add", "path": f"{path}/{number}", "value": written(_item(after, new[number]))} for number in range(count, len(new))]
    here = set(new)
    gone = [{"op": "remove", "path": f"{path}/{number}"} for number in range(count - 1, -1, -1) if old[number] not in here]
    left = [it for it in old if it in here]
    stay = set(left)
    moved = _moves(_reordering(left, [it for it in new if it in stay]), path)
    come = ((number, it) for number, it in enumerate(new) if it not in stay)
    return [*gone, *moved, *({"op": "add", "path": f"{path}/{number}", "value": written(_item(after, it))} for number, it in come)]


def _node_pointer(tree, at, path):
    return (*at, *(step for number in path for step in (tree.shape.form["children"], number)))


def _children_pointer(tree, at, path, *number):
    return pointer((*_node_pointer(tree, at, path), tree.shape.form["children"], *number))


def _count(tree, path):
    return len(children_of(tree.value["depths"], node_at(tree.value["depths"], path)))


def _node(tree, path):
    """The place of a node."""
    place = changed(tree, role="node", owner=tree, name=[])
    for number in path:
        place = members(members(place)[tree.shape.form["children"]])[number]
    return place


def _changed_node(tree, after, body, at):
    where = _content_at(tree.shape.form, _node_pointer(tree, at, body[0]))
    return _patch(core(_node(tree, body[0])), body[1], *where)


def _grafted(tree, after, path, at):
    count = _count(tree, path)
    value = written(_node(after, [*path, count]))
    if not count and "leaf" in tree.shape.form:
        return [{"op": "add", "path": _children_pointer(tree, at, path), "value": [value]}]
    return [{"op": "add", "path": _children_pointer(tree, at, path, "-"), "value": value}]


def _pruned(tree, after, path, at):
    count = _count(tree, path)
    last = () if "leaf" in tree.shape.form and count == 1 else (count - 1,)
    return [{"op": "remove", "path": _children_pointer(tree, at, path, *last)}]


def _shifted(tree, after, body, at):
    return _moves([body[1:]], _children_pointer(tree, at, body[0]))


def _hung(tree, after, body, at):
    """The path `to` is read in the tree without the subtree. Where leaves have no member for children, it comes before and goes after.

    A `move` must not lead into a place below its origin, also where another node is there by then. So such a node is moved to the end first.
    """
    (origin, to), is_bare = body, tree.shape.form.get("leaf") == "missing"
    parent, number, ops = origin[:-1], origin[-1], []
    siblings, count, depth = _count(tree, parent), _count(after, to) - 1, len(parent)
    if to == parent:
        return _moves([(number, count)], _children_pointer(tree, at, parent))
    if to[: depth + 1] == origin:
        ops += _moves([(number, siblings - 1)], _children_pointer(tree, at, parent))
        number = siblings - 1
    if is_bare and not count:
        before = list(to)
        if to[:depth] == parent and to[depth] >= number:
            before[depth] += 1
        ops.append({"op": "add", "path": _children_pointer(tree, at, before), "value": []})
    ops.append({"op": "move", "from": _children_pointer(tree, at, parent, number), "path": _children_pointer(tree, at, to, count)})
    if is_bare and siblings == 1:
        ops.append({"op": "remove", "path": _children_pointer(tree, at, parent)})
    return ops


_OF_NODES = {"mod": _changed_node, "graft": _grafted, "prune": _pruned, "shift": _shifted, "hang": _hung}
