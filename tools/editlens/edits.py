"""What an edit does to a document, and why it is refused, by the rules of docs/EDITS.md.

This says again, in Python, what the program does and what is proved of it. tools/check compares the two. Documents are trees of JSON;
they are never changed, and an edit makes a new one.
"""

from __future__ import annotations

from dataclasses import dataclass
from typing import Any

from .documents import is_int
from .json_text import pointer, shown
from .plans import MOST_ITEMS, RESHAPINGS, NoPlan, item_at, key_at, listed, need_node, quoted
from .plans import children_of, node_at, paths_of, subtree  # noqa: F401 (places of trees, which go with edits of trees)
from .types import LEAST_INT, MOST_INT, Ty, initial, write_name

MOST_COUNT = 2**64 - 1

ALLOWED = {
    "unit": "null has no primitive",
    "bool": '{"set":true}, {"set":false}',
    "int": '{"set":NUMBER}, {"add":NUMBER}',
    "text": '{"set":"TEXT"}, {"splice":[PLACE,COUNT,"TEXT"]}',
    "enum": '{"set":"MEMBER"}',
    "record": '{"at":["FIELD",EDIT]}',
    "alternatives": '{"stay":["TAG",EDIT]}, {"switch":["TAG","TAG",EDIT]}',
    "list": '{"mod":[NUMBER,EDIT]}, {"ins":COUNT}, {"del":COUNT}, {"move":[FROM,TO]}, {"reorder":[PLACES]}',
    "keyed": '{"mod":["KEY",EDIT]}, {"put":"KEY"}, {"drop":"KEY"}, {"rename":["KEY","KEY"]}',
    "tree": '{"mod":[PATH,EDIT]}, {"graft":PATH}, {"prune":PATH}, {"shift":[PATH,FROM,TO]}, {"hang":[PATH,PATH]}',
}


@dataclass
class NoApply(Exception):
    """An edit that does not act on its document: the cause, and what would have told more than the answer of the program does."""

    cause: str
    path: tuple
    value: object
    allowed: str
    at: int = 0

    def __str__(self) -> str:
        return f"{self.cause} at {pointer(self.path) or '(the document)'}, which is {shown(self.value)}; allowed: {self.allowed}"


class NotAnEdit(ValueError):
    """A tree that is not an edit."""


def is_count(tree: Any) -> bool:
    """Whether a tree is a whole number from 0 below 2^64."""
    return type(tree) is int and 0 <= tree <= MOST_COUNT


def is_path(tree: Any) -> bool:
    """Whether a tree is a list of counts, as a path in a tree is."""
    return isinstance(tree, list) and all(is_count(it) for it in tree)


def _is_row(tree, *tests):
    return isinstance(tree, list) and len(tree) == len(tests) and all(test(it) for test, it in zip(tests, tree))


def _is_text(tree):
    return isinstance(tree, str)


def _is_any(_):
    return True


FORMS = {
    "set": (lambda it: isinstance(it, (bool, str)) or is_int(it), "true, false, a whole number or a string"),
    "add": (is_int, "a whole number"),
    "splice": (lambda it: _is_row(it, is_count, is_count, _is_text), '[PLACE,COUNT,"TEXT"]'),
    "at": (lambda it: _is_row(it, _is_text, _is_any), '["FIELD",EDIT]'),
    "stay": (lambda it: _is_row(it, _is_text, _is_any), '["TAG",EDIT]'),
    "switch": (lambda it: _is_row(it, _is_text, _is_text, _is_any), '["TAG","TAG",EDIT]'),
    "mod": (lambda it: _is_row(it, lambda place: is_count(place) or _is_text(place) or is_path(place), _is_any), "[PLACE,EDIT]"),
    "ins": (lambda it: type(it) is int and 1 <= it <= MOST_ITEMS, f"a number from 1 to {MOST_ITEMS}"),
    "del": (lambda it: type(it) is int and 1 <= it <= MOST_ITEMS, f"a number from 1 to {MOST_ITEMS}"),
    "move": (lambda it: _is_row(it, is_count, is_count), "[FROM,TO]"),
    "reorder": (is_path, "[PLACE,PLACE,..]"),
    "put": (_is_text, '"KEY"'),
    "drop": (_is_text, '"KEY"'),
    "rename": (lambda it: _is_row(it, _is_text, _is_text), '["KEY","KEY"]'),
    "graft": (is_path, "a path, as [0,1]"),
    "prune": (is_path, "a path, as [0,1]"),
    "shift": (lambda it: _is_row(it, is_path, is_count, is_count), "[PATH,FROM,TO]"),
    "hang": (lambda it: _is_row(it, is_path, is_path), "[PATH,PATH]"),
}
WITH_EDIT = ("at", "stay", "switch", "mod")


def form_fault(edit: Any) -> str | None:
    """What is wrong with the form of a tree that should be an edit, or None where it is one."""
    if not isinstance(edit, list):
        return f"an edit is a list of primitives, and not {shown(edit)}"
    for primitive in edit:
        if not isinstance(primitive, dict) or len(primitive) != 1:
            return f"a primitive is an object with one member, and not {shown(primitive)}"
        name, content = next(iter(primitive.items()))
        if name not in FORMS:
            return f"there is no primitive {name}: {shown(primitive)}"
        is_well, form = FORMS[name]
        if not is_well(content):
            return f"{name} wants {form}, and not {shown(content)}"
        inside = form_fault(content[-1]) if name in WITH_EDIT else None
        if inside:
            return inside
    return None


def act(ty: Ty, document: Any, edit: Any) -> Any:
    """The document after an edit. Raises NotAnEdit, or NoApply with the number of the first primitive that does not act."""
    fault = form_fault(edit)
    if fault:
        raise NotAnEdit(fault)
    return _act(ty, document, edit, ())


def _act(ty, value, edit, path):
    for number, primitive in enumerate(edit):
        name, content = next(iter(primitive.items()))
        try:
            value = _RULES[ty.kind](ty, value, name, content, path)
        except NoApply as why:
            why.at = number
            raise
    return value


def _kind(ty, value, path):
    return NoApply("kind", path, value, ALLOWED[ty.kind])


def _on_unit(ty, value, name, content, path):
    raise _kind(ty, value, path)


def _on_bool(ty, value, name, content, path):
    if name == "set" and isinstance(content, bool):
        return content
    raise _kind(ty, value, path)


def _on_int(ty, value, name, content, path):
    if name == "set" and is_int(content):
        return content
    if name == "add":
        if not LEAST_INT <= value + content <= MOST_INT:
            raise NoApply("overflow", path, value, f"from {LEAST_INT - value} to {MOST_INT - value}")
        return value + content
    raise _kind(ty, value, path)


def _on_text(ty, value, name, content, path):
    if name == "set" and isinstance(content, str):
        return content
    if name == "splice":
        place, count, text = content
        if place + count > len(value):
            raise NoApply("range", path, value, f"place and count together at most {len(value)}, the number of characters")
        return value[:place] + text + value[place + count :]
    raise _kind(ty, value, path)


def _on_enum(ty, value, name, content, path):
    if name == "set" and isinstance(content, str):
        if content not in ty.members:
            raise NoApply("value", path, value, "the members " + ", ".join(map(quoted, ty.members)))
        return content
    raise _kind(ty, value, path)


def _on_record(ty, value, name, content, path):
    if name != "at":
        raise _kind(ty, value, path)
    field, inner = content
    if not ty.field(field):
        raise NoApply("place", path, value, f"the fields {listed(ty.names())}; {write_name(field)} is none of them")
    return {**value, field: _act(ty.field(field), value[field], inner, (*path, field))}


def _on_alternatives(ty, value, name, content, path):
    if name not in ("stay", "switch"):
        raise _kind(ty, value, path)
    tag = next(iter(value))
    if content[0] != tag:
        raise NoApply("tag", path, value, f"the tag that it has, {write_name(tag)}; {write_name(content[0])} was named")
    if name == "stay":
        return {tag: _act(ty.field(tag), value[tag], content[1], (*path, tag))}
    other = content[1]
    if not ty.field(other):
        raise NoApply("tag", path, value, f"the tags {listed(ty.names())}; {write_name(other)} is none of them")
    return {other: _act(ty.field(other), initial(ty.field(other)), content[2], (*path, other))}


def _inside(ty, value, place, inner, path):
    """A list, a keyed map or a tree after an edit of what it holds at a place."""
    if ty.kind == "list":
        item_at(len(value), place)
        changed = value.copy()
        changed[place] = _act(ty.inner, value[place], inner, (*path, place))
        return changed
    if ty.kind == "keyed":
        key_at(value, place)
        return {**value, place: _act(ty.inner, value[place], inner, (*path, place))}
    node, items = need_node(value["depths"], place), value["items"].copy()
    items[node] = _act(ty.inner, items[node], inner, (*path, "items", node))
    return {"depths": value["depths"], "items": items}


def _on_container(ty, value, name, content, path):
    try:
        if name == "mod" and isinstance(content[0], _PLACES[ty.kind]):
            return _inside(ty, value, *content, path)
        if name not in RESHAPINGS[ty.kind]:
            raise _kind(ty, value, path)
        return RESHAPINGS[ty.kind][name](value, content, lambda: initial(ty.inner))
    except NoPlan as why:
        raise NoApply(why.cause, path, value, why.allowed) from None


_PLACES = {"list": int, "keyed": str, "tree": list}
_RULES = {
    "unit": _on_unit,
    "bool": _on_bool,
    "int": _on_int,
    "text": _on_text,
    "enum": _on_enum,
    "record": _on_record,
    "alternatives": _on_alternatives,
    "list": _on_container,
    "keyed": _on_container,
    "tree": _on_container,
}
