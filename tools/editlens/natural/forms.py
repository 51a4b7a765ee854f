"""Form files: how a user's file writes the places of a type. docs/TOOLS.md has the forms."""

from __future__ import annotations

from dataclasses import dataclass, field
from functools import cached_property
from typing import Any

from ..json_text import NotJson, pointer, read_json_file, read_pointer, shown
from ..types import Ty, write_type
from .text import read_file, read_number, sort_of

OPTIONS = {
    "key": ("keyed", {"content": str, "number": bool, "order": str, "in": str, "repeat": list}),
    "number": ("text", {}),
    "decimal": ("text", {}),
    "json": ("text", {}),
    "members": ("enum", {}),
    "untagged": ("alternatives", {}),
    "missing": ("alternatives", {"null": str}),
    "null": ("alternatives", {"missing": str}),
    "kind": ("alternatives", {"content": str, "flat": bool}),
    "children": ("tree", {"content": str, "leaf": str}),
    "flat": ("record", {}),
}
KINDS = {
    "alternatives": "alternatives",
    "enum": "an enum",
    "keyed": "a keyed map",
    "record": "a record",
    "text": "a text",
    "tree": "a tree",
}
WORDS = ("number", "decimal", "json", "untagged", "flat", "one")
SCALARS = ("null", "bool", "number", "string")


class FormFault(ValueError):
    """A form file that says nothing of its type: every fault, each with its place."""

    def __init__(self, faults: list[tuple[Any, str]]) -> None:
        super().__init__("\n".join(f"{pointer(path) or '(the document)'}: {reason}" for path, reason in faults))
        self.faults = faults


@dataclass(frozen=True)
class Names:
    """The names that the members of a written object may have: those that are known, and whether any other name may come."""

    known: tuple = ()
    is_open: bool = False


@dataclass(frozen=True)
class Shape:
    """A type with the forms of its places: `inner` has the shapes of fields and tags, or the shape of all contents as `*`.

    A list of exactly one is a shape around that of its item, of the same type: its form is `one`, and it has the item as `*`.
    """

    ty: Ty
    form: dict = field(default_factory=dict)
    inner: dict = field(default_factory=dict)

    @cached_property
    def kind(self) -> str:
        """What is written here: the kind of the type, or `one`."""
        return "one" if "one" in self.form else self.ty.kind

    def is_untagged(self) -> bool:
        """Whether the content of alternatives is written alone."""
        return any(it in self.form for it in ("untagged", "missing", "null"))

    def is_key_list(self) -> bool:
        """Whether a keyed map is written as a list of objects, each with its key."""
        return "key" in self.form

    @cached_property
    def key_paths(self) -> list[list[str]]:
        """The paths of the members in an item of a list by key that have its key. The first one counts, and the others repeat it."""
        return key_paths(self.form)

    @cached_property
    def key_places(self) -> dict:
        """The same as nested members: True is a place of the key."""
        found: dict = {}
        for *around, last in self.key_paths:
            inside = found
            for step in around:
                inside = inside.setdefault(step, {})
            inside[last] = True
        return found

    @cached_property
    def names(self) -> Names:
        """The names that the members may have, whatever the document is, where it is written as an object."""
        return _names(self)

    @cached_property
    def open_field(self) -> str | None:
        """The flat field of a record that takes the members which have no other place, or None."""
        return next((name for name, it in self.inner.items() if "flat" in it.form and it.names.is_open), None)

    @cached_property
    def other_names(self) -> set[str]:
        """The names of members that the open field of a record cannot have, since reading gives them to other fields."""
        others = [(name, it) for name, it in self.inner.items() if name != self.open_field]
        return {known for name, it in others for known in (it.names.known if "flat" in it.form else (name,))}

    def keeps_orders(self) -> bool:
        """Whether every list by key in it keeps its order."""
        return not (self.is_key_list() and "order" not in self.form) and all(it.keeps_orders() for it in self.inner.values())

    def shows_all(self) -> bool:
        """Whether a file shows every document of the type: no text is to be a number or JSON, and no key may be the name of a member."""
        form = self.form
        if any(it in form and "kind" not in form for it in ("number", "decimal", "json")) or self.open_field and self.other_names:
            return False
        if self.is_key_list() and any(_may_clash(self.content(), path) for path in self.key_paths):
            return False
        if "content" not in form and any(it in form for it in ("kind", "children", "key")):
            contents = [self.content()] if "kind" not in form else self.inner.values()
            if any(it.names.is_open for it in contents):
                return False
        return all(it.shows_all() for it in self.inner.values())

    def loosened(self) -> Shape:
        """The same shape, in which a leaf may have an empty list of children or none."""
        form = {**self.form, "leaf": "either"} if "leaf" in self.form else self.form
        return Shape(self.ty, form, {name: it.loosened() for name, it in self.inner.items()})

    def has_bare_leaves(self) -> bool:
        """Whether the leaves of a tree in it have no list of children."""
        return self.form.get("leaf") == "missing" or any(it.has_bare_leaves() for it in self.inner.values())

    def map_field(self) -> str:
        """The field that has the map, where a record of a map and an order is written as a list."""
        return next(name for name in self.inner if name != self.form["order"])

    def content(self) -> Shape:
        """The shape of the contents of a container. For a map with an order it is that of the map's."""
        return self.inner[self.map_field()].inner["*"] if self.kind == "record" else self.inner["*"]


def plain(ty: Ty) -> Shape:
    """The shape of a type without any form: its documents are written as they are."""
    return _built(ty, {}, (), set(), [])


def read_form(ty: Ty, tree: Any) -> Shape:
    """The shape of a type by a form file. Raises FormFault with every fault."""
    faults: list[tuple[Any, str]] = []
    used: set[Any] = set()
    if not isinstance(tree, dict):
        raise FormFault([((), f"a form file is an object from places to forms, and not {shown(tree)}")])
    forms = {}
    for place, form in tree.items():
        try:
            forms[tuple(read_pointer(place))] = form
        except ValueError as why:
            faults.append(((), str(why)))
    shape = _built(ty, forms, (), used, faults)
    faults += [(path, "the type has no such place") for path in forms if path not in used]
    if faults:
        raise FormFault(faults)
    return shape


def read_form_at(ty: Ty, path: str) -> Shape:
    """The shape of a type by the form file at a path. Raises FormFault."""
    return read_form(ty, read_json_file(path))


def _built(ty, forms, path, used, faults):
    inner = {name: _built(it, forms, (*path, name), used, faults) for name, it in ty.fields}
    if ty.inner:
        inner["*"] = _built(ty.inner, forms, (*path, "*"), used, faults)
    form = forms.get(path, {})
    if path in forms:
        used.add(path)
    if isinstance(form, str):
        form = {form: True} if form in WORDS else {"": form}
    is_one = isinstance(form, dict) and form.get("one") is True
    if is_one:
        form = {name: it for name, it in form.items() if name != "one"}
    reason = _form_fault(ty, form)
    shape = Shape(ty, {} if reason else form, inner)
    reason = reason or _shape_fault(shape, path)
    if is_one and ("missing" in shape.form or "flat" in shape.form):
        reason = reason or "what is in a list of one cannot be missing or flat itself"
    if reason:
        faults.append((path, reason))
        return Shape(ty, {}, inner)
    return Shape(ty, {"one": True}, {"*": shape}) if is_one else shape


def _form_fault(ty, form):
    """What is wrong with a form by itself, or None."""
    if form == {}:
        return None
    name = next((it for it in OPTIONS if isinstance(form, dict) and it in form), None)
    if name is None:
        return f"{shown(form.get('', form) if isinstance(form, dict) else form)} is not a form: one of {', '.join(OPTIONS)}, one is wanted"
    kind, options = OPTIONS[name]
    kinds = ("record",) if name == "key" and "order" in form else ("record", "keyed") if name == "flat" else (kind,)
    if ty.kind not in kinds:
        wanted = "a record of a map and an order" if "order" in form else " or ".join(KINDS[it] for it in kinds)
        return f"{name} is a form of {wanted}, and not of {write_type(ty)}"
    wanted = {name: bool if name in WORDS else dict if name == "members" else str, **options}
    for option, value in form.items():
        if option not in wanted:
            return f"{name} has no option {option}"
        if not isinstance(value, wanted[option]) or value is False:
            return f"{option} cannot be {shown(value)}"
    return None


def _shape_fault(shape, path):
    """What is wrong with a form at its place, or None. The forms inside are right."""
    form, ty = shape.form, shape.ty
    for name, test in _TESTS.items():
        reason = test(shape) if name in form and (name != "number" or ty.kind == "text") else None
        if reason:
            return reason
    if shape.kind == "record" and not shape.is_key_list():
        flat = [name for name, inner in shape.inner.items() if "flat" in inner.form]
        unknown = [name for name in flat if shape.inner[name].names.is_open]
        if any(not is_object(shape.inner[name]) for name in flat):
            return "what is flat is written as an object"
        if len(unknown) > 1:
            return f"{unknown[0]} and {unknown[1]} would both take the members that have no other place"
        return _clash([*_record_names(shape)])
    if ty.kind in ("list", "keyed", "tree", "alternatives") and not shape.is_untagged():
        for name, inner in shape.inner.items():
            if "flat" in inner.form:
                return f"{name} cannot be flat: only a field of a record can"
            if "missing" in inner.form:
                return f"{name} cannot be missing: only a field of a record can"
    if shape.is_untagged() and any("flat" in it.form or "missing" in it.form for it in shape.inner.values()):
        return "what is written alone cannot be missing or flat itself"
    if not path and ("flat" in form or "missing" in form):
        return "the document itself cannot be missing or flat"
    return None


def key_paths(form: dict[str, Any]) -> list[list[str]]:
    """The paths of the key that a form of a list by key says, each a list of steps."""
    return [[*read_pointer(form.get("in", "")), form["key"]], *map(read_pointer, form.get("repeat", []))]


def field_of(shape: Shape | None, step: str) -> Shape | None:
    """The shape of a field of a record that is not flat, or of the item of a list of one; None where there is no such shape."""
    if shape is None or shape.kind == "one":
        return shape and shape.inner["*"]
    inner = shape.inner.get(step) if shape.kind == "record" and not shape.is_key_list() else None
    return None if inner is None or "flat" in inner.form else inner


def _may_clash(shape, path):
    """Whether a member of a content may have the name of a place of the key: where a step of its path is in a map."""
    for step in path:
        if shape is None:
            return False
        around, shape = shape, field_of(shape, step)
        if shape is None:
            return around.names.is_open
    return False


def _clash(found):
    seen = set()
    twice = next((it for it in found if it in seen or seen.add(it)), None)
    return None if twice is None else f"the member {twice} would come twice"


def _names(shape):
    kind, form = shape.kind, shape.form
    if kind == "record" and not shape.is_key_list():
        return Names(tuple(_record_names(shape)), any("flat" in it.form and it.names.is_open for it in shape.inner.values()))
    if shape.is_untagged():
        return _joined((), shape.inner.values())
    if kind == "alternatives":
        return _with_content(form, form["kind"], shape.inner.values()) if "kind" in form else Names(tuple(shape.inner))
    if kind == "tree":
        return _with_content(form, form["children"], shape.inner.values()) if "children" in form else Names(("depths", "items"))
    return Names(is_open=kind == "keyed")


def _with_content(form, name, contents):
    """The names of a member that a form adds, and of the contents beside it."""
    return Names((name, form["content"])) if "content" in form else _joined((name,), contents)


def _joined(own, shapes):
    inside = [it.names for it in shapes]
    return Names(tuple(dict.fromkeys([*own, *(name for it in inside for name in it.known)])), any(it.is_open for it in inside))


def _record_names(shape):
    """The names of the members of a record that are known, those of flat fields among them."""
    for name, inner in shape.inner.items():
        if "flat" in inner.form:
            yield from inner.names.known
        else:
            yield name


def is_object(shape: Shape) -> bool:
    """Whether what is written is always an object."""
    return shape.kind != "unit" and sorts(shape) == {"object"}


def sorts(shape: Shape) -> set[str]:
    """The sorts of JSON that may be written for a shape, `missing` among them."""
    kind, form = shape.kind, shape.form
    if kind == "one":
        return {"array"}
    if kind in ("unit", "bool", "int"):
        return {{"unit": "null", "int": "number", "bool": "bool"}[kind]}
    if kind == "text":
        return {"number"} if "number" in form else {*SCALARS, "array", "object"} if "json" in form else {"string"}
    if kind == "enum":
        return {sort_of(form.get("members", {}).get(it, it)) for it in shape.ty.members}
    if shape.is_untagged():
        given = {it: name for name, it in form.items() if name in ("missing", "null")}
        return set().union(*({given[tag]} if tag in given else sorts(it) for tag, it in shape.inner.items()))
    return {"array"} if kind == "list" or shape.is_key_list() else {"object"}


def _number_fault(shape):
    if read_number(shape.ty.start) is None:
        return f'what is new begins with "{shape.ty.start}", which is not a number: declare another initial value, as text = "0"'
    return None


def _json_fault(shape):
    try:
        read_file(shape.ty.start)
    except NotJson:
        return f'what is new begins with "{shape.ty.start}", which is not JSON: declare another initial value, as text = "null"'
    return None


def _untagged_fault(shape):
    given = [shape.form[it] for it in ("missing", "null") if it in shape.form]
    for tag in given:
        if tag not in shape.inner or shape.inner[tag].kind != "unit":
            return f"{tag} is not a tag with null as its content"
    if len(set(given)) < len(given):
        return "one tag cannot be both missing and null"
    found = ["null"] * ("null" in shape.form)
    for tag, inner in shape.inner.items():
        found += [] if tag in given else sorts(inner)
    twice = next((it for it in found if found.count(it) > 1), None)
    return f"two tags are written as {twice}, so nothing tells them apart" if twice else None


def _kind_fault(shape):
    form = shape.form
    if "content" in form:
        return _clash([form["kind"], form["content"]])
    for tag, inner in shape.inner.items():
        if not is_object(inner) and inner.kind != "unit":
            return f"the content of {tag} is not written as an object: name a member for it by content"
        reason = _clash([form["kind"], *inner.names.known])
        if reason:
            return reason
    return None


def _merged_fault(shape, extra, content):
    if "content" in shape.form:
        return _clash([extra, shape.form["content"]])
    if not is_object(content) and content.kind != "unit":
        return "the contents are not written as objects: name a member for them by content"
    return _clash([extra, *content.names.known])


def _children_fault(shape):
    if shape.form.get("leaf", "missing") != "missing":
        return "leaf is missing, or not given"
    return _merged_fault(shape, shape.form["children"], shape.inner["*"])


def _key_fault(shape):
    if "order" in shape.form:
        order, others = shape.form["order"], [name for name in shape.inner if name != shape.form["order"]]
        if order not in shape.inner or len(others) != 1 or shape.inner[others[0]].kind != "keyed" or shape.inner[others[0]].form:
            return "a record of exactly a keyed map and of its order is wanted"
        if write_type(shape.inner[order].ty) != "list text" or shape.inner[order].inner["*"].form:
            return f"{order} is not a list text"
    if "in" not in shape.form and "repeat" not in shape.form:
        return _merged_fault(shape, shape.form["key"], shape.content())
    return _key_paths_fault(shape)


def _key_paths_fault(shape):
    """What is wrong with the places of a key that is inside its item, or stands there several times."""
    if "content" in shape.form:
        return "a key that is inside its item, or stands there several times, cannot have content"
    if not is_object(shape.content()):
        return "the contents are not written as objects"
    try:
        paths = key_paths(shape.form)
    except (ValueError, AttributeError):
        return "in is the JSON Pointer of an object, and repeat a list of those of members"
    for path in paths:
        place = pointer(path)
        if not path or any(other is not path and other[: len(path)] == path for other in paths):
            return f"{place or '(the item)'} and another place of the key are one place"
        reason = _key_path_fault(shape.content(), path)
        if reason:
            return f"the key cannot stand at {place}: {reason}"
    return None


def _key_path_fault(shape, path):
    """Why a path of a key cannot be walked: it leads by fields of records and by lists of one, to a new member or into a map."""
    for number, step in enumerate(path):
        is_last = number == len(path) - 1
        if shape is None:
            continue
        is_record = shape.kind == "record" and not shape.is_key_list()
        inner = field_of(shape, step)
        if shape.kind == "one" and (step != "0" or is_last):
            return "the only item of a list of one is 0, and is not a key"
        if is_record and step in shape.names.known and (is_last or inner is None):
            return "the type has this member" if is_last else "it leads through what is flat"
        if not is_record and shape.kind != "one" and not (shape.kind == "keyed" and is_last):
            return f"it leads through {write_type(shape.ty)}"
        shape = inner
    return None


def _members_fault(shape):
    written = [shape.form["members"].get(it, it) for it in shape.ty.members]
    if any(sort_of(it) not in SCALARS or isinstance(it, float) for it in written):
        return "a member is written as a text, a whole number, true, false or null"
    if any(it not in shape.ty.members for it in shape.form["members"]):
        return "a name in members is not a member"
    # True == 1 in Python, so each is compared with its sort.
    return _clash([f"{sort_of(it)} {shown(it)}" for it in written])


_TESTS = {
    "number": _number_fault,
    "decimal": _number_fault,
    "json": _json_fault,
    "untagged": _untagged_fault,
    "missing": _untagged_fault,
    "null": _untagged_fault,
    "kind": _kind_fault,
    "children": _children_fault,
    "key": _key_fault,
    "members": _members_fault,
}
