"""The check of docs/LANGUAGE.md: the limits and the two types of a lens program."""

from editlens.types import write_type

from .documents import BOOL, INT, TEXT, UNIT, alternatives, container, enum, record
from .programs import Refused, program_answer, read_program

SIMPLE = {"unit": UNIT, "bool": BOOL, "int": INT, "text": TEXT}


def checked(definitions, main):
    """The two types of the main lens. A name stands for (parts, height, left type, right type) of what it is defined as."""
    earlier = {}
    for sort, name, _, tree in definitions + [("lens", None, None, main)]:
        if parts(tree, earlier) > 4096:
            raise Refused("too-large")
        if any(height(term, earlier) > 32 for term in [tree] + ([] if sort == "type" else types_in(tree))):
            raise Refused("too-deep")
        sides = types_of(tree, earlier) if sort == "lens" else (type_of(tree, earlier),) * 2
        earlier[name] = (parts(tree, earlier), height(tree, earlier), *sides)
    return sides


def inner_terms(tree):
    """The types and lenses right inside a type or a lens, and how many names stand there."""
    word, what = tree[0], tree[1] if len(tree) > 1 else None
    if word in ("enum", "bij"):
        return [], len(what)
    if word in ("rec", "alt", "rows", "arms", "part"):
        return [item[-1] for item in what], len(what)
    return tree[1:], 0


def parts(tree, earlier):
    """The number of parts of a type or a lens, with names expanded."""
    if tree[0] in ("type", "lens"):
        return earlier[tree[1]][0]
    inner, names = inner_terms(tree)
    return 1 + names + sum(parts(term, earlier) for term in inner)


TYPES = ["unit", "bool", "int", "text", "enum", "rec", "alt", "list", "keyed", "tree"]


def parts_by_sort(tree):
    """The lenses and the types right inside a lens."""
    word, what = tree[0], tree[1] if len(tree) > 1 else None
    if word == "rows":
        return [row[-1] for row in what if row[0] == "both"], [row[-1] for row in what if row[0] != "both"]
    if word == "arms":
        return [arm[-1] for arm in what], []
    if word in ("id", "disc", "part"):
        return [], inner_terms(tree)[0]
    return ([], []) if word in ("bij", "lens") else (tree[1:], [])


def types_in(lens):
    """The types that are written in a lens."""
    lenses, types = parts_by_sort(lens)
    return types + [ty for inner in lenses for ty in types_in(inner)]


def height(tree, earlier):
    """The height of a type, or of a lens without the types in it."""
    if tree[0] in ("type", "lens"):
        return earlier[tree[1]][1]
    inner = inner_terms(tree)[0] if tree[0] in TYPES else parts_by_sort(tree)[0]
    return 1 + max((height(term, earlier) for term in inner), default=0)


def distinct(names, fault):
    """Refuses the first name, in written order, that equals an earlier one of its side; a name stands with its side."""
    for number, name in enumerate(names):
        if name in names[:number]:
            raise Refused(fault, name[1])


def type_of(tree, earlier):
    """The type that is written, with names expanded."""
    word, what = tree[0], tree[1] if len(tree) > 1 else None
    if word == "type":
        return earlier[what][2]
    if word == "enum":
        distinct([("left", member) for member in what], "repeated-member")
        return enum(what)
    if word in ("rec", "alt"):
        fields = [(name, type_of(ty, earlier)) for name, ty in what]
        distinct([("left", name) for name, _ in what], "repeated-field" if word == "rec" else "repeated-tag")
        return record(fields) if word == "rec" else alternatives(fields)
    return SIMPLE[word] if word in SIMPLE else container(word, type_of(what, earlier))


def type_height(ty):
    """The height of a type: 1 for one without types inside."""
    return 1 + max(map(type_height, [inner for _, inner in ty.fields] + [ty.inner] * (ty.inner is not None)), default=0)


def types_of(lens, earlier):
    """The two types of a lens."""
    left, right = node_types(lens, earlier)
    if lens[0] != "lens" and max(type_height(left), type_height(right)) > 32:
        raise Refused("too-deep")
    return left, right


def node_types(lens, earlier):
    """The two types of a lens, of which the height is not looked at."""
    word, what = lens[0], lens[1]
    if word == "lens":
        return earlier[what][2:]
    if word == "id":
        return (type_of(what, earlier),) * 2
    if word == "disc":
        return type_of(what, earlier), type_of(lens[2], earlier)
    if word == "bij":
        distinct([named for pair in what for named in zip(("left", "right"), pair)], "repeated-member")
        return enum([left for left, _ in what]), enum([right for _, right in what])
    if word == "then":
        (left, middle), (other, right) = types_of(what, earlier), types_of(lens[2], earlier)
        if middle != other:
            raise Refused("middle-differs", middle, other)
        return left, right
    if word == "part":
        tags = [(name, type_of(ty, earlier)) for name, ty in what]
        distinct([("left", name) for name, _ in what], "repeated-tag")
        return container("list", alternatives(tags)), record([(name, container("list", ty)) for name, ty in tags])
    if word == "inv lens":
        return types_of(what, earlier)[::-1]
    if word in ("rows", "arms"):
        return row_types(word, what, earlier)
    left, right = types_of(what, earlier)
    kind = {"each lens": "list", "keyed lens": "keyed", "tree lens": "tree"}[word]
    return container(kind, left), container(kind, right)


def row_types(word, items, earlier):
    """The two types of a record of rows, or of alternatives."""
    sides, names = {"left": [], "right": []}, []
    for item in items if word == "rows" else [("both", *arm) for arm in items]:
        if item[0] == "both":
            types = types_of(item[3], earlier)
            named = list(zip(("left", "right"), item[1:3], types))
        else:
            named = [(item[0], item[1], type_of(item[2], earlier))]
        for side, name, ty in named:
            names.append((side, name))
            sides[side].append((name, ty))
    distinct(names, "repeated-field" if word == "rows" else "repeated-tag")
    return tuple(record(fields) if word == "rows" else alternatives(fields) for fields in (sides["left"], sides["right"]))


def check_answer(text):
    """The two types of a program, or the fault."""
    try:
        left, right = checked(*read_program(text))
        return {"left": write_type(left), "right": write_type(right)}
    except Refused as fault:
        reason, *rest = fault.args
        if reason == "middle-differs":
            return {"fault": reason, "left": write_type(rest[0]), "right": write_type(rest[1])}
        if reason.startswith("repeated-") and reason != "repeated-name":
            return {"fault": reason, "name": rest[0]}
        return program_answer(text) if rest else {"fault": reason}
