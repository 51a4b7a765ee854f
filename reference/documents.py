"""Types and documents, in the words of docs/FORMATS.md. A type is a Ty of the tools, and a document the tree of its JSON."""

from editlens.types import Ty

from .plans import contents, in_byte_order

UNIT = Ty("unit")
BOOL = Ty("bool", start=False)
INT = Ty("int", start=0)
TEXT = Ty("text", start="")
CONTAINERS = ("list", "keyed", "tree")


def enum(members):
    """The enum of these members, of which the first is initial."""
    return Ty("enum", members=tuple(members), start=members[0])


def record(fields):
    """The record of these fields, which are pairs of a name and a type in any order."""
    return Ty("record", fields=tuple(sorted(fields, key=lambda it: it[0].encode())))


def alternatives(tags):
    """The alternatives of these tags, which are pairs of a name and a type."""
    return Ty("alternatives", fields=tuple(tags))


def container(kind, inner):
    """The list, the keyed map or the tree of a type."""
    return Ty(kind, inner=inner)


def has_type(ty, other, tree):
    """Whether the document of the type `other` with this tree has the type. A record keeps no names, and a container no type."""
    if ty.kind != other.kind:
        return False
    if ty.kind == "enum":
        return tree in ty.members
    if ty.kind == "record":
        pairs = zip(ty.fields, other.fields)
        return len(ty.fields) == len(other.fields) and all(has_type(one, two, tree[name]) for (_, one), (name, two) in pairs)
    if ty.kind == "alternatives":
        ((name, content),) = tree.items()
        return name in ty.names() and has_type(ty.field(name), other.field(name), content)
    return ty.kind not in CONTAINERS or all(has_type(ty.inner, other.inner, item) for item in contents(ty.kind, tree))


def is_shape_of_names(names):
    """Whether these names, in this order, are the keys of a map."""
    return in_byte_order(set(names)) == list(names)
