"""Consistency: whether a left document, a complement and a right document belong together, by the patterns and images of docs/MEANING.md."""

from editlens.documents import fits, is_depth_list

from .lenses import KINDS, is_paired, type_on
from .plans import contents, form_of, hold

HOLE = object()


class NoImage(Exception):
    """No document is consistent with one in the pattern."""


def is_complement(lens, tree):
    """Whether a tree of JSON is a complement of a lens."""
    kind, what = lens[0], lens[1]
    if kind in ("id", "bij", "disc"):
        return tree is None
    if kind == "inv":
        return is_complement(what, tree)
    name = {"then": "then", "rec": "rec", "alt": "alt", "part": "tags", **KINDS}[kind]
    if type(tree) is not dict or set(tree) != {name}:
        return False
    form = tree[name]
    if kind == "keyed":
        return type(form) is dict and all(is_complement(what, part) for part in form.values())
    if kind == "tree":
        return is_tree(form) and all(is_complement(what, part) for part in form["items"])
    if type(form) is not list:
        return False
    if kind == "each":
        return all(is_complement(what, part) for part in form)
    if kind == "part":
        return all(type(tag) is str and tag in dict(what) for tag in form)
    if kind == "alt":
        return len(form) == 2 and type(form[0]) is str and any(arm[0] == form[0] and is_complement(arm[2], form[1]) for arm in what)
    inner = [what, lens[2]] if kind == "then" else [row[2] for row in what if is_paired(row)]
    return len(form) == len(inner) and all(map(is_complement, inner, form))


def is_tree(form):
    """Whether a tree of JSON has depths, and a part for each."""
    if not isinstance(form, dict) or set(form) != {"depths", "items"} or not isinstance(form["items"], list):
        return False
    return is_depth_list(form["depths"]) and len(form["depths"]) == len(form["items"])


def is_in(pattern, doc):
    """Whether a document is in a pattern."""
    if pattern is HOLE:
        return True
    if type(pattern) is not type(doc):
        return False
    if type(pattern) is dict:
        return set(pattern) == set(doc) and all(is_in(pattern[name], doc[name]) for name in pattern)
    if type(pattern) is list:
        return len(pattern) == len(doc) and all(map(is_in, pattern, doc))
    return pattern == doc


def inside(pattern, name):
    """The pattern at a field or a tag: a hole for a hole."""
    if pattern is HOLE:
        return HOLE
    if name not in pattern:
        raise NoImage
    return pattern[name]


def inside_list(pattern, count):
    """The patterns of a list of so many items: holes for a hole."""
    if pattern is HOLE:
        return [HOLE] * count
    if len(pattern) != count:
        raise NoImage
    return pattern


def image(lens, side, comp, pattern):
    """The pattern of the other documents that belong together with one in the pattern, by the complement."""
    kind, what = lens[0], lens[1]
    if kind == "id":
        return pattern
    if kind == "disc":
        return HOLE
    if kind == "bij":
        return HOLE if pattern is HOLE else next(pair[1 - side] for pair in what if pair[side] == pattern)
    if kind == "inv":
        return image(what, 1 - side, comp, pattern)
    if kind == "then":
        lenses, comps = [what, lens[2]], comp["then"]
        return image(lenses[1 - side], side, comps[1 - side], image(lenses[side], side, comps[side], pattern))
    return {"rec": of_record, "alt": of_alternatives, "part": of_partition}.get(kind, of_container)(lens, side, comp, pattern)


def of_record(lens, side, comp, pattern):
    """The image of a record: a hole where the other side has a field alone."""
    fields, parts = {}, iter(comp["rec"])
    for row in lens[1]:
        if is_paired(row):
            fields[row[1 - side]] = image(row[2], side, next(parts), inside(pattern, row[side]))
        elif row[0] == ("right", "left")[side]:
            fields[row[1]] = HOLE
    return fields


def of_alternatives(lens, side, comp, pattern):
    """The image of alternatives, whose tag the complement has."""
    tag, part = comp["alt"]
    arm = next(arm for arm in lens[1] if arm[0] == tag)
    return {arm[1 - side]: image(arm[2], side, part, inside(pattern, arm[side]))}


def of_container(lens, side, comp, pattern):
    """The image of a list, a map or a tree, whose shape the complement has."""
    kind = KINDS[lens[0]]
    form, parts = form_of(kind, comp[kind]), contents(kind, comp[kind])
    if pattern is HOLE:
        items = [HOLE] * len(parts)
    elif form_of(kind, pattern) == form:
        items = contents(kind, pattern)
    else:
        raise NoImage
    return hold(kind, form, [image(lens[1], side, part, item) for part, item in zip(parts, items)])


def of_partition(lens, side, comp, pattern):
    """The image of a partition, whose tags the complement has."""
    tags, names = comp["tags"], [name for name, _ in lens[1]]
    if side == 0:
        parts = [inside(item, tag) for tag, item in zip(tags, inside_list(pattern, len(tags)))]
        return {name: [part for tag, part in zip(tags, parts) if tag == name] for name in names}
    lists = {name: iter(inside_list(inside(pattern, name), tags.count(name))) for name in names}
    return [{tag: next(lists[tag])} for tag in tags]


def answer(lens, left, comp, right):
    """The answer that a triple gets, as reference/CASES.md lists them."""
    if not fits(type_on(0, lens), left):
        return "not-a-left-document"
    if not is_complement(lens, comp):
        return "not-a-complement"
    if not fits(type_on(1, lens), right):
        return "not-a-right-document"
    try:
        return "consistent" if is_in(image(lens, 0, comp, left), right) else "not-consistent"
    except NoImage:
        return "not-consistent"
