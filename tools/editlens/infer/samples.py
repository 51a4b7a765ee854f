"""The type and the forms that samples of JSON fit: each sample is a tree as `natural.read_file` reads it."""

import re

from ..natural.documents import NOTHING
from ..natural.text import number_text, sort_of, write_file
from ..plans import MOST_DEPTH
from .guess import SORT_TAGS, Guess, anything, is_name, is_small, number, scalar, together

KIND_NAMES = ("type", "kind", "$type", "@type", "_type")
MOST_VALUES = 2000
FEW = 8


def guess_of(values: list, levels: int) -> Guess:
    """The guess of a place by all that samples have there. Below so many levels of nesting, JSON values are kept as they are."""
    present = [it for it in values if it is not NOTHING]
    content = [it for it in present if it is not None]
    by_sort: dict = {}
    for it in content:
        by_sort.setdefault(sort_of(it), []).append(it)
    if not content:
        why = "only null in the samples" if present else "no sample has a value here"
        contents = {"": anything(f"{why}: any JSON value is kept", is_unknown=not present)}
    elif levels <= 0 and {"array", "object"} & set(by_sort):
        contents = {"": anything("nests deeply: any JSON value is kept as one")}
    else:
        contents = {SORT_TAGS[sort]: _of_sort(sort, some, levels) for sort, some in by_sort.items()}
    made = together(contents, len(present) < len(values), len(content) < len(present))
    if len(present) < len(values):
        made = made.doubting(f"missing in {len(values) - len(present):,} of {len(values):,}")
    if len(by_sort) > 1 and len(contents) > 1:
        made = made.doubting("values of several sorts: " + ", ".join(f"{len(some):,} {sort}" for sort, some in by_sort.items()))
    return made


def _of_sort(sort, values, levels):
    if sort == "bool":
        return scalar("bool")
    if sort == "number":
        is_whole = all(type(it) is int and is_small(it) for it in values)
        texts = _texts(map(number_text, values))
        return scalar("int", texts) if is_whole else number(texts)
    if sort == "string":
        return _text(values)
    if sort == "array":
        return _list(values, levels)
    return _object(values, levels)


def _texts(texts):
    """Some of the texts of simple values, without those that say little."""
    found = set()
    for text in texts:
        if text not in ("", "0", "1") and len(found) < MOST_VALUES:
            found.add(text)
    return found


def _text(values):
    different = dict.fromkeys(values)
    made = scalar("text", _texts(different))
    if len(different) <= FEW and len(values) >= 3 * len(different) and all(map(is_name, different)):
        members = ", ".join(f'"{it}"' for it in different)
        return made.doubting(f"{len(values):,} values, {len(different)} different: are these all? Then it is an enum[{members}]")
    return made


def _list(values, levels):
    inside = guess_of([it for items in values for it in items], levels - 1)
    keys = _keys(values) if inside.kind == "record" else ()
    made = Guess("list", inner={"*": inside}, values=inside.values, keys=keys)
    if keys:
        return made.doubting(f"{keys[0]} differs in every item: as a keyed map with the form {{\"key\": \"{keys[0]}\"}} items would have names")
    return made


def _keys(values):
    """The members that are a text in every item, and another one in each item of a list."""
    items = [it for some in values for it in some]
    if len(items) < 2 or max(map(len, values)) < 2:
        return ()
    names = [name for name in items[0] if all(isinstance(it.get(name), str) for it in items)]
    return tuple(name for name in names if all(len({it[name] for it in some}) == len(some) for some in values))


def _object(objects, levels):
    child = _child_member(objects)
    if child:
        return _tree(objects, child, levels)
    kind = _kind_member(objects)
    if kind:
        return _kinds(objects, kind, levels)
    names = list(dict.fromkeys(name for it in objects for name in it))
    if not names:
        return Guess("keyed", inner={"*": anything("no sample has a member here: any JSON value is kept", is_unknown=True)})
    if not all(map(is_name, names)) or _is_map(objects, names):
        inside = guess_of([value for it in objects for value in it.values()], levels - 1)
        return Guess("keyed", inner={"*": inside}, values=inside.values | _texts(names)).doubting("taken as a map from names, and not as a record")
    return _record(objects, names, levels)


def _record(objects, names, levels):
    made = {name: guess_of([it.get(name, NOTHING) for it in objects], levels - 1) for name in names}
    alike = len(names) > 2 and all(it.kind == "record" for it in made.values())
    doubts = ("a map from names? its members have the same fields",) if alike and len({str(it.ty()) for it in made.values()}) == 1 else ()
    return Guess("record", inner=made, values=frozenset().union(*(it.values for it in made.values())), doubts=doubts)


def _is_map(objects, names):
    """Whether objects look like maps from names: their names look like data, or are many and rare, and their values are alike."""
    values = [value for it in objects for value in it.values() if value is not None]
    sorts = {sort_of(it) for it in values}
    if len(sorts) != 1:
        return False
    are_odd = 2 * sum(bool(re.search(r"[0-9/.@:#]|^[A-Z_]+$", name)) for name in names) > len(names)
    if sorts == {"object"}:
        common, union = set.intersection(*map(set, values)), set().union(*values)
        are_alike = bool(common) and 2 * len(common) >= len(union)
        return are_alike and (are_odd or len(names) >= 4)
    are_rare = len(objects) >= 3 and len(names) > 5 and 2 * len(values) < len(objects) * len(names)
    return len(names) > 1 and (are_odd or are_rare)


def _child_member(objects):
    """The member by which objects nest in themselves as the nodes of a tree do, or None."""
    for name in dict.fromkeys(name for it in objects for name, value in it.items() if isinstance(value, list)):
        nodes = _nodes(objects, name)
        if nodes is None or not any(name in it for it in nodes[len(objects) :]):
            continue
        own = [set(it) - {name} for it in nodes]
        if all(is_name(it) for it in {name}.union(*own)) and set.intersection(*own) and _leaf(nodes, name) is not None:
            return name
    return None


def _nodes(objects, name):
    """All nodes below objects, with these first, or None where a member is not a list of objects or nests too deeply."""
    found, level = list(objects), objects
    for _ in range(MOST_DEPTH + 1):
        lists = [it[name] for it in level if name in it]
        if not all(isinstance(some, list) and all(isinstance(it, dict) for it in some) for some in lists):
            return None
        level = [it for some in lists for it in some]
        if not level:
            return found
        found += level
    return None


def _leaf(nodes, name):
    """How nodes without children are written: `missing`, or `empty`; None where both occur."""
    is_empty, is_missing = any(it.get(name) == [] for it in nodes), any(name not in it for it in nodes)
    return None if is_empty and is_missing else "missing" if is_missing else "empty"


def _tree(objects, name, levels):
    nodes = _nodes(objects, name)
    own = [{it: node[it] for it in node if it != name} for node in nodes]
    inside = _record(own, list(dict.fromkeys(it for node in own for it in node)), levels - 1)
    form = {"children": name, **({"leaf": "missing"} if _leaf(nodes, name) == "missing" else {})}
    return Guess("tree", inner={"*": inside}, form=form, values=inside.values, doubts=(f"nodes nest by {name}, at most {MOST_DEPTH + 1} levels",))


def _kind_member(objects):
    """The member that says which other members an object has, or None."""
    shared = [name for name in objects[0] if all(isinstance(it.get(name), str) for it in objects)]
    names = {name for it in objects for name in it}
    if not all(map(is_name, names)):
        return None
    for name in sorted(shared, key=lambda it: it not in KIND_NAMES):
        shapes = {}
        for it in objects:
            shapes.setdefault(it[name], set()).add(frozenset(it))
        is_repeated = name in KIND_NAMES or len(objects) >= 2 * len(shapes)
        is_exact = all(len(it) == 1 for it in shapes.values()) and len(set().union(*shapes.values())) > 1
        if 2 <= len(shapes) <= 12 and is_repeated and is_exact and all(map(is_name, shapes)):
            return name
    return None


def _kinds(objects, name, levels):
    tags = {}
    for it in objects:
        tags.setdefault(it[name], []).append({other: it[other] for other in it if other != name})
    made = {tag: _record(some, list(some[0]), levels - 1) for tag, some in tags.items()}
    counts = ", ".join(f"{len(some):,} {write_file(tag)}" for tag, some in tags.items())
    values = frozenset().union(*(it.values for it in made.values()))
    return Guess("alternatives", inner=made, form={"kind": name}, values=values, doubts=(f"the kind is in {name}: {counts}",))
