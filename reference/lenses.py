"""Lenses: their types and text, complements, and translation, in the words of docs/EDITS.md.

A lens is a tuple: ("id", T), ("rec", [row, ..]), ("alt", [(a, b, lens), ..]), ("each", lens), ("keyed", lens), ("tree", lens),
("part", [(tag, T), ..]), ("inv", lens), ("then", lens, lens), ("bij", [(a, b), ..]) and ("disc", T, U). A row is (a, b, lens),
("left", a, T) or ("right", b, T). A side is 0 for the left and 1 for the right. A complement is as docs/FORMATS.md writes it. Complements
and translation leave out `bij` and `disc`, which only consistency needs.
"""

from editlens.types import write_name, write_type

from .documents import alternatives, container, enum, record
from .edits import place_in
from .plans import contents, form_of, hold, plan

KINDS = {"each": "list", "keyed": "keyed", "tree": "tree"}


def text_of(lens):
    """The text of a lens."""
    kind, what = lens[0], lens[1]
    if kind == "id":
        return "id " + write_type(what)
    if kind == "then":
        return "then(%s, %s)" % (text_of(what), text_of(lens[2]))
    if kind == "bij":
        return "bij[%s]" % ", ".join('"%s"="%s"' % pair for pair in what)
    if kind == "disc":
        return "disc %s %s" % (write_type(what), write_type(lens[2]))
    if kind == "rec":
        return "{%s}" % ", ".join(row_text(row) for row in what)
    if kind == "alt":
        return "<%s>" % ", ".join(row_text(row) for row in what)
    if kind == "part":
        return "part " + write_type(alternatives(what))
    return kind + " " + text_of(what)


def row_text(row):
    """The text of a row, or of an arm of alternatives."""
    if is_paired(row):
        return "%s ~ %s: %s" % (write_name(row[0]), write_name(row[1]), text_of(row[2]))
    return "%s %s: %s" % (row[0], write_name(row[1]), write_type(row[2]))


def is_paired(row):
    """Whether a row ties two fields."""
    return row[0] not in ("left", "right")


def type_on(side, lens):
    """The type of a lens on a side."""
    kind, what = lens[0], lens[1]
    if kind == "id":
        return what
    if kind == "inv":
        return type_on(1 - side, what)
    if kind == "then":
        return type_on(side, lens[1 + side])
    if kind == "bij":
        return enum([pair[side] for pair in what])
    if kind == "disc":
        return lens[1 + side]
    if kind == "rec":
        rows = [row for row in what if is_paired(row) or row[0] == ("left", "right")[side]]
        return record([(row[side], type_on(side, row[2])) if is_paired(row) else (row[1], row[2]) for row in rows])
    if kind == "alt":
        return alternatives([(row[side], type_on(side, row[2])) for row in what])
    if kind == "part":
        return record([(tag, container("list", ty)) for tag, ty in what]) if side else container("list", alternatives(what))
    return container(KINDS[kind], type_on(side, what))


def missing(lens):
    """The complement of the initial documents."""
    kind, what = lens[0], lens[1]
    if kind == "id":
        return None
    if kind == "inv":
        return missing(what)
    if kind == "then":
        return {"then": [missing(what), missing(lens[2])]}
    if kind == "rec":
        return {"rec": [missing(row[2]) for row in what if is_paired(row)]}
    if kind == "alt":
        return {"alt": [what[0][0], missing(what[0][2])]}
    if kind == "tree":
        return {"tree": {"depths": [0], "items": [missing(what)]}}
    return {"each": {"list": []}, "keyed": {"keyed": {}}, "part": {"tags": []}}[kind]


def with_word(name, where, word):
    """An at, a stay or a mod, left out where there is nothing inside."""
    return [{name: [where, word]}] if word else []


def translate(lens, side, comp, word):
    """The word of the other side for a word of this side, and the complement behind it."""
    other = []
    for primitive in word:
        emitted, comp = translate_one(lens, side, comp, primitive)
        other += emitted
    return other, comp


def translate_one(lens, side, comp, primitive):
    """The same for one primitive."""
    kind, what = lens[0], lens[1]
    if kind == "id":
        return [primitive], comp
    if kind == "inv":
        return translate_one(what, 1 - side, comp, primitive)
    if kind == "then":
        lenses, comps = [what, lens[2]], list(comp["then"])
        middle, comps[side] = translate_one(lenses[side], side, comps[side], primitive)
        word, comps[1 - side] = translate(lenses[1 - side], side, comps[1 - side], middle)
        return word, {"then": comps}
    return {"rec": in_record, "alt": in_arm, "part": in_part}.get(kind, in_places)(lens, side, comp, primitive)


def in_record(lens, side, comp, primitive):
    """The change of a field: of its partner, or of nothing."""
    field, word = primitive["at"]
    pairs = [row for row in lens[1] if is_paired(row)]
    for number, row in enumerate(pairs):
        if row[side] == field:
            comps = list(comp["rec"])
            emitted, comps[number] = translate(row[2], side, comps[number], word)
            return with_word("at", row[1 - side], emitted), {"rec": comps}
    return [], comp


def in_arm(lens, side, comp, primitive):
    """A change inside alternatives, or of the tag."""
    (name, what), (tag, inner) = *primitive.items(), comp["alt"]
    arm = next(arm for arm in lens[1] if arm[0] == tag)
    if name == "stay":
        emitted, inner = translate(arm[2], side, inner, what[1])
        return with_word("stay", arm[1 - side], emitted), {"alt": [tag, inner]}
    new = next(new for new in lens[1] if new[side] == what[1])
    emitted, inner = translate(new[2], side, missing(new[2]), what[2])
    return [{"switch": [arm[1 - side], new[1 - side], emitted]}], {"alt": [new[0], inner]}


def in_places(lens, side, comp, primitive):
    """A change at a place of a list, a map or a tree, or of its shape."""
    kind = KINDS[lens[0]]
    form, parts = form_of(kind, comp[kind]), contents(kind, comp[kind])
    ((name, what),) = primitive.items()
    if name == "mod":
        at = place_in(kind, form, what[0])
        emitted, parts[at] = translate(lens[1], side, parts[at], what[1])
        return with_word("mod", what[0], emitted), {kind: hold(kind, form, parts)}
    form, origins = plan(kind, form, name, what)
    return [primitive], {kind: hold(kind, form, [missing(lens[1]) if at is None else parts[at] for at in origins])}


def mv(i, j):
    """A move, unless it goes nowhere."""
    return [] if i == j else [{"move": [i, j]}]


def moved(tags, i, j):
    """The tags after a move."""
    rest = tags[:i] + tags[i + 1 :]
    return rest[:j] + [tags[i]] + rest[j:]


def in_part(lens, side, comp, primitive):
    """A change of a partition, step by step."""
    names, tags, other = [tag for tag, _ in lens[1]], list(comp["tags"]), []
    ((name, what),) = primitive.items()
    inner = what[1] if name in ("mod", "at") else [primitive]
    for step in inner:
        if side:
            emitted, tags = from_right(names, tags, what[0], step)
        elif name == "mod":
            emitted, tags = from_item(tags, what[0], step)
        else:
            emitted, tags = from_left(names, tags, step)
        other += emitted
    return other, {"tags": tags}


def from_item(tags, p, primitive):
    """A change of one item of the left list."""
    ((name, what),) = primitive.items()

    def rank(tag):
        return tags[:p].count(tag)

    if name == "stay":
        return with_word("at", what[0], with_word("mod", rank(what[0]), what[1])), tags
    a, b, word = what
    m, s = tags.count(b) - (a == b), rank(b)
    gone = [{"at": [a, mv(rank(a), tags.count(a) - 1) + [{"del": 1}]]}]
    return gone + [{"at": [b, [{"ins": 1}] + mv(m, s) + with_word("mod", s, word)]}], tags[:p] + [b] + tags[p + 1 :]


def from_left(names, tags, primitive):
    """A change of the shape of the left list."""
    ((name, what),) = primitive.items()
    if name == "ins":
        return [{"at": [names[0], [primitive]]}], tags + [names[0]] * what
    if name == "del":
        kept, gone = tags[: len(tags) - what], tags[len(tags) - what :]
        return [{"at": [tag, [{"del": gone.count(tag)}]]} for tag in names if tag in gone], kept
    if name == "move":
        (i, j), new = what, moved(tags, *what)
        return with_word("at", tags[i], mv(tags[:i].count(tags[i]), new[:j].count(tags[i]))), new
    orders = [(tag, [tags[:k].count(tag) for k in what if tags[k] == tag]) for tag in names]
    return [{"at": [tag, [{"reorder": order}]]} for tag, order in orders if order != sorted(order)], [tags[k] for k in what]


def from_right(names, tags, tag, primitive):
    """A change of one of the right lists."""
    ((name, what),) = primitive.items()
    places = [place for place, each in enumerate(tags) if each == tag]
    if name == "mod":
        return with_word("mod", places[what[0]], with_word("stay", tag, what[1])), tags
    if name == "ins":
        switches = [{"mod": [len(tags) + k, [{"switch": [names[0], tag, []]}]]} for k in range(what)] if tag != names[0] else []
        return [primitive] + switches, tags + [tag] * what
    if name == "del":
        word = []
        for _ in range(what):
            last = max(place for place, each in enumerate(tags) if each == tag)
            word += mv(last, len(tags) - 1) + [{"del": 1}]
            tags = tags[:last] + tags[last + 1 :]
        return word, tags
    if name == "move":
        i, j = places[what[0]], places[what[1]]
        return mv(i, j), moved(tags, i, j)
    order = list(range(len(tags)))
    for x, place in enumerate(places):
        order[place] = places[what[x]]
    return ([{"reorder": order}] if order != sorted(order) else []), tags
