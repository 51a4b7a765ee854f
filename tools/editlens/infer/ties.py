"""A lens of two guesses: what fits by name and by shape is tied, and everything else is for its side alone."""

import difflib
from dataclasses import dataclass, replace

from .guess import NONE, NULL, SOME, SORT_TAGS, Guess, anything, number, plain_name

WORDS = {"list": "each", "keyed": "keyed", "tree": "tree"}
AGREEMENT = 0.5
"""From which part of their values on two fields of other names are tied."""


@dataclass(frozen=True)
class Row:
    """A row of a record or an arm: the names on both sides, or None, and what is between them."""

    left: "str | None"
    right: "str | None"
    tie: "Tie | None" = None
    doubts: tuple = ()


@dataclass(frozen=True)
class Tie:
    """A lens of one place, and the guesses of both sides that it makes fit."""

    kind: str
    left: Guess
    right: Guess
    rows: tuple = ()
    inner: "Tie | None" = None
    doubts: tuple = ()

    def is_empty(self) -> bool:
        """Whether it ties no value."""
        if self.kind == "record":
            return all(it.tie is None or it.tie.is_empty() for it in self.rows)
        return self.inner is not None and self.inner.is_empty()


def tie(left: Guess, right: Guess) -> "Tie | None":
    """The lens of two guesses, or None where their shapes do not fit."""
    if left.is_unknown or right.is_unknown:
        known, is_left = (right, False) if left.is_unknown else (left, True)
        made = tie(known, known) if not known.is_unknown else _same(known)
        return made and replace(made, doubts=(*made.doubts, f"no sample of the {'right' if is_left else 'left'} side has a value here"))
    if _is_apart(left) or _is_apart(right):
        return _mixed(left, right)
    if left.is_any() or right.is_any():
        doubts = () if left.is_any() and right.is_any() else ("any JSON value on both sides, since one of them has more than one sort",)
        return Tie("id", anything(), anything(), doubts=doubts)
    if left.kind == right.kind == "record":
        return _records(left, right)
    if left.kind == right.kind == "alternatives":
        return _kinds(left, right)
    if left.kind in WORDS and right.kind in WORDS:
        return _containers(left, right)
    return _simple(left, right)


def _same(guess):
    return Tie("id", guess, guess)


def _is_apart(guess):
    return guess.kind == "alternatives" and (guess.form == "untagged" or bool(guess.roles()))


def _simple(left, right):
    """Two simple values, the narrower one widened where its values are among those of the other."""
    if left.ty() == right.ty() and left.form == right.form:
        return Tie("id", left, right)
    if {left.kind, right.kind} <= {"int", "text"} and "number" in (left.form, right.form) and {left.form, right.form} <= {None, "number"}:
        if any(it.kind == "text" and it.form is None for it in (left, right)):
            return None
        made = number(left.values | right.values)
        return Tie("id", made, made, doubts=("numbers of any size on both sides, since one of them has such",))
    if {left.kind, right.kind} == {"enum", "text"} and left.form is right.form is None:
        made = left if left.kind == "text" else right
        return Tie("id", made, made, doubts=("a text on both sides, since one of them may have any text",))
    if left.kind == right.kind == "enum" and set(left.members) == set(right.members):
        return Tie("id", left, replace(right, members=left.members, start=left.start))
    return None


def _mixed(left, right):
    """Alternatives that are written by their content alone, or with null or no member, against the same or one content."""
    sides = [_by_sort(left), _by_sort(right)]
    roles = [it.roles() for it in (left, right)]
    doubts = ()
    if any(it.is_any() for side in sides for it in side.values()):
        sides = [{SOME: anything()}, {SOME: anything()}]
        roles = [{word: tag for word, tag in it.items() if word == "missing"} for it in roles]
    if len(roles[0]) != len(roles[1]):
        words = [word for word in ("missing", "null") if word in roles[0] or word in roles[1]]
        wider = "left" if len(roles[0]) > len(roles[1]) else "right"
        # One side has both: then the other has them too. Otherwise one has none, and takes the word of the other.
        roles = [dict.fromkeys(words), dict.fromkeys(words)]
        doubts = (f"the samples of the {wider} side alone have it {' or '.join(words)}; both may",)
    tags = [NONE, NULL][: len(roles[0])]
    forms = [dict(zip(sorted(it, key=("missing", "null").index), tags)) or "untagged" for it in roles]
    rows, names = [Row(tag, tag, Tie("id", Guess("unit"), Guess("unit"))) for tag in tags], list(dict.fromkeys([*sides[0], *sides[1]]))
    for name in names:
        one, other = sides[0].get(name), sides[1].get(name)
        inside = tie(one or other, other or one)
        if inside is None:
            return None
        tag = SOME if len(names) == 1 else name
        doubt = () if one and other else (f"no sample of the {'right' if one else 'left'} side has it",)
        rows.append(Row(tag, tag, inside, doubt))
    if len(rows) == 1:
        return rows[0].tie
    both = [
        Guess("alternatives", inner={it.left: getattr(it.tie, side) for it in rows}, form=form, values=was.values, doubts=was.doubts)
        for side, form, was in zip(("left", "right"), forms, (left, right))
    ]
    return Tie("alternatives", *both, rows=tuple(rows), doubts=doubts)


def _by_sort(guess):
    return {_sort_tag(it): it for it in guess.contents().values()}


def _sort_tag(guess):
    if guess.is_any():
        return SOME
    sort = {"text": "string", "enum": "string", "int": "number", "bool": "bool", "list": "array"}.get(guess.kind, "object")
    return SORT_TAGS["number" if guess.form == "number" else sort]


def _kinds(left, right):
    """Alternatives that name their tag in a member: arms by tag, and a tag of one side alone is taken for both."""
    if not all(isinstance(it.form, dict) and "kind" in it.form for it in (left, right)):
        return None
    rows, inner = [], ({}, {})
    for tag in dict.fromkeys([*left.inner, *right.inner]):
        one, other = left.inner.get(tag), right.inner.get(tag)
        inside = tie(one or other, other or one)
        if inside is None or inside.kind != "record" or left.form["kind"] in inside.left.inner or right.form["kind"] in inside.right.inner:
            return None
        rows.append(Row(tag, tag, inside, () if one and other else (f"no sample of the {'right' if one else 'left'} side has it",)))
        inner[0][tag], inner[1][tag] = inside.left, inside.right
    both = [replace(was, inner=it) for was, it in zip((left, right), inner)]
    return Tie("alternatives", *both, rows=tuple(rows))


def _containers(left, right):
    doubts = ()
    if {left.kind, right.kind} == {"list", "keyed"}:
        left, right, doubts = _by_key(left, right)
    if left.kind != right.kind:
        return None
    inside = tie(left.inner["*"], right.inner["*"])
    if inside is None or inside.is_empty() or left.kind == "tree" and inside.kind != "record":
        return None
    both = [replace(was, inner={"*": it}) for was, it in ((left, inside.left), (right, inside.right))]
    return Tie(WORDS[left.kind], *both, inner=inside, doubts=doubts)


def _by_key(left, right):
    """A list of objects against a map: the list by the member that has the keys of the map, where there is one."""
    one, other = (left, right) if left.kind == "list" else (right, left)
    item = one.inner["*"]
    for key in one.keys:
        if len(item.inner) > 1 and item.inner[key].kind == "text" and item.inner[key].values & other.values:
            inside = replace(item, inner={name: it for name, it in item.inner.items() if name != key})
            made = replace(one, kind="keyed", inner={"*": inside}, form={"key": key}, doubts=())
            return *((made, right) if one is left else (left, made)), (f"a list by {key}: its order is not kept",)
    return left, right, ()


def _records(left, right):
    """Rows by equal names first, then by names written otherwise, by values that agree, and by names one of which has the other."""
    rows, free = [], [dict(left.inner), dict(right.inner)]
    for one, other, inside, doubt in _matches(left.inner, right.inner):
        rows.append(Row(one, other, inside, (doubt,) if doubt else ()))
        del free[0][one], free[1][other]
    order = {name: number for number, name in enumerate(left.inner)}
    rows.sort(key=lambda it: order[it.left])
    same = {name for name in free[0] if name in free[1]}
    kept = tuple(f"{name} is on both sides, but its shapes do not fit: what is kept twice by hand drifts silently" for name in sorted(same))
    rows += [Row(name, None) for name in free[0]] + [Row(None, name) for name in free[1]]
    inner = ({}, {})
    for it in rows:
        if it.left is not None:
            inner[0][it.left] = it.tie.left if it.tie else left.inner[it.left]
        if it.right is not None:
            inner[1][it.right] = it.tie.right if it.tie else right.inner[it.right]
    both = [replace(was, inner=it) for was, it in zip((left, right), inner)]
    return Tie("record", *both, rows=tuple(rows), doubts=kept)


def _matches(left, right):
    """Pairs of names that fit, each with its lens, and with a doubt or None. The surest come first, and no name is in two."""
    found, taken = [], (set(), set())
    for _, one, other, doubt in sorted(_candidates(left, right), key=lambda it: -it[0]):
        inside = None if one in taken[0] or other in taken[1] else tie(left[one], right[other])
        if inside is not None:
            found.append((one, other, inside, doubt))
            taken[0].add(one)
            taken[1].add(other)
    return found


def _candidates(left, right):
    for one in left:
        for other in right:
            agreement = _agreement(left[one], right[other])
            here, there = plain_name(one), plain_name(other)
            if one == other:
                yield 5, one, other, None
            elif here and here == there:
                yield 4, one, other, "the names are the same but for how they are written"
            elif agreement >= AGREEMENT:
                common, least = agreement * 100, min(len(left[one].values), len(right[other].values))
                yield 2 + agreement, one, other, f"tied since {common:.0f} % of {least:,} values agree; the names differ"
            elif min(len(here), len(there)) >= 3 and (here in there or there in here) and not _has_its_own(one, other, left, right):
                yield 1 + difflib.SequenceMatcher(None, here, there).ratio(), one, other, "tied since one name has the other in it"


def _has_its_own(one, other, left, right):
    """Whether a name has a field of its own name on the other side."""
    return one in right or other in left


def _agreement(left, right):
    """Which part of the values of the side with fewer the other one has too."""
    least = min(len(left.values), len(right.values))
    return len(left.values & right.values) / least if least else 0.0
