"""What the other side would lose by an edit: data that it keeps for itself, in items that the edit takes away and makes anew.

The lens says which places the other side alone has. Each of them gets a mark in its document, the edit that a second run of the program
answered acts on it, and the marks that are gone are what would be lost. A list that a partition makes of several has an order of its own:
that is lost too where an item goes from before others that stay.
"""

from __future__ import annotations

from dataclasses import replace
from typing import Any, Iterable, Iterator, Sequence

from .answers import OTHER
from .edits import act, paths_of
from .json_text import pointer
from .lenses import read_lens
from .sharing import INSIDE, is_shared, places, ties
from .types import Ty, initial

TAKES_AWAY = ("del", "drop", "prune", "switch")
WITH_EDIT = ("at", "stay", "mod", "switch")
ITEM, ORDER = "item", "order"


class PrivateLoss(Exception):
    """A patch that makes the other side lose private data: the number of the operation, from 0, its path, and the places of the other side.

    `orders` are the places of lists that would lose an order of their own.
    """

    def __init__(self, number: int, op: dict[str, Any], side: str, places: Sequence[Any], orders: Sequence[Any] = ()) -> None:
        lost = [f"what it alone has at {', '.join(map(_named, places))}"] * bool(places)
        lost += [f"its own order of the items at {', '.join(map(_named, orders))}"] * bool(orders)
        told = f"operation {number}: by this {op['op']} of {op['path'] or 'the document'} the {side} side would lose "
        super().__init__(told + " and ".join(lost))
        self.number, self.path, self.places, self.orders = number, op["path"], places, list(orders)


def _named(place):
    return pointer(place) or "(the document)"


def takes_away(word: list[Any]) -> bool:
    """Whether an edit takes anything away."""
    for primitive in word:
        name, body = next(iter(primitive.items()))
        if name in TAKES_AWAY or name in WITH_EDIT and takes_away(body[-1]):
            return True
    return False


class Private:
    """What a side of a lens has for itself, by its type: the places, and the lists with an order of their own. `types` are those of both."""

    def __init__(self, program: str, side: str, types: dict[str, Ty]) -> None:
        mine, other = (0, 1) if side == "left" else (1, 0)
        lists: dict[Any, set[Any]] = {}
        pairs = ties(read_lens(program))
        kinds = {path: ty.kind for path, ty in places(types[OTHER[side]])}
        for pair in pairs:
            if kinds[pair[other]] == "list":
                lists.setdefault(pair[mine], set()).add(pair[other])
        self.ty, self.shared = types[side], {pair[mine] for pair in pairs}
        self.ordered = {path for path, ty in places(self.ty) if ty.kind == "list" and len(lists.get(path, ())) > 1}

    def has_any(self) -> bool:
        """Whether it has anything for itself."""
        return bool(self.ordered) or any(self._is_private(ty, path) for path, ty in places(self.ty))

    def _is_private(self, ty, path):
        return ty.kind not in ("record", "unit") and not is_shared(ty, path, self.shared)

    def lost(self, document: Any, words: Iterable[Any], is_known: bool = True) -> tuple[list[Any], list[Any]]:
        """The places of the type whose private data words take from a document, and the places of lists that lose their own order.

        Where the document is known, what has its initial value is not lost, and no order is that nothing else has kept.
        """
        before = self._marked(self.ty, document, (), ())
        after = act(self._type(self.ty, ()), before, [it for word in words for it in self._word(self.ty, word, ())])
        left = set(map(id, _marks(after)))
        gone = {id(it): it for it in _marks(before) if id(it) not in left}
        lost = {it.kind for it in gone.values() if isinstance(it, _Mark) and not (is_known and it.is_initial)}
        return sorted(lost), sorted({it.kind for it in gone.values() if isinstance(it, _Order) and it.is_lost(gone, is_known)})

    def _marked(self, ty, value, path, kind):
        """A document with a mark in place of each private value, and beside each item of a list with an order of its own."""
        if self._is_private(ty, path):
            return _Mark(kind, value == initial(ty))
        found = [self._marked(inner, item, (*path, _step(way)), (*kind, *name)) for way, name, inner, item in inside(ty, value)]
        if ty.kind in ("record", "alternatives", "keyed"):
            return dict(zip(value, found))
        if ty.kind == "tree":
            return {"depths": value["depths"], "items": found}
        if path not in self.ordered:
            return found if ty.kind == "list" else value
        tags, orders = [next(iter(it)) if isinstance(it, dict) else "" for it in value], []
        return [{ITEM: it, ORDER: _Order(kind, tags, number, orders)} for number, it in enumerate(found)]

    def _type(self, ty, path):
        """The type of a marked document."""
        if not self.ordered:
            return ty
        step = {"record": "at", "alternatives": "stay"}.get(ty.kind)
        fields = tuple((name, self._type(inner, (*path, (step, name)))) for name, inner in ty.fields)
        inner = self._type(ty.inner, (*path, INSIDE)) if ty.inner else None
        if path in self.ordered:
            inner = Ty("record", fields=((ITEM, inner), (ORDER, Ty("unit"))))
        return replace(ty, fields=fields, inner=inner)

    def _word(self, ty, word, path):
        """The word that does to a marked document what a word does to the document."""
        return [self._primitive(ty, *next(iter(it.items())), path) for it in word] if self.ordered else word

    def _primitive(self, ty, name, body, path):
        if name in ("at", "stay"):
            return {name: [body[0], self._word(ty.field(body[0]), body[1], (*path, (name, body[0])))]}
        if name == "switch":
            return {name: [*body[:2], self._word(ty.field(body[1]), body[2], (*path, ("stay", body[1])))]}
        if name != "mod":
            return {name: body}
        word = self._word(ty.inner, body[1], (*path, INSIDE))
        return {name: [body[0], [{"at": [ITEM, word]}] if path in self.ordered else word]}


def inside(ty: Any, value: Any) -> Iterator[tuple[Any, Any, Any, Any]]:
    """The places inside a document: the way of an edit there, the name of the place for a type, the type and the value."""
    if ty.kind in ("record", "alternatives"):
        primitive = "at" if ty.kind == "record" else "stay"
        for name in value:
            yield (primitive, name), (name,), ty.field(name), value[name]
    elif ty.kind == "list":
        for number, item in enumerate(value):
            yield ("mod", number), ("*",), ty.inner, item
    elif ty.kind == "keyed":
        for key in value:
            yield ("mod", key), ("*",), ty.inner, value[key]
    elif ty.kind == "tree":
        for path, item in zip(paths_of(value["depths"]), value["items"]):
            yield ("mod", path), ("items", "*"), ty.inner, item


def _step(way):
    return INSIDE if way[0] == "mod" else way


class _Mark:
    """What a document has in place of a private value: the place of the type, and whether the value is the initial one."""

    def __init__(self, kind, is_initial):
        self.kind, self.is_initial = kind, is_initial


class _Order:
    """What an item has beside it in a list with an order of its own: its number, and the marks and tags of all items of the list."""

    def __init__(self, kind, tags, number, all_of_list):
        self.kind, self.tags, self.number, self.list = kind, tags, number, all_of_list
        all_of_list.append(self)

    def is_lost(self, gone, is_known):
        """Whether the place of this item among items of other tags is lost with it: what comes anew comes at the end, tag by tag."""
        mine = self.tags[self.number]
        for other in self.list if not is_known else self.list[self.number + 1 :]:
            tag = self.tags[other.number]
            if tag != mine and (not is_known or id(other) not in gone or tag.encode() < mine.encode()):
                return True
        return False


def _marks(tree):
    if isinstance(tree, (_Mark, _Order)):
        yield tree
    for it in tree.values() if isinstance(tree, dict) else tree if isinstance(tree, list) else ():
        yield from _marks(it)
