"""The journal that builds two documents that exist, and the places where they disagree in what they share.

The left document is built in full, and with it all that the right one shares. Then what the right document has for itself is set. Two
lists that differ in length, or maps that differ in keys, are not aligned: the place is listed, and nothing inside is touched.
"""

from __future__ import annotations

from dataclasses import dataclass
from typing import Any, Callable, Iterable, Sequence

from .construct import replace_steps, set_steps, word_of, words_of
from .documents import misfits
from .edits import paths_of
from .json_text import pointer, read_json, shown, write_json
from .session import Session
from .store import ImportRefused, Store


class DoesNotFit(Exception):
    """A document that is not of its side's type: the side and every place."""

    def __init__(self, side: str, places: Sequence[Any]) -> None:
        super().__init__(f"the {side} document does not fit:\n" + "\n".join(f"  {it}" for it in places))
        self.side, self.places = side, places


NOTHING = object()
"""What a map has at a key that it does not have."""


@dataclass(frozen=True)
class Disagreement:
    """A place of the right document at which it does not have what the left one makes of it. Either value may be NOTHING.

    `show` is the call that writes a value for a person.
    """

    path: tuple
    by_left: object
    found: object
    show: Callable[[Any], str] = shown

    def said(self, side: str) -> str:
        """The place with both values, where `side` is what the left document is called."""
        by_left, found = ("nothing" if it is NOTHING else self.show(it) for it in (self.by_left, self.found))
        return f"{pointer(self.path) or '(the document)'}: by {side} {by_left}, here {found}"

    def __str__(self) -> str:
        return self.said("the left document")


class _Loader:
    def __init__(self, program_text, left, right, path, start=None):
        self.program, self.path, self.start = program_text, path, start
        self.steps, self.disagreements, self.is_known = [], [], {}
        self.session = self._start()
        for side, document in (("left", left), ("right", right)):
            wrong = list(misfits(self.session.types[side], document))
            if wrong:
                raise DoesNotFit(side, wrong)
        # As the program writes them, with keys in byte order.
        left, right = read_json(write_json(left)), read_json(write_json(right))
        self.left = list(words_of(set_steps(self.session.types["left"], left)))
        for word in self.left:
            self.session.left(word)
        self._walk(self.session.types["right"], self.session.documents["right"], right, (), ())
        self.right = list(words_of(self.steps))
        for word in self.right:
            self.session.right(word)
        self.session.close()

    def _start(self):
        return self.start() if self.start else Session(self.program, self.path)

    def _is_private(self, ty, value, path):
        """Whether the left side knows nothing of a place: an edit there is tried in another session, and carried to nothing."""
        kinds = tuple((name, place if name != "mod" else None) for name, place in path)
        if kinds not in self.is_known:
            with self._start() as trial:
                for word in self.left:
                    trial.left(word)
                self.is_known[kinds] = trial.right(word_of([(path, _trial(ty, value))])).word == []
        return self.is_known[kinds]

    def _walk(self, ty, now, wanted, path, place):
        if now == wanted:
            return
        if ty.kind == "record":
            for name, inner in ty.fields:
                self._walk(inner, now[name], wanted[name], (*path, ("at", name)), (*place, name))
        elif ty.kind == "alternatives" and set(now) == set(wanted):
            tag = next(iter(now))
            self._walk(ty.field(tag), now[tag], wanted[tag], (*path, ("stay", tag)), (*place, tag))
        elif ty.kind == "list" and len(now) == len(wanted):
            for number, (one, other) in enumerate(zip(now, wanted)):
                self._walk(ty.inner, one, other, (*path, ("mod", number)), (*place, number))
        elif ty.kind == "tree" and now["depths"] == wanted["depths"]:
            for number, node in enumerate(paths_of(now["depths"])):
                inside = (*place, "items", number)
                self._walk(ty.inner, now["items"][number], wanted["items"][number], (*path, ("mod", node)), inside)
        elif ty.kind == "keyed" and set(now) == set(wanted):
            for key in sorted(now):
                self._walk(ty.inner, now[key], wanted[key], (*path, ("mod", key)), (*place, key))
        elif self._is_private(ty, now, path):
            self.steps += replace_steps(ty, now, wanted, path)
        else:
            self.disagreements += _disagreements(ty, now, wanted, place)
            for key in sorted(set(now) & set(wanted)) if ty.kind == "keyed" else ():
                self._walk(ty.inner, now[key], wanted[key], (*path, ("mod", key)), (*place, key))


def _trial(ty, value):
    """A primitive that changes a value of the type."""
    if ty.kind == "alternatives":
        tag = next(iter(value))
        return {"switch": [tag, tag, []]}
    if ty.kind == "list":
        return {"ins": 1}
    if ty.kind == "keyed":
        return {"put": "".join(sorted(value, key=len)[-1:]) + "+"}
    if ty.kind == "tree":
        return {"graft": []}
    return {"set": value}


def _disagreements(ty, now, wanted, place):
    if ty.kind != "keyed":
        return [Disagreement(place, now, wanted)]
    only = [Disagreement((*place, key), now[key], NOTHING) for key in sorted(set(now) - set(wanted))]
    return only + [Disagreement((*place, key), NOTHING, wanted[key]) for key in sorted(set(wanted) - set(now))]


@dataclass(frozen=True)
class Loaded:
    """The edits that build two documents, side by side, and the places where the two disagree."""

    left: list
    right: list
    disagreements: list

    def lines(self) -> list[str]:
        """The lines of a journal: the left document first, and then what the right one has for itself."""
        entries = [("left", word) for word in self.left] + [("right", word) for word in self.right]
        return [write_json({"side": side, "edit": word}) for side, word in entries]

    def events(self) -> list[str]:
        """The events of a link: the left document is the first batch, and what the right one has for itself the second."""
        told: list[Any] = []
        packet = 0
        for side, words in (("left", self.left), ("right", self.right)):
            told += [{"edit": [side, word]} for word in words]
            if words or side == "left" and self.right:
                told += [{"seal": side}, {"send": side}, {"deliver": packet}]
                packet += 1
        return [write_json(it) for it in told]


def load_words(program_text: str, left: Any, right: Any, path: str | None = None, start: Callable[[], Any] | None = None) -> Loaded:
    """The edits that build the documents, as Loaded. Raises DoesNotFit and ProgramRefused. `start` makes each session, where it is given."""
    loader = _Loader(program_text, left, right, path, start)
    return Loaded(loader.left, loader.right, loader.disagreements)


def load(program_text: str, left: Any, right: Any, path: str | None = None) -> tuple[list[str], list[Disagreement]]:
    """The lines of a journal that builds the documents, and the disagreements. Raises DoesNotFit and ProgramRefused."""
    loaded = load_words(program_text, left, right, path)
    return loaded.lines(), loaded.disagreements


def load_store(folder: str, program_text: str, left: Any, right: Any, path: str | None = None) -> list[Disagreement]:
    """Makes a store of two documents in a folder, and returns the disagreements.

    The left document is imported. If it is too long for a line, the store begins with the initial documents and is built by entries.
    Raises DoesNotFit, ProgramRefused and StoreRefused; nothing is made then.
    """
    loaded = load_words(program_text, left, right, path)
    try:
        store, lines = Store.begin(folder, program_text, left, path), loaded.lines()[len(loaded.left) :]
    except ImportRefused as why:
        if why.reason != "line-too-long":
            raise
        store, lines = Store.init(folder, program_text, path), loaded.lines()
    store.apply(lines)
    return loaded.disagreements


def load_hub(hub: Any, views: Iterable[tuple[str, Any]], path: str | None = None) -> tuple[list[str], list[tuple[int, Disagreement]]]:
    """The lines of a hub's journal that build a document and its views, each a program text with a document; and the disagreements.

    The hub decides what it shares with a view. The disagreements are pairs of the number of a view and a Disagreement.
    """
    lines, disagreements = [], []
    for number, (program_text, view) in enumerate(views):
        loaded = load_words(program_text, hub, view, path)
        if not number:
            lines += [{"at": "hub", "edit": word} for word in loaded.left]
        lines += [{"at": number, "edit": word} for word in loaded.right]
        disagreements += [(number, it) for it in loaded.disagreements]
    return [write_json(it) for it in lines], disagreements
