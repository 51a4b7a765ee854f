"""The engine in this process: a session of a pair or a hub, opened from records and stepped by lines.

Both classes have the same calls, so that nothing above knows which one it has. A `base` is a text of two records with a line feed between
them: the first record of a log, and a snapshot. Sessions stay on the thread that opened them.
"""

from __future__ import annotations

import json
from dataclasses import dataclass
from typing import Any, Sequence

import editlens_hub as hubs
import editlens_library as library
from editlens.construct import replace_steps, word_of
from editlens.json_text import NotJson, read_json, write_json
from editlens.types import Ty, read_type
from library_session import Session

__all__ = ["HUB", "KINDS", "OTHER", "SIDES", "HubState", "PairState", "Session", "Stepped", "base_of", "line_of"]

SIDES = ("left", "right")
OTHER = {"left": "right", "right": "left"}
HUB = "hub"


class Unreadable(Exception):
    """Records that should open are refused: the database does not have what the service stored."""


class ProgramRefused(Exception):
    """A lens program is refused. `reason` is what stands behind `program refused: `."""

    def __init__(self, reason: str) -> None:
        super().__init__(f"program refused: {reason}")
        self.reason = reason


class DocumentRefused(Exception):
    """A document is not of the type of its side."""


@dataclass(frozen=True)
class Stepped:
    """The answer to a line. `rest` is the answer line without its first two words; a refused line has no payload."""

    is_accepted: bool
    rest: str
    payload: str = ""
    side: str = ""
    words: "tuple[str, ...]" = ()


def _refused(text: str) -> Stepped:
    return Stepped(False, text.split(" ", 2)[2])


def _is_lost(why: library.Unopened) -> bool:
    return why.status == library.NO_SESSION


def _fault_of(why: library.Unopened) -> Exception:
    """What is raised for programs or texts of which nothing is opened."""
    if why.status == library.PROGRAM_REFUSED:
        return ProgramRefused(why.line.decode().rstrip("\n").removeprefix("program refused: "))
    return (DocumentRefused if why.status == library.STATE_REFUSED else MemoryError)(str(why))


class PairState:
    """The session of a pair: two documents in step."""

    kind = "pair"
    names: "tuple[str, ...]" = SIDES

    def __init__(self, kept: library.Kept) -> None:
        self.kept = kept
        self._types: "dict[str, Ty] | None" = None

    @classmethod
    def begin(cls, program: str, documents: "dict[str, str]") -> "PairState":
        """A session over a program, from its first documents or from one document of either side."""
        try:
            return cls(library.Kept(program.encode(), **{side: text.encode() for side, text in documents.items()}))
        except library.Unopened as why:
            raise _fault_of(why) from None

    @classmethod
    def reopen(cls, base: str, payloads: Sequence[str] = ()) -> "PairState":
        """The session for which a base and the changes behind it stand."""
        try:
            return cls(library.Kept(records=[it.encode() for it in (*base.split("\n"), *payloads)]))
        except library.Unopened as why:
            raise (MemoryError if _is_lost(why) else Unreadable)(str(why)) from None

    @property
    def opening(self) -> str:
        """The first record of a log of this session. It is empty if the session was reopened."""
        return self.kept.opening.decode()

    def step(self, line: bytes) -> "Stepped | None":
        """Takes a line of a journal. None for a blank one."""
        answer, said = self.kept.step(line)
        if answer.status == library.BLANK:
            return None
        text = said.decode().rstrip("\n")
        if answer.status == library.REFUSED:
            return _refused(text)
        payload = self.kept.show(library.CHANGE).decode()
        rest = text.split(" ", 2)[2]
        side, words = _entry_words(payload, rest) if payload.startswith('{"entry":') else _group_words(payload, rest)
        return Stepped(True, rest, payload, side, words)

    def words_back(self, payloads: Sequence[str], newest: "PairState") -> "list[str]":
        """The words that take the documents back to this state over the changes behind it. This state is the newest one then."""
        words: "list[list]" = [[], []]
        for payload in payloads:
            stepped = self.step(line_of(payload))
            assert stepped and stepped.is_accepted, "a stored change is accepted again"
            for word, part in zip(words, (library.UNDO_LEFT, library.UNDO_RIGHT)):
                word[:0] = read_json(self.kept.show(part).decode())
        return [write_json(it) for it in words]

    def snapshot(self) -> str:
        """The record of a snapshot."""
        return self.kept.show(library.SNAPSHOT).decode()

    def document(self, name: str) -> str:
        """The text of a document."""
        return self.kept.show({"left": library.LEFT, "right": library.RIGHT}[name]).decode()

    def complement(self) -> str:
        """The text of the complement."""
        return self.kept.show(library.COMPLEMENT).decode()

    def types(self) -> "dict[str, Ty]":
        """The type of each document."""
        if self._types is None:
            parts = (library.LEFT_TYPE, library.RIGHT_TYPE)
            self._types = {side: read_type(self.kept.show(part).decode()) for side, part in zip(SIDES, parts)}
        return self._types

    def close(self) -> None:
        """Ends the session."""
        self.kept.close()


ENTRY_HEAD = '{"entry":{"edit":'


def _entry_words(payload: str, rest: str) -> "tuple[str, tuple[str, ...]]":
    """The side of an entry's record and both words. The record is canonical text, so its parts are where they always are."""
    other, word = rest.split(" ", 1)
    side = OTHER[other]
    own = payload[len(ENTRY_HEAD) : -len(f',"side":"{side}"}}}}')]
    return side, (own, word) if side == "left" else (word, own)


def _group_words(payload: str, rest: str) -> "tuple[str, tuple[str, ...]]":
    """The words of a group: on each side, its own edits and the translated ones one after another."""
    words: "dict[str, list]" = {"left": [], "right": []}
    carried = read_json(rest.split(" ", 1)[1])
    for entry, other in zip(read_json(payload)["group"], carried):
        words[entry["side"]] += entry["edit"]
        words[other["side"]] += other["edit"]
    return "group", (write_json(words["left"]), write_json(words["right"]))


class HubState:
    """A hub with its views."""

    kind = "hub"

    def __init__(self, hub: hubs.Hub, programs: "list[str]") -> None:
        self.hub, self.programs = hub, programs
        self._types: "dict[str, Ty] | None" = None
        self.names = (HUB, *map(str, range(len(programs))))

    @classmethod
    def begin(cls, programs: "list[str]", texts: "Sequence[str] | None" = None) -> "HubState":
        """A hub over the programs of its views, from its first documents or from the texts of a state."""
        given = None if texts is None else [it.encode() for it in texts]
        try:
            return cls(hubs.Hub([it.encode() for it in programs], given), programs)
        except library.Unopened as why:
            raise _fault_of(why) from None

    @classmethod
    def reopen(cls, base: str, payloads: Sequence[str] = ()) -> "HubState":
        """The hub for which a base and the edits behind it stand."""
        opening, snapshot = map(read_json, base.split("\n"))
        held = snapshot["snapshot"]
        texts = [held["hub"], *(view[part] for view in held["views"] for part in ("view", "complement"))]
        try:
            state = cls.begin(opening["hub"], [write_json(it) for it in texts])
        except (ProgramRefused, DocumentRefused) as why:
            raise Unreadable(str(why)) from None
        for number, payload in enumerate(payloads, 1):
            said = state.step(payload.encode())
            if said is None or not said.is_accepted:
                raise Unreadable(f"edit {number} behind the snapshot is refused")
        return state

    @property
    def opening(self) -> str:
        """The first record of a log of this hub."""
        return write_json({"hub": self.programs, "version": 1})

    def step(self, line: bytes) -> "Stepped | None":
        """Takes a line of a hub's journal, an edit or a group. None for a blank one."""
        edits = _edits_of_group(line)
        return self._step_one(line) if edits is None else self._step_group(edits)

    def _step_group(self, edits: "list[Any]") -> Stepped:
        """Takes a group, as `edithub apply` does. The library has no groups: if an edit is refused, the hub goes on from its texts."""
        texts = self.hub.texts()
        steps = [it for it in (self._step_one(write_json(edit).encode()) for edit in edits) if it]
        if all(it.is_accepted for it in steps):
            parts = ",".join(f'{{"hub":{it.words[0]},"views":[{",".join(it.words[1:])}]}}' for it in steps)
            words = [write_json([one for it in steps for one in read_json(it.words[place])]) for place in range(len(self.names))]
            return Stepped(True, f"group [{parts}]", f'{{"group":[{",".join(it.payload for it in steps)}]}}', "group", tuple(words))
        self.hub.close()
        self.hub = hubs.Hub([it.encode() for it in self.programs], texts)
        return Stepped(False, _refusal_of_group(steps))

    def _step_one(self, line: bytes) -> "Stepped | None":
        answer, said = self.hub.step(line)
        if answer.status == library.BLANK:
            return None
        text = said.decode().rstrip("\n")
        if answer.status == library.REFUSED:
            return _refused(text)
        rest, edit = text.split(" ", 2)[2], read_json(line.decode())
        hub_word, end = json.JSONDecoder().raw_decode(rest)
        words = (write_json(hub_word), *(write_json(it) for it in read_json(rest[end:])))
        return Stepped(True, rest, write_json(edit), str(edit["at"]), words)

    def snapshot(self) -> str:
        """The record of a snapshot, as `edithub pack` stores it."""
        texts = [it.decode() for it in self.hub.texts()]
        views = (f'{{"complement":{complement},"view":{view}}}' for view, complement in zip(texts[1::2], texts[2::2]))
        return f'{{"snapshot":{{"hub":{texts[0]},"views":[{",".join(views)}]}}}}'

    def document(self, name: str) -> str:
        """The text of the hub's document, or of that of a view."""
        if name == HUB:
            return self.hub.show(hubs.HUB_DOCUMENT).decode()
        return self.hub.show(hubs.VIEW_DOCUMENT, int(name)).decode()

    def types(self) -> "dict[str, Ty]":
        """The type of each document: those of the lenses, each opened for a moment."""
        if self._types is None:
            found: "dict[str, Ty]" = {}
            for number, program in enumerate(self.programs):
                state = PairState.begin(program, {})
                left, right = (state.types()[side] for side in SIDES)
                state.close()
                found.setdefault(HUB, left)
                found[str(number)] = right
            self._types = found
        return self._types

    def words_back(self, payloads: Sequence[str], newest: "HubState") -> "list[str]":
        """The words that take the documents of the newest state back to this one. They replace what differs."""
        documents = [(name, read_json(newest.document(name)), read_json(self.document(name))) for name in self.names]
        return [write_json(word_of(replace_steps(self.types()[name], new, old))) for name, new, old in documents]

    def close(self) -> None:
        """Ends the hub."""
        self.hub.close()


MOST_LINE = 1 << 20
"""Bytes of a line of a journal. A longer one is left for the engine to refuse."""


def _edits_of_group(line: bytes) -> "list[Any] | None":
    """The edits of a group of a hub's journal. None for any other line."""
    if b"group" not in line or len(line) > MOST_LINE:
        return None
    try:
        tree = read_json(line.decode())
    except (NotJson, UnicodeDecodeError):
        return None
    return tree["group"] if isinstance(tree, dict) and set(tree) == {"group"} and isinstance(tree["group"], list) else None


def _refusal_of_group(steps: "list[Stepped]") -> str:
    """The refusal of a group: the form of all its edits counts first, then whether each is one, then the first that is refused."""
    rests = [it.rest for it in steps if not it.is_accepted]
    for fault in ("not-an-entry", "not-an-edit"):
        if fault in rests:
            return fault
    place, first = next((place, it.rest) for place, it in enumerate(steps) if not it.is_accepted)
    return f"group {place} {first}"


State = "PairState | HubState"
KINDS = {"pair": PairState, "hub": HubState}


def base_of(opening: str, state: "PairState | HubState") -> str:
    """The base from which a session goes on as a state is."""
    return f"{opening}\n{state.snapshot()}"


def line_of(payload: str) -> bytes:
    """The line of a journal that makes a stored change: that of its entry, or the record itself where it is a group or an edit of a hub."""
    if payload.startswith('{"entry":'):
        return payload[len('{"entry":') : -1].encode()
    return payload.encode()
