"""Edits that were made for an older state of a pair or a hub: carried over the words in the log to the newest state, or refused by name.

The rules are those of `editlens.rebase`. The log has the word of each document for each change; the document of the older state is opened
from the log as well. This is tested and not proved.
"""

from __future__ import annotations

from typing import Any

from editlens.edits import NoApply, form_fault
from editlens.json_text import NotJson, pointer, read_json, shown, write_json
from editlens.older import MOST_CHANGES, NotTaken, OlderEdits, OlderStates
from editlens.sentences import sentences

from . import tables
from .database import Database
from .drafts import Kept, Made, changed
from .engine import HubState, PairState, Stepped, Unreadable
from .keeper import Keeper
from .problems import Gone, NotAllowed, NotCarried

MOST_LOST = 5
"""How many sentences say which edit was not taken."""


class _EngineRefuses(Exception):
    """The engine refuses a word that was carried: `stepped` is its answer."""

    def __init__(self, stepped: Stepped) -> None:
        super().__init__(stepped.rest)
        self.stepped = stepped


async def older_edits(keeper: Keeper, database: Database, kind: str, kept: Kept, name: str, number: int) -> OlderEdits:
    """A document as it was in an older state, for edits that were made for it. Raises NotCarried where the log does not lead from there."""
    if kept.number - number > MOST_CHANGES:
        raise NotCarried("base", f"more than {MOST_CHANGES:,} changes came after state {number}", kept.number)
    try:
        earlier = await keeper.at(kind, kept.pair, number)
    except Gone:
        raise NotCarried("base", f"state {number} is no longer in the log", kept.number) from None
    try:
        ty, document = earlier.state.types()[name], read_json(earlier.state.document(name))
    finally:
        earlier.state.close()
    states, place = OlderStates({name: ty}, number, {name: document}), kept.state.names.index(name)
    for row in await database.rows(tables.ROWS, kept.pair, number, kept.number - number):
        if row["words"] is None:
            raise NotCarried("base", f"state {number} had another lens program", kept.number)
        states.changed({name: read_json(row["words"])[place]})
    if states.number != kept.number or states.documents[name] != read_json(kept.state.document(name)):
        raise Unreadable(f"the words in the log of pair {kept.pair} do not lead from state {number} to state {kept.number}")
    return OlderEdits(states, name, number)


def step_late(kept: Kept, name: str, lines: "list[bytes]", older: OlderEdits) -> Made:
    """Steps a state by lines that were made one after another, the first for an older state. Each is accepted or refused alone.

    A line that rests on one that is refused is refused, too.
    """
    answers: "list[dict[str, Any]]" = []
    made = Made({"answers": answers})
    for number, line in enumerate(lines, 1):
        older.count = number - 1
        edit = _edit_of(line, kept.state)
        answers.append(_refused_by_form(kept, line) if edit is None else _taken(kept, name, edit, older, made))
    return made


def late_answer(why: NotTaken, newest: int) -> "dict[str, Any]":
    """The answer to an edit that is not taken. `rests-on` is the place, from 0, of the line without which it has none."""
    told = why.sentence if why.rests_on is None else "this edit rests on another one of this request, which was refused"
    lost = list(sentences(why.edit))
    more = [f"and {len(lost) - MOST_LOST} more"] if len(lost) > MOST_LOST else []
    found: "dict[str, Any]" = {"cause": why.cause, "at": why.at, "why": told, "newest": newest, "lost": lost[:MOST_LOST] + more}
    return {**found, **({} if why.rests_on is None else {"rests-on": why.rests_on - 1})}


def line_for(state: "PairState | HubState", name: str, edit: Any) -> bytes:
    """The line of a journal with an edit of a document."""
    at: "str | int" = int(name) if name.isdigit() else name
    return write_json({"side" if state.kind == "pair" else "at": at, "edit": edit}).encode()


def _edit_of(line: bytes, state: "PairState | HubState") -> Any:
    """The edit of a line that is an entry, or None."""
    try:
        tree = read_json(line.decode())
        is_entry = isinstance(tree, dict) and set(tree) == {"side" if state.kind == "pair" else "at", "edit"}
        return tree["edit"] if is_entry and form_fault(tree["edit"]) is None else None
    except (NotJson, UnicodeDecodeError, RecursionError):
        return None


def _refused_by_form(kept: Kept, line: bytes) -> "dict[str, Any]":
    """The answer of the engine to a line that is no edit."""
    stepped = kept.state.step(line)
    if stepped is None or stepped.is_accepted:
        # The engine has read it in another way than it was read here. The state is thrown away, and nothing is stored.
        raise NotAllowed("a line is not an edit of this document")
    return {"ok": False, "rest": stepped.rest}


def _taken(kept: Kept, name: str, edit: Any, older: OlderEdits, made: Made) -> "dict[str, Any]":
    """Steps the state by an edit that was made for an older one. Returns its answer."""
    newest = kept.number + len(made.drafts)
    try:
        with older.taking(edit) as (carried,):
            stepped = kept.state.step(line_for(kept.state, name, carried))
            if stepped is None or not stepped.is_accepted:
                raise _EngineRefuses(stepped or Stepped(False, "not-an-edit"))
            older.states.changed({name: carried})
    except NoApply as why:
        where = {"place": pointer(why.path), "found": shown(why.value), "allowed": why.allowed, "document": name}
        return {"ok": False, "rest": f"no-apply {why.at} {why.cause}", **where}
    except NotTaken as why:
        return {"ok": False, "late": late_answer(why, newest)}
    except _EngineRefuses as why:
        return {"ok": False, "rest": why.stepped.rest}
    made.drafts.append(changed(stepped))
    is_other = {"carried": True} if carried != edit else {}
    return {"ok": True, "number": newest + 1, "rest": stepped.rest, "words": made.drafts[-1].words, **is_other}
