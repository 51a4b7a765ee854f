"""What a request makes of a state: the records to store, and the reply."""

from __future__ import annotations

from dataclasses import dataclass, field
from typing import Any, Awaitable, Callable, Iterable

from editlens.edits import NoApply, act
from editlens.json_text import pointer, read_json, shown

from .engine import HubState, PairState, Stepped


@dataclass
class Kept:
    """A state that a worker has: its number, and the first record of its log. `since` is the number of the last snapshot that is stored."""

    pair: int
    number: int
    opening: str
    state: "PairState | HubState"
    since: int = 0


@dataclass(frozen=True)
class Draft:
    """A record that is to be stored. `words` is a list of JSON, a word of each document, or None where they are not known."""

    kind: str
    payload: str
    side: str
    answer: str = ""
    words: "str | None" = None
    back_to: "int | None" = None


@dataclass
class Made:
    """What a request makes: records for the next numbers, and a reply, which is stored beside them if the request has a key.

    `replaced` is the state behind the last record where it is not the state that was stepped, with the first record of its log.
    """

    reply: "dict[str, Any]"
    drafts: "list[Draft]" = field(default_factory=list)
    replaced: "tuple[str, PairState | HubState] | None" = None


Work = Callable[[Kept], Awaitable[Made]]


@dataclass(frozen=True)
class Change:
    """A request that changes a pair. `key` names it, and `is_keyed` says whether a client chose that name.

    `expected` is the number of the state that it was made for, or None. Where that is older than the newest one, it is refused, unless it
    `carries`: then `work` carries what was made for it. `work` makes the change, on the newest state, as often as another worker was faster;
    a request that makes a pair has none.
    """

    key: str
    is_keyed: bool
    digest: str
    author: str
    expected: "int | None"
    work: "Work | None" = None
    carries: bool = False

    def late(self, number: int) -> "int | None":
        """The number of the older state for which it was made, where the newest one has this number and what it asks for is carried."""
        return self.expected if self.carries and self.expected is not None and self.expected < number else None


def changed(stepped: Stepped) -> Draft:
    """The record of an accepted line."""
    return Draft("change", stepped.payload, stepped.side, stepped.rest, f"[{','.join(stepped.words)}]")


def step_all(kept: Kept, lines: "Iterable[bytes]") -> Made:
    """Steps a state by lines, one after another: each is accepted or refused alone. The first refusal has its place."""
    answers: "list[dict[str, Any]]" = []
    drafts: "list[Draft]" = []
    for line in lines:
        stepped = kept.state.step(line)
        if stepped is None:
            continue
        if stepped.is_accepted:
            drafts.append(changed(stepped))
            answers.append({"ok": True, "number": kept.number + len(drafts), "rest": stepped.rest, "words": drafts[-1].words})
        else:
            is_first = all(it["ok"] for it in answers)
            answers.append({"ok": False, "rest": stepped.rest, **(place_of(kept.state, line, stepped.rest) if is_first else {})})
    return Made({"answers": answers}, drafts)


def place_of(state: "PairState | HubState", line: bytes, rest: str) -> "dict[str, Any]":
    """Where a refused edit fails in its document, and what is allowed there. Nothing where the answer names no place in one document."""
    if not rest.startswith("no-apply "):
        return {}
    tree = read_json(line.decode())
    name = str(tree.get("side", tree.get("at")))
    try:
        act(state.types()[name], read_json(state.document(name)), tree["edit"])
    except NoApply as why:
        return {"place": pointer(why.path), "found": shown(why.value), "allowed": why.allowed, "document": name}
    return {}
