"""Decides whether what clients saw of a pair is what the service promises. It knows nothing of the service: it has the answers, the streams,
the copies and the log, and says every place where they do not go together."""

from __future__ import annotations

from dataclasses import dataclass, field
from typing import Any, Iterator


@dataclass(frozen=True)
class Said:
    """An answer: the entry, when it was sent and answered, and the number with the edits; `number` is None for a refusal."""

    entry: str
    sent: float
    answered: float
    number: "int | None"
    edits: "dict[str, Any] | None" = None


@dataclass
class Seen:
    """What a client saw of one side: the number at which it began, each event in its order, and its copy at the end."""

    side: str
    begin: int
    events: "list[tuple[int, str, Any]]" = field(default_factory=list)
    document: Any = None


@dataclass(frozen=True)
class Row:
    """A record of the log: its entry, and the edit of each side."""

    number: int
    entry: str
    edits: "dict[str, Any]"


@dataclass
class History:
    """All that is known of a pair at the end."""

    name: str
    said: "list[Said]" = field(default_factory=list)
    seen: "list[Seen]" = field(default_factory=list)
    rows: "list[Row]" = field(default_factory=list)
    documents: "dict[str, Any]" = field(default_factory=dict)
    stored: "list[str]" = field(default_factory=list)
    """The payloads of the changes in the exported store."""
    payloads: "list[str]" = field(default_factory=list)
    """The payloads of the changes in the log."""


def faults(history: History) -> "Iterator[str]":
    """Every place where a history is not as promised. There is none if and only if all is well."""
    for check in (_log, _answers, _order, _streams, _copies, _store):
        for fault in check(history):
            yield f"{history.name}: {fault}"


def _log(history: History) -> "Iterator[str]":
    numbers = [row.number for row in history.rows]
    if numbers != list(range(1, len(numbers) + 1)):
        yield "the numbers of the log are not 1, 2, 3 and so on"
    entries: "dict[str, int]" = {}
    for row in history.rows:
        if row.entry in entries:
            yield f"entry {row.entry} is record {entries[row.entry]} and record {row.number}"
        entries[row.entry] = row.number


def _answers(history: History) -> "Iterator[str]":
    rows = {row.number: row for row in history.rows}
    entries = {row.entry for row in history.rows}
    for it in history.said:
        if it.number is None:
            if it.entry in entries:
                yield f"entry {it.entry} was refused, and is in the log"
        elif it.number not in rows or rows[it.number].entry != it.entry:
            yield f"entry {it.entry} was accepted as {it.number}, and is not that record"
        elif it.edits is not None and it.edits != {side: rows[it.number].edits[side] for side in it.edits}:
            yield f"entry {it.entry} was answered with other edits than those of record {it.number}"


def _order(history: History) -> "Iterator[str]":
    """What was answered before another one was sent comes before it."""
    accepted = [it for it in history.said if it.number is not None]
    ends = sorted(accepted, key=lambda it: it.answered)
    highest, place = 0, 0
    for it in sorted(accepted, key=lambda it: it.sent):
        while place < len(ends) and ends[place].answered < it.sent:
            highest, place = max(highest, ends[place].number or 0), place + 1
        if (it.number or 0) <= highest:
            yield f"entry {it.entry} was sent when record {highest} was answered, and is record {it.number}"


def _streams(history: History) -> "Iterator[str]":
    rows = {row.number: row for row in history.rows}
    for stream, it in enumerate(history.seen):
        number = it.begin
        for seen, entry, edit in it.events:
            if seen != number + 1:
                yield f"stream {stream} of {it.side}: behind {number} came {seen}"
            number = seen
            if seen not in rows:
                yield f"stream {stream} of {it.side}: record {seen} came, and is not in the log"
            elif rows[seen].entry != entry or rows[seen].edits[it.side] != edit:
                yield f"stream {stream} of {it.side}: record {seen} came as another one than in the log"
        if number != len(history.rows):
            yield f"stream {stream} of {it.side}: it ends at {number}, and the log at {len(history.rows)}"


def _copies(history: History) -> "Iterator[str]":
    for stream, it in enumerate(history.seen):
        if it.document != history.documents[it.side]:
            yield f"the copy of stream {stream} is not the {it.side} document"


def _store(history: History) -> "Iterator[str]":
    if history.stored != history.payloads:
        yield f"the exported store has {len(history.stored)} changes, and the log {len(history.payloads)}, or they differ"
