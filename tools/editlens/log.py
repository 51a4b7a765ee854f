"""The file of a store: its records, read and written. docs/FORMATS.md has the form of the log.

A `Log` reads a file as the program does. `found` reads on where the program stops, for a store that is refused or cut short by a changed
byte.
"""

from __future__ import annotations

import json
import os
from dataclasses import dataclass
from typing import Iterable, Iterator

from .json_text import NotJson, read_json, write_json
from .store_file import open_regular

MARK = b"EDLENS1\n"
OPEN, CLOSED = b"\x01", b"\x00"
FIRST = len(MARK)
LENGTH = 8
MOST_READ = 2**30
"""More bytes than a record of a store has."""
KINDS = {"program", "version", "entry", "group", "add", "snapshot"}
FIRST_RECORDS = {"program": "program", "hub": "programs"}
"""The kinds of a first record, by its member beside the version: the program of a session, and those of the views of a hub."""


def kind_of(payload: bytes) -> str | None:
    """The kind of a record by the form of its payload, or None if it has that of no record. Its contents are not looked at."""
    try:
        tree = read_json(payload.decode())
    except (NotJson, UnicodeDecodeError):
        return None
    if not isinstance(tree, dict):
        return None
    if len(tree) == 2 and "version" in tree:
        return FIRST_RECORDS.get(next(it for it in tree if it != "version"))
    if set(tree) == {"at", "edit"}:
        return "edit"
    return next(iter(tree)) if len(tree) == 1 and set(tree) <= KINDS else None


def is_change(payload: bytes) -> bool:
    """Whether a record is a change, which the program counts."""
    return kind_of(payload) in ("entry", "edit", "group")


def escaped(text: str) -> str:
    """A text with an escape of JSON for each character that a terminal would not show, or would obey."""
    return "".join(it if it.isprintable() else json.dumps(it)[1:-1] for it in text)


def printable(data: bytes) -> str:
    """Bytes as text, with a ? for what a terminal would not show."""
    return "".join(it if it.isprintable() else "?" for it in data.decode(errors="replace"))


def number_of(count: int, name: str) -> str:
    """A count with the name of what is counted."""
    return f"{count} {name}" if count == 1 else f"{count} {name}s"


def told(payload: bytes, most: int | None = 100) -> str:
    """What a record says, in a line of so many characters at most, or of any number if that is None."""
    kind = kind_of(payload)
    if kind is None:
        said = "not a record: " + printable(payload)
    else:
        said = escaped(_told(kind, read_json(payload.decode())))
    return said if most is None or len(said) <= most else said[: most - 2] + ".."


def _told(kind, tree):
    content = tree.get(kind)
    if kind in ("program", "version", "add"):
        return f"{kind} {content}".replace("\n", " ")
    if kind == "programs":
        return f"{kind} {write_json(tree['hub'])}"
    if kind == "snapshot":
        return "snapshot " + write_json(content)
    try:
        edits = content if kind == "group" else [tree if kind == "edit" else content]
        return kind + "".join(f" {_place(it)} {write_json(it['edit'])}" for it in edits)
    except (TypeError, KeyError):
        return f"{kind} {write_json(tree)}"


def _place(edit):
    """The document that is edited: a side, or the hub or a view of it."""
    if "side" in edit:
        return edit["side"]
    return "hub" if edit["at"] == "hub" else f"view {edit['at']}"


@dataclass(frozen=True)
class Span:
    """Where a record is: the place of its gate, and the length of its payload."""

    at: int
    length: int

    @property
    def payload(self) -> int:
        """The place of the payload."""
        return self.at + 1 + LENGTH

    @property
    def end(self) -> int:
        """The place of the next gate."""
        return self.payload + self.length


@dataclass(frozen=True)
class Found:
    """A record that was found in a file: its payload, or None where that is not readable, and what was wrong around it."""

    span: Span
    payload: "bytes | None"
    faults: tuple = ()


class Log:
    """The records of a file that is a store, and where they are.

    A record is read after its gate was seen open. A writer opens a gate when the record behind it is complete. So the records are those
    that the store had at one moment, also if a program stores more of them meanwhile.
    """

    def __init__(self, path: str) -> None:
        self._file = open_regular(path)
        try:
            self.has_mark = self.read(0, FIRST) == MARK
            self.spans, self.end, self.is_cut = self._walk()
        except BaseException:
            self.close()
            raise

    def __enter__(self) -> Log:
        return self

    def __exit__(self, *_: object) -> None:
        self.close()

    def close(self) -> None:
        """Closes the file."""
        self._file.close()

    def read(self, at: int, count: int) -> bytes:
        """The bytes from a place on: fewer than `count` if the file ends."""
        parts = []
        while count:
            part = os.pread(self._file.fileno(), min(count, MOST_READ), at)
            if not part:
                break
            parts.append(part)
            at, count = at + len(part), count - len(part)
        return b"".join(parts)

    @property
    def size(self) -> int:
        """How many bytes the file has now."""
        return os.fstat(self._file.fileno()).st_size

    def _walk(self):
        spans, at = [], FIRST
        while True:
            gate = self.read(at, 1)
            if gate != OPEN:
                return spans, at, not gate
            span = self._span(at)
            if span is None or span.end >= self.size:
                return spans, at, True
            spans.append(span)
            at = span.end

    def _span(self, at):
        length = self.read(at + 1, LENGTH)
        return Span(at, int.from_bytes(length, "little")) if len(length) == LENGTH else None

    def gate(self, at: int) -> int:
        """The byte at a place."""
        return self.read(at, 1)[0]

    def payload(self, span: Span) -> bytes:
        """The payload of a record."""
        if span.length > MOST_READ:
            raise OSError(f"the record at byte {span.at} has {span.length:,} bytes, and a record has no more than {MOST_READ:,}")
        return self.read(span.payload, span.length)

    def payloads(self, count: int | None = None) -> Iterator[bytes]:
        """The payloads of the first records, or of all."""
        return (self.payload(it) for it in self.spans[:count])

    def length_at(self, at: int) -> int | None:
        """What the length behind a gate says, or None if the file ends in it."""
        span = self._span(at)
        return span and span.length

    def found(self) -> Iterator[Found]:
        """The records that can be read, as Found, where a changed length or a changed gate is passed over."""
        at = FIRST
        while True:
            gate = self.read(at, 1)
            record = self._found(at, gate)
            if record is None:
                return
            yield record
            at = record.span.end

    def _found(self, at, gate):
        """The record behind a gate. One that is not readable is passed over only if its gate is open and its length leads to a gate."""
        faults = () if gate == OPEN else ("gate",)
        span = self._span(at)
        if not gate or span is None:
            return None
        is_framed = span.end < self.size
        if is_framed and span.length <= MOST_READ:
            payload = self.payload(span)
            if kind_of(payload):
                return Found(span, payload, faults)
        payload = self._by_json(span.payload)
        if payload is not None:
            return Found(Span(at, len(payload)), payload, (*faults, "length"))
        if is_framed and not faults and self.read(span.end, 1) in (OPEN, CLOSED):
            return Found(span, None, ("payload",))
        return None

    def _by_json(self, at):
        """The payload that begins at a place, by where its JSON text ends; or None if no record's payload begins there."""
        if self.read(at, 1) != b"{":
            return None
        rest = self.read(at, min(self.size - at, MOST_READ)).decode(errors="surrogateescape")
        try:
            _, count = json.JSONDecoder().raw_decode(rest)
        except (ValueError, RecursionError):
            return None
        payload = rest[:count].encode(errors="surrogateescape")
        return payload if kind_of(payload) and self.read(at + len(payload), 1) else None


def write_log(path: str, payloads: Iterable[bytes]) -> None:
    """Writes a new file with these records, and syncs it. The file must not be there."""
    with open(path, "xb") as file:
        file.write(MARK)
        for payload in payloads:
            file.write(OPEN + len(payload).to_bytes(LENGTH, "little") + payload)
        file.write(CLOSED)
        file.flush()
        os.fsync(file.fileno())


def sync_folder(folder: str) -> None:
    """Syncs a folder, so that the names in it last."""
    held = os.open(folder, os.O_RDONLY)
    try:
        os.fsync(held)
    finally:
        os.close(held)
