"""What both clients send and read."""

from __future__ import annotations

import json
import uuid
from dataclasses import dataclass, field
from typing import Any, Iterator
from urllib.parse import quote

PATIENCE = 30.0
"""Seconds for which a client tries again where the service does not answer."""
PAUSES = (0.05, 0.1, 0.2, 0.5, 1.0)
AGAIN = {408, 425, 429, 502, 503, 504}
SILENCE = 40.0
"""Seconds without a byte after which a stream is taken for lost. The service says every 15 that it is there."""


class Refusal(Exception):
    """A request that the service refuses. `problem` is its body, and `status` the number of HTTP."""

    def __init__(self, status: int, problem: "dict[str, Any]") -> None:
        super().__init__(f"{status}: {problem.get('detail') or problem.get('title') or 'refused'}")
        self.status, self.problem = status, problem


class Lost(Exception):
    """No answer came in time. A change that was sent is stored or not; sent again with the same key it is stored once."""


@dataclass(frozen=True)
class Call:
    """A request."""

    method: str
    path: str
    headers: "dict[str, str]" = field(default_factory=dict)
    body: "bytes | None" = None


@dataclass(frozen=True)
class Answer:
    """An accepted change: the number of its state, the edits of the documents that the token may read, and all of the reply."""

    number: int
    edits: "dict[str, Any]"
    reply: "dict[str, Any]"


def write(tree: Any) -> bytes:
    """The text of a tree."""
    return json.dumps(tree, ensure_ascii=False, separators=(",", ":")).encode()


def headers_of(token: "str | None", more: "dict[str, str]") -> "dict[str, str]":
    """The headers of a request with its token."""
    return {**({"Authorization": f"Bearer {token}"} if token else {}), **more}


def path_of(kind: str, name: str, document: "str | None" = None, rest: str = "") -> str:
    """The path of a pair or a hub, or of a document in it."""
    place = "" if document is None else f"/views/{document}" if document.isdigit() else f"/{document}"
    return f"/{kind}s/{quote(name, safe='')}{place}{rest}"


def change(method: str, path: str, kind: str, body: bytes, expected: "int | None", key: "str | None", strict: bool = False) -> Call:
    """A request that changes something, with a key of its own. A strict one is refused where another state than `expected` is the newest."""
    headers = {"Content-Type": kind, "Idempotency-Key": key or uuid.uuid4().hex}
    if expected is not None:
        headers["If-Match"] = f'"{expected}"'
    if strict:
        headers["Prefer"] = "handling=strict"
    return Call(method, path, headers, body)


def group(kind: str, name: str, entries: "tuple[tuple[Any, Any], ...]", expected: "int | None", key: "str | None") -> Call:
    """A request with a group."""
    at = {"pair": "side", "hub": "at"}[kind]
    line = write({"group": [{at: place, "edit": edit} for place, edit in entries]})
    return change("POST", path_of(kind, name, rest="/edits"), "application/x-ndjson", line, expected, key)


def read(status: int, body: bytes) -> Any:
    """The tree of a response. Raises Refusal."""
    try:
        tree = json.loads(body) if body else None
    except ValueError:
        tree = {"detail": body[:200].decode(errors="replace")}
    if status >= 400:
        raise Refusal(status, tree if isinstance(tree, dict) else {})
    return tree


def answer_of(reply: "dict[str, Any]") -> Answer:
    """The answer to one change."""
    first = reply["answers"][0]
    return Answer(first["number"], first["edits"], reply)


def number_of(etag: "str | None") -> int:
    """The number of a state by its ETag."""
    return int((etag or "").strip('"'))


@dataclass(frozen=True)
class Event:
    """An event of a stream."""

    kind: str
    data: Any


class Events:
    """The events in the bytes of a stream, which come in pieces."""

    def __init__(self) -> None:
        self.rest = b""

    def feed(self, piece: bytes) -> "Iterator[Event]":
        """The events that have ended with this piece."""
        *parts, self.rest = (self.rest + piece).split(b"\n\n")
        for part in parts:
            rows = dict(line.split(b": ", 1) for line in part.split(b"\n") if b": " in line and not line.startswith(b":"))
            if b"data" in rows:
                yield Event(rows.get(b"event", b"message").decode(), json.loads(rows[b"data"]))


class Skipped(Exception):
    """A stream left out a number."""


class Copy:
    """A document that is kept by the changes of a stream alone. `take` follows an event, and returns whether the document is to be read again."""

    def __init__(self, ty: Any, document: Any, number: int) -> None:
        self.type, self.document, self.number = ty, document, number

    def take(self, event: Event) -> bool:
        """Follows an event. Raises Skipped where it is not the next one."""
        from editlens.edits import act

        if event.kind == "reset":
            return True
        number = event.data["number"]
        if number <= self.number:
            return False
        if number != self.number + 1:
            raise Skipped(f"behind {self.number} comes {number}")
        self.document = act(self.type, self.document, event.data["edit"])
        self.number = number
        return False


def type_of(shown: "dict[str, Any]", document: str) -> Any:
    """The type of a document, of what the service shows of its pair."""
    from editlens.types import read_type

    return read_type(shown["types"][document])
