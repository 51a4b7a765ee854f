"""A client that waits for its answers, over the standard library alone."""

from __future__ import annotations

import http.client
import time
from typing import Any, Iterator
from urllib.parse import urlsplit

from . import wire
from .wire import Answer, Call, Copy, Event, Events, Lost, Refusal

FAULTS = (OSError, http.client.HTTPException)


class Client:
    """The service at an address. One client is for one thread at a time; streams have connections of their own."""

    def __init__(self, address: str, token: "str | None" = None, patience: float = wire.PATIENCE) -> None:
        self.at, self.token, self.patience = urlsplit(address), token, patience
        self.connection: "http.client.HTTPConnection | None" = None

    def pair(self, name: str, side: str) -> "Document":
        """A side of a pair."""
        return Document(self, "pair", name, side)

    def hub(self, name: str, view: "int | None" = None) -> "Document":
        """The document of a hub, or a view of it."""
        return Document(self, "hub", name, "hub" if view is None else str(view))

    def make(self, name: str, program: str, **documents: Any) -> Any:
        """Makes a pair of a program, and `left`, `right`, both or none. `forms` has the form files."""
        return self.ask(wire.change("PUT", wire.path_of("pair", name), "application/json", wire.write({"program": program, **documents}), None, None))

    def make_hub(self, name: str, programs: "list[str]", **more: Any) -> Any:
        """Makes a hub of the programs of its views."""
        return self.ask(wire.change("PUT", wire.path_of("hub", name), "application/json", wire.write({"programs": programs, **more}), None, None))

    def undo(self, name: str, count: int = 1, expected: "int | None" = None, kind: str = "pair") -> Answer:
        """Takes the last changes of a pair back, or of a hub, if that is the kind."""
        call = wire.change("POST", wire.path_of(kind, name, rest="/undo"), "application/json", wire.write({"count": count}), expected, None)
        return wire.answer_of(self.ask(call))

    def group(self, name: str, *entries: "tuple[Any, Any]", expected: "int | None" = None, kind: str = "pair") -> Answer:
        """Sends edits that are accepted together or not at all, each behind its side; or, of a hub, behind `hub` or the number of a view."""
        return wire.answer_of(self.ask(wire.group(kind, name, entries, expected, None)))

    def store(self, name: str) -> bytes:
        """The file of a store with the log of a pair."""
        return self._send(Call("GET", wire.path_of("pair", name, rest="/store")))[1]

    def ask(self, call: Call) -> Any:
        """Sends a request, again where no answer comes, and returns the tree of the response."""
        return self._send(call)[2]

    def _send(self, call: Call) -> "tuple[Any, bytes, Any]":
        end, turn = time.monotonic() + self.patience, 0
        while True:
            try:
                return self._try(call)
            except FAULTS as why:
                self.close()
                said: Exception = why
            except Refusal as why:
                if why.status not in wire.AGAIN:
                    raise
                said = why
            if time.monotonic() > end:
                raise Lost(str(said)) from said
            time.sleep(wire.PAUSES[min(turn, len(wire.PAUSES) - 1)])
            turn += 1

    def _try(self, call: Call) -> "tuple[Any, bytes, Any]":
        if self.connection is None:
            self.connection = self.connect()
        self.connection.request(call.method, self.at.path + call.path, call.body, wire.headers_of(self.token, call.headers))
        response = self.connection.getresponse()
        body = response.read()
        is_json = response.headers.get_content_type().endswith("json")
        return response.headers, body, wire.read(response.status, body) if is_json or response.status >= 400 else None

    def connect(self) -> http.client.HTTPConnection:
        """A new connection."""
        kind = http.client.HTTPSConnection if self.at.scheme == "https" else http.client.HTTPConnection
        return kind(self.at.hostname or "localhost", self.at.port, timeout=wire.SILENCE)

    def close(self) -> None:
        """Ends the connection. The next request opens another one."""
        if self.connection:
            self.connection.close()
            self.connection = None


class Document:
    """A document of a pair or a hub."""

    def __init__(self, client: Client, kind: str, name: str, document: str) -> None:
        self.client, self.kind, self.name, self.document = client, kind, name, document

    def path(self, rest: str = "") -> str:
        """The path of the document."""
        return wire.path_of(self.kind, self.name, self.document, rest)

    def read(self) -> "tuple[Any, int]":
        """The document with the number of its state."""
        headers, _, tree = self.client._send(Call("GET", self.path()))
        return tree, wire.number_of(headers.get("ETag"))

    def edit(self, edit: Any, expected: "int | None" = None, key: "str | None" = None, strict: bool = False) -> Answer:
        """Sends an edit. Raises Refusal. `expected` is the number of the state that it is made for.

        It is carried from there to the newest state, or refused with a cause. A strict one is refused unless that state is the newest.
        """
        return wire.answer_of(self.client.ask(wire.change("POST", self.path("/edits"), "application/x-ndjson", wire.write(edit), expected, key, strict)))

    def patch(self, patch: Any, expected: "int | None" = None, key: "str | None" = None, strict: bool = False) -> Answer:
        """Sends a JSON Patch."""
        return wire.answer_of(self.client.ask(wire.change("PATCH", self.path(), "application/json-patch+json", wire.write(patch), expected, key, strict)))

    def history(self, after: int = 0) -> "list[dict[str, Any]]":
        """Changes behind a number."""
        return self.client.ask(Call("GET", self.path(f"/history?after={after}")))["changes"]

    def changes(self, after: int) -> "Iterator[Event]":
        """The events behind a number, until the connection is lost. `follow` goes on after that."""
        connection = self.client.connect()
        try:
            connection.request("GET", self.client.at.path + self.path("/changes"), headers=wire.headers_of(self.client.token, {"Last-Event-ID": str(after)}))
            response = connection.getresponse()
            if response.status != 200:
                wire.read(response.status, response.read())
            events = Events()
            while True:
                piece = response.read1(1 << 16)
                if not piece:
                    return
                yield from events.feed(piece)
        finally:
            connection.close()

    def follow(self) -> "Iterator[Copy]":
        """A copy of the document, after each change. It goes on after a lost connection, and ends where the document is removed."""
        ty = wire.type_of(self.client.ask(Call("GET", wire.path_of(self.kind, self.name))), self.document)
        copy = Copy(ty, *self.read())
        yield copy
        turn = 0
        while True:
            try:
                for event in self.changes(copy.number):
                    turn = 0
                    if event.kind == "end":
                        return
                    if copy.take(event):
                        ty = wire.type_of(self.client.ask(Call("GET", wire.path_of(self.kind, self.name))), self.document)
                        copy = Copy(ty, *self.read())
                    yield copy
            except FAULTS:
                pass
            except Refusal as why:
                if why.status not in wire.AGAIN:
                    raise
            time.sleep(wire.PAUSES[min(turn, len(wire.PAUSES) - 1)])
            turn += 1
