"""The client for asyncio. It has the calls of `Client`, to be awaited."""

from __future__ import annotations

import asyncio
import time
from typing import Any, AsyncIterator

import aiohttp

from . import wire
from .wire import Answer, Call, Copy, Event, Events, Lost, Refusal

FAULTS = (aiohttp.ClientError, asyncio.TimeoutError, OSError)


class AsyncClient:
    """The service at an address, for `async with`."""

    def __init__(self, address: str, token: "str | None" = None, patience: float = wire.PATIENCE, seconds: float = wire.SILENCE) -> None:
        self.address, self.token, self.patience, self.seconds = address.rstrip("/"), token, patience, seconds
        self.session: "aiohttp.ClientSession | None" = None

    async def __aenter__(self) -> "AsyncClient":
        self.session = aiohttp.ClientSession(connector=aiohttp.TCPConnector(limit=0), timeout=aiohttp.ClientTimeout(total=None, sock_read=self.seconds))
        return self

    async def __aexit__(self, *_: object) -> None:
        assert self.session
        await self.session.close()

    def pair(self, name: str, side: str) -> "AsyncDocument":
        """A side of a pair."""
        return AsyncDocument(self, "pair", name, side)

    def hub(self, name: str, view: "int | None" = None) -> "AsyncDocument":
        """The document of a hub, or a view of it."""
        return AsyncDocument(self, "hub", name, "hub" if view is None else str(view))

    async def make(self, name: str, program: str, **documents: Any) -> Any:
        """Makes a pair of a program, and `left`, `right`, both or none. `forms` has the form files."""
        body = wire.write({"program": program, **documents})
        return await self.ask(wire.change("PUT", wire.path_of("pair", name), "application/json", body, None, None))

    async def make_hub(self, name: str, programs: "list[str]", **more: Any) -> Any:
        """Makes a hub of the programs of its views."""
        body = wire.write({"programs": programs, **more})
        return await self.ask(wire.change("PUT", wire.path_of("hub", name), "application/json", body, None, None))

    async def undo(self, name: str, count: int = 1, expected: "int | None" = None, key: "str | None" = None, kind: str = "pair") -> Answer:
        """Takes the last changes of a pair back, or of a hub, if that is the kind."""
        call = wire.change("POST", wire.path_of(kind, name, rest="/undo"), "application/json", wire.write({"count": count}), expected, key)
        return wire.answer_of(await self.ask(call))

    async def group(
        self, name: str, *entries: "tuple[Any, Any]", expected: "int | None" = None, key: "str | None" = None, kind: str = "pair"
    ) -> Answer:
        """Sends edits that are accepted together or not at all, each behind its side; or, of a hub, behind `hub` or the number of a view."""
        return wire.answer_of(await self.ask(wire.group(kind, name, entries, expected, key)))

    async def store(self, name: str) -> bytes:
        """The file of a store with the log of a pair."""
        return (await self.send(Call("GET", wire.path_of("pair", name, rest="/store"))))[1]

    async def ask(self, call: Call) -> Any:
        """Sends a request, again where no answer comes, and returns the tree of the response."""
        return (await self.send(call))[2]

    async def send(self, call: Call) -> "tuple[Any, bytes, Any]":
        """Sends a request, and returns the headers, the body and the tree of the response."""
        end, turn = time.monotonic() + self.patience, 0
        while True:
            try:
                return await self._try(call)
            except FAULTS as why:
                said: Exception = why
            except Refusal as why:
                if why.status not in wire.AGAIN:
                    raise
                said = why
            if time.monotonic() > end:
                raise Lost(f"{type(said).__name__}: {said}") from said
            await asyncio.sleep(wire.PAUSES[min(turn, len(wire.PAUSES) - 1)])
            turn += 1

    async def _try(self, call: Call) -> "tuple[Any, bytes, Any]":
        assert self.session
        headers = wire.headers_of(self.token, call.headers)
        async with self.session.request(call.method, self.address + call.path, data=call.body, headers=headers) as response:
            body = await response.read()
            is_json = response.content_type.endswith("json")
            return response.headers, body, wire.read(response.status, body) if is_json or response.status >= 400 else None


class AsyncDocument:
    """A document of a pair or a hub."""

    def __init__(self, client: AsyncClient, kind: str, name: str, document: str) -> None:
        self.client, self.kind, self.name, self.document = client, kind, name, document

    def path(self, rest: str = "") -> str:
        """The path of the document."""
        return wire.path_of(self.kind, self.name, self.document, rest)

    async def read(self) -> "tuple[Any, int]":
        """The document with the number of its state."""
        headers, _, tree = await self.client.send(Call("GET", self.path()))
        return tree, wire.number_of(headers.get("ETag"))

    async def edit(self, edit: Any, expected: "int | None" = None, key: "str | None" = None, strict: bool = False) -> Answer:
        """Sends an edit. Raises Refusal. `expected` is the number of the state that it is made for.

        It is carried from there to the newest state, or refused with a cause. A strict one is refused unless that state is the newest.
        """
        call = wire.change("POST", self.path("/edits"), "application/x-ndjson", wire.write(edit), expected, key, strict)
        return wire.answer_of(await self.client.ask(call))

    async def patch(self, patch: Any, expected: "int | None" = None, key: "str | None" = None, strict: bool = False) -> Answer:
        """Sends a JSON Patch."""
        call = wire.change("PATCH", self.path(), "application/json-patch+json", wire.write(patch), expected, key, strict)
        return wire.answer_of(await self.client.ask(call))

    async def history(self, after: int = 0) -> "list[dict[str, Any]]":
        """Changes behind a number."""
        return (await self.client.ask(Call("GET", self.path(f"/history?after={after}"))))["changes"]

    async def changes(self, after: int) -> "AsyncIterator[Event]":
        """The events behind a number, until the connection is lost. `follow` goes on after that."""
        assert self.client.session
        headers = wire.headers_of(self.client.token, {"Last-Event-ID": str(after)})
        async with self.client.session.get(self.client.address + self.path("/changes"), headers=headers) as response:
            if response.status != 200:
                wire.read(response.status, await response.read())
            events = Events()
            async for piece in response.content.iter_any():
                for event in events.feed(piece):
                    yield event

    async def copy(self) -> Copy:
        """A copy of the document as it is now."""
        ty = wire.type_of(await self.client.ask(Call("GET", wire.path_of(self.kind, self.name))), self.document)
        return Copy(ty, *await self.read())

    async def follow(self) -> "AsyncIterator[Copy]":
        """A copy of the document, after each change. It goes on after a lost connection, and ends where the document is removed."""
        copy, turn = await self.copy(), 0
        yield copy
        while True:
            try:
                async for event in self.changes(copy.number):
                    turn = 0
                    if event.kind == "end":
                        return
                    if copy.take(event):
                        copy = await self.copy()
                    yield copy
            except FAULTS:
                pass
            except Refusal as why:
                if why.status not in wire.AGAIN:
                    raise
            await asyncio.sleep(wire.PAUSES[min(turn, len(wire.PAUSES) - 1)])
            turn += 1
