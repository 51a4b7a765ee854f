"""Changes as Server-Sent Events. A stream is a number and no queue: a client that is slow is cut, and goes on by that number."""

from __future__ import annotations

import asyncio

from aiohttp import web

from .. import tables
from ..database import Away
from ..feeds import Event, Feed
from ..problems import Overloaded, Problem
from .requests import SERVICE, About, Service, about, number_of

BEAT = 15.0
"""Seconds after which a stream says that it is still there."""


async def changes(request: web.Request) -> web.StreamResponse:
    """The changes of a document as Server-Sent Events, behind `Last-Event-ID` or `?after=`, or from now on.

    `change` has the edit of this document. `reset` says that the document is to be read again, and `end` that it was removed.
    """
    it = await about(request, "read")
    service: Service = request.app[SERVICE]
    position = _position(request)
    newest = (await service.database.rows(tables.NEWEST, it.pair))[0][0]
    if service.metrics.streams >= service.settings.limits.streams:
        raise Overloaded("too many streams are open")
    response = web.StreamResponse(headers={"Cache-Control": "no-cache", "X-Accel-Buffering": "no"})
    response.content_type = "text/event-stream"
    feed = service.feeds.join(it.pair)
    service.metrics.streams += 1
    try:
        await response.prepare(request)
        await _run(it, request, response, feed, position, newest)
    except (ConnectionError, asyncio.CancelledError):
        pass
    finally:
        service.metrics.streams -= 1
        service.feeds.leave(feed)
    return response


def _position(request: web.Request) -> "int | None":
    header = request.headers.get("Last-Event-ID", "")
    if header and not (header.isascii() and header.isdigit() and len(header) < 17):
        raise Problem("Last-Event-ID is to be the number of a state")
    found = [int(header)] if header else []
    if "after" in request.query:
        found.append(number_of(request, "after", 0))
    return max(found) if found else None


async def _run(it: About, request: web.Request, response: web.StreamResponse, feed: Feed, position: "int | None", newest: "int | None") -> None:
    """Sends what comes until the stream ends."""
    service = it.service
    if newest is None:
        await _send(it, request, response, b"event: end\ndata: {}\n\n")
        return
    await _send(it, request, response, b"retry: 1000\n\n")
    if position is None or position > newest:
        await _send(it, request, response, Event(newest, None, "", "", "", "").text(0))
        position = newest
    while not service.feeds.is_closed:
        changed = feed.changed
        try:
            events = await feed.after(position)
        except Away:
            continue
        for event in events:
            if event.kind == "end":
                # The name may belong to another pair by now, which the next stream finds.
                service.forget(it.kind, it.name)
                await _send(it, request, response, b"event: end\ndata: {}\n\n")
                return
            if event.number != position + 1:
                # The log was trimmed before this stream had read it.
                event = Event(event.number, None, "", "", "", "")
            await _send(it, request, response, event.text(it.place()))
            position = event.number
        if not events:
            try:
                await asyncio.wait_for(changed.wait(), BEAT)
            except asyncio.TimeoutError:
                await _send(it, request, response, b": still here\n\n")


async def _send(it: About, request: web.Request, response: web.StreamResponse, text: bytes) -> None:
    """Sends a piece, or cuts a client that takes nothing for too long."""
    try:
        await asyncio.wait_for(response.write(text), it.service.settings.limits.slow_seconds)
    except asyncio.TimeoutError:
        it.service.metrics.cut_streams += 1
        if request.transport:
            request.transport.abort()
        raise ConnectionResetError("the client is too slow") from None
