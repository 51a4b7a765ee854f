"""Requests that mean harm: each is refused clearly, nothing is lost, and the memory of the worker stays bounded."""

from __future__ import annotations

import asyncio
import gzip
import json
import random
import socket
import time
from collections import Counter
from typing import Any

from editlens_client import Client, Refusal

from .fleet import Worker
from .load import PROGRAM
from .room import Room

COUNT, AT_ONCE = 10_000, 60
FORM = 60
"""Seconds of the run of many clients above which the long form is wanted."""
MOST_GROWN = 200 << 20
WORDS = b"pairs hubs left right edits changes undo store history .. %00 %2e%2e views 0 desk program \xff\xfe".split()
METHODS = [b"GET", b"PUT", b"POST", b"POST", b"POST", b"PATCH", b"PATCH", b"DELETE", b"OPTIONS", b"FOO"]


def _bodies(chance: random.Random) -> "list[bytes]":
    deep = chance.randrange(50, 60_000)
    return [
        b"", b"{", b"[]", b"null", b"\x00" * 50, b'{"program":5}', b'{"program":"main"}', b'{"count":-1}', b'{"count":1e400}', b'{"count":true}',
        b"[" * deep, b"[" * deep + b"]" * deep, b'{"a":' * deep, b'"' + b"\xc3" * 40 + b'"', b'[{"at":["hours",[{"add":%d}]]}]' % 10**40,
        b'{"side":"left","edit":[{"ins":99999999999}]}', b'{"group":[' + b'{"side":"left","edit":[]},' * 50 + b"]}", b"\n" * 1_000,
        b'[{"op":"add","path":"/plan/-","value":' + b"[" * 500 + b"]" * 500 + b"}]", b'[{"op":"test"}]', b'[{"op":"move","from":"/x","path":"/x/y"}]',
        b"EDLENS1\n\x01\xff\xff\xff\xff\xff\xff\xff\xff", b"EDLENS1\n\x00", b"EDLENS1\n\x01\x02\x00\x00\x00\x00\x00\x00\x00{}\x00",
        json.dumps({"program": "main " + "then(" * chance.randrange(3_000)}).encode(),
        json.dumps({"program": PROGRAM, "left": {"hours": 1, "plan": [{}]}}).encode(),
    ]


def _request(chance: random.Random, name: str) -> bytes:
    """A request that is wrong in some way."""
    kind = chance.choice([b"application/json", b"application/json-patch+json", b"application/x-ndjson", b"application/vnd.editlens.store", b"x", b""])
    path = chance.choice([
        b"/pairs/%s/%s/edits" % (name.encode(), chance.choice([b"left", b"right", b"up"])), b"/pairs/%s/left" % name.encode(),
        b"/pairs/%s/undo" % name.encode(), b"/pairs/x%d" % chance.randrange(9), b"/pairs/y%d/store" % chance.randrange(9), b"/hubs/h/edits",
        b"/" + b"/".join(chance.choice(WORDS) for _ in range(chance.randrange(1, 6))), b"/pairs/%s/left/changes?after=-1" % name.encode(),
        b"/pairs/%s/left/history?after=%s" % (name.encode(), chance.choice([b"x", b"9" * 30, b"1"])), b"*", b"/" + b"a" * chance.randrange(9_000),
    ])
    token = chance.choice([b"all", b"all", b"other", b"nobody", b"", b"\xff"])
    body = chance.choice(_bodies(chance))
    headers = [b"Host: x", b"Connection: close", b"Authorization: Bearer " + token, b"Content-Type: " + kind]
    headers += chance.choice([[], [], [b"If-Match: x"], [b'If-Match: "%d"' % 10**17], [b"Idempotency-Key: " + b"k" * chance.randrange(400)],
                              [b"Last-Event-ID: -4"], [b"Content-Encoding: gzip"], [b"Content-Length: -5"], [b"Expect: 100-continue"]])
    length = chance.choice([len(body), len(body), len(body), len(body) + 7, 10**12])
    headers.append(b"Content-Length: %d" % length)
    return chance.choice(METHODS) + b" " + path + b" HTTP/1.1\r\n" + b"\r\n".join(headers) + b"\r\n\r\n" + body


async def _status(port: int, request: bytes) -> int:
    """The status of the response to a request, or 0 where the connection was closed without one."""
    reader, writer = await asyncio.open_connection("127.0.0.1", port)
    try:
        writer.write(request)
        said = await asyncio.wait_for(reader.readline(), 60)
        while said.startswith(b"HTTP/1.1 100"):
            await reader.readline()
            said = await asyncio.wait_for(reader.readline(), 60)
    except ConnectionError:
        return 0
    finally:
        writer.transport.abort()
    return int(said.split(b" ")[1]) if said.startswith(b"HTTP/1") else 0


async def _statuses(port: int, requests: "list[bytes]") -> "list[int]":
    """The statuses of the responses to requests, many at once."""
    turns = asyncio.Semaphore(AT_ONCE)

    async def one(request: bytes) -> int:
        async with turns:
            return await _status(port, request)

    return await asyncio.gather(*map(one, requests))


def _ready(room: Room) -> "tuple[str, Any, Any]":
    name = room.name("hostile")
    room.client().make(name, PROGRAM)
    left = room.client(1).pair(name, "left")
    left.edit([{"at": ["hours", [{"set": 5}]]}])
    return name, left, room.workers[0]


def test_malformed_requests(room: Room) -> None:
    """Requests at random, 10,000 in the long form: none is a fault of the service, and the log has what was well after all, without a gap."""
    name, left, worker = _ready(room)
    chance = random.Random(room.seed)
    held = worker.memory()
    count = COUNT if room.seconds > FORM else COUNT // 5
    requests = [_request(chance, name) for _ in range(count)]
    statuses = asyncio.run(_statuses(worker.port, requests))
    counts = Counter(statuses)
    assert worker.process.poll() is None, "the worker has ended"
    wrong = [(status, request[:300]) for status, request in zip(statuses, requests) if status >= 500]
    assert not wrong, (counts, wrong[:3])
    assert sum(found for it, found in counts.items() if 400 <= it < 500) > count * 0.9, counts
    assert worker.memory() < held + MOST_GROWN, (held, worker.memory())
    number = left.read()[1]
    assert [it["number"] for it in left.history()] == list(range(1, number + 1))[:100]
    assert left.edit([{"at": ["hours", [{"add": 1}]]}]).number == number + 1


def _head(name: str, more: bytes) -> bytes:
    return b"POST /pairs/%s/left/edits HTTP/1.1\r\nHost: x\r\nAuthorization: Bearer all\r\nContent-Type: application/x-ndjson\r\n%s\r\n\r\n" % (name.encode(), more)


def test_a_body_that_is_too_large(room: Room) -> None:
    """A body over the limit is refused when the limit is reached, told by its length or not."""
    name, left, worker = _ready(room)
    held = worker.memory()
    assert asyncio.run(_status(worker.port, _head(name, b"Content-Length: 99999999"))) == 413
    with socket.create_connection(("127.0.0.1", worker.port), timeout=60) as there:
        there.sendall(_head(name, b"Transfer-Encoding: chunked"))
        sent = 0
        try:
            while sent < 64 << 20:
                there.sendall(b"10000\r\n" + b" " * 65536 + b"\r\n")
                sent += 65536
            said = b""
        except ConnectionError:
            said = b"cut"
        else:
            said = there.recv(64)
    assert said == b"cut" or b" 413 " in said, said
    assert worker.memory() < held + (64 << 20)
    assert left.read()[1] == 1


def test_a_body_that_never_ends(room: Room) -> None:
    """A body that does not come in time is refused, and other requests go on meanwhile."""
    name, left, worker = _ready(room)
    with socket.create_connection(("127.0.0.1", worker.port), timeout=60) as there:
        there.sendall(_head(name, b"Transfer-Encoding: chunked") + b"1\r\n[\r\n")
        begin = time.monotonic()
        assert room.client(0).pair(name, "left").edit([{"at": ["hours", [{"add": 1}]]}]).number == 2
        assert b" 408 " in there.recv(64)
    assert 2 < time.monotonic() - begin < 40


def test_a_packed_body(room: Room) -> None:
    """A body is never unpacked."""
    name, left, worker = _ready(room)
    body = gzip.compress(b" " * (50 << 20))
    assert asyncio.run(_status(worker.port, _head(name, b"Content-Encoding: gzip\r\nContent-Length: %d" % len(body)) + body)) == 415


def test_a_slow_stream_is_cut(room: Room) -> None:
    """A client that takes nothing loses its stream, and the worker holds little of what it did not take. It catches up by number."""
    name, left, worker = _ready(room)
    text = "x" * 200_000
    held = worker.memory()
    with socket.socket() as there:
        there.setsockopt(socket.SOL_SOCKET, socket.SO_RCVBUF, 4096)
        there.connect(("127.0.0.1", worker.port))
        there.sendall(b"GET /pairs/%s/right/changes?after=0 HTTP/1.1\r\nHost: x\r\nAuthorization: Bearer all\r\n\r\n" % name.encode())
        right, cut = room.client(1).pair(name, "right"), 0
        for number in range(60):
            right.edit([{"at": ["color", [{"set": f"{number}{text}"}]]}])
        deadline = time.monotonic() + 60
        while not cut and time.monotonic() < deadline:
            cut = int(_metric(worker.port, b"editlens_cut_streams_total"))
            time.sleep(0.2)
    assert cut, "the stream goes on"
    assert worker.memory() < held + (100 << 20), (held, worker.memory())
    numbers = [event.data["number"] for _, event in zip(range(58), room.client(0).pair(name, "right").changes(3))]
    assert numbers == list(range(4, 62)), numbers


def test_too_many_lines(room: Room) -> None:
    """A request with more lines than are taken at once is refused, and none of them is stored."""
    name, left, worker = _ready(room)
    lines = b"\n".join([b'[{"at":["hours",[{"add":1}]]}]'] * 51)
    assert asyncio.run(_status(worker.port, _head(name, b"Content-Length: %d" % len(lines)) + lines)) == 413
    assert left.read() == ({"hours": 5, "plan": []}, 1)


def test_too_many_streams(room: Room) -> None:
    """A worker takes no more streams than its limit, says so, and takes one again when another has ended. Edits go on meanwhile."""
    name, left, _ = _ready(room)
    with Worker(room.postgres.dsn, "--without-tokens", "--limit-streams", "3") as worker:
        streams = [socket.create_connection(("127.0.0.1", worker.port), timeout=60) for _ in range(4)]
        for number, there in enumerate(streams):
            there.sendall(b"GET /pairs/%s/left/changes?after=0 HTTP/1.1\r\nHost: x\r\n\r\n" % name.encode())
            said = there.recv(4096)
            assert said.startswith(b"HTTP/1.1 503" if number == 3 else b"HTTP/1.1 200"), said
        while b"too many streams" not in said:
            piece = streams[3].recv(4096)
            assert piece, said
            said += piece
        assert b"Retry-After" in said, said
        document = Client(worker.address).pair(name, "left")
        assert document.edit([{"at": ["hours", [{"add": 1}]]}]).number == 2
        streams.pop(0).close()
        deadline = time.monotonic() + 60
        while (event := _first_event(document)) is None:
            assert time.monotonic() < deadline, "no stream is taken any more"
            time.sleep(0.2)
        assert event.data["number"] == 1
        for there in streams:
            there.close()


def _first_event(document: Any) -> Any:
    """The first event of a document. None where no stream is taken."""
    try:
        return next(iter(document.changes(0)))
    except Refusal as why:
        assert why.status == 503, why
        return None


def _metric(port: int, name: bytes) -> bytes:
    with socket.create_connection(("127.0.0.1", port), timeout=60) as there:
        there.sendall(b"GET /metrics HTTP/1.1\r\nHost: x\r\nConnection: close\r\n\r\n")
        said = b""
        while piece := there.recv(65536):
            said += piece
    return next(line.split(b" ")[1] for line in said.splitlines() if line.startswith(name + b" "))
