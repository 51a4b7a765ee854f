"""Tokens, and what a worker says of itself."""

from __future__ import annotations

import json
import os
import subprocess
import urllib.request

from editlens_client import Client, Refusal
from editlens_client.wire import Call, change, write

from .fleet import PYTHON, SERVICE
from .load import PROGRAM
from .room import Room, raises

HOURS = [{"at": ["hours", [{"add": 1}]]}]


def test_rights_by_pair_and_side(room: Room) -> None:
    """A token does what its rights say, and sees no words of a side that it may not read."""
    name = room.name()
    room.client().make(name, PROGRAM)
    for token in (None, "nobody"):
        assert raises(Refusal, room.client(0, token).pair(name, "left").read).status == 401
    left = room.client(0, "left")
    answer = left.pair(name, "left").edit(HOURS)
    assert set(answer.edits) == {"left"}, answer
    for call in (left.pair(name, "right").read, left.pair(name, "right").history):
        assert raises(Refusal, call).status == 403
    assert raises(Refusal, left.pair(name, "right").edit, []).status == 403
    assert raises(Refusal, left.undo, name).status == 403
    assert raises(Refusal, left.store, name).status == 403
    assert raises(Refusal, left.make, name, PROGRAM).status == 403
    reader = room.client(0, "reader")
    assert reader.pair(name, "right").read()[1] == 1
    assert raises(Refusal, reader.pair(name, "left").edit, HOURS).status == 403
    other = room.client(0, "other")
    for call in (other.pair(name, "left").read, other.pair("none-such", "left").read):
        assert raises(Refusal, call).status == 403
    mine = room.name("other")
    other.make(mine, PROGRAM)
    assert mine in other.ask(Call("GET", "/pairs"))["names"] and name not in other.ask(Call("GET", "/pairs"))["names"]


def test_tokens_of_the_table(room: Room) -> None:
    """service/manage makes a token, and only its digest is stored."""
    name = room.name()
    room.client().make(name, PROGRAM)
    words = [PYTHON, os.path.join(SERVICE, "manage"), "--database", room.postgres.dsn, "token", "ann", f"pairs/{name}", "left", "read", "edit"]
    token = subprocess.run(words, capture_output=True, text=True, check=True).stdout.strip()
    client = Client(room.workers[1].address, token)
    client.pair(name, "left").edit(HOURS)
    assert client.pair(name, "left").history()[0]["author"] == "ann"
    assert raises(Refusal, client.pair(name, "right").read).status == 403
    stored = room.postgres.run("psql", "-Atc", "SELECT digest || rights FROM tokens", "editlens")
    assert token not in stored and len(stored) > 64


def test_migrations_again(room: Room) -> None:
    """The tables may be brought up to date again, by many at once, also of a database that has none yet."""
    room.serve()
    room.postgres.make("fresh")
    words = [PYTHON, os.path.join(SERVICE, "manage"), "--database", room.postgres.dsn.replace("/editlens?", "/fresh?"), "migrate"]
    running = [subprocess.Popen(words, stdout=subprocess.PIPE, text=True) for _ in range(3)]
    said = sorted(it.communicate(timeout=120)[0] for it in running)
    assert said == ["ran 001_tables.sql\n", "the tables are up to date\n", "the tables are up to date\n"], said


def test_what_an_operator_asks(room: Room) -> None:
    """Health, readiness and counts want no token, and tell what happened."""
    name = room.name()
    room.client().make(name, PROGRAM)
    room.client().pair(name, "left").edit(HOURS)
    address = room.workers[0].address
    for path in ("/healthz", "/readyz"):
        with urllib.request.urlopen(address + path) as said:
            assert json.load(said) == {"ok": True}
    with urllib.request.urlopen(address + "/metrics") as said:
        rows = dict(line.rsplit(" ", 1) for line in said.read().decode().splitlines() if not line.startswith("#"))
    assert int(rows["editlens_accepted_changes_total"]) >= 1 and int(rows["editlens_states"]) >= 1
    assert int(rows['editlens_requests_total{method="POST",status="200"}']) >= 1


def test_a_database_that_is_away(room: Room) -> None:
    """While the database is away a request waits; a worker that starts then is alive and not ready."""
    from .fleet import Worker

    with Worker("postgresql://postgres@/editlens?host=/nowhere", "--without-tokens", "--limit-database-seconds", "1") as worker:
        client = Client(worker.address, patience=0.5)
        assert client.ask(Call("GET", "/healthz")) == {"ok": True}
        for call in (Call("GET", "/readyz"), Call("GET", "/pairs/p/left")):
            with_status = raises(Exception, client.ask, call)
            assert "503" in str(with_status), with_status
