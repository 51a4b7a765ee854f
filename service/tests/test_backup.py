"""Backups by the programs of PostgreSQL: a dump, and a point in time by the write-ahead log."""

from __future__ import annotations

import asyncio
import os
import tempfile
from typing import Any

from editlens_client import Client, Refusal
from editlens_client.wire import Call
from editlens_service.migrations import migrate

from .fleet import Worker
from .postgres import Postgres
from .room import Room, raises

PROGRAM = "main {a ~ b: id int, left c: text}\n"
ADD = [{"at": ["a", [{"add": 1}]]}]


def test_a_backup(room: Room) -> None:
    """A database that is dumped and restored has each pair as it was, and goes on."""
    name, client = room.name(), room.client()
    client.make(name, PROGRAM)
    for _ in range(25):
        client.pair(name, "left").edit(ADD)
    path = os.path.join(room.postgres.folder, "dump")
    room.postgres.run("pg_dump", "--format", "custom", "--file", path, "editlens")
    room.postgres.make("again")
    room.postgres.run("pg_restore", "--dbname", "again", path)
    with Worker(room.postgres.dsn.replace("/editlens?", "/again?"), "--without-tokens") as worker:
        other = Client(worker.address)
        assert other.pair(name, "right").read() == ({"b": 25}, 25)
        assert other.pair(name, "right").edit([{"at": ["b", [{"add": 1}]]}]).number == 26
        assert other.store(name).startswith(client.store(name)[:-1])


def test_a_point_in_time(room: Room) -> None:
    """A pair was removed by mistake, and the database goes back to the moment before: the pair is as it was then, and edits go on. The stream
    of a client that has seen more is told to read anew."""
    with tempfile.TemporaryDirectory() as folder:
        archive = os.path.join(folder, "archive")
        os.mkdir(archive)
        for it in (folder, archive):
            os.chmod(it, 0o777)
        base = os.path.join(folder, "base")
        with Postgres({"archive_mode": "on", "archive_command": f"cp %p {archive}/%f"}) as postgres:
            postgres.make()
            asyncio.run(migrate(postgres.dsn))
            with Worker(postgres.dsn, "--without-tokens") as worker:
                _until_the_mistake(Client(worker.address), postgres, base)
        recovery = {"restore_command": f"cp {archive}/%f %p", "recovery_target_name": "before", "recovery_target_action": "promote"}
        with Postgres(base=base, recovery=recovery) as postgres, Worker(postgres.dsn, "--without-tokens") as worker:
            _behind_it(Client(worker.address, patience=60.0))


def _until_the_mistake(client: Any, postgres: Postgres, base: str) -> None:
    client.make("kept", PROGRAM)
    left = client.pair("kept", "left")
    for _ in range(3):
        left.edit(ADD)
    postgres.run("pg_basebackup", "--pgdata", base, "--checkpoint", "fast")
    for _ in range(4):
        left.edit(ADD)
    postgres.run("psql", "-qAtc", "SELECT pg_create_restore_point('before')", "editlens")
    for _ in range(2):
        left.edit(ADD)
    client.ask(Call("DELETE", "/pairs/kept"))
    assert raises(Refusal, left.read).status == 404
    postgres.run("psql", "-qAtc", "SELECT pg_switch_wal()", "editlens")


def _behind_it(client: Any) -> None:
    left, right = client.pair("kept", "left"), client.pair("kept", "right")
    assert left.read() == ({"a": 7, "c": ""}, 7)
    event = next(iter(left.changes(9)))
    assert (event.kind, event.data["number"]) == ("reset", 7)
    assert right.edit([{"at": ["b", [{"add": 1}]]}]).number == 8
    assert left.read() == ({"a": 8, "c": ""}, 8)
