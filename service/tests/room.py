"""What tests share: a PostgreSQL, two workers over it, and tokens."""

from __future__ import annotations

import asyncio
import hashlib
import itertools
import json
import os
import subprocess
import tempfile
from typing import Any

from editlens.program import NoProgram, find_program
from editlens_client import Client
from editlens_service.migrations import migrate

from .fleet import Worker
from .postgres import Postgres

RIGHTS = {
    "all": [{"on": "*", "documents": "all", "may": ["read", "edit", "manage"]}],
    "left": [{"on": "pairs/*", "documents": ["left"], "may": ["read", "edit"]}],
    "writer": [{"on": "pairs/*", "documents": ["left"], "may": ["edit"]}],
    "reader": [{"on": "pairs/*", "documents": ["left", "right"], "may": ["read"]}],
    "other": [{"on": "pairs/other-*", "documents": "all", "may": ["read", "edit", "manage"]}],
}
LIMITS = ("--limit-body", "300000", "--limit-edits", "50", "--limit-body-seconds", "3", "--limit-slow-seconds", "3", "--snapshot-every", "20")


class Skipped(Exception):
    """A test that cannot run here, with the reason."""


class Room:
    """What tests share. It is made when the first test asks for it."""

    def __init__(self, seconds: float, seed: int) -> None:
        self.seconds, self.seed = seconds, seed
        self.postgres: "Postgres | None" = None
        self.workers: "list[Worker]" = []
        self.counter = itertools.count(1)

    def __enter__(self) -> "Room":
        return self

    def __exit__(self, *_: object) -> None:
        for it in self.workers:
            it.close()
        if self.postgres:
            self.postgres.close()

    def serve(self) -> "list[Worker]":
        """Two workers over one database."""
        if not self.workers:
            self.postgres = made_database()
            tokens = os.path.join(tempfile.gettempdir(), "tokens.json")
            with open(tokens, "w", encoding="utf-8") as file:
                json.dump([{"sha256": hashlib.sha256(it.encode()).hexdigest(), "author": it, "rights": RIGHTS[it]} for it in RIGHTS], file)
            self.workers = [Worker(self.postgres.dsn, "--tokens", tokens, *LIMITS) for _ in range(2)]
        return self.workers

    def client(self, number: int = 0, token: "str | None" = "all") -> Client:
        """A client of a worker. A token is named by its rights."""
        return Client(self.serve()[number].address, token, patience=20.0)

    def name(self, begin: str = "pair") -> str:
        """A name that no other test has."""
        return f"{begin}-{next(self.counter)}"

    def said(self) -> str:
        """The end of what the database wrote."""
        return self.postgres.log()[-1500:] if self.postgres else ""


def made_database(**settings: str) -> Postgres:
    """A PostgreSQL with the tables."""
    postgres = Postgres(settings)
    try:
        postgres.make()
        asyncio.run(migrate(postgres.dsn))
    except BaseException:
        postgres.close()
        raise
    return postgres


def program() -> str:
    """The program that verifies stores."""
    try:
        return find_program()
    except NoProgram as why:
        raise Skipped(str(why)) from None


def run_program(folder: str, *words: str) -> str:
    """What the program writes in a folder."""
    return subprocess.run([program(), *words], cwd=folder, capture_output=True, text=True, check=False).stdout


def raises(error: type, call: Any, *given: Any, **more: Any) -> Any:
    """The exception that a call raises. It has to raise one."""
    try:
        found = call(*given, **more)
    except error as why:
        return why
    raise AssertionError(f"it returned {found!r}")
