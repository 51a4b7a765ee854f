"""Bearer tokens: who a request is of, and what it may do. Only the SHA-256 of a token is kept, in a file or in the table `tokens`.

A right is an object: `on` is a pattern of names as `pairs/shop-*` or `hubs/*`, `documents` a list of sides or views or `"all"`, and `may` a
list of `read`, `edit` and `manage`. To manage is to make, remove, import and export, to change the program, and to see the complement.
"""

from __future__ import annotations

import hashlib
import json
import os
import time
from dataclasses import dataclass
from fnmatch import fnmatchcase
from typing import Any

from . import tables
from .database import Database
from .problems import NoToken, NotAllowed

ACTIONS = ("read", "edit", "manage")
KEPT_SECONDS = 10.0
MOST_KEPT = 10_000


def digest_of(token: str) -> str:
    """What is kept of a token."""
    return hashlib.sha256(token.encode(errors="surrogateescape")).hexdigest()


def read_rights(tree: Any) -> "list[dict[str, Any]]":
    """The rights of a tree of JSON. Raises ValueError."""
    if not isinstance(tree, list):
        raise ValueError("rights are a list")
    for it in tree:
        if not isinstance(it, dict) or set(it) != {"on", "documents", "may"} or not isinstance(it["on"], str):
            raise ValueError(f'a right has exactly the members "on", "documents" and "may": {json.dumps(it)}')
        if it["documents"] != "all" and not (isinstance(it["documents"], list) and all(isinstance(name, str) for name in it["documents"])):
            raise ValueError('"documents" is "all" or a list of names')
        if not isinstance(it["may"], list) or not set(it["may"]) <= set(ACTIONS):
            raise ValueError(f'"may" is a list of {", ".join(ACTIONS)}')
    return tree


@dataclass(frozen=True)
class Who:
    """The author of a request with the rights of its token."""

    author: str
    rights: "tuple[dict[str, Any], ...]"

    def may(self, action: str, kind: str, name: str, document: "str | None" = None) -> bool:
        """Whether the token gives a right. Without a document, the right on all documents is asked for."""
        for it in self.rights:
            documents = it["documents"]
            if fnmatchcase(f"{kind}s/{name}", it["on"]) and action in it["may"] and (documents == "all" or document in documents):
                return True
        return False

    def need(self, action: str, kind: str, name: str, *documents: str) -> None:
        """Raises NotAllowed where a right is missing: on each document, or on all if none is named."""
        for document in documents or (None,):
            if not self.may(action, kind, name, document):
                raise NotAllowed(f"to {action} {document or 'all'} of {kind}s/{name} is not a right of this token")


EVERYBODY = Who("anyone", ({"on": "*", "documents": "all", "may": list(ACTIONS)},))


class Tokens:
    """The tokens that a worker knows."""

    def __init__(self, database: Database, path: "str | None", is_open: bool) -> None:
        self.database, self.path, self.is_open = database, path, is_open
        self.of_file: "dict[str, Who]" = {}
        self.read_at: "tuple[int, int] | None" = None
        self.kept: "dict[str, tuple[float, Who | None]]" = {}

    async def who(self, header: "str | None") -> Who:
        """Who a request is of, by its Authorization. Raises NoToken."""
        if self.is_open:
            return EVERYBODY
        scheme, _, token = (header or "").partition(" ")
        if scheme.lower() != "bearer" or not token.strip():
            raise NoToken("send the header Authorization: Bearer TOKEN")
        digest = digest_of(token.strip())
        found = self._from_file().get(digest) or await self._from_table(digest)
        if found is None:
            raise NoToken("the token is not known, or has ended")
        return found

    def _from_file(self) -> "dict[str, Who]":
        """The tokens of the file, which is read again when it has changed."""
        if self.path is None:
            return self.of_file
        stat = os.stat(self.path)
        if self.read_at != (stat.st_mtime_ns, stat.st_size):
            with open(self.path, encoding="utf-8") as file:
                rows = json.load(file)
            self.of_file = {it["sha256"]: Who(it["author"], tuple(read_rights(it["rights"]))) for it in rows}
            self.read_at = (stat.st_mtime_ns, stat.st_size)
        return self.of_file

    async def _from_table(self, digest: str) -> "Who | None":
        """A token of the table. What was found is kept for some seconds, so a token that is taken away ends that much later."""
        until, found = self.kept.get(digest, (0.0, None))
        if until > time.monotonic():
            return found
        row = await self.database.row(tables.TOKEN, digest)
        found = Who(row["author"], tuple(read_rights(json.loads(row["rights"])))) if row else None
        if len(self.kept) >= MOST_KEPT:
            self.kept.clear()
        self.kept[digest] = (time.monotonic() + KEPT_SECONDS, found)
        return found
