"""What a request says: its body, its headers, and what it is about."""

from __future__ import annotations

import asyncio
import hashlib
import re
import uuid
from dataclasses import dataclass
from typing import Any

from aiohttp import web

from editlens.json_text import NotJson, read_json

from .. import tables
from ..drafts import Change, Work
from ..engine import HUB, SIDES
from ..keeper import Keeper
from ..database import Database
from ..feeds import Feeds
from ..metrics import Metrics
from ..problems import NotFound, NotTaken, Problem, TooLarge, TooSlow
from ..settings import Settings
from ..tokens import Tokens, Who

NAME = re.compile(r"[A-Za-z0-9][A-Za-z0-9._~-]{0,127}$")
KEY = re.compile(r"[\x21-\x7e]{1,200}$")
ETAG = re.compile(r'"(\d{1,18})"$')
MOST_NAMES = 100_000


@dataclass
class Service:
    """What the handlers of a worker share."""

    settings: Settings
    database: Database
    keeper: Keeper
    feeds: Feeds
    tokens: Tokens
    metrics: Metrics
    names: "dict[tuple[str, str], tuple[int, str]]"

    async def find(self, kind: str, name: str) -> "tuple[int, str]":
        """The number and the form files of a pair. Raises NotFound."""
        if (kind, name) not in self.names:
            row = await self.database.row(tables.PAIR, kind, name)
            if row is None:
                raise NotFound(f"there is no {kind} {name}")
            if len(self.names) >= MOST_NAMES:
                self.names.clear()
            self.names[kind, name] = row["id"], row["forms"]
        return self.names[kind, name]

    def forget(self, kind: str, name: str) -> None:
        """Forgets the number of a name, which may belong to another pair by now."""
        found = self.names.pop((kind, name), None)
        if found:
            self.keeper.forget(found[0])


SERVICE: str = "editlens.service"


@dataclass(frozen=True)
class About:
    """What a request is about: a pair or a hub, perhaps one of its documents, and who asks."""

    service: Service
    kind: str
    name: str
    document: "str | None"
    who: Who
    pair: int
    forms: str

    def place(self) -> int:
        """The place of the document among the words of a record."""
        if self.kind == "pair":
            return SIDES.index(str(self.document))
        return 0 if self.document == HUB else 1 + int(str(self.document))


def document_of(request: web.Request) -> "str | None":
    """The document that a path names: a side, `hub`, or the number of a view."""
    found = request.match_info.get("side") or request.match_info.get("view")
    return HUB if found is None and request.match_info.get("hub") else found


async def who_of(request: web.Request) -> Who:
    """Who a request is of."""
    return await request.app[SERVICE].tokens.who(request.headers.get("Authorization"))


def names_of(request: web.Request) -> "tuple[str, str]":
    """The kind and the name of a path. Raises NotFound where it is not a name."""
    kind, name = ("pair" if request.path.startswith("/pairs/") else "hub"), request.match_info["name"]
    if not NAME.match(name):
        raise NotFound("a name has from 1 to 128 letters, digits and . _ ~ -, and begins with a letter or a digit")
    return kind, name


async def about(request: web.Request, action: str, *documents: str) -> About:
    """What a request is about, once its token gives the right: on the document of the path, or on those that are named."""
    service: Service = request.app[SERVICE]
    kind, name = names_of(request)
    who, document = await who_of(request), document_of(request)
    who.need(action, kind, name, *(documents or ((document,) if document else ())))
    pair, forms = await service.find(kind, name)
    return About(service, kind, name, document, who, pair, forms)


async def body_of(request: web.Request, most: "int | None" = None) -> bytes:
    """The body of a request, no longer than the limit, and in time."""
    if "body" in request:
        return request["body"]
    limits = request.app[SERVICE].settings.limits
    most = limits.body if most is None else most
    if request.headers.get("Content-Encoding", "identity").lower() != "identity":
        raise NotTaken("a body is taken as it is, without Content-Encoding")
    if (request.content_length or 0) > most:
        raise TooLarge(f"at most {most:,} bytes are taken")
    found = bytearray()
    try:
        async with asyncio.timeout(limits.body_seconds):
            async for piece in request.content.iter_any():
                found += piece
                if len(found) > most:
                    raise TooLarge(f"at most {most:,} bytes are taken")
    except asyncio.TimeoutError:
        raise TooSlow(f"a body is to come within {limits.body_seconds:g} seconds") from None
    request["body"] = bytes(found)
    return request["body"]


def need_type(request: web.Request, *kinds: str) -> None:
    """Raises NotTaken where the body is of another kind. No parameter of a kind matters here, so the header is not read as a whole."""
    kind = request.headers.get("Content-Type", "application/octet-stream").partition(";")[0].strip().lower()
    if kind not in kinds:
        raise NotTaken(f"Content-Type is to be {' or '.join(kinds)}, and not {kind}")


def json_of(body: bytes) -> Any:
    """The tree of a body."""
    try:
        return read_json(body.decode())
    except (NotJson, UnicodeDecodeError) as why:
        raise Problem(f"the body is not JSON: {why}") from None


def member(tree: Any, name: str, kind: type, default: Any = ...) -> Any:
    """A member of a body."""
    if not isinstance(tree, dict):
        raise Problem("the body is to be an object")
    if name not in tree and default is not ...:
        return default
    if type(tree.get(name)) is not kind:
        wanted = {str: "a string", list: "a list", dict: "an object", int: "a whole number", bool: "true or false"}[kind]
        raise Problem(f'the member "{name}" is to be {wanted}', member=name)
    return tree[name]


def expected_of(request: web.Request) -> "int | None":
    """The number of the state for which a request was made, by If-Match."""
    header = request.headers.get("If-Match")
    if header is None or header.strip() == "*":
        return None
    found = ETAG.match(header.strip())
    if not found:
        raise Problem('If-Match is to be the ETag of one state, as "12"')
    return int(found[1])


def is_strict(request: web.Request) -> bool:
    """Whether a request wants to be refused where its state is not the newest: by `Prefer: handling=strict` (RFC 7240)."""
    given = ",".join(request.headers.getall("Prefer", []))
    return any(it.partition(";")[0].replace(" ", "").replace('"', "").lower() == "handling=strict" for it in given.split(","))


def number_of(request: web.Request, name: str, default: int, most: int = 2**53) -> int:
    """A number in the query."""
    text = request.query.get(name)
    if text is None:
        return default
    if not (text.isascii() and text.isdigit() and len(text) < 17):
        raise Problem(f'"{name}" in the query is to be a whole number')
    return min(int(text), most)


def change_of(request: web.Request, who: Who, body: bytes, work: "Work | None" = None, carries: bool = False) -> Change:
    """The change that a request asks for. One without an Idempotency-Key gets a name of its own.

    `carries` says that its work carries what was made for an older state, unless the request is strict.
    """
    given = request.headers.get("Idempotency-Key")
    if given is not None and not KEY.match(given):
        raise Problem("an Idempotency-Key has from 1 to 200 visible ASCII characters")
    key = f"{who.author}/{given or 'unnamed-' + uuid.uuid4().hex}"
    digest = hashlib.sha256(b"\0".join([request.method.encode(), request.path.encode(), body])).hexdigest()
    return Change(key, given is not None, digest, who.author, expected_of(request), work, carries and not is_strict(request))
