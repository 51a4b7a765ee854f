"""Refusals, as `application/problem+json` (RFC 9457): each says what is wrong, where, and what to do."""

from __future__ import annotations

import json
from typing import Any

from aiohttp import web

from editlens.causes import CAUSES

KIND = "application/problem+json"


class Problem(Exception):
    """A request that is refused. `more` are further members of the problem."""

    status, slug, title = 400, "bad-request", "The request is not one of this service"

    def __init__(self, detail: str, headers: "dict[str, str] | None" = None, **more: Any) -> None:
        super().__init__(detail)
        self.detail, self.headers, self.more = detail, headers or {}, more

    def tree(self) -> "dict[str, Any]":
        """The body of the response."""
        return {"type": f"urn:editlens:{self.slug}", "title": self.title, "status": self.status, "detail": self.detail, **self.more}

    def response(self) -> web.Response:
        """The response that says so."""
        return web.Response(status=self.status, body=json.dumps(self.tree()).encode(), content_type=KIND, headers=self.headers)


class NoToken(Problem):
    """No token, or one that is not known."""

    status, slug, title = 401, "no-token", "A bearer token is wanted"

    def __init__(self, detail: str) -> None:
        super().__init__(detail, {"WWW-Authenticate": 'Bearer realm="editlens"'})


class NotAllowed(Problem):
    """A token without the right that is wanted."""

    status, slug, title = 403, "not-allowed", "The token does not give this right"


class NotFound(Problem):
    """Nothing has this name."""

    status, slug, title = 404, "not-found", "Nothing has this name"


class Gone(Problem):
    """What was there is no longer."""

    status, slug, title = 410, "gone", "What was asked for is no longer there"


class Conflict(Problem):
    """What is asked for does not go with what is there."""

    status, slug, title = 409, "conflict", "The request does not go with what is there"


class NotNewest(Problem):
    """An edit that was made for an older state."""

    status, slug, title = 412, "not-newest", "The edit was made for another state than the newest"

    def __init__(self, newest: int, **more: Any) -> None:
        detail = f"the newest state is {newest}: read the document again, or take the changes up to there, and send the edit anew"
        super().__init__(detail, {"ETag": f'"{newest}"'}, newest=newest, **more)


class TooLarge(Problem):
    """More bytes than are taken."""

    status, slug, title = 413, "too-large", "The body is too large"


class NotTaken(Problem):
    """A body of a kind that is not taken."""

    status, slug, title = 415, "not-taken", "A body of this kind is not taken"


class Refused(Problem):
    """An edit, a document or a program that editlens refuses."""

    status, slug, title = 422, "refused", "editlens refuses this"


class NotCarried(Refused):
    """An edit that was made for an older state, and has no place in the newest one. `cause` is the word of docs/EDITS.md, or `base`."""

    status, slug, title = 412, "not-carried", "The edit was made for an older state, and is not carried to the newest"

    def __init__(self, cause: str, why: str, newest: int, **more: Any) -> None:
        super().__init__(f"the edit is refused: {why}", {"ETag": f'"{newest}"'}, cause=cause, why=why, newest=newest, **more)


class KeyReused(Problem):
    """An Idempotency-Key that another request has."""

    status, slug, title = 422, "key-reused", "This Idempotency-Key belongs to another request"

    def __init__(self) -> None:
        super().__init__("a key is for one request, which may be repeated with the same body: take a new key for another one")


class TooSlow(Problem):
    """A body that did not come in time."""

    status, slug, title = 408, "too-slow", "The body did not come in time"


class Overloaded(Problem):
    """A worker with too much to do."""

    status, slug, title = 503, "overloaded", "The worker has too much to do"

    def __init__(self, detail: str) -> None:
        super().__init__(detail, {"Retry-After": "1"})


class DatabaseAway(Problem):
    """A database that does not answer. Whether a change was stored is not known."""

    status, slug, title = 503, "database-away", "The database does not answer"

    def __init__(self, detail: str) -> None:
        more = "a change may be stored or not: repeat it with the same Idempotency-Key to know"
        super().__init__(f"{detail}; {more}", {"Retry-After": "1"})


def of_tree(tree: "dict[str, Any]") -> Problem:
    """The problem of a body that was stored as the reply to a request."""
    members = {name: it for name, it in tree.items() if name not in ("type", "title", "status", "detail")}
    found = Problem(tree["detail"], **members)
    found.status, found.slug, found.title = tree["status"], tree["type"].removeprefix("urn:editlens:"), tree["title"]
    return found


def cause_of(rest: str) -> "dict[str, Any]":
    """The members of a refused line: its cause, and the place where it has one. `rest` is the answer behind its number."""
    words = rest.split(" ")
    found: "dict[str, Any]" = {}
    if words[0] == "group":
        found["part"], words = int(words[1]), words[2:]
    if words[0] == "no-apply":
        return {**found, "cause": words[2], "at": int(words[1]), "why": CAUSES.get(words[2], words[2])}
    return {**found, "cause": words[0], "why": words[0].replace("-", " ")}
