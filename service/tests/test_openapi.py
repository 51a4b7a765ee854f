"""The description of the service is that of its handlers, and the handlers do what it says."""

from __future__ import annotations

import json
import re
import urllib.error
import urllib.request
from typing import Any

from editlens_service.web.app import ROUTES
from editlens_service.web.describe import describe, path_of
from editlens_service.web.health import OPENAPI

from .load import PROGRAM
from .room import Room


def _stored() -> "dict[str, Any]":
    with open(OPENAPI, encoding="utf-8") as file:
        return json.load(file)


def test_the_file_is_that_of_the_handlers(room: object) -> None:
    """openapi.json is what `service/manage openapi` writes, and has each route and no other."""
    stored = _stored()
    assert stored == describe(), "run service/manage openapi"
    found = {(method.upper(), path) for path, methods in stored["paths"].items() for method in methods}
    assert found == {(it.method, path_of(it.path)[0]) for it in ROUTES}
    assert all(it["summary"].endswith(".") for methods in stored["paths"].values() for it in methods.values())


def _asked(address: str, method: str, path: str, kind: "str | None", body: bytes, token: bool) -> "tuple[int, str]":
    headers = {**({"Authorization": "Bearer all"} if token else {}), **({"Content-Type": kind} if kind else {})}
    request = urllib.request.Request(address + path, body if method != "GET" else None, headers, method=method)
    try:
        with urllib.request.urlopen(request, timeout=60) as said:
            return said.status, said.headers.get_content_type()
    except urllib.error.HTTPError as why:
        return why.code, why.headers.get_content_type()


def test_the_handlers_do_what_it_says(room: Room) -> None:
    """Each operation wants a token where it says so, takes the kinds of bodies that it names and no other, and answers as it says."""
    address, name, hub = room.serve()[0].address, room.name(), room.name("hub")
    room.client().make(name, PROGRAM)
    room.client().make_hub(hub, ["main {a ~ x: id int}\n", "main {a ~ p: id int}\n"])
    for path, methods in _stored()["paths"].items():
        at = path.replace("{name}", name if path.startswith("/pairs") else hub).replace("{side}", "left").replace("{view}", "1").replace("{file}", "desk.html")
        for method, operation in methods.items():
            if operation["operationId"].startswith("delete"):
                continue
            _try(address, method.upper(), at, operation)


def _try(address: str, method: str, path: str, operation: "dict[str, Any]") -> None:
    bodies = operation.get("requestBody", {}).get("content", {})
    is_open = operation.get("security") == []
    if not is_open:
        assert _asked(address, method, path, next(iter(bodies), None), b"[]", False) == (401, "application/problem+json"), (method, path)
    for kind in bodies:
        status, answered = _asked(address, method, path, kind, b"[]", True)
        assert status not in (401, 403, 404, 405, 415) and status < 500, (method, path, kind, status)
        assert status < 400 or answered == "application/problem+json", (method, path, answered)
    if bodies:
        assert _asked(address, method, path, "image/png", b"[]", True)[0] == 415, (method, path)
    elif not path.endswith("/changes"):
        [(status, said)] = [(int(it), said) for it, said in operation["responses"].items() if it != "default"]
        assert _asked(address, method, path, None, b"", True) == (status, next(iter(said["content"]))), (method, path)


def test_the_names_in_it(room: object) -> None:
    """Each operation has a name of its own."""
    names = [it["operationId"] for methods in _stored()["paths"].values() for it in methods.values()]
    assert len(set(names)) == len(names) and all(re.fullmatch(r"[\w-]+", it) for it in names)
