"""The description of the service as OpenAPI, made of its routes. `openapi.json` is what it writes; a test holds the two together."""

from __future__ import annotations

import inspect
import re
from typing import Any

from ..engine import SIDES
from . import app, desk, edits, health, pairs, programs, stores, streams
from .edits import JOURNAL, PATCH
from .stores import FILE

VERSION = "1"
OPEN = ("healthz", "readyz", "metrics", "openapi", "page")
PROBLEM = {"description": "a refusal, with its cause and its place", "content": {"application/problem+json": {"schema": {"$ref": "#/components/schemas/Problem"}}}}
EDIT = {"type": "array", "description": "an edit, as docs/FORMATS.md has it", "items": {"type": "object"}}
ANSWERS = {"$ref": "#/components/schemas/Answers"}
NUMBER = {"type": "integer", "minimum": 0}
TEXT, OBJECT = {"type": "string"}, {"type": "object"}


def _object(**properties: Any) -> "dict[str, Any]":
    return {"type": "object", "properties": properties}


PROGRAM = _object(program=TEXT, rename={"type": "object", "additionalProperties": TEXT}, **{"accept-loss": {"type": "boolean"}})
MAKE_PAIR = _object(program=TEXT, left={}, right={}, forms=OBJECT)
MAKE_HUB = _object(programs={"type": "array", "items": TEXT}, edits={"type": "array", "items": OBJECT}, forms=OBJECT)
MADE = _object(name=TEXT, number=NUMBER, disagreements={"type": "array", "items": TEXT})
CHANGES = _object(changes={"type": "array", "items": OBJECT}, next={"type": ["integer", "null"]})
NAMES = _object(names={"type": "array", "items": TEXT}, next={"type": ["string", "null"]})
PATCHED = {"allOf": [ANSWERS, _object(sent={"type": "array"}, patches=OBJECT)]}

BODIES: "dict[Any, dict[str, Any]]" = {
    edits.entries: dict.fromkeys(JOURNAL, TEXT),
    edits.mixed: dict.fromkeys(JOURNAL, TEXT),
    edits.patch: {PATCH: {"type": "array", "items": OBJECT}},
    edits.undo: {"application/json": _object(count={"type": "integer", "minimum": 1})},
    programs.change: {"application/json": PROGRAM},
    programs.check: {"application/json": _object(program=TEXT)},
    stores.bring: dict.fromkeys((FILE, "application/octet-stream"), {"type": "string", "format": "binary"}),
}
ANSWER: "dict[Any, tuple[int, str, Any]]" = {
    pairs.make: (201, "application/json", MADE),
    stores.bring: (201, "application/json", MADE),
    pairs.listed: (200, "application/json", NAMES),
    pairs.document: (200, "application/json", {}),
    pairs.complement: (200, "application/json", {}),
    pairs.history: (200, "application/json", CHANGES),
    stores.export: (200, FILE, {"type": "string", "format": "binary"}),
    streams.changes: (200, "text/event-stream", TEXT),
    edits.entries: (200, "application/json", ANSWERS),
    edits.mixed: (200, "application/json", ANSWERS),
    edits.undo: (200, "application/json", ANSWERS),
    edits.patch: (200, "application/json", PATCHED),
    health.metrics: (200, "text/plain", TEXT),
    desk.page: (200, "text/html", TEXT),
}
QUERY: "dict[Any, tuple[str, ...]]" = {
    pairs.listed: ("after", "limit"),
    pairs.document: ("as",),
    pairs.history: ("after", "limit"),
    streams.changes: ("after",),
    edits.patch: ("drop-private",),
}
CARRYING = (edits.entries, edits.patch)
CHANGING = (edits.entries, edits.mixed, edits.patch, edits.undo, programs.change)
KEYED = (*CHANGING, pairs.make, stores.bring)


def path_of(path: str) -> "tuple[str, list[str]]":
    """A path as OpenAPI writes it, and the names in it."""
    plain = re.sub(r"\{hub:hub\}", "hub", path)
    plain = re.sub(r"\{(\w+):[^{}]*\}", r"{\1}", plain)
    return plain, re.findall(r"\{(\w+)\}", plain)


def _parameter(name: str, place: str, schema: Any = None) -> "dict[str, Any]":
    return {"name": name, "in": place, "required": place == "path", "schema": schema or TEXT}


def _operation(route: Any) -> "dict[str, Any]":
    handler = route.handler
    path, names = path_of(route.path)
    first, *rest = (inspect.getdoc(handler) or "").split("\n\n", 1)
    schemas = {"side": {"type": "string", "enum": list(SIDES)}, "view": {"type": "integer", "minimum": 0, "maximum": 63}}
    parameters = [_parameter(it, "path", schemas.get(it)) for it in names] + [_parameter(it, "query") for it in QUERY.get(handler, ())]
    if handler in KEYED:
        parameters.append(_parameter("Idempotency-Key", "header"))
    if handler in CHANGING:
        parameters.append(_parameter("If-Match", "header"))
    if handler in CARRYING:
        parameters.append(_parameter("Prefer", "header"))
    if handler is streams.changes:
        parameters.append(_parameter("Last-Event-ID", "header", NUMBER))
    status, kind, schema = ANSWER.get(handler, (200, "application/json", OBJECT))
    responses: "dict[str, Any]" = {str(status): {"description": "done", "content": {kind: {"schema": schema}}}, "default": PROBLEM}
    if handler is pairs.remove:
        responses = {"204": {"description": "removed"}, "default": PROBLEM}
    found: "dict[str, Any]" = {
        "operationId": re.sub(r"\W+", "-", f"{route.method.lower()}{path}").strip("-"),
        "summary": " ".join(first.split()),
        "parameters": parameters,
        "responses": responses,
        **({"description": " ".join(rest[0].split())} if rest else {}),
        **({"security": []} if handler.__name__ in OPEN else {}),
    }
    bodies = {"application/json": MAKE_PAIR if path.startswith("/pairs") else MAKE_HUB} if handler is pairs.make else BODIES.get(handler)
    if bodies:
        found["requestBody"] = {"required": True, "content": {it: {"schema": schema} for it, schema in bodies.items()}}
    return found


def describe() -> "dict[str, Any]":
    """The description of all routes."""
    paths: "dict[str, Any]" = {}
    for route in app.ROUTES:
        paths.setdefault(path_of(route.path)[0], {})[route.method.lower()] = _operation(route)
    late = {"newest": NUMBER, "lost": {"type": "array", "items": TEXT}, "rests-on": NUMBER}
    answer = _object(ok={"type": "boolean"}, number=NUMBER, edits=OBJECT, carried={"type": "boolean"}, cause=TEXT, at=NUMBER, part=NUMBER, why=TEXT, **late)
    problem = _object(type=TEXT, title=TEXT, status={"type": "integer"}, detail=TEXT, cause=TEXT, at=NUMBER, part=NUMBER, why=TEXT, **late)
    return {
        "openapi": "3.1.0",
        "info": {"title": "editlens", "version": VERSION, "description": "Pairs and hubs of JSON documents that are kept in step by their edits."},
        "security": [{"bearer": []}],
        "paths": paths,
        "components": {
            "securitySchemes": {"bearer": {"type": "http", "scheme": "bearer"}},
            "schemas": {
                "Edit": EDIT,
                "Answers": _object(number=NUMBER, answers={"type": "array", "items": answer}),
                "Problem": problem,
            },
        },
    }
