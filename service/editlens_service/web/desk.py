"""The page: the desk over the service, and what it draws. The page edits as any other client does."""

from __future__ import annotations

import os
from typing import Any

from aiohttp import web

from editlens.changes import changed_places
from editlens.desk import drawing
from editlens.desk.complement import remembered
from editlens.desk.drawing import drawn_changes, drawn_document, drawn_lens, drawn_types
from editlens.json_text import read_json, write_json
from editlens.lenses import read_lens
from editlens.sentences import sentences

from .. import tables
from ..drafts import Kept
from ..engine import OTHER, SIDES, PairState
from ..problems import Gone, NotFound
from .pairs import etag, said
from .requests import NAME, About, about

TOP = os.path.dirname(os.path.dirname(os.path.dirname(os.path.abspath(__file__))))
FOLDERS = (os.path.join(TOP, "page"), os.path.join(TOP, "clients", "javascript"), os.path.join(os.path.dirname(drawing.__file__), "page"))
KINDS = {".html": "text/html", ".css": "text/css", ".js": "text/javascript"}
POLICY = "default-src 'none'; script-src 'self'; style-src 'self'; img-src data:; connect-src 'self'; base-uri 'none'; form-action 'none'; frame-ancestors 'none'"
HEADERS = {"Content-Security-Policy": POLICY, "X-Content-Type-Options": "nosniff", "Referrer-Policy": "no-referrer", "Cache-Control": "no-cache"}
SHOWN, MOST_SENTENCES = 100, 5


async def page(request: web.Request) -> web.Response:
    """The files of the page. They are the same for everybody; what they show is asked for with a token."""
    name = request.match_info["file"] or "desk.html"
    if not NAME.match(name) or os.path.splitext(name)[1] not in KINDS:
        raise NotFound("there is no such file")
    for folder in FOLDERS:
        path = os.path.join(folder, name)
        if os.path.isfile(path):
            with open(path, "rb") as file:
                body = file.read()
            return web.Response(body=body, content_type=KINDS[os.path.splitext(name)[1]], charset="utf-8", headers=HEADERS)
    raise NotFound("there is no such file")


async def state(request: web.Request) -> web.Response:
    """Everything that the page draws of a pair: both documents, what the last change did, the complement and the history."""
    it = await about(request, "read", *SIDES)
    found = await it.service.keeper.look(it.kind, it.pair, lambda kept: _drawn(it, kept))
    return said(found, 200, etag(found["version"]))


async def _drawn(it: About, kept: Kept) -> "dict[str, Any]":
    held = kept.state
    assert isinstance(held, PairState)
    program, types = read_json(kept.opening)["program"], held.types()
    lens, tree = read_lens(program), read_json(held.complement())
    rows = await it.service.database.rows(tables.LAST_ROWS, it.pair, kept.number, SHOWN)
    changes = await _changes(it, kept, rows)
    drawn = drawn_types(types, lens)
    documents = {side: drawn_document(types[side], read_json(held.document(side))) for side in SIDES}
    can_undo = all(it.who.may("edit", it.kind, it.name, side) for side in SIDES)
    return {
        "mode": "session",
        "title": it.name,
        "version": kept.number,
        "session": kept.opening,
        "program": program,
        "lens": drawn_lens(lens),
        "sides": {side: {"type": drawn[side], "document": documents[side], "changes": drawn_changes(changes.get(side, ()))} for side in SIDES},
        "complement": {"version": kept.number, "tree": tree, "text": write_json(tree), "sentence": remembered(lens, tree)},
        "history": [_entry(row) for row in reversed(rows) if row["words"]],
        "notices": [],
        "fault": None,
        "undo": {"can": can_undo, "why": ""},
    }


async def _changes(it: About, kept: Kept, rows: "list[Any]") -> "dict[str, Any]":
    """The places that the last change has changed, by side."""
    if not rows or rows[0]["number"] != kept.number or not rows[0]["words"]:
        return {}
    try:
        before = await it.service.keeper.at(it.kind, it.pair, kept.number - 1)
    except Gone:
        return {}
    types = before.state.types()
    documents = {side: read_json(before.state.document(side)) for side in SIDES}
    before.state.close()
    return {side: changed_places(types[side], documents[side], word) for side, word in zip(SIDES, read_json(rows[0]["words"]))}


def _entry(row: Any) -> "dict[str, Any]":
    """A row of the history, as the page has it."""
    words = dict(zip(SIDES, read_json(row["words"])))
    side = row["side"] if row["side"] in SIDES else "left"
    lines = list(sentences(words[side])) or ["nothing"]
    more = [f"and {len(lines) - MOST_SENTENCES} more"] if len(lines) > MOST_SENTENCES else []
    texts = {name: write_json(word) for name, word in words.items()}
    one = {"version": row["number"], "side": side, "other": OTHER[side], "edit": texts[side], "word": texts[OTHER[side]]}
    return {**one, "sentences": [f"{side}: {line}" for line in lines[:MOST_SENTENCES] + more], **({"undo": True} if row["kind"] == "undo" else {})}
