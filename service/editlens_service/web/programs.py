"""Another lens program for a pair, while clients use it: one record of the log, so every worker goes over to it at the same number."""

from __future__ import annotations

from typing import Any

from aiohttp import web

from editlens.answers import ProgramRefused as ToolRefused
from editlens.checked import explain_program
from editlens.desk.loading import place_of_reason
from editlens.documents import misfits
from editlens.json_text import read_json, write_json
from editlens.load import load_words
from editlens.relens import Fitting
from editlens.types import write_type

from ..drafts import Draft, Kept, Made
from ..engine import PairState, ProgramRefused, SIDES, Session
from ..problems import Conflict, Problem, Refused
from .edits import _shown
from .pairs import program_problem, said
from .requests import about, body_of, change_of, json_of, member, need_type


async def check(request: web.Request) -> web.Response:
    """Says what editlens says of a lens program: its two types, or why it is refused."""
    await about(request, "read", "left")
    need_type(request, "application/json")
    program = member(json_of(await body_of(request)), "program", str)
    try:
        state = PairState.begin(program, {})
    except ProgramRefused as why:
        return said({"accepted": False, "lines": explain_program(program, why.reason), **place_of_reason(program, why.reason)})
    types = {side: write_type(ty) for side, ty in state.types().items()}
    state.close()
    return said({"accepted": True, **types})


async def change(request: web.Request) -> web.Response:
    """Puts the documents of a pair under another lens program, as `tools/store change-lens` does for a store.

    New fields begin with their initial values. `rename` has the new names of fields that are gone, by their places or their names. Where
    anything of the documents goes, the request is refused with the list, unless `accept-loss` is true. Streams are told to read their
    documents again.
    """
    it = await about(request, "manage")
    need_type(request, "application/json")
    body = await body_of(request)
    tree = json_of(body)
    program, accepts = member(tree, "program", str), member(tree, "accept-loss", bool, False)
    renames = member(tree, "rename", dict, {})
    if not all(isinstance(it, str) for it in renames.values()):
        raise Problem('the members of "rename" are to be strings', member="rename")

    async def work(kept: Kept) -> Made:
        return _changed(kept, program, accepts, renames)

    reply, is_earlier = await it.service.keeper.change(it.kind, it.pair, change_of(request, it.who, body, work))
    response = _shown(it, reply, is_earlier)
    return said({"number": reply["number"], "lines": reply["lines"]}, 200, {"ETag": response.headers["ETag"]})


def _changed(kept: Kept, program: str, accepts: bool, renames: "dict[str, str]") -> Made:
    """The record of another program, with the documents that fit it."""
    try:
        fresh = PairState.begin(program, {})
    except ProgramRefused as why:
        raise program_problem(program, why) from None
    types = fresh.types()
    fresh.close()
    held = {side: read_json(kept.state.document(side)) for side in SIDES}
    fitted = {side: Fitting(types[side], held[side], renames.items()) for side in SIDES}
    used = {it for one in fitted.values() for it in one.used}
    unused = [f"no field {old} is gone that can be called {new}" for old, new in renames.items() if old not in used]
    if unused:
        raise Conflict("; ".join(unused), cause="rename")
    for side in SIDES:
        wrong = [str(it) for it in misfits(types[side], fitted[side].document)]
        if wrong:
            raise Refused(f"the {side} document does not fit the program", cause="not-of-type", places=wrong)
    state, lines = _built(program, fitted)
    losses = [line for side in SIDES for line in fitted[side].lines(side, read_json(state.document(side)))] + lines
    if (lines or any(it.gone for it in fitted.values())) and not accepts:
        state.close()
        raise Conflict("something of the documents goes; with accept-loss it is done so", cause="loss", lines=losses)
    opening = state.opening
    snapshot = state.snapshot()
    draft = Draft("lens", f"{opening}\n{snapshot}", "lens", "lens")
    answer = {"ok": True, "number": kept.number + 1, "rest": "lens", "words": "[]"}
    return Made({"answers": [answer], "lines": losses}, [draft], (opening, PairState.reopen(f"{opening}\n{snapshot}")))


def _built(program: str, fitted: "dict[str, Fitting]") -> "tuple[PairState, list[str]]":
    """The state of both documents, and where the right one is not what it was."""
    left, right = (fitted[side].document for side in SIDES)
    try:
        loaded = load_words(program, left, right, start=lambda: Session(program))
    except ToolRefused as why:
        raise program_problem(program, ProgramRefused(why.reason)) from None
    state = PairState.begin(program, {"left": write_json(left)})
    for word in loaded.right:
        stepped: Any = state.step(write_json({"side": "right", "edit": word}).encode())
        if not stepped.is_accepted:
            raise Refused("the right document cannot be built beside the left one", cause="no-apply")
    new = set(fitted["right"].new)
    told = [it for it in loaded.disagreements if not any(it.path[:count] in new for count in range(len(it.path) + 1))]
    return state, [f"right {it.said('the left document')}" for it in told]
