"""Scripts, stores and documents, with an explanation of all that is refused."""

from __future__ import annotations

import os
import shutil
import tempfile
from typing import Iterable, Iterator

from .answers import Refused
from .causes import CAUSES, explain_refusal
from .checked import check, explain_program
from .documents import misfits
from .hub import Hub
from .json_text import NotJson, read_json
from .link import Link
from .parts import journal_of, program_of, views_of
from .session import Session
from .store import Store, StoreRefused

__all__ = ["CAUSES", "explain_document", "explain_program", "explain_refusal", "explain_script", "explain_store"]
EVENTS = ("edit", "seal", "send", "deliver", "restart")


def explain_script(script: str, path: str | None = None) -> Iterator[str]:
    """The lines that explain every refusal of a script, of `run`, of a hub or of a link. Raises ProgramRefused."""
    with _session_of(script, path) as session:
        yield from _refusals(session, journal_of(script))


def explain_store(folder: str, lines: Iterable[str], path: str | None = None) -> Iterator[str]:
    """The lines that explain every refusal of lines for the store in a folder. A copy of the store takes them, and the store stays."""
    file = Store(folder, path).file
    if not os.path.exists(file):
        raise StoreRefused("not-a-log", file)
    with tempfile.TemporaryDirectory() as room:
        shutil.copy(file, room)
        with Store.open(room, path) as store:
            yield from _refusals(store, [it for it in lines if it.strip(" \t\r")])


def explain_document(script: str, path: str | None = None) -> list[str]:
    """The lines that explain why `import` refuses the document of a script. Raises ProgramRefused."""
    left, lines = check(program_of(script), path)[0], journal_of(script)
    if len(lines) != 1:
        return [f"one line behind the separator is wanted, with the document; there are {len(lines)}"]
    try:
        return [str(it) for it in misfits(left, read_json(lines[0]))]
    except NotJson as why:
        return [f"the line is not JSON: {why}"]


def _session_of(script, path):
    views = views_of(program_of(script))
    if len(views) > 1:
        return Hub(views, path)
    return (Link if _has_events(journal_of(script)) else Session)(views[0], path)


def _has_events(lines):
    """Whether the journal is that of a link: its first line that is an entry or an event is an event."""
    for line in lines:
        try:
            tree = read_json(line)
        except NotJson:
            continue
        if isinstance(tree, dict) and ("group" in tree or "side" in tree):
            return False
        if isinstance(tree, dict) and len(tree) == 1 and next(iter(tree)) in EVENTS:
            return True
    return False


def _refusals(session, lines):
    for line in lines:
        answer = session.line(line)
        if isinstance(answer, Refused):
            yield from (answer.written, *answer.explanation)
