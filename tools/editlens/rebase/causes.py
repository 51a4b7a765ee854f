"""Why an edit that was made for an older document is not carried to the newer one."""

from __future__ import annotations

import enum
from typing import Any

from ..json_text import write_json


class Cause(enum.Enum):
    """Why an edit is not carried. The text is the word of formats and answers."""

    GONE = "gone"
    TAKEN = "taken"
    KEPT = "kept"
    CYCLE = "cycle"
    DEEP = "deep"
    CHANGED = "changed"


SENTENCES = {
    Cause.GONE: "what this edit changes is not there any more: another edit has deleted or replaced it",
    Cause.TAKEN: "another edit has given this key to something else",
    Cause.KEPT: "another edit has moved a node that this edit keeps below the node that it deletes",
    Cause.CYCLE: "another edit has moved the new parent below the node that this edit moves",
    Cause.DEEP: "after another edit the tree would have more than 16 levels",
    Cause.CHANGED: "another edit has changed the value since, and taking the older change back would lose that",
}


class NotCarried(Exception):
    """An edit that has no place in the newer document.

    `at` is the number of its first primitive that has none, and `path` has the fields, tags, keys, items and nodes that lead there in the
    older document.
    """

    def __init__(self, cause: Cause) -> None:
        super().__init__(cause)
        self.cause, self.at = cause, 0
        self.path: tuple[Any, ...] = ()

    def __str__(self) -> str:
        place = ", ".join(map(write_json, self.path)) or "(the document)"
        return f"{self.cause.value} at {place}: {SENTENCES[self.cause]}"


class DoesNotAct(ValueError):
    """An edit that does not act on the document for which it was made, as far as a bridge knows it. `cause` is that of docs/EDITS.md."""

    def __init__(self, cause: str) -> None:
        super().__init__(f"the edit does not act on the document for which it was made: {cause}")
        self.cause = cause
