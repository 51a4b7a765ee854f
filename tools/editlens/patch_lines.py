"""Lines of JSON Patches for a store that is kept open, and the line that answers each."""

from __future__ import annotations

import sys
import traceback
from typing import Any

from .answers import OTHER, Refused, RunEnded
from .json_text import NotJson
from .lock import StoreBusy
from .natural import NoCounterpart, NotWritable, read_file, write_file
from .natural.text import shown
from .older import NotTaken, OlderEdits
from .private import PrivateLoss
from .session import DocumentsDiffer
from .store import ADVICE, StoreRefused
from .trial import TrialEnded

BOTH = "both"
FORMS = '{"side":SIDE,"patch":PATCH}, {"group":[{"side":SIDE,"patch":PATCH},..]} or {"undo":COUNT}'


class NotALine(ValueError):
    """A line of JSON that is none of those that are taken."""


class PatchLines:
    """Answers lines by an open store. Of one side a line is a patch; of both it is an object with a patch, a group or an undo.

    With `base`, the patches of one side were made one after another, the first for the file after so many changes of the store.
    """

    def __init__(self, store: Any, side: str, drop_private: bool = False, base: int | None = None) -> None:
        self.store, self.side, self.drop_private, self.base = store, side, drop_private, base
        self._older: OlderEdits | None = None

    def answer(self, number: int, line: bytes) -> tuple[str, bool]:
        """The answer to a line of bytes, and whether it is refused. What is refused has changed nothing.

        An exception that nobody foresaw is an answer, too: it says whether the change is stored. A run that is lost is raised.
        """
        before = self.store.stored
        try:
            tree = read_file(line.decode())
            return f"ok {number} {self._done(tree) if self.base is None else self._carried(number, tree)}", False
        except (RunEnded, StoreBusy, DocumentsDiffer, OSError):
            raise
        except Exception as why:
            said = "; ".join(_reason(why).split("\n"))
        if self.store.stored != before:
            return f"ok {number} without a patch: {said}", False
        return f"refused {number} {said}", True

    def _done(self, tree):
        if self.side != BOTH:
            return write_file(self.store.files.patch(self.side, tree, self.drop_private).patch)
        if not isinstance(tree, dict) or not any(set(tree) - {"drop_private"} == it for it in ({"side", "patch"}, {"group"}, {"undo"})):
            raise NotALine(f"a line is {FORMS}, and not {shown(tree)}")
        drop = tree.get("drop_private", self.drop_private)
        if not isinstance(drop, bool):
            raise NotALine(f"drop_private is true or false, and not {shown(drop)}")
        if "undo" in tree:
            return self._undone(tree["undo"])
        if "group" in tree:
            done = self.store.files.group(*map(_entry, _listed(tree["group"])), drop_private=drop)
            return "group " + write_file([{"side": side, "patch": patch} for side, patch in done.patches])
        side, patch = _entry({name: tree[name] for name in ("side", "patch")})
        return f"{OTHER[side]} {write_file(self.store.files.patch(side, patch, drop).patch)}"

    def _carried(self, number, tree):
        """The patches of both files by a patch of an older one."""
        if self._older is None:
            self._older = self.store.older(self.side, self.base)
        self._older.count = number - 1
        done = self.store.files.patch(self.side, tree, self.drop_private, self._older)
        return write_file({self.side: done.sent, OTHER[self.side]: done.patch})

    def _undone(self, count):
        if type(count) is not int:
            raise NotALine(f"undo says how many changes are taken back, and not {shown(count)}")
        left, right = self.store.files.undo(count)
        return "undo " + write_file({"left": left, "right": right})


def _listed(tree):
    if not isinstance(tree, list) or not tree:
        raise NotALine(f"a group is an array of patches, and not {shown(tree)}")
    return tree


def _entry(tree):
    if not isinstance(tree, dict) or set(tree) != {"side", "patch"} or tree["side"] not in list(OTHER):
        raise NotALine(f'a patch of a side is {{"side":"left","patch":[..]}}, and not {shown(tree)}')
    return tree["side"], tree["patch"]


def _reason(why):
    """Why a line was refused, or has no patch."""
    if isinstance(why, Refused):
        return why.cause
    if isinstance(why, NotTaken):
        sentence = why.sentence if why.rests_on is None else f"this patch rests on that of line {why.rests_on}, which was refused"
        return f"{why.cause}: {sentence}" if why.operation is None else f"{why.cause}: operation {why.operation}: {sentence}"
    if isinstance(why, (NotJson, UnicodeDecodeError)):
        return f"not JSON: {why}"
    if isinstance(why, StoreRefused):
        return f"{why.reason}: {ADVICE.get(why.reason.split(' ')[0], 'the store is refused')}"
    if isinstance(why, NotWritable) and why.side is None:
        return f"the other file cannot show {why}"
    if not isinstance(why, (NoCounterpart, PrivateLoss, NotWritable, TrialEnded, NotALine, ValueError)):
        traceback.print_exception(why, file=sys.stderr)
        return f"the tool failed at this line: {type(why).__name__}: {why}"
    return str(why)
