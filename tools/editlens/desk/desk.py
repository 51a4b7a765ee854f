"""The desk of a pair: a session of a lens program, or a store of one."""

from __future__ import annotations

from typing import Any, Callable, Iterable

from ..answers import ProgramRefused, Refused, RunEnded
from ..json_text import write_json
from ..lenses import read_lens
from ..natural import FormFault, read_file
from ..older import NotTaken, OlderEdits, OlderStates
from ..session import DocumentsDiffer
from .complement import remembered
from .files import NOT_TAKEN, drawn_file, refused_patch
from .keepers import RunKeeper
from .loading import carried_over, judged
from .shared import Shared


class Desk(Shared):
    """The desk of both documents of a lens program, by the names of their sides. `load` begins a session of another program."""

    def __init__(self, keeper: Any, title: str, notices: Iterable[str] = ()) -> None:
        self.lens = read_lens(keeper.program)
        super().__init__(keeper, title, notices)

    def view_of(self, _view: Any) -> None:
        """A pair has no views."""

    def place(self, side: str, _view: Any) -> str:
        """The name of the document of a side."""
        return side

    def names_of(self, _view: Any) -> dict[str, Any]:
        """The names of the documents of both sides."""
        return {"left": "left", "right": "right"}

    def said_name(self, name: str) -> str:
        """What a document is called."""
        return name

    def lens_of(self, _view: Any) -> tuple[str, Any]:
        """The text of the lens program, and its lens."""
        return self.keeper.program, self.lens

    def _more(self, _view):
        return {"files": bool(self.keeper.forms)}

    def _drawn_complement(self, _view):
        return self.complement

    def _told(self) -> Callable[[Any], dict[str, Any]]:
        lens = self.lens
        return lambda tree: {"tree": tree, "text": write_json(tree), "sentence": remembered(lens, tree)}

    def file(self, side: str) -> dict[str, Any] | None:
        """The user's file of a side as it is now, with its version, or None where no form file is known."""
        with self.news:
            if not self.keeper.forms:
                return None
            return {"version": self.version, "session": self.session, **drawn_file(self.keeper.files, side)}

    def patch(self, base: Any, side: str, text: str, drop_private: bool = False) -> dict[str, Any]:
        """Sends the text of a JSON Patch of a side's file that was made for a version. Of an older one it is carried, as an edit is.

        `drop_private` says that the other side may lose what it alone has.
        """
        with self.news:
            before = dict(self.keeper.documents)
            try:
                older = OlderEdits(self.older, side, base) if base != self.version else None
                done = self.keeper.patch(side, read_file(text), drop_private, older)
            except NotTaken as why:
                return {**self._not_taken(base, side, why.edit, why), "patch": text}
            except NOT_TAKEN as why:
                return refused_patch(why, side, text)
            except (RunEnded, DocumentsDiffer, OSError) as why:
                return self._failed(why)
            return self._taken(before, side, done.word, done.answer)

    def check(self, program_text: str) -> dict[str, Any]:
        """What the program says of another lens program."""
        return judged(program_text)

    def load(self, base: Any, program_text: str) -> dict[str, Any]:
        """Begins a session of another lens program with the documents as they are."""
        with self.news:
            stale = self._stale(base)
            if stale:
                return stale
            if self.keeper.is_store:
                return {"ok": False, "sentence": "A store keeps the lens program that it was made with. tools/load --store makes a new store."}
            try:
                keeper, unread = self._keeper_of(program_text)
                notices = unread + carried_over(keeper, self.keeper.documents)
            except ProgramRefused as why:
                return {"ok": False, "sentence": why.said()}
            except (RunEnded, Refused, OSError) as why:
                return {"ok": False, "sentence": f"The documents could not be carried over: {why}. Nothing has changed."}
            self.keeper.close()
            self.keeper, self.lens = keeper, read_lens(keeper.program)
            self.notices, self.history, self.changes, self.fault = notices, [], {}, None
            self.replaced = None
            self.session += 1
            self.older = OlderStates(keeper.types, self.version + 1, dict(keeper.documents))
            self._moved()
            return {"ok": True, "version": self.version, "notices": notices}

    def _keeper_of(self, program_text):
        """A session of a program with the form files, and lines that say why it is without them where they do not fit its types."""
        try:
            return RunKeeper(program_text, forms=self.keeper.forms), []
        except FormFault as why:
            said = "The form files do not fit this program, so the files are not shown"
            return RunKeeper(program_text), [f"{said}: {it}" for it in str(why).split("\n")]

    def _taken(self, before, side, edit, answer):
        words = {side: edit, answer.side: answer.word}
        entry = {"side": side, "edit": write_json(edit), "other": answer.side, "word": write_json(answer.word)}
        self._changed(before, words, entry, side)
        return {"ok": True, "version": self.version}

    def _undone(self, before, words):
        left, right = (write_json(words[it]) for it in ("left", "right"))
        self._changed(before, words, {"side": "left", "edit": left, "other": "right", "word": right, "undo": True}, "left")
