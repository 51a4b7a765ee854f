"""What the desks of a pair and of a hub have in common: edits are taken one after another, and each window sees each change."""

from __future__ import annotations

import threading
import time
from typing import Any, Callable, Iterable, Sequence

from ..answers import Refused, RunEnded
from ..causes import CAUSES
from ..changes import SET, changed_places
from ..edits import NoApply, NotAnEdit, act, form_fault
from ..json_text import pointer, shown, write_json
from ..lock import StoreBusy
from ..named import NotFound, with_places
from ..older import BASE, MOST_CHANGES, NotTaken, OlderEdits, OlderStates
from ..sentences import sentences
from ..session import DocumentsDiffer
from ..store import StoreRefused
from .drawing import drawn_changes, drawn_document, drawn_lens, drawn_types
from .news import at_path, replaced

MOST_HISTORY = 200
MOST_SENTENCES = 5
MOST_REST = 30
LATE_BASE = f"This edit was begun so long ago that it cannot be carried over: that is done over the last {MOST_CHANGES:,} changes."


class Shared:
    """The session of a desk. Its version is the number of changes since it began; an edit names the version that it was made for. One that
    was made for an older version is carried to this one, or refused with a cause. `older` has the versions for which that is done.

    `keeper` has the documents by their names, their types, and takes edits of them. A window shows two of them, its sides: `names_of` says
    which. `edit`, `undo` and `redo` return what came of them, and change nothing where they refuse. `wait` returns when there is something
    new. `death` is the fault by which its thread ended, or None.
    """

    can_edit = True

    def __init__(self, keeper: Any, title: str, notices: Iterable[str] = ()) -> None:
        self.keeper, self.title, self.notices = keeper, title, list(notices)
        self.version = self.session = self.signal = 0
        self.older = OlderStates(keeper.types, 0, dict(keeper.documents))
        self.history: list[Any] = []
        self.changes: dict[Any, Any] = {}
        self.replaced: Any = None
        self.complement: Any = None
        self.fault: str | None = None
        self.death: BaseException | None = None
        self.is_closed = False
        self.news = threading.Condition(threading.RLock())
        threading.Thread(target=self._follow, daemon=True).start()

    def state(self, _step: int = 0, known: Sequence[Any] = (None, None, None), view: Any = None) -> dict[str, Any]:
        """Everything that a window draws. Steps are those of a replay, and views those of a hub.

        `known` is what a window has of that view: a session, a version, and the version of its complement. That is left out, and a document
        of the version before comes as the values that the last change replaced.
        """
        with self.news:
            keeper, view = self.keeper, self.view_of(view)
            return {
                "mode": "store" if keeper.is_store else "session",
                "title": self.title,
                "version": self.version,
                "session": self.session,
                **self._documents_for(known[0], known[1], view),
                **self._complement_for(known[0], known[2], view),
                "history": self.history,
                "notices": self.notices,
                "fault": self.fault,
                "undo": {"can": True, "why": "", "now": keeper.can_undo},
                "redo": {"can": not keeper.is_store, "now": bool(keeper.undone)},
                **self._more(view),
            }

    def view_of(self, view: Any) -> Any:
        """The view that is shown to a window that asks for one."""
        raise NotImplementedError

    def names_of(self, view: Any) -> dict[str, Any]:
        """The names of the documents that the sides of a window show."""
        raise NotImplementedError

    def said_name(self, name: Any) -> str:
        """What a document is called."""
        raise NotImplementedError

    def lens_of(self, view: Any) -> tuple[str, Any]:
        """The text of the lens program between both sides of a window, and its lens."""
        raise NotImplementedError

    def _more(self, view: Any) -> dict[str, Any]:
        """What the state of such a desk has more than others."""
        raise NotImplementedError

    def _drawn_complement(self, view: Any) -> Any:
        """The complement as a window shows it, or None where it is not known yet."""
        raise NotImplementedError

    def _told(self) -> Callable[[Any], dict[str, Any]]:
        """A call that makes of what was read what is kept of the complement."""
        raise NotImplementedError

    def _taken(self, before: dict[Any, Any], name: Any, edit: Any, answer: Any) -> dict[str, Any]:
        """Takes the answer to an edit over."""
        raise NotImplementedError

    def _undone(self, before: dict[Any, Any], words: dict[Any, Any]) -> None:
        """Takes the words over by which a store took its last change back."""
        raise NotImplementedError

    def _documents_for(self, session, version, view):
        names = self.names_of(view)
        if (session, version) == (self.session, self.version):
            return {}
        if (session, version) == (self.session, self.version - 1) and self.replaced is not None:
            return {"sides": {side: self._replaced(name) for side, name in names.items()}}
        program, lens = self.lens_of(view)
        types = drawn_types({side: self.keeper.types[name] for side, name in names.items()}, lens)
        sides = {side: {"type": types[side], **self._drawn(name)} for side, name in names.items()}
        return {"program": program, "lens": drawn_lens(lens), "sides": sides}

    def _complement_for(self, session, version, view):
        is_known = session == self.session and self.complement is not None and self.complement["version"] == version
        return {} if is_known else {"complement": self._drawn_complement(view)}

    def _drawn(self, name):
        document = drawn_document(self.keeper.types[name], self.keeper.documents[name])
        return {"document": document, "changes": drawn_changes(self.changes.get(name, ()))}

    def _replaced(self, name):
        ty, document = self.keeper.types[name], self.keeper.documents[name]
        values = [[list(it), drawn_document(*at_path(ty, document, it))] for it in self.replaced[name]]
        return {"replaced": values, "changes": drawn_changes(self.changes.get(name, ()))}

    def edit(self, base: Any, name: Any, edit: Any) -> dict[str, Any]:
        """Sends an edit of a document that was made for a version.

        Where that is an older one and the edit has become another one, the answer has that as `carried`. What others have done already is
        not sent again.
        """
        with self.news:
            try:
                edits = OlderEdits(self.older, name, base)
                edit, _ = with_places(self.keeper.types[name], edits.near, edit)
                carried = edit if base == self.version else edits.carried(edit)[0]
            except (NotAnEdit, RecursionError) as why:
                return self._not_done(name, edit, "not-an-edit", str(why))
            except NotFound as why:
                return self._not_done(name, edit, "not-found", str(why))
            except NoApply as why:
                said = self._not_done(name, edit, why.cause, f"{CAUSES[why.cause]}; it was {shown(why.value)}")
                return {**said, "at": why.at, **({} if base == self.version else {"since": self._since(base)})}
            except NotTaken as why:
                return self._not_taken(base, name, edit, why)
            return self._sent(name, edit) if base == self.version else self._sent_carried(name, edit, carried)

    def _sent_carried(self, name, edit, carried):
        if next(sentences(carried), None) is None:
            return {"ok": True, "version": self.version, "carried": write_json(carried)}
        said = self._sent(name, carried)
        if not said["ok"] or carried == edit:
            return said
        self.history[-1]["begun"] = write_json(edit)
        return {**said, "carried": write_json(carried)}

    def _sent(self, name, edit):
        before = dict(self.keeper.documents)
        try:
            answer = self.keeper.entry(name, edit)
        except Refused as why:
            return self._refused(name, edit, why)
        except (RunEnded, DocumentsDiffer, OSError, ValueError) as why:
            return self._failed(why)
        return self._taken(before, name, edit, answer)

    def undo(self, base: Any) -> dict[str, Any]:
        """Takes the last change back."""
        with self.news:
            stale = self._stale(base)
            if stale:
                return stale
            if not self.keeper.can_undo:
                return {"ok": False, "sentence": "There is nothing to take back: nothing was changed since this session began."}
            before = dict(self.keeper.documents)
            try:
                done = self.keeper.undo()
            except StoreRefused as why:
                return {"ok": False, "sentence": _no_undo(why)}
            except (RunEnded, StoreBusy, DocumentsDiffer, OSError) as why:
                return self._failed(why)
            if self.keeper.is_store:
                self._undone(before, done)
            else:
                self._went_back(*done)
            return {"ok": True, "version": self.version}

    def redo(self, base: Any) -> dict[str, Any]:
        """Makes the change again that was taken back last."""
        with self.news:
            stale = self._stale(base)
            if stale:
                return stale
            if not self.keeper.undone:
                return {"ok": False, "sentence": "There is nothing to make again: the last change was not taken back."}
            before = dict(self.keeper.documents)
            try:
                return self._taken(before, *self.keeper.redo())
            except (Refused, RunEnded, DocumentsDiffer, OSError) as why:
                return self._failed(why)

    def wait(self, signal: int, seconds: float) -> int:
        """The signal when there is something newer than another one, or the same one after some seconds."""
        with self.news:
            self.news.wait_for(lambda: self.signal != signal, seconds)
            return self.signal

    def close(self) -> None:
        """Ends the session."""
        with self.news:
            self.keeper.close()
            self.is_closed = True
            self.news.notify_all()

    def _stale(self, base):
        """The refusal of what is no edit, and was asked for when another version than this one was there, with what changed since."""
        if base == self.version:
            return None
        sentence = "The documents changed after you began this, so it was not done."
        return {"ok": False, "cause": "stale", "version": self.version, "sentence": sentence, "since": self._since(base)}

    def _since(self, base):
        """What changed since a version, as lines."""
        said = [line for it in self.history if it["version"] > base for line in it["sentences"]]
        more = [f"and {len(said) - MOST_SENTENCES} more changes"] if len(said) > MOST_SENTENCES else []
        return said[:MOST_SENTENCES] + more or ["another lens program was loaded"]

    def _not_taken(self, base, name, edit, why):
        """The refusal of an edit that was made for an older version and has no place in this one: why, which edit, and what changed since."""
        sentence = LATE_BASE if why.cause == BASE else why.sentence
        lost = said_of(self.said_name(name), edit) if edit else []
        return {**self._not_done(name, edit, why.cause, sentence), "at": why.at, "lost": lost, "since": self._since(base)}

    def _not_done(self, name, edit, cause, sentence):
        said = {"ok": False, "cause": cause, "side": self.said_name(name), "version": self.version, "edit": write_json(edit)}
        return {**said, "place": None, "allowed": None, "sentence": sentence}

    def _changed(self, before, words, entry, edited):
        """Takes words over that changed documents, by their names. The sentences of the change are those of the word of one of them."""
        types = self.keeper.types
        self.changes = {name: changed_places(types[name], before[name], word) for name, word in words.items()}
        self.replaced = {name: replaced(types[name], word) for name, word in words.items()}
        self.older.changed(words, dict(self.keeper.documents))
        self._moved()
        self._remember(self.said_name(edited), words[edited], entry)

    def _went_back(self, name, edit):
        """The state before an edit is there again. No edit leads to it, so each place counts as changed."""
        self.changes = {it: [((), SET)] for it in self.keeper.types}
        self.replaced = {it: [()] for it in self.keeper.types}
        if not self.older.went_back():
            self.older = OlderStates(self.keeper.types, self.version + 1, dict(self.keeper.documents))
        self._moved()
        self._remember(self.said_name(name), edit, {"side": self.said_name(name), "undo": True, "taken": True})

    def _remember(self, name, edit, entry):
        """Puts a change into the history. Its sentences are those of an edit of a document."""
        for older in self.history[-1:]:
            # A person reads the edits of the last change alone, and those of a long history are long.
            for it in ("edit", "word", "others", "begun"):
                older.pop(it, None)
        del self.history[: 1 - MOST_HISTORY]
        self.history.append({"version": self.version, "sentences": said_of(name, edit), **entry})

    def _moved(self):
        self.version += 1
        self._notify()

    def _notify(self):
        self.signal += 1
        self.news.notify_all()

    def _refused(self, name, edit, why):
        said = {"ok": False, "cause": why.cause, "at": why.at, "side": self.said_name(name), "version": self.version, "edit": write_json(edit)}
        if why.at is None:
            fault = form_fault(edit)
            return {**said, "place": None, "sentence": fault or why.cause.replace("-", " "), "allowed": None}
        try:
            act(self.keeper.types[name], self.keeper.documents[name], edit)
        except NoApply as here:
            sentence = f"{CAUSES[why.cause]}; it is {shown(here.value)}"
            return {**said, "place": pointer(here.path), "sentence": sentence, "allowed": here.allowed}
        return {**said, "place": None, "sentence": CAUSES[why.cause], "allowed": None}

    def _failed(self, why):
        self.fault = f"{why}. Start the desk again."
        self._notify()
        return {"ok": False, "cause": "failed", "sentence": self.fault}

    def _follow(self):
        """Follows the complement. Where a fault ends that, each window says so, and `death` has the fault for the server."""
        try:
            self._follow_complement()
        except Exception as why:
            with self.news:
                self.death = why
                self._failed(why)

    def _follow_complement(self):
        """Finds the complement after each change, as the program writes it. What is found for an older version is thrown away.

        Between two readings it rests as long as the last one took, so a long session has half of a processor left.
        """
        done = -1
        while True:
            with self.news:
                self.news.wait_for(lambda: self.version != done or self.is_closed)
                if self.is_closed:
                    return
                done, read, tell = self.version, self.keeper.reader(), self._told()
            begin = time.monotonic()
            try:
                tree = read()
            except (RunEnded, StoreRefused, OSError):
                # The complement of the state before stays on the page, marked as older, until the next change.
                continue
            with self.news:
                if self.version == done:
                    self.complement = {"version": done, **tell(tree)}
                    self._notify()
            time.sleep(min(MOST_REST, time.monotonic() - begin))


def said_of(name: str, edit: Any) -> list[str]:
    """An edit of a document in sentences, of which the first few are enough."""
    said = list(sentences(edit)) or ["nothing"]
    kept = said[:MOST_SENTENCES] + ([f"and {len(said) - MOST_SENTENCES} more"] if len(said) > MOST_SENTENCES else [])
    return [f"{name}: {it}" for it in kept]


def _no_undo(why):
    if why.reason == "nothing-to-undo":
        return "There is nothing to take back: changes before the last undo or the last snapshot stay."
    return why.said()
