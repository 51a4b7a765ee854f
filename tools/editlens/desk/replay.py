"""A script, step by step: what each line of its journal did, forward and back."""

from __future__ import annotations

import threading
from typing import Any

from ..answers import Refused
from ..causes import CAUSES
from ..changes import changed_places
from ..edits import NoApply, act, form_fault
from ..json_text import NotJson, pointer, read_json, write_json
from ..lenses import read_lens
from ..parts import journal_of, program_of
from ..sentences import sentences
from ..session import Session
from .complement import remembered
from .drawing import drawn_changes, drawn_document, drawn_lens, drawn_types
from .keepers import state_after
from .loading import judged


class Replay:
    """The steps of a script. Step 0 is the beginning, and step K what is there after line K of the journal."""

    can_edit, death = False, None

    def __init__(self, script: str, title: str, path: str | None = None) -> None:
        self.program, self.title = program_of(script), title
        self.lines = journal_of(script)
        self.steps: list[Any] = []
        with Session(self.program, path) as session:
            self.lens = read_lens(self.program)
            self.path, self.types = session.path, session.types
            self.steps.append(({}, dict(session.documents), {}))
            for line in self.lines:
                self.steps.append(self._step(session, line))
        self.drawn = drawn_types(self.types, self.lens)
        self.complements: dict[int, Any] = {}
        self.finding = threading.Lock()

    def _step(self, session, line):
        before = dict(session.documents)
        answer = session.line(line)
        if isinstance(answer, Refused):
            return {"entries": [], "refused": self._refused(before, line, answer)}, before, {}
        change = read_json(line)
        done, words = [], {"left": [], "right": []}
        for entry, (other, word) in zip(change.get("group", [change]), answer.words):
            side, edit = entry["side"], entry["edit"]
            said = [f"{side}: {it}" for it in sentences(edit)]
            done.append({"side": side, "edit": write_json(edit), "other": other, "word": write_json(word), "sentences": said})
            words[side], words[other] = words[side] + edit, words[other] + word
        changes = {side: changed_places(self.types[side], before[side], word) for side, word in words.items()}
        return {"entries": done, "refused": None}, dict(session.documents), changes

    def _refused(self, documents, line, answer):
        said = {"cause": answer.cause, "at": answer.at, "place": None, "side": None, "allowed": None, "edit": line}
        said["sentence"] = CAUSES.get(answer.cause, answer.cause.replace("-", " "))
        try:
            change = read_json(line)
            entry = change.get("group", [change])[answer.part or 0]
            said["side"], edit = entry["side"], entry["edit"]
            said["edit"] = write_json(edit)
            said["sentence"] = form_fault(edit) or said["sentence"]
            act(self.types[entry["side"]], documents[entry["side"]], edit)
        except NoApply as why:
            said["place"], said["allowed"] = pointer(why.path), why.allowed
        except (NotJson, ValueError, KeyError, AttributeError, TypeError):
            pass
        return said

    def state(self, step: int = 0, _known: Any = None, _view: Any = None) -> dict[str, Any]:
        """Everything that a window draws at a step."""
        step = max(0, min(step, len(self.lines)))
        done, documents, changes = self.steps[step]
        return {
            "mode": "replay",
            "title": self.title,
            "version": step,
            "session": 0,
            "step": step,
            "steps": len(self.lines),
            "program": self.program,
            "lens": drawn_lens(self.lens),
            "sides": {side: self._drawn(side, documents, changes) for side in self.types},
            "complement": self._complement(step),
            "done": done,
            "history": [],
            "notices": [],
            "fault": None,
            "files": False,
            "undo": {"can": False, "why": ""},
        }

    def _drawn(self, side, documents, changes):
        document = drawn_document(self.types[side], documents[side])
        return {"type": self.drawn[side], "document": document, "changes": drawn_changes(changes.get(side, ()))}

    def _complement(self, step):
        with self.finding:
            if step not in self.complements:
                tree = state_after(self.program, self.lines[:step], self.path)["complement"]
                self.complements[step] = {"version": step, "tree": tree, "text": write_json(tree), "sentence": remembered(self.lens, tree)}
            return self.complements[step]

    def file(self, _side: str) -> None:
        """A replay shows documents alone."""

    def check(self, program_text: str) -> dict[str, Any]:
        """What the program says of another lens program."""
        return judged(program_text)

    def wait(self, signal: int, seconds: float) -> int:
        """Nothing changes in a replay."""
        threading.Event().wait(seconds)
        return signal

    def close(self) -> None:
        """Nothing is open."""
