"""A client: the program as a co-process. One line goes in, and one answer comes out."""

from __future__ import annotations

import threading
from dataclasses import replace
from types import TracebackType
from typing import Any, Callable

from .answers import Accepted, NotAnAnswer, Refused, RunEnded, read_answer
from .causes import Before, explain_refusal
from .checked import check
from .edits import act
from .json_text import read_json, write_json
from .named import with_places
from .natural.files import Files
from .parts import SEPARATOR, program_of
from .process import Process
from .program import find_program
from .types import Ty, initial


class DocumentsDiffer(Exception):
    """The documents that a client follows are not those of the program: one of the two does not follow docs/EDITS.md."""

    def __init__(self) -> None:
        super().__init__("the documents that were followed are not those of the program")


def words_by_side(change: Any, words: Any) -> dict[str, Any]:
    """The word of each side in a change, whose entries were answered by these pairs of a side and a word."""
    found: dict[str, Any] = {"left": [], "right": []}
    for entry, (other, word) in zip(change.get("group", [change]), words):
        found[entry["side"]] = found[entry["side"]] + entry["edit"]
        found[other] = found[other] + word
    return found


class Run:
    """A run of a command over a script: its program part is sent at once, and then line after line is answered.

    Threads may share it: a line is sent and answered before the next one is sent. Where `timeout` is given, an answer that takes longer
    than so many seconds ends the run, and NoAnswer is raised.
    """

    def __init__(self, command: str, program_part: str, path: str, timeout: float | None = None) -> None:
        self.lock = threading.RLock()
        self.process = Process([path, command], timeout=timeout)
        self.process.send((program_part.rstrip("\n") + "\n" + SEPARATOR + "\n").encode())

    def __enter__(self) -> Any:
        return self

    def __exit__(self, kind: type[BaseException] | None, value: BaseException | None, trace: TracebackType | None) -> None:
        if kind is None:
            self.close()
        else:
            self.stop()

    def stop(self) -> None:
        """Stops the run at once. What it would still say is lost."""
        self.process.stop()

    def said(self, text: str) -> str:
        """Sends a line that is not blank, and returns the line that answers it."""
        if "\n" in text or not text.strip(" \t\r"):
            raise ValueError("a line that is not blank, without a line feed, is wanted")
        return self.process.ask(text.encode())

    def answered(self, text: str, read: Callable[[str], Any]) -> Any:
        """Sends a line, and returns its answer, read by a function. What is no answer ends the run."""
        try:
            return read(self.said(text))
        except NotAnAnswer:
            self.stop()
            raise

    def state(self) -> list[str]:
        """Ends the run, and returns the lines of its state."""
        with self.lock:
            status, lines = self.process.end()
        if status not in (0, 1):
            raise RunEnded(status)
        return lines

    def close(self) -> Any:
        """Ends the run."""
        return self.state()


class Editing:
    """What a client of a lens has: edits of both sides, and groups of them. `line` sends one.

    `files` has the users' files of both sides, and takes patches of them.
    """

    lock: Any
    types: dict[str, Ty]
    documents: dict[str, Any]
    files: Any

    def line(self, text: str) -> Any:
        """Sends a line of a journal that is not blank, and returns its answer: each kind of client has its own way."""
        raise NotImplementedError

    def left(self, edit: Any) -> Accepted:
        """Sends an edit of the left document."""
        return self.entry("left", edit)

    def right(self, edit: Any) -> Accepted:
        """Sends an edit of the right document."""
        return self.entry("right", edit)

    def entry(self, side: str, edit: Any) -> Accepted:
        """Sends an edit of a side. It may name an item or a node by what it has: `{"where": {"id": "t7"}}` in place of a number or a path.

        Such a name is read by the document of this moment. The answer has the positions as `places`; NotFound is raised where there is no
        such place, or where there are several.
        """
        with self.lock:
            edit, places = with_places(self.types[side], self.documents[side], edit)
            return replace(self.accepted({"side": side, "edit": edit}), places=tuple(places))

    def group(self, *entries: tuple[str, Any]) -> Accepted:
        """Sends entries, each a side and an edit, that are accepted together or not at all."""
        return self.accepted({"group": [{"side": side, "edit": edit} for side, edit in entries]})

    def accepted(self, change: dict[str, Any]) -> Accepted:
        """Sends a change, and returns its answer; a Refused is raised."""
        answer = self.line(write_json(change))
        if isinstance(answer, Refused):
            raise answer
        return answer

    def follow(self, change: dict[str, Any], answer: Accepted) -> None:
        """Takes an accepted change over into the documents."""
        documents = dict(self.documents)
        for entry, (other, word) in zip(change.get("group", [change]), answer.words):
            for side, edit in ((entry["side"], entry["edit"]), (other, word)):
                documents[side] = act(self.types[side], documents[side], edit)
        self.documents = documents
        self.files.trial.follow(change)

    def explained(self, text: str, answer: Any) -> Any:
        """A refusal that explains itself by the documents of now."""
        before = Before("run", self.types, self.documents)
        answer.explain = lambda: explain_refusal(before, text, answer)
        return answer


class Session(Editing, Run):
    """A run of a lens program, from its initial documents on.

    `left`, `right` and `group` send an edit and return the answer, an Accepted; a refused one is raised as Refused, and nothing has
    changed then. `documents` has both documents after each answer. They are followed here by the rules of docs/EDITS.md, and `close`
    compares them with what the program writes at its end. A run keeps nothing on the disk: `Store.open` is the same for a session that is
    to last. The lines that were accepted are kept here, for a `twin`.

    `forms` has the form files of the sides, each a tree of JSON under "left" or "right": docs/TOOLS.md.
    """

    def __init__(
        self,
        program_text: str,
        path: str | None = None,
        timeout: float | None = None,
        forms: dict[str, Any] | None = None,
    ) -> None:
        self.path, self.program = path or find_program(), program_of(program_text)
        left, right = check(self.program, self.path)
        self.types = {"left": left, "right": right}
        self.documents = {side: initial(ty) for side, ty in self.types.items()}
        self.complement: Any = None
        self._lines: list[str] = []
        self.files = Files(self, forms)
        super().__init__("run", self.program, self.path, timeout)

    def twin(self) -> Session:
        """Another session in the same state: it takes the lines that this one has accepted."""
        twin = Session(self.program, self.path, self.process.timeout)
        for line in self._lines:
            twin.line(line)
        # They are equal, and what is shared is written once.
        twin.documents = self.documents
        return twin

    def stop(self) -> None:
        self.files.trial.stop()
        super().stop()

    def line(self, text: str) -> Accepted | Refused:
        """Sends a line of a journal that is not blank, and returns its answer: an Accepted, or a Refused that is not raised."""
        with self.lock:
            answer = self.answered(text, read_answer)
            if not isinstance(answer, Accepted):
                return self.explained(text, answer)
            self._lines.append(text)
            self.follow(read_json(text), answer)
            return answer

    def close(self) -> tuple[Any, Any, Any]:
        """Ends the run. Returns the left document, the right document and the complement, as the program writes them."""
        self.files.trial.stop()
        state = dict(line.split(" ", 1) for line in self.state())
        left, right = read_json(state["left"]), read_json(state["right"])
        self.complement = read_json(state["complement"])
        if {"left": left, "right": right} != self.documents:
            raise DocumentsDiffer
        return left, right, self.complement
