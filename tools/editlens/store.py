"""A client over the commands of a store: each call is one run of the program in the store's folder."""

from __future__ import annotations

import os
import subprocess
from typing import Any, Callable, Iterable

from .answers import Accepted, Explained, Refused, RunEnded, read_answer
from .checked import check, program_refused
from .documents import misfits
from .json_text import read_json, write_json
from .lines import lines_of
from .lock import need_free
from .open_store import OpenStore
from .parts import SEPARATOR, program_of
from .program import find_program
from .store_file import SESSION_FILE

NAME = SESSION_FILE
MOST_UNDONE = 10_000
ADVICE = {
    "not-a-log": "the file is not a store",
    "log-exists": "there is a store already; another one begins in a folder of its own",
    "bad-record": "the file is damaged, or its making was stopped: tools/store check says what can be read",
    "not-consistent": "the file is damaged: tools/store check says what can be read",
    "log-full": "the file has no more room: tools/store compact makes a shorter one",
    "nothing-to-undo": "fewer changes stand behind the last snapshot, and pack and undo store one: tools/store back goes further",
}


class StoreRefused(Explained):
    """The store is refused. `reason` is what stands behind `store refused:`."""

    def __init__(self, reason: str, file: str | None = None) -> None:
        super().__init__(reason)
        self.reason, self.file = reason, file
        self.explain = self._explanation

    def said(self) -> str:
        """The line without its explanation."""
        return f"store refused: {self.reason}"

    def _explanation(self):
        if self.reason == "not-a-log" and self.file and not os.path.exists(self.file):
            yield f"there is no {self.file}: init, import or tools/load --store make a store"
        elif self.reason.split(" ")[0] in ADVICE:
            yield ADVICE[self.reason.split(" ")[0]]


class ImportRefused(Explained):
    """The document that a store was to begin with is refused. `reason` is what stands behind `import refused:`."""

    def __init__(self, reason: str, explain: Callable[[], Iterable[str]] | None = None) -> None:
        super().__init__(reason)
        self.reason, self.explain = reason, explain

    def said(self) -> str:
        """The line without its explanation."""
        return f"import refused: {self.reason}"


class Store:
    """A stored session: the file `editlens.store` in a folder.

    `Store.init` and `Store.begin` make one. `left`, `right` and `group` send an edit and return the answer, an Accepted; a refused one
    is raised as Refused, and nothing has changed then. Each is a run of `apply`, so what was accepted is on the disk when the call
    returns. `apply` sends many lines in one run. `Store.open` keeps one run open for edits that come one after another.

    One program at a time writes to a store: StoreBusy is raised where another one does, and nothing was read or written. UnsafeFile, an
    OSError, is raised where the file is a link, has several names or is not a regular file.
    """

    name, command = NAME, "editlens"
    read = staticmethod(read_answer)

    def __init__(self, folder: str, path: str | None = None) -> None:
        self.folder = folder
        self.path = path or find_program(self.command)

    @classmethod
    def init(cls, folder: str, program_text: str, path: str | None = None) -> Store:
        """Makes a store that begins with the initial documents of a lens program. The folder is made if it is not there."""
        store = cls._placed(folder, path)
        store._run(["init"], program_text)
        return store

    @classmethod
    def begin(cls, folder: str, program_text: str, left: Any, path: str | None = None) -> Store:
        """Makes a store that begins with this left document, by the command `import`. Its first change makes the document."""
        store, program = cls._placed(folder, path), program_of(program_text).rstrip("\n")
        try:
            store._run(["import"], f"{program}\n{SEPARATOR}\n{write_json(left)}\n")
        except ImportRefused as why:
            if why.reason == "not-of-type":
                why.explain = lambda: (f"  {it}" for it in misfits(check(program, store.path)[0], left))
            raise
        return store

    @classmethod
    def open(cls, folder: str, path: str | None = None, wait: float = 0.0, timeout: float | None = None, forms: dict[str, Any] | None = None) -> OpenStore:
        """Keeps the store in a folder open, as an OpenStore. Another program that writes to it is waited for `wait` seconds.

        Where `timeout` is given, no answer to an edit is waited for longer than so many seconds. Opening takes as long as it takes to read
        the store. `forms` has the form files of the sides, each a tree of JSON under "left" or "right": docs/TOOLS.md.
        """
        return OpenStore(cls(folder, path), wait, timeout, forms)

    @classmethod
    def _placed(cls, folder, path):
        os.makedirs(folder, exist_ok=True)
        return cls(folder, path)

    def left(self, edit: Any) -> Accepted:
        """Sends an edit of the left document."""
        return self.entry("left", edit)

    def right(self, edit: Any) -> Accepted:
        """Sends an edit of the right document."""
        return self.entry("right", edit)

    def entry(self, side: str, edit: Any) -> Accepted:
        """Sends an edit of a side."""
        return self._accepted({"side": side, "edit": edit})

    def group(self, *entries: tuple[str, Any]) -> Any:
        """Sends entries, each a side and an edit, that are accepted together or not at all."""
        return self._accepted({"group": [{"side": side, "edit": edit} for side, edit in entries]})

    def _accepted(self, change):
        (answer,) = self.apply([write_json(change)])
        if isinstance(answer, Refused):
            raise answer
        return answer

    def apply(self, lines: Iterable[str]) -> list[Any]:
        """Sends lines of a journal, and returns the answers to those that are not blank: each an Accepted, or a Refused that is not raised.

        If the run ends early, RunEnded is raised. Its `answers` are those that came before; the changes that they accept are stored.
        """
        text = "".join(line + "\n" for line in lines)
        status, said = self._called(["apply"], text)
        answers = [self.read(it) for it in said if it.startswith(("ok ", "refused "))]
        try:
            self.judge(status, said)
        except RunEnded as ended:
            ended.answers = answers
            raise
        return answers

    def show(self) -> Any:
        """The left document, the right document and the complement."""
        return self.state(self._run(["show"]))

    def verify(self) -> int:
        """How many changes were accepted."""
        return int(self._run(["verify"])[0].removeprefix("consistent "))

    def pack(self) -> int:
        """Stores a snapshot, and returns how many changes were accepted."""
        return int(self._run(["pack"])[0].removeprefix("packed "))

    def undo(self, count: int = 1) -> Any:
        """Takes the last changes back, a group as one. Returns the edits that took the left and the right document back.

        Changes before the last snapshot stay, and `pack` and `undo` store one. If there are too few, StoreRefused is raised.
        """
        said = dict(line.split(" ", 2)[1:] for line in self._undone(count))
        return read_json(said["left"]), read_json(said["right"])

    def _undone(self, count):
        """The lines of `undo` that have the words."""
        if not 1 <= count <= MOST_UNDONE:
            raise ValueError(f"from 1 to {MOST_UNDONE} changes are taken back at once")
        return [line for line in self._run(["undo", str(count)]) if line.startswith("undo ")]

    @property
    def file(self) -> str:
        """The path of the store."""
        return os.path.join(self.folder, self.name)

    def state(self, said: list[str]) -> Any:
        """The left document, the right document and the complement of the lines of a state, which may stand behind others."""
        state = dict(line.split(" ", 1) for line in said[-3:])
        return read_json(state["left"]), read_json(state["right"]), read_json(state["complement"])

    def judge(self, status: int | None, said: list[str]) -> None:
        """Raises the exception of a status, by the lines that the program has written."""
        last = said[-1] if said else ""
        if status == 4:
            raise StoreRefused(last.removeprefix("store refused: "), self.file)
        if status == 1 and last.startswith("import refused: "):
            raise ImportRefused(last.removeprefix("import refused: "))
        if status == 7 and not said:
            need_free(self.folder)
        if status not in (0, 1):
            raise RunEnded(status)

    def _run(self, words, text=""):
        status, said = self._called(words, text)
        if status == 3:
            raise program_refused(program_of(text), said[-1])
        self.judge(status, said)
        return said

    def _called(self, words, text):
        ran = subprocess.run([self.path, *words], input=text.encode(), stdout=subprocess.PIPE, cwd=self.folder, check=False)
        return ran.returncode, lines_of(ran.stdout)
