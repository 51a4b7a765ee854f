"""A store that is kept open: one run of `apply`, which holds the lock on the folder."""

from __future__ import annotations

import contextlib
import dataclasses
import itertools
import json
import shutil
import subprocess
import tempfile
import threading
import time
from types import TracebackType
from typing import Any, Callable

from .answers import Accepted, NotAnAnswer, RunEnded
from .checked import check
from .json_text import read_json
from .lines import lines_of
from .lock import PAUSE, StoreBusy, is_busy, need_free
from .log import Log, is_change
from .natural.files import Files
from .older import MOST_CHANGES, OlderEdits, unknown_base
from .process import Process
from .session import DocumentsDiffer, Editing, words_by_side
from .store_file import open_regular

PROBE = b"{}"
"""A line that is refused and changes nothing. Its answer shows that the store was read and that the run has the lock."""
TURNS = 4
"""How often a run is started at least that does not get the lock, though nobody is seen who has it."""
MARK = b"EDLENS1\n\x01"


def stored_program(path: str) -> str:
    """The text of the lens program of a store: its first record, as docs/FORMATS.md has it."""
    with open_regular(path) as file:
        start = file.read(len(MARK) + 8)
        if not start.startswith(MARK):
            raise ValueError(f"{path} has no first record")
        payload = file.read(int.from_bytes(start[len(MARK) :], "little"))
    return json.loads(payload.decode())["program"]


class RunLock:
    """The lock of a store that is kept open, for `with`.

    Where the run is lost, RunEnded is raised in every thread that waits for the lock, and in each call until `reopen`. What such a call was
    to send was not sent. `plain` is the lock alone.
    """

    def __init__(self, kept: KeptRun) -> None:
        self._kept, self.plain = kept, threading.RLock()

    def __enter__(self) -> None:
        run = self._kept.last_run
        self.plain.acquire()
        if run and run.lost:
            self.plain.release()
            raise run.lost.unsent()

    def __exit__(self, kind: type[BaseException] | None, value: BaseException | None, trace: TracebackType | None) -> None:
        self.plain.release()


class KeptRun:
    """A store that one run of `apply` keeps open. `_opened` reads what is known of it, `_taken` takes an answer over, and `_ended` the state."""

    _opened: Callable[[], None]
    _taken: Callable[[bytes, Any], Any]
    _ended: Callable[[Any], Any]

    def __init__(self, store: Any, wait: float = 0.0, timeout: float | None = None) -> None:
        self.store, self.path, self.wait, self.timeout = store, store.path, wait, timeout
        self.lock = RunLock(self)
        self.stored, self._number = 0, 0
        self._run: Process | None = None
        self.last_run: Process | None = None
        """The run that keeps the store open, or the one that was lost. After `close` there is none."""
        self.reopen()

    def __enter__(self) -> Any:
        return self

    def __exit__(self, kind: type[BaseException] | None, value: BaseException | None, trace: TracebackType | None) -> None:
        if kind is None and self.is_open:
            self.close()
        else:
            self._leave()

    @property
    def is_open(self) -> bool:
        """Whether a run keeps the store open."""
        return self._run is not None

    def reopen(self) -> int:
        """Opens the store again, after a run that was lost or after `close`, and returns how many changes it has."""
        with self.lock.plain:
            self._leave()
            self._run = self._until_free(lambda: self._started(time.monotonic() + self.wait))
            try:
                self._opened()
            except BaseException:
                self._leave()
                raise
            self.last_run = self._run
            return self.stored

    def _started(self, deadline):
        """A run of `apply` that has the lock. Where it has not, and nobody is seen who has it, it is tried again: nothing was read."""
        for turn in itertools.count(1):
            try:
                return self._try_to_start()
            except RunEnded as why:
                if why.status != 7:
                    raise
                need_free(self.store.folder)
                if turn >= TURNS and time.monotonic() >= deadline:
                    raise
                time.sleep(PAUSE)

    def _try_to_start(self):
        run = Process([self.store.path, "apply"], folder=self.store.folder)
        try:
            said = run.ask(PROBE)
            if said.startswith("refused "):
                run.timeout = self.timeout
                return run
            status, _ = run.end()
            self.store.judge(status, [said.rstrip("\n")])
            raise NotAnAnswer(said)
        except BaseException:
            run.stop()
            raise

    def _shown(self):
        """What `show` says, with the count of `verify`, which runs beside it."""
        verify = subprocess.Popen([self.store.path, "verify"], cwd=self.store.folder, stdout=subprocess.PIPE)
        try:
            state = self.store.show()
        finally:
            said, _ = verify.communicate()
        self.store.judge(verify.returncode, lines_of(said))
        self.stored = int(said.decode().removeprefix("consistent "))
        return state

    def line(self, text: str) -> Any:
        """Sends a line of a journal that is not blank, and returns its answer: an Accepted, or a Refused that is not raised."""
        return self.answer(text)[1]

    def answer(self, line: str | bytes) -> tuple[str, Any]:
        """Sends a line that is not blank, as text or as bytes. Returns the line that answers it, as the program wrote it, and what it says.

        The program counts its lines anew in each run, the answer by those of this object.
        """
        data = line.encode() if isinstance(line, str) else line
        if b"\n" in data or not data.strip(b" \t\r"):
            raise ValueError("a line that is not blank, without a line feed, is wanted")
        with self.lock:
            if not self._run:
                raise ValueError("the store is not open: reopen() opens it again")
            try:
                said = self._run.ask(data)
                answer = self.store.read(said)
            except RunEnded as why:
                self._lose(self._run, why)
                self._abandon()
                raise
            self._number += 1
            answer = self._taken(data, dataclasses.replace(answer, number=self._number))
            return said.rstrip("\n"), answer

    def undo(self, count: int = 1) -> Any:
        """Takes the last changes back, as `Store.undo` does: the run is closed for it, and another one is opened."""
        return self._between(lambda: self.store.undo(count))

    def pack(self) -> Any:
        """Stores a snapshot, as `Store.pack` does: the run is closed for it, and another one is opened."""
        return self._between(self.store.pack)

    def close(self) -> Any:
        """Ends the run. Returns the state as the program writes it."""
        with self.lock:
            if not self._run:
                raise ValueError("the store is not open")
            run, self._run = self._run, None
            try:
                status, said = run.end()
                self.store.judge(status, said)
            except RunEnded as why:
                self._lose(run, why)
                raise
            self.last_run = None
            return self._ended(self.store.state(said))

    def _between(self, call):
        with self.lock:
            self.close()
            try:
                return self._until_free(call)
            finally:
                self.reopen()

    def _until_free(self, call):
        """Makes a call that wants the lock, again when another program that has it gives it back, for as long as `wait` says."""
        deadline = time.monotonic() + self.wait
        while True:
            try:
                return call()
            except StoreBusy:
                if time.monotonic() >= deadline:
                    raise
                while is_busy(self.store.folder) and time.monotonic() < deadline:
                    time.sleep(PAUSE)

    def _lose(self, run, why):
        """Has every call that waits for a run, or comes before `reopen`, know why it was lost."""
        why.stored, run.lost = self.stored, why

    def _abandon(self):
        self._run.stop()
        self._run = None

    def _leave(self):
        """Ends the run where there is one, whatever it says."""
        if self._run:
            with contextlib.suppress(RunEnded):
                self._run.end()
            self._run = None


class OpenStore(KeptRun, Editing):
    """A store that one run of `apply` keeps open, for a program that sends edits as they come. `Store.open` makes it.

    `left`, `right` and `group` send an edit and return the answer, an Accepted, when the change is on the disk; a refused one is raised as
    Refused, and nothing has changed then. `documents` has both documents after each answer. They are followed here by the rules of
    docs/EDITS.md; `compare` and `close` compare them with the program's own. `stored` is how many changes the store has. `older` is for edits
    that were made for a state before these.

    The run holds the lock on the folder, so no other program writes to the store until `close`. Threads may share the object.

    Where an answer does not come, RunEnded is raised (NoAnswer after `timeout` seconds, NotAnAnswer where it is something else), and the
    run is over. Its `stored` is how many changes are stored for certain. `reopen` opens the store again; then `stored` shows whether the
    change that was sent is stored as well.
    """

    def __init__(self, store: Any, wait: float = 0.0, timeout: float | None = None, forms: dict[str, Any] | None = None) -> None:
        self.types, self.documents, self.complement, self.program, self.files = {}, {}, None, "", None
        self._states: Any = None
        super().__init__(store, wait, timeout)
        try:
            self.files = Files(self, forms)
        except ValueError:
            self._leave()
            raise

    def twin(self) -> OpenStore:
        """Another open store in the same state: a copy of this one, in a folder of its own that goes when it is stopped."""
        return _Copy(self)

    def close(self) -> Any:
        """Ends the run. Returns the state as the program writes it."""
        self.files.trial.stop()
        return super().close()

    def compare(self) -> None:
        """Compares the documents with those of the program, by `show`. Raises DocumentsDiffer."""
        with self.lock:
            self._ended(self.store.show())

    def older(self, side: str, number: int) -> OlderEdits:
        """The document of a side as it was after so many changes of the store, for edits that were made for it.

        They are carried over the words of this side that were stored since then, up to 1,000 changes. `undo`, `pack` and `reopen` end it.
        Raises NotTaken with the cause `base` where the state is older, or is not there yet, or where two states have this number, since
        changes were taken back behind it.
        """
        from .older_store import read_states

        with self.lock:
            if number > self.stored:
                raise unknown_base(f"change {number}, for which this edit was made, is not there yet: the store has {self.stored}")
            if number < max(0, self.stored - MOST_CHANGES):
                raise unknown_base(f"more than {MOST_CHANGES:,} changes came after change {number}, for which this edit was made")
            if self._states is None or number < self._states.first:
                self._states = read_states(self.store.file, number, self.types, self.path)
            return OlderEdits(self._states.states, side, self._states.place(number))

    def _leave(self):
        if self.files:
            self.files.trial.stop()
        super()._leave()

    def _opened(self):
        if self._states:
            self._states.states.end()
        self._states, self.program = None, stored_program(self.store.file)
        left, right = check(self.program, self.path)
        self.types = {"left": left, "right": right}
        left, right, self.complement = self.store.show()
        self.documents = {"left": left, "right": right}
        with Log(self.store.file) as log:
            self.stored = sum(map(is_change, log.payloads()))

    def _taken(self, data, answer):
        if not isinstance(answer, Accepted):
            return self.explained(data.decode(errors="replace"), answer)
        self.stored += 1
        change = read_json(data.decode())
        self.follow(change, answer)
        if self._states:
            self._states.changed(words_by_side(change, answer.words), self.documents)
        return answer

    def _ended(self, state):
        left, right, self.complement = state
        if {"left": left, "right": right} != self.documents:
            raise DocumentsDiffer
        return state


class _Copy(OpenStore):
    """A copy of an open store, whose types and documents are known."""

    def __init__(self, original):
        self._original, self._room = original, tempfile.TemporaryDirectory(prefix="editlens-try-")
        try:
            shutil.copy(original.store.file, self._room.name)
            super().__init__(type(original.store)(self._room.name, original.path), timeout=original.timeout)
        except BaseException:
            self._room.cleanup()
            raise

    def _opened(self):
        one = self._original
        self.program, self.types, self.documents, self.stored = one.program, one.types, one.documents, one.stored

    def stop(self):
        """Stops the run, and takes the copy away."""
        if self.is_open:
            self._abandon()
        self._room.cleanup()
