"""The class of tools/editlens/session.py over the library: `from editlens_library import Session`. It needs tools/ on the path."""

from __future__ import annotations

import threading
from types import TracebackType
from typing import Any, Iterable

from editlens.answers import Accepted, Refused, RunEnded, read_answer
from editlens.checked import program_refused
from editlens.json_text import read_json
from editlens.natural.files import Files
from editlens.parts import program_of
from editlens.session import Editing
from editlens.types import read_type

import editlens_library as library


class StateRefused(Exception):
    """The documents and the complement from which a session was to go on are refused."""


class Session(Editing):
    """A session of a lens program, from its initial documents on, or from the texts of a state: `state` of a session before it.

    `left`, `right`, `group`, `entry` and `line` are those of the session over a process, and so are `types`, `documents` and `close`. The
    documents are those of the library, and not followed by a second implementation. `path` is that of the library.
    """

    def __init__(
        self,
        program_text: str,
        path: str | None = None,
        timeout: float | None = None,
        forms: dict[str, Any] | None = None,
        state: Iterable[bytes] | None = None,
    ) -> None:
        self.path, self.program, self.lock = path, program_of(program_text), threading.RLock()
        try:
            self.kept = library.Kept(self.program.encode(), state, path)
        except library.Unopened as why:
            raise self._unopened(why) from None
        self.types = {"left": self._type(library.LEFT_TYPE), "right": self._type(library.RIGHT_TYPE)}
        self.complement = None
        self.files = Files(self, forms)

    def _unopened(self, why):
        if why.status == library.PROGRAM_REFUSED:
            return program_refused(self.program, why.line.decode())
        return StateRefused(str(why)) if why.status == library.STATE_REFUSED else MemoryError(str(why))

    def _type(self, part):
        return read_type(self.kept.show(part).decode())

    def __enter__(self) -> Session:
        return self

    def __exit__(self, kind: type[BaseException] | None, value: BaseException | None, trace: TracebackType | None) -> None:
        self.stop()

    @property
    def documents(self) -> dict[str, Any]:  # type: ignore[override]
        """Both documents, as the library has them."""
        return {"left": read_json(self.kept.show(library.LEFT).decode()), "right": read_json(self.kept.show(library.RIGHT).decode())}

    def line(self, text: str) -> Accepted | Refused:
        """Sends a line of a journal that is not blank, and returns its answer: an Accepted, or a Refused that is not raised."""
        with self.lock:
            if "\n" in text or not text.strip(" \t\r"):
                raise ValueError("a line that is not blank, without a line feed, is wanted")
            said = self.kept.step(text.encode())[1]
            answer = read_answer(said.decode().rstrip("\n"))
            return answer if isinstance(answer, Accepted) else self.explained(text, answer)

    def state(self) -> tuple[bytes, ...]:
        """The texts from which another session can go on."""
        return self.kept.state()

    def twin(self) -> Session:
        """Another session in the same state."""
        return Session(self.program, self.path, state=self.state())

    def stop(self) -> None:
        """Ends the session at once."""
        self.files.trial.stop()
        self.kept.close()

    def close(self) -> tuple[Any, Any, Any]:
        """Ends the session. Returns the left document, the right document and the complement."""
        with self.lock:
            self.files.trial.stop()
            if self.kept.at is None:
                raise RunEnded(None)
            documents = self.documents
            self.complement = read_json(self.kept.show(library.COMPLEMENT).decode())
            self.kept.close()
            return documents["left"], documents["right"], self.complement
