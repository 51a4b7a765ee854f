"""editlens as a library in this process, by ctypes.

`Kept` is a session over bytes, as `editlens.h` declares it, and needs this file alone. `Session` is the class of tools/editlens/session.py with
the same calls and the same exceptions, over the library in place of a process: where tools/ is on the path,

    from editlens_library import Session

takes the place of `from editlens.session import Session`.

A session stays on the thread that opened it. The library is proved to keep to its header, but this module is only tested.
"""

from __future__ import annotations

import ctypes
import os
import threading
from types import TracebackType
from typing import Any, Iterable

HERE = os.path.dirname(os.path.abspath(__file__))

DONE, BLANK, REFUSED, PROGRAM_REFUSED, STATE_REFUSED, NO_SESSION, NO_MEMORY, SMALL_BUFFER, LINE_FEED, UNKNOWN_PART = range(10)
FULL, RECORDS_REFUSED, NO_CHANGE, NOT_OPEN = range(10, 14)
VERSION = 2
STATE, LEFT, COMPLEMENT, RIGHT, LEFT_TYPE, RIGHT_TYPE, SNAPSHOT, CHANGE, UNDO_LEFT, UNDO_RIGHT = range(10)
NOT_LEFT, NOT_COMPLEMENT, NOT_RIGHT, NOT_CONSISTENT = range(41, 45)
BAD_RECORD, RECORD_NOT_CONSISTENT = range(51, 53)

STATE_FAULTS = {
    NOT_LEFT: "the left text is not the JSON of a left document",
    NOT_COMPLEMENT: "the text of the complement is not the JSON of one",
    NOT_RIGHT: "the right text is not the JSON of a right document",
    NOT_CONSISTENT: "the documents and the complement are not consistent",
}

RECORD_FAULTS = {BAD_RECORD: "record {} is not one that may stand there", RECORD_NOT_CONSISTENT: "record {} is a snapshot that is not consistent"}


class Answer(ctypes.Structure):
    """What a call answers: the struct of `editlens.h`."""

    _fields_ = [
        ("status", ctypes.c_uint32),
        ("cause", ctypes.c_uint32),
        ("number", ctypes.c_uint64),
        ("part", ctypes.c_uint64),
        ("at", ctypes.c_uint64),
        ("len", ctypes.c_size_t),
        ("size", ctypes.c_uint64),
        ("spare_1", ctypes.c_uint64),
        ("spare_2", ctypes.c_uint64),
    ]


class NoLibrary(Exception):
    """There is no libeditlens.so."""

    def __init__(self) -> None:
        super().__init__("there is no libeditlens.so: run ./build --library, or name one by EDITLENS_LIBRARY_PATH")


class OtherLibrary(Exception):
    """The library has another interface than this module is written for."""

    def __init__(self, path: str) -> None:
        super().__init__(f"{path} has another interface than version {VERSION} of it: build it again")


class Unopened(Exception):
    """There is no session: the program is refused (`line` says why), or the state is (`cause`), or the records are (`cause`, and `at` is the
    number of the record), or none of these, where memory ran out. Or there is no hub, and `faults` has what is said of each of its causes."""

    def __init__(self, answer: Answer, line: bytes, faults: dict[int, str] | None = None, view: int | None = None) -> None:
        faults = faults or {**STATE_FAULTS, **{cause: text.format(answer.at) for cause, text in RECORD_FAULTS.items()}}
        super().__init__(line.decode().rstrip("\n") or faults.get(answer.cause, "memory ran out"))
        self.status, self.cause, self.at, self.line, self.view = answer.status, answer.cause, answer.at, line, view


def find_library() -> str:
    """The path of libeditlens.so: what EDITLENS_LIBRARY_PATH names, or the one beside this file or in the package editlens, as it is installed, or
    the one that ./build --library makes."""
    top = os.path.dirname(os.path.dirname(HERE))
    beside = [os.path.join(HERE, *below, "libeditlens.so") for below in ((), ("editlens",))]
    built = os.path.join(top, ".library", "lib", "libeditlens.so")
    for path in (os.environ.get("EDITLENS_LIBRARY_PATH"), *beside, built):
        if path and os.path.exists(path):
            return path
    raise NoLibrary


_loaded = {}


def load(path: str | None = None) -> ctypes.CDLL:
    """The library, with the types of its functions."""
    path = path or find_library()
    if path not in _loaded:
        library = ctypes.CDLL(path)
        if not hasattr(library, "editlens_version") or library.editlens_version() != VERSION:
            raise OtherLibrary(path)
        at, text, size = ctypes.c_void_p, ctypes.c_char_p, ctypes.c_size_t
        for name, given, answer in (
            ("size", [], size),
            ("open", [at, text, size], ctypes.c_uint32),
            ("import_left", [at, *[text, size] * 2], ctypes.c_uint32),
            ("import_right", [at, *[text, size] * 2], ctypes.c_uint32),
            ("resume", [at, *[text, size] * 4], ctypes.c_uint32),
            ("reopen", [at, text, size], ctypes.c_uint32),
            ("status", [at], Answer),
            ("step", [at, text, size], Answer),
            ("show", [at, ctypes.c_uint32], Answer),
            ("text", [at, text, size], Answer),
            ("close", [at], ctypes.c_uint32),
        ):
            function = getattr(library, f"editlens_session_{name}")
            function.argtypes, function.restype = given, answer
        _loaded[path] = library
    return _loaded[path]


class Kept:
    """A session over bytes. Raises Unopened.

    `state` is None, or the texts of a left document, a complement and a right document. In place of it `left` or `right` is the text of one
    document, and the other one is made. `records` are those of a log, in place of a program. `opening` is the record that a log gets before any
    other; it is empty if `records` are given, but for the log of an old store.
    """

    def __init__(
        self,
        program: bytes | None = None,
        state: Iterable[bytes] | None = None,
        path: str | None = None,
        *,
        left: bytes | None = None,
        right: bytes | None = None,
        records: Iterable[bytes] | None = None,
    ) -> None:
        if sum(it is not None for it in (state, left, right, records)) > 1 or (program is None) == (records is None):
            raise TypeError("a program, with a state or one document or neither, is wanted; or the records of a log")
        text = program or b""
        self.library, self.thread, self.at = load(path), threading.get_ident(), None
        size = self.library.editlens_session_size()
        self.room = ctypes.create_string_buffer(size + 15)
        self.buffer = ctypes.create_string_buffer(4096)
        at = (ctypes.addressof(self.room) + 15) & ~15
        if records is not None:
            log = b"".join(it + b"\n" for it in records)
            self.library.editlens_session_reopen(at, log, len(log))
        elif state is not None:
            self.library.editlens_session_resume(at, text, len(text), *[it for each in state for it in (each, len(each))])
        elif left is not None:
            self.library.editlens_session_import_left(at, text, len(text), left, len(left))
        elif right is not None:
            self.library.editlens_session_import_right(at, text, len(text), right, len(right))
        else:
            self.library.editlens_session_open(at, text, len(text))
        self.at = at
        answer = self.library.editlens_session_status(at)
        if answer.status != DONE:
            line = self.text()
            self.close()
            raise Unopened(answer, line)
        self.opening = self.text()

    def __enter__(self) -> Kept:
        return self

    def __exit__(self, kind: type[BaseException] | None, value: BaseException | None, trace: TracebackType | None) -> None:
        self.close()

    def here(self) -> Any:
        """The address of the session, on its thread."""
        if self.at is None:
            raise ValueError("the session is closed")
        if threading.get_ident() != self.thread:
            raise ValueError("a session stays on the thread that opened it")
        return self.at

    def text(self) -> bytes:
        """The bytes that answer the last call."""
        answer = self.library.editlens_session_text(self.here(), self.buffer, len(self.buffer))
        if answer.status == SMALL_BUFFER:
            self.buffer = ctypes.create_string_buffer(answer.len)
            answer = self.library.editlens_session_text(self.here(), self.buffer, answer.len)
        return ctypes.string_at(self.buffer, answer.len)

    def step(self, line: bytes) -> tuple[Answer, bytes]:
        """Takes a line of a journal, without its LF. Returns the answer and its bytes, which are none for a blank line."""
        answer = self.library.editlens_session_step(self.here(), line, len(line))
        return self.answered(answer), self.text()

    def show(self, part: int) -> bytes:
        """The bytes of a part of the state: STATE, LEFT, COMPLEMENT, RIGHT, LEFT_TYPE, RIGHT_TYPE or SNAPSHOT, which is a record for a log. Or of
        the change that the last line was: CHANGE, which is a record for a log, UNDO_LEFT or UNDO_RIGHT. ValueError if it was not accepted."""
        self.answered(self.library.editlens_session_show(self.here(), part))
        return self.text()

    @property
    def items(self) -> Any:
        """How many items the session was given."""
        return self.library.editlens_session_status(self.here()).number

    def state(self) -> Any:
        """The texts from which a session can go on: those of the left document, the complement and the right document."""
        return tuple(self.show(part) for part in (LEFT, COMPLEMENT, RIGHT))

    def answered(self, answer: Answer) -> Any:
        """The answer, if the call did what it was asked, or refused an item."""
        if answer.status == NO_MEMORY:
            raise MemoryError("memory ran out, and the session is as before")
        if answer.status > REFUSED:
            reasons = {
                LINE_FEED: "a line feed is in the line",
                UNKNOWN_PART: "this is not a part of the state",
                FULL: "no further item has a number",
                NO_CHANGE: "the last line was not a change that was accepted",
                NOT_OPEN: "the session is closed",
            }
            raise ValueError(reasons[answer.status])
        return answer

    def close(self) -> None:
        """Ends the session. It may be closed twice."""
        if self.at is not None:
            at, self.at = self.here(), None
            self.library.editlens_session_close(at)

    def __del__(self) -> None:
        if getattr(self, "at", None) is not None and threading.get_ident() == self.thread:
            self.close()


def __getattr__(name: str) -> Any:
    """`Session` is made where it is asked for, since it needs tools/ on the path."""
    if name == "Session":
        from library_session import Session

        return Session
    raise AttributeError(f"module {__name__!r} has no attribute {name!r}")
