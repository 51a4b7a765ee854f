"""A hub of editlens in this process, by ctypes: one document that is kept in step with up to 64 views.

`Hub` is a hub over bytes, as `editlens.h` declares it. It needs `editlens_library` beside it. A hub stays on the thread that opened it. The
library is proved to keep to its header, but this module is only tested.
"""

from __future__ import annotations

import contextlib
import ctypes
import itertools
import threading
from types import TracebackType
from typing import Any, Iterable

from editlens_library import BLANK, DONE, FULL, LINE_FEED, NO_MEMORY, NOT_COMPLEMENT, NOT_CONSISTENT, REFUSED, SMALL_BUFFER, UNKNOWN_PART
from editlens_library import Answer, Unopened, load

HUB_STATE, HUB_DOCUMENT, VIEW_DOCUMENT, VIEW_COMPLEMENT = range(4)
NO_VIEW, TOO_MANY_VIEWS, VIEWS_DIFFER, OTHER_COUNT, NOT_HUB, NOT_VIEW = range(61, 67)

STATE_FAULTS = {
    OTHER_COUNT: "the texts are not one of the hub and two of each view",
    NOT_HUB: "the first text is not the JSON of a document of the hub",
    NOT_VIEW: "the first text of view {} is not the JSON of a document of it",
    NOT_COMPLEMENT: "the second text of view {} is not the JSON of a complement of it",
    NOT_CONSISTENT: "view {} is not consistent with the hub",
}

_typed = set()


def load_hubs(path: str | None = None) -> ctypes.CDLL:
    """The library, with the types of the functions of hubs."""
    library = load(path)
    if id(library) not in _typed:
        at, text, size = ctypes.c_void_p, ctypes.c_char_p, ctypes.c_size_t
        for name, given, answer in (
            ("size", [], size),
            ("open", [at, text, size], ctypes.c_uint32),
            ("resume", [at, *[text, size] * 2], ctypes.c_uint32),
            ("status", [at], Answer),
            ("step", [at, text, size], Answer),
            ("show", [at, ctypes.c_uint32, ctypes.c_uint64], Answer),
            ("text", [at, text, size], Answer),
            ("close", [at], ctypes.c_uint32),
        ):
            function = getattr(library, f"editlens_hub_{name}")
            function.argtypes, function.restype = given, answer
        _typed.add(id(library))
    return library


class NoView(LookupError):
    """There is no view with this number."""


class Hub:
    """A hub over the programs of its views: a list of bytes, or the bytes of a script's program part, with a line `+++` between the programs.
    Raises Unopened, with the number of the view that is refused as `view`.

    `state` is None, or the texts of the hub's document and, for each view in order, of its document and of its complement. The hub goes on from
    them.
    """

    def __init__(self, programs: list[bytes] | bytes, state: Iterable[bytes] | None = None, path: str | None = None) -> None:
        self.library, self.thread, self.at = load_hubs(path), threading.get_ident(), None
        self.room = ctypes.create_string_buffer(self.library.editlens_hub_size() + 15)
        self.buffer = ctypes.create_string_buffer(4096)
        at = (ctypes.addressof(self.room) + 15) & ~15
        text = programs if isinstance(programs, bytes) else b"+++\n".join(it if it.endswith(b"\n") else it + b"\n" for it in programs)
        if state is not None:
            texts = b"".join(it + b"\n" for it in state)
            self.library.editlens_hub_resume(at, text, len(text), texts, len(texts))
        else:
            self.library.editlens_hub_open(at, text, len(text))
        self.at = at
        answer = self.library.editlens_hub_status(at)
        if answer.status != DONE:
            line = self.text()
            self.close()
            faults = {cause: fault.format(answer.part) for cause, fault in STATE_FAULTS.items()}
            raise Unopened(answer, line, faults, view=answer.part)

    def __enter__(self) -> Hub:
        return self

    def __exit__(self, kind: type[BaseException] | None, value: BaseException | None, trace: TracebackType | None) -> None:
        self.close()

    def here(self) -> Any:
        """The address of the hub, on its thread."""
        if self.at is None:
            raise ValueError("the hub is closed")
        if threading.get_ident() != self.thread:
            raise ValueError("a hub stays on the thread that opened it")
        return self.at

    def text(self) -> bytes:
        """The bytes that answer the last call."""
        answer = self.library.editlens_hub_text(self.here(), self.buffer, len(self.buffer))
        if answer.status == SMALL_BUFFER:
            self.buffer = ctypes.create_string_buffer(answer.len)
            answer = self.library.editlens_hub_text(self.here(), self.buffer, answer.len)
        return ctypes.string_at(self.buffer, answer.len)

    def step(self, line: bytes) -> tuple[Answer, bytes]:
        """Takes a line of a hub's journal, without its LF. Returns the answer and its bytes, which are none for a blank line."""
        answer = self.answered(self.library.editlens_hub_step(self.here(), line, len(line)))
        return answer, self.text()

    def show(self, part: int, view: int = 0) -> bytes:
        """The bytes of a part of the state: HUB_STATE, HUB_DOCUMENT, or of a view VIEW_DOCUMENT or VIEW_COMPLEMENT. NoView if there is no such
        view."""
        answer = self.answered(self.library.editlens_hub_show(self.here(), part, view))
        if answer.status == REFUSED:
            raise NoView(view)
        return self.text()

    def texts(self) -> tuple[bytes, ...]:
        """The texts from which a hub can go on: that of the hub's document, and for each view in order those of its document and its complement."""
        found = [self.show(HUB_DOCUMENT)]
        with contextlib.suppress(NoView):
            for view in itertools.count():
                found += [self.show(part, view) for part in (VIEW_DOCUMENT, VIEW_COMPLEMENT)]
        return tuple(found)

    @property
    def items(self) -> Any:
        """How many items the hub was given."""
        return self.library.editlens_hub_status(self.here()).number

    def answered(self, answer: Answer) -> Any:
        """The answer, if the call did what it was asked, or refused."""
        if answer.status == NO_MEMORY:
            raise MemoryError("memory ran out, and the hub is as before")
        if answer.status not in (DONE, BLANK, REFUSED):
            reasons = {
                LINE_FEED: "a line feed is in the line",
                UNKNOWN_PART: "this is not a part of the state",
                FULL: "no further item has a number",
            }
            raise ValueError(reasons[answer.status])
        return answer

    def close(self) -> None:
        """Ends the hub. It may be closed twice."""
        if self.at is not None:
            at, self.at = self.here(), None
            self.library.editlens_hub_close(at)

    def __del__(self) -> None:
        if getattr(self, "at", None) is not None and threading.get_ident() == self.thread:
            self.close()
