"""The lines that the program writes, read: docs/FORMATS.md has their forms."""

from __future__ import annotations

import copy
from dataclasses import dataclass
from typing import Any, Callable, Iterable, Sequence

from .json_text import read_json

FAULTS = ("line-too-long", "not-json", "not-an-entry", "not-an-edit", "no-view")
OTHER = {"left": "right", "right": "left"}
STATUSES: dict[int | None, str] = {
    0: "every entry was accepted",
    1: "an entry was refused",
    2: "the words name no command",
    3: "the program is refused",
    4: "the store is refused",
    5: "the input failed",
    6: "the output failed",
    7: "another program is writing to the store, or the disk failed",
    8: "more than 2^30 bytes came",
    9: "there was not enough memory",
    20: "the program could not be run",
}


@dataclass(frozen=True)
class Accepted:
    """An accepted line: its number, and each side with the word that goes to it. A single entry has one, a group one for each entry.

    `places` are the positions of the items and nodes that an edit named by what they have, in the order in which it names them.
    """

    number: int
    words: tuple
    places: tuple = ()

    @property
    def side(self) -> str:
        """The side to which a single entry was carried."""
        return self.words[0][0]

    @property
    def word(self) -> Any:
        """The word to which a single entry was carried."""
        return self.words[0][1]


class Explained(Exception):
    """An exception that says, behind its first line, what is wrong and what to do: `explanation` has those lines."""

    explain: Callable[[], Iterable[str]] | None = None
    """A call without arguments that returns the lines. It is made where they are asked for, since it may take its time."""

    def said(self) -> str:
        """The first line. Each class of these exceptions has its own."""
        raise NotImplementedError

    @property
    def explanation(self) -> list[str]:
        """The lines that explain it."""
        return list(self.explain()) if self.explain else []

    def __str__(self) -> str:
        try:
            return "\n".join([self.said(), *self.explanation])
        except Exception as why:
            return f"{self.said()}\n(no explanation: {why})"


@dataclass
class Refused(Explained):
    """A refused line: its number and its cause. `at` is the primitive that fails, and `part` the entry of a group, or None."""

    number: int
    cause: str
    at: "int | None" = None
    part: "int | None" = None

    @property
    def written(self) -> str:
        """The line, as the program writes it."""
        part = f"group {self.part} " if self.part is not None else ""
        cause = self.cause if self.at is None else f"no-apply {self.at} {self.cause}"
        return f"refused {self.number} {part}{cause}"

    def said(self) -> str:
        """The line without its explanation."""
        place = f" at primitive {self.at}" if self.at is not None else ""
        part = f" of entry {self.part} of the group" if self.part is not None else ""
        return f"line {self.number} is refused: {self.cause}{place}{part}"


class ProgramRefused(Explained):
    """The lens program is refused. `reason` is what stands behind `program refused:`."""

    def __init__(self, reason: str, explain: Callable[[], Iterable[str]] | None = None) -> None:
        super().__init__(reason)
        self.reason, self.explain = reason, explain

    def said(self) -> str:
        """The line without its explanation."""
        return f"program refused: {self.reason}"


class RunEnded(Exception):
    """The program ended before it answered, with `status`, which is negative where a signal ended it.

    For a store that is kept open, `stored` is how many changes it had at the last answer. The change that was sent then is stored as well,
    or it is not: the count of the store, when it is opened again, is `stored` + 1 or `stored`.

    Of the threads that share a client, each that waits gets one. `sent` is false where its own line was not sent.
    """

    stored: int | None = None
    sent: bool = True
    answers: Sequence[Any] = ()
    """The answers of a call of many lines that came before."""

    def __init__(self, status: int | None) -> None:
        super().__init__(status)
        self.status = status

    def unsent(self) -> RunEnded:
        """The same, for a call whose line was not sent, since the run was lost before."""
        other = copy.copy(self)
        other.sent = False
        return other

    def said(self) -> str:
        """What happened to the run."""
        if self.status is not None and self.status < 0:
            return f"the program was ended by signal {-self.status}"
        return f"the program ended with status {self.status}: {STATUSES.get(self.status, 'unknown')}"

    def __str__(self) -> str:
        unsent = "" if self.sent else "; this line was not sent"
        if self.stored is None:
            return f"{self.said()}{unsent}"
        if unsent:
            return f"{self.said()}{unsent}. Open the store again, and send it again"
        certain = f"{self.stored} changes are stored for certain; the change that was sent may be stored too"
        return f"{self.said()}\n{certain}. Open the store again: it has {self.stored} or {self.stored + 1} changes"


class NoAnswer(RunEnded):
    """No answer came within `timeout` seconds, and the run was stopped."""

    def __init__(self, timeout: float | None) -> None:
        super().__init__(None)
        self.timeout = timeout

    def said(self) -> str:
        return f"no answer came within {self.timeout} seconds, and the run was stopped"


class NotAnAnswer(RunEnded):
    """What came is not an answer, and the run was stopped. `line` is what came."""

    def __init__(self, line: str) -> None:
        super().__init__(None)
        self.line = line

    def said(self) -> str:
        return f"what came is not an answer, and the run was stopped: {self.line[:100]!r}"


def read_answer(line: str) -> Accepted | Refused:
    """The answer of a line `ok ..` or `refused ..`: an Accepted or a Refused, which is not raised."""
    words = line.rstrip("\n").split(" ")
    try:
        return _read_words(line, words)
    except (ValueError, IndexError, KeyError, TypeError):
        raise NotAnAnswer(line) from None


def _read_words(line, words):
    if words[0] == "ok" and words[2] == "group":
        carried = read_json(line.split(" ", 3)[3])
        return Accepted(int(words[1]), tuple((it["side"], it["edit"]) for it in carried))
    if words[0] == "ok" and words[2] in OTHER:
        return Accepted(int(words[1]), ((words[2], read_json(line.split(" ", 3)[3])),))
    if words[0] == "refused" and len(words) == 3 and words[2] in FAULTS:
        return Refused(int(words[1]), words[2])
    if words[0] == "refused" and words[2] == "no-apply" and len(words) == 5:
        return Refused(int(words[1]), words[4], at=int(words[3]))
    if words[0] == "refused" and words[2] == "group" and len(words) == 5 and words[4] in FAULTS:
        return Refused(int(words[1]), words[4], part=int(words[3]))
    if words[0] == "refused" and words[2] == "group" and len(words) == 7:
        return Refused(int(words[1]), words[6], at=int(words[5]), part=int(words[3]))
    raise NotAnAnswer(line)
