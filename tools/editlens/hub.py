"""A client of a hub: one document and its views. One line goes in, and one answer comes out."""

from __future__ import annotations

import json
from dataclasses import dataclass
from typing import Any

from .answers import NotAnAnswer, Refused, RunEnded, read_answer
from .causes import Before, explain_refusal
from .checked import check, program_refused
from .edits import act
from .json_text import read_json, write_json
from .parts import HUB, joined, program_of
from .program import find_program
from .session import DocumentsDiffer, Run
from .types import initial

@dataclass(frozen=True)
class HubAccepted:
    """An accepted line: its number, the word of the hub, and the word of each view. An empty word is nothing to send."""

    number: int
    hub: list
    views: list


def read_hub_answer(line: str) -> HubAccepted | Refused | Any:
    """The answer of a line of a hub: a HubAccepted, or a Refused that is not raised."""
    if not line.startswith("ok "):
        return read_answer(line)
    try:
        _, number, words = line.rstrip("\n").split(" ", 2)
        hub, end = json.JSONDecoder().raw_decode(words)
        return HubAccepted(int(number), hub, read_json(words[end:]))
    except ValueError:
        raise NotAnAnswer(line) from None


class Hub(Run):
    """A run of a hub and its views, from their initial documents on. Raises ProgramRefused with the words of the command `hub`.

    `edit` sends an edit of the hub, or of the view with a number, and returns the answer, a HubAccepted; a refused one is raised as
    Refused, and nothing has changed then. `documents` has the documents after each answer, by "hub" and the numbers of the views. They
    are followed here by the rules of docs/EDITS.md, and `close` compares them with what the program writes at its end.
    """

    def __init__(self, programs: list[str], path: str | None = None, timeout: float | None = None) -> None:
        path, programs = path or find_program(), [program_of(it) for it in programs]
        part = joined(programs)
        self._judge(Run("hub", part, path, timeout), part)
        pairs = [check(it, path) for it in programs]
        self.types: dict[Any, Any] = {HUB: pairs[0][0], **{number: right for number, (_, right) in enumerate(pairs)}}
        self.documents = {at: initial(ty) for at, ty in self.types.items()}
        super().__init__("hub", part, path, timeout)

    @staticmethod
    def _judge(run, part):
        status, lines = run.process.end()
        if status == 3:
            raise program_refused(part, lines[0])
        if status:
            raise RunEnded(status)

    def edit(self, at: Any, edit: Any) -> HubAccepted:
        """Sends an edit of the hub, or of the view with this number."""
        answer = self.line(write_json({"at": at, "edit": edit}))
        if isinstance(answer, Refused):
            raise answer
        return answer

    def line(self, text: str) -> Any:
        """Sends a line that is not blank, and returns its answer: a HubAccepted, or a Refused that is not raised."""
        with self.lock:
            answer = self.answered(text, read_hub_answer)
            if isinstance(answer, HubAccepted):
                words: tuple[Any, ...] = ((HUB, answer.hub), *enumerate(answer.views))
                self.documents = {at: act(self.types[at], self.documents[at], word) for at, word in words}
            else:
                before = Before("hub", self.types, self.documents)
                answer.explain = lambda: explain_refusal(before, text, answer)
            return answer

    def close(self) -> Any:
        """Ends the run. Returns the documents as the program writes them, by "hub" and the numbers of the views."""
        documents: dict[Any, Any] = {}
        for line in self.state():
            name, rest = line.split(" ", 1)
            if name == HUB:
                documents[HUB] = read_json(rest)
            elif name == "view":
                number, text = rest.split(" ", 1)
                documents[int(number)] = read_json(text)
        if documents != self.documents:
            raise DocumentsDiffer
        return documents
