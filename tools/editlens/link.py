"""A client of a link: two sites that take turns. One event goes in, and one answer comes out."""

from __future__ import annotations

from dataclasses import dataclass
from typing import Any, Iterable

from .answers import OTHER, NotAnAnswer, Refused
from .causes import explain_edit, read_line
from .checked import check
from .edits import act, form_fault
from .json_text import read_json, shown, write_json
from .parts import program_of
from .program import find_program
from .session import DocumentsDiffer, Run, Session

WITH_NUMBER = ("packet", "taken", "stale")
EVENTS = '{"edit":["left",EDIT]}, {"seal":"left"}, {"send":"left"}, {"deliver":PACKET}, {"restart":"left"}, or the same of "right"'


@dataclass(frozen=True)
class LinkAccepted:
    """An event that happened: its number, and what came of it.

    `what` is `draft`, `batch`, `packet`, `taken`, `stale` or `restart`. `value` is the number of the batch or of the packet, and `word` the
    edit that a batch has, of the right document.
    """

    number: int
    what: str
    value: "int | None" = None
    word: "list | None" = None


@dataclass
class LinkRefused(Refused):
    """A refused event. `count` is the number of the site for `not-turn`, and how many packets there are for `no-packet`."""

    count: "int | None" = None

    @property
    def written(self) -> str:
        """The line, as the program writes it."""
        return super().written if self.count is None else f"{super().written} {self.count}"


def read_link_answer(line: str) -> LinkAccepted | LinkRefused:
    """The answer of a line of a link: a LinkAccepted, or a LinkRefused that is not raised."""
    words = line.rstrip("\n").split(" ", 4)
    try:
        number, what, rest = int(words[1]), words[2], words[3:]
        if words[0] == "ok" and what == "batch":
            return LinkAccepted(number, what, int(rest[0]), read_json(rest[1]))
        if words[0] == "ok" and (what in WITH_NUMBER and len(rest) == 1 or what in ("draft", "restart") and not rest):
            return LinkAccepted(number, what, int(rest[0]) if rest else None)
        if words[0] == "refused" and what == "no-apply":
            return LinkRefused(number, rest[1], at=int(rest[0]))
        if words[0] == "refused":
            return LinkRefused(number, what, count=int(rest[0]) if rest else None)
    except (ValueError, IndexError):
        pass
    raise NotAnAnswer(line)


class Link(Run):
    """A run of two sites that take turns, from the initial documents on. Raises ProgramRefused.

    `edit`, `seal`, `send`, `deliver` and `restart` are the events; each returns its answer, a LinkAccepted. A refused one is raised as
    LinkRefused, and nothing has changed then. `documents` has the document of each site, `drafts` the edits that are not sealed, and
    `numbers` how many batches a site has made or taken. They are followed here, with a Session beside the link that translates the batches,
    and `close` compares them with what the program writes at its end.
    """

    def __init__(self, program_text: str, path: str | None = None, timeout: float | None = None) -> None:
        path, part = path or find_program(), program_of(program_text)
        self.types = dict(zip(("left", "right"), check(part, path)))
        self.session = Session(part, path, timeout)
        self.documents, self.complement = dict(self.session.documents), None
        self.drafts: dict[str, list[Any]] = {"left": [], "right": []}
        self.numbers = {"left": 0, "right": 0}
        super().__init__("link", part, path, timeout)

    def edit(self, side: str, edit: Any) -> LinkAccepted:
        """Joins an edit to the draft of a site."""
        return self._happens({"edit": [side, edit]})

    def seal(self, side: str) -> LinkAccepted:
        """Makes the draft of a site the next batch."""
        return self._happens({"seal": side})

    def send(self, side: str) -> LinkAccepted:
        """Makes the last batch of a site a packet. Returns the answer, whose value is the number of the packet."""
        return self._happens({"send": side})

    def deliver(self, packet: int) -> LinkAccepted:
        """Lets a packet arrive, once more if it did."""
        return self._happens({"deliver": packet})

    def restart(self, side: str) -> LinkAccepted:
        """Lets a site lose its draft."""
        return self._happens({"restart": side})

    def _happens(self, event):
        answer = self.line(write_json(event))
        if isinstance(answer, Refused):
            raise answer
        return answer

    def line(self, text: str) -> LinkAccepted | LinkRefused:
        """Sends a line that is not blank, and returns its answer: a LinkAccepted, or a LinkRefused that is not raised."""
        with self.lock:
            answer = self.answered(text, read_link_answer)
            if isinstance(answer, LinkRefused):
                drafted = {side: act(self.types[side], self.documents[side], self.drafts[side]) for side in OTHER}
                answer.explain = lambda: explain_event(self.types, drafted, text, answer)
            else:
                self._follow(read_json(text), answer)
            return answer

    def _follow(self, event, answer):
        (name, content), = event.items()
        if answer.what == "draft":
            side, edit = content
            self.drafts[side] = [*self.drafts[side], *edit]
        elif answer.what == "restart":
            self.drafts[content] = []
        elif answer.what == "batch":
            # The session has each batch when it is made, the other site when it is taken.
            self.session.entry(content, self.drafts[content])
            self.documents[content], self.drafts[content] = self.session.documents[content], []
            self.numbers[content] = answer.value
        elif answer.what == "taken":
            side = "right" if answer.value % 2 else "left"
            self.documents[side], self.numbers[side] = self.session.documents[side], answer.value

    def stop(self) -> None:
        """Stops the run at once. What it would still say is lost."""
        self.session.stop()
        super().stop()

    def close(self) -> Any:
        """Ends the run. Returns the documents of the left and of the right site, and the complement, as the program writes them."""
        state = dict(line.split(" ", 1) for line in self.state())
        self.session.stop()
        left, right, self.complement = (read_json(state[it]) for it in ("left", "right", "complement"))
        numbers = dict(zip(("left", "right"), map(int, state["numbers"].split())))
        if ({"left": left, "right": right}, numbers) != (self.documents, self.numbers):
            raise DocumentsDiffer
        return left, right, self.complement


def explain_event(types: dict[str, Any], drafted: dict[str, Any], line: str, answer: LinkRefused) -> Iterable[str]:
    """The lines that explain why an event is refused. `drafted` are the documents of the sites with their drafts."""
    tree, said = read_line(line, answer)
    if said:
        return said
    if answer.cause == "not-turn":
        site = tree["edit"][0] if "edit" in tree else tree["seal"]
        return [f"  the {site} site has number {answer.count}: the next batch is made by the {OTHER[site]} site"]
    if answer.cause == "no-packet":
        return [f"  packets are numbered from 0, and {answer.count} were sent"]
    if answer.cause == "no-batch":
        return [f"  the {tree['send']} site has made no batch yet; a seal makes one"]
    if answer.cause == "last-number":
        return ["  the number of this site is 2^64 - 1, and no batch follows"]
    if answer.cause == "not-an-event":
        return [f"  an event is one of {EVENTS}", f"  found: {shown(tree)}"]
    side, edit = tree["edit"]
    if answer.cause == "not-an-edit":
        return [f"  {form_fault(edit)}"]
    return explain_edit(f"the {side} document with its draft", types[side], drafted[side], edit, answer)
