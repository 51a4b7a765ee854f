"""A client over the commands of `edithub`: a hub that a store keeps, with one run of the program for each call, or one that is kept open."""

from __future__ import annotations

import dataclasses
import json
import subprocess
from collections import namedtuple
from dataclasses import dataclass
from typing import Any, Iterable

from .answers import NotAnAnswer, Refused, read_answer
from .causes import Before, explain_refusal
from .checked import check
from .edits import act
from .hub import HubAccepted, read_hub_answer
from .json_text import read_json, write_json
from .log import Log, kind_of
from .open_store import KeptRun
from .parts import HUB, joined, program_of
from .session import DocumentsDiffer
from .store import Store
from .store_file import HUB_FILE


class HubState(namedtuple("HubState", "hub views")):
    """The document of a hub, and of each view its document and its complement."""

    @property
    def documents(self) -> dict[Any, Any]:
        """The documents, by "hub" and the numbers of the views."""
        return {HUB: self.hub, **{number: view for number, (view, _) in enumerate(self.views)}}


@dataclass(frozen=True)
class HubGroupAccepted:
    """An accepted group: its number, and for each edit the word of the hub and the words of the views."""

    number: int
    parts: tuple


def read_kept_answer(line: str) -> Any:
    """The answer of a line of a hub that is kept: a HubAccepted, a HubGroupAccepted, or a Refused that is not raised."""
    words = line.rstrip("\n").split(" ", 3)
    if words[0] != "ok" or len(words) != 4 or words[2] != "group":
        return read_hub_answer(line)
    try:
        return HubGroupAccepted(int(words[1]), tuple((it["hub"], it["views"]) for it in read_json(words[3])))
    except (ValueError, KeyError, TypeError):
        raise NotAnAnswer(line) from None


def state_of_lines(lines: Iterable[str]) -> HubState:
    """The HubState of the lines of a state, which may stand behind others."""
    hub: Any = None
    views: list[Any] = []
    comps: list[Any] = []
    for name, rest in (line.split(" ", 1) for line in lines):
        if name == HUB:
            hub, views, comps = read_json(rest), [], []
        elif name in ("view", "complement"):
            (views if name == "view" else comps).append(read_json(rest.split(" ", 1)[1]))
    return HubState(hub, tuple(zip(views, comps)))


def state_of_snapshot(tree: Any) -> HubState:
    """The HubState of the tree of a snapshot."""
    return HubState(tree["hub"], tuple((it["view"], it["complement"]) for it in tree["views"]))


def stored_programs(path: str) -> list[str]:
    """The texts of the lens programs of the views of a stored hub: those of its first record, and of each view that was added."""
    with Log(path) as log:
        trees = [json.loads(it) for it in log.payloads() if kind_of(it) in ("programs", "add")]
    return [*trees[0]["hub"], *(it["add"] for it in trees[1:])]


class HubStore(Store):
    """A hub that is kept: the file `edithub.store` in a folder. `HubStore.init` makes one from the lens programs of its views.

    `edit` sends an edit of the hub, or of the view with a number, and `group` edits that are accepted together or not at all. Both return
    the answer; a refused one is raised as Refused, and nothing has changed then. Each is a run of `apply`. `HubStore.open` keeps one open.
    """

    name, command = HUB_FILE, "edithub"
    read = staticmethod(read_kept_answer)

    @classmethod
    def init(cls, folder: str, programs: list[str], path: str | None = None) -> HubStore:  # type: ignore[override]
        """Makes a store with a view for each lens program, from their initial documents. The folder is made if it is not there."""
        store = cls._placed(folder, path)
        store._run(["init"], joined(programs))
        return store

    @classmethod
    def open(  # type: ignore[override]
        cls, folder: str, path: str | None = None, wait: float = 0.0, timeout: float | None = None
    ) -> OpenHub:
        """Keeps the hub in a folder open, as an OpenHub. Another program that writes to it is waited for `wait` seconds."""
        return OpenHub(cls(folder, path), wait, timeout)

    def edit(self, at: Any, edit: Any) -> HubAccepted:
        """Sends an edit of the hub, or of the view with this number."""
        return self._accepted({"at": at, "edit": edit})

    def group(self, *edits: tuple[Any, Any]) -> HubGroupAccepted:
        """Sends edits, each "hub" or the number of a view and an edit, that are accepted together or not at all."""
        return self._accepted({"group": [{"at": at, "edit": edit} for at, edit in edits]})

    def add(self, program_text: str) -> HubState:
        """Adds a view. Its document is what its lens makes of the hub's document. Returns the HubState."""
        return self.state(self._run(["add"], program_of(program_text)))

    def undo(self, count: int = 1) -> dict[Any, Any]:
        """Takes the last changes back, a group as one. Returns the edits that took the documents back, by "hub" and the numbers of the views."""
        back = {}
        for line in self._undone(count):
            _, name, rest = line.split(" ", 2)
            number, word = (HUB, rest) if name == HUB else (int(rest.split(" ", 1)[0]), rest.split(" ", 1)[1])
            back[number] = read_json(word)
        return back

    def state(self, said: list[str]) -> HubState:
        """The HubState of the lines of a state, which may stand behind others."""
        return state_of_lines(said)


class OpenHub(KeptRun):
    """A hub that one run of `apply` keeps open. `HubStore.open` makes it.

    `edit` and `group` send edits, as those of HubStore, and return the answer when the change is on the disk. `documents` has the documents
    after each answer, by "hub" and the numbers of the views. They are followed here by the rules of docs/EDITS.md; `compare` and `close`
    compare them with the program's own. `stored` is how many changes the store has. The types of the documents come from `editlens check`.
    """

    def __init__(self, store: HubStore, wait: float = 0.0, timeout: float | None = None) -> None:
        self.types: dict[Any, Any] = {}
        self.documents: dict[Any, Any] = {}
        super().__init__(store, wait, timeout)

    def edit(self, at: Any, edit: Any) -> HubAccepted:
        """Sends an edit of the hub, or of the view with this number."""
        return self.accepted({"at": at, "edit": edit})

    def group(self, *edits: tuple[Any, Any]) -> HubGroupAccepted:
        """Sends edits, each "hub" or the number of a view and an edit, that are accepted together or not at all."""
        return self.accepted({"group": [{"at": at, "edit": edit} for at, edit in edits]})

    def accepted(self, change: dict[str, Any]) -> Any:
        """Sends a change, and returns its answer; a Refused is raised."""
        answer = self.line(write_json(change))
        if isinstance(answer, Refused):
            raise answer
        return answer

    def add(self, program_text: str) -> None:
        """Adds a view, as `HubStore.add` does: the run is closed for it, and another one is opened."""
        return self._between(lambda: self.store.add(program_text))

    def compare(self) -> Any:
        """Compares the documents with those of the program, by `show`. Raises DocumentsDiffer."""
        with self.lock:
            self._need_same(self.store.show())

    def _opened(self):
        pairs = [check(it) for it in stored_programs(self.store.file)]
        self.types = {HUB: pairs[0][0], **{number: right for number, (_, right) in enumerate(pairs)}}
        self.documents = self._shown().documents

    def _taken(self, data, answer):
        if isinstance(answer, Refused):
            before = Before("hub", self.types, self.documents)
            answer.explain = lambda: explain_refusal(before, data.decode(errors="replace"), answer)
            return answer
        self.stored += 1
        for hub, views in [(answer.hub, answer.views)] if isinstance(answer, HubAccepted) else answer.parts:
            words = ((HUB, hub), *enumerate(views))
            self.documents = {at: act(self.types[at], self.documents[at], word) for at, word in words}
        return answer

    def _ended(self, state):
        self._need_same(state)
        return state

    def _need_same(self, state):
        if state.documents != self.documents:
            raise DocumentsDiffer
