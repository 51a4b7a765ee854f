"""The older states of a store, by its file: edits that were made for one of them are carried to the newest one.

A state has the number of the changes that the store had then, as `verify` counts them. The file has the word of the side that was edited;
that of the other side is found by a run over a copy. It is tested and not proved.
"""

from __future__ import annotations

from typing import Any, Dict, Mapping, Optional

from .copies import copy_of
from .json_text import read_json, write_json
from .kinds import state_in
from .log import Log, is_change, kind_of
from .older import OlderStates, unknown_base
from .session import words_by_side
from .types import Ty


class StoreStates:
    """The states of a store from one on, with those that are stored meanwhile. `number` is that of the newest one."""

    def __init__(self, types: Mapping[Any, Ty], number: int, documents: Dict[Any, Any]) -> None:
        self.states, self.number = OlderStates(types, 0, documents), number
        self.first = number
        self._places: Dict[int, Optional[int]] = {number: 0}

    def changed(self, words: Mapping[str, Any], documents: Dict[Any, Any] | None = None) -> None:
        """Takes the next change over, by the word of each side."""
        self.states.changed(words, documents)
        self.number += 1
        self._places[self.number] = self.states.number

    def went_to(self, documents: Dict[Any, Any]) -> None:
        """Takes over that the store is in a state with these documents now. Raises NotTaken where no state from the first one on is that.

        Its number stays. So where it was in another state before, two states have this number.
        """
        if documents == self.states.documents:
            return
        self._places[self.number] = None
        self.place(self.first)
        while documents != self.states.documents:
            if not self.states.went_back():
                raise unknown_base(f"changes before state {self.first}, for which this edit was made, were taken back")

    def place(self, number: int) -> int:
        """The number in `states` of the state after so many changes. Raises NotTaken where that is not one state."""
        found = self._places.get(number)
        if found is None:
            raise unknown_base(f"changes were taken back behind change {number}, so two states have this number")
        return found


def read_states(file: str, number: int, types: Mapping[Any, Ty], path: str | None = None) -> StoreStates:
    """The states of the store in a file from one on. Raises NotTaken where it is not one state."""
    with Log(file) as log:
        payloads = list(log.payloads())
    at = _behind(payloads, number)
    with copy_of(payloads[:at], path) as copy:
        found = StoreStates(types, number, _documents(copy.show()))
    while at < len(payloads):
        end = next((it for it in range(at, len(payloads)) if not is_change(payloads[it])), len(payloads))
        if end > at:
            _take_changes(found, payloads[:at], payloads[at:end], path)
        elif kind_of(payloads[at]) == "snapshot":
            found.went_to(_documents(state_in(payloads[at])))
        at = max(end, at + 1)
    found.place(number)
    return found


def _documents(state):
    return {"left": state[0], "right": state[1]}


def _behind(payloads, number):
    """How many records the store had after so many changes: up to the last of them, or up to the first change where there is none."""
    changes = [place for place, payload in enumerate(payloads) if is_change(payload)]
    if number:
        return changes[number - 1] + 1
    return changes[0] if changes else len(payloads)


def _take_changes(found, before, payloads, path):
    """Takes the changes over that are stored behind some records."""
    changes = [tree.get("entry", tree) for tree in (read_json(it.decode()) for it in payloads)]
    with copy_of(before, path) as copy:
        answers = copy.apply(map(write_json, changes))
    for change, answer in zip(changes, answers):
        found.changed(words_by_side(change, answer.words))
