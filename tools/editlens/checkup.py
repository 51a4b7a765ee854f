"""What is wrong with a store, what of it can be read, and what is lost."""

from __future__ import annotations

import os
from dataclasses import dataclass

from .copies import good_count
from .kinds import split
from .lock import StoreLock
from .log import CLOSED, FIRST, FIRST_RECORDS, LENGTH, MARK, OPEN, Log, is_change, kind_of, number_of, printable, sync_folder, told
from .replacement import NotDone
from .store import Store, StoreRefused
from .store_file import open_regular

MOST_SHOWN = 60


@dataclass(frozen=True)
class Readable:
    """The records of a store with which one can go on. `is_all` says that they are the store as it is."""

    payloads: list
    is_all: bool


def readable(log: Log, store: Store, number: int = 0) -> Readable:
    """The records with which one can go on: all of a store that is not refused, and of another one those before the first that is bad.

    If `number` goes past the end of a store that is not refused, the records that were found behind its end count, too.
    """
    try:
        store.verify()
        if number <= len(log.spans):
            return Readable(list(log.payloads()), is_all=True)
    except StoreRefused:
        pass
    payloads = _until_bad(log.found())
    return Readable(payloads[: good_count(payloads, store)], is_all=False)


def _until_bad(found):
    payloads = []
    for it in found:
        if it.payload is None:
            break
        payloads.append(it.payload)
    return payloads


def is_left_over(log: Log) -> bool:
    """Whether a file is no more than what a killed `init` or `import` leaves: it has no change, and had none.

    It is the mark or the beginning of it. Or it has no record or the program alone, and behind that at most the one that was being stored.
    """
    if log.size <= FIRST:
        return MARK.startswith(log.read(0, FIRST))
    if not log.has_mark or log.gate(log.end) != CLOSED[0] or len(log.spans) > 1 or not all(kind_of(it) in FIRST_RECORDS.values() for it in log.payloads()):
        return False
    length = log.length_at(log.end)
    return length is None or log.size <= log.end + 1 + LENGTH + length + 1


class Checkup:
    """A look at the store in a folder, or at that of a file. `refusal` is what the program says against it, or None, and `lines` is the report."""

    def __init__(self, place: str, path: str | None = None) -> None:
        folder, kind = split(place)
        self.store, self.refusal = kind(folder, path), None
        if not os.path.exists(self.store.file):
            raise NotDone(f"there is no store here: {self.store.file} does not exist")
        open_regular(self.store.file).close()
        try:
            self.count = self.store.verify()
        except StoreRefused as why:
            self.refusal = why.reason
        with Log(self.store.file) as log:
            self.log, self.found = log, list(log.found())
            self.is_left_over = is_left_over(log)
            self.lines = list(self._report())

    def _report(self):
        if self.is_left_over and self.refusal:
            yield f"store refused: {self.refusal}"
            yield "the file has no record: an init or an import was stopped before it answered"
        elif self.refusal:
            yield from self._refused()
        else:
            yield f"consistent: {_counted(self.count, len(self.log.spans))}, {self.log.end + 1:,} bytes"
            yield from self._behind()
        if self.is_left_over and not self.refusal:
            yield "no change is stored: if an import made this file, it was stopped before it answered, and the document is not in the store"
        if self.is_left_over:
            yield "to begin again: tools/store check --remove"

    def _behind(self):
        """What is behind the end of a store that is not refused."""
        log, number = self.log, len(self.log.spans)
        behind, rest = self.found[number:], log.size - log.end - 1
        if len(behind) == 1 and log.gate(log.end) == CLOSED[0]:
            yield f"behind the end is one complete record that does not count: unless byte {log.end:,} was changed, it was not answered"
        elif behind:
            gate = f"the gate at byte {log.end:,} is the byte {log.gate(log.end)}"
            yield f"{gate}, so the store ends there; {len(behind)} complete records can be read behind it, and do not count"
        elif rest > 0:
            yield f"behind the end are {rest:,} bytes that mean nothing: a record that was not finished, or what was left of one"
        if behind:
            yield from self._records(number)
            yield f"to take in what is behind the end: tools/store back {len(self.found)}"

    def _refused(self):
        yield f"store refused: {self.refusal}"
        if not self.log.has_mark:
            yield f"the file has {self.log.size:,} bytes, and does not begin with the mark of a store"
        for number, it in enumerate(self.found, 1):
            yield from self._faults(number, it)
        payloads = _until_bad(self.found)
        good = good_count(payloads, self.store)
        if good < len(payloads):
            yield f"record {good + 1}, at byte {self.found[good].span.at:,}: {_refusal_of(payloads[good])}"
        elif self._is_stuck():
            yield from self._unread()
        yield from self._lost(good)

    def _faults(self, number, it):
        place = f"record {number}, at byte {it.span.at:,}"
        if "gate" in it.faults:
            yield f"{place}: its gate is the byte {self.log.gate(it.span.at)}, so the store ends before it"
        if "length" in it.faults:
            yield f"{place}: its length says {self.log.length_at(it.span.at):,} bytes, and its payload has {it.span.length:,}"
        if it.payload is None:
            yield f"{place}: its payload is not that of a record"

    def _is_stuck(self):
        """Whether a gate that is open or missing is behind the last record that was found."""
        return self.log.read(self.found[-1].span.end if self.found else FIRST, 1) in (OPEN, b"")

    def _unread(self):
        at = self.found[-1].span.end if self.found else FIRST
        place, length = f"record {len(self.found) + 1}, at byte {at:,}", self.log.length_at(at)
        if length is None:
            yield f"{place}: the file ends in its length"
            return
        if at + 1 + LENGTH + length >= self.log.size:
            yield f"{place}: its length says {length:,} bytes, and the file ends before the record does"
        else:
            yield f"{place}: its payload is not that of a record, and there is no gate behind it"
        yield f"  it begins with {printable(self.log.read(at + 1 + LENGTH, min(length, MOST_SHOWN)))}"

    def _lost(self, good):
        if good:
            changes = sum(is_change(it.payload) for it in self.found[:good])
            yield f"what can be read: {_counted(changes, good)}"
        else:
            yield "what can be read: nothing with which one could go on"
        if len(self.found) > good:
            yield "what is lost with it:"
            yield from self._records(good)
        if good:
            yield f"to go on with that: tools/store back {good}; this file is kept then"

    def _records(self, begin):
        for number, it in enumerate(self.found[begin:], begin + 1):
            yield f"  {number} {'cannot be read' if it.payload is None else told(it.payload)}"


def _counted(changes, count):
    return f"{number_of(changes, 'change')} in {number_of(count, 'record')}"


def _refusal_of(payload):
    kind = kind_of(payload)
    if is_change(payload):
        return "its edit does not apply to the state before it"
    if kind == "snapshot":
        return "a snapshot that does not fit the lens, or whose parts are not consistent"
    if kind == "add":
        return "its program is refused, or is not one for the other views"
    return "such a record cannot stand there" if kind == "version" else "its program is refused, or is not the first record"


def remove_left_over(place: str, path: str | None = None, wait: float = 0.0) -> None:
    """Removes a file in which no change was stored. Raises NotDone if it is anything else."""
    with StoreLock(split(place)[0], wait):
        found = Checkup(place, path)
        if not found.is_left_over:
            raise NotDone("this store is not removed: it has more than a killed init or import leaves")
        os.remove(found.store.file)
        sync_folder(found.store.folder)

