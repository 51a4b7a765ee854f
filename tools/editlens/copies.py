"""Stores of some records, made in folders of their own: what the program says of a part of a store is found out there."""

from __future__ import annotations

import tempfile
from contextlib import contextmanager
from typing import Any, Iterable, Iterator

from .kinds import kind_of_first
from .log import Log, write_log
from .store import Store, StoreRefused


@contextmanager
def copy_of(
    payloads: Iterable[bytes],
    path: str | None = None,
    folder: str | None = None,
    kind: type[Store] | None = None,
) -> Iterator[Store]:
    """A store of these records, in a new folder inside this one, or among the temporary files. It is removed at the end.

    Where its kind is not given, it is that of the first record.
    """
    payloads = list(payloads)
    with tempfile.TemporaryDirectory(dir=folder) as place:
        store = (kind or kind_of_first(payloads[0]))(place, path)
        write_log(store.file, payloads)
        yield store


def state_of(payloads: Iterable[bytes], path: str | None = None) -> Any:
    """What `show` says of these records. Raises StoreRefused."""
    with copy_of(payloads, path) as store:
        return store.show()


def snapshot_of(payloads: Iterable[bytes], path: str | None = None, folder: str | None = None) -> bytes:
    """The payload of the snapshot that the program makes of these records. Raises StoreRefused."""
    with copy_of(payloads, path, folder) as store:
        store.pack()
        with Log(store.file) as log:
            return log.payload(log.spans[-1])


def good_count(payloads: list[bytes], store: Store) -> int:
    """How many of these records, from the first one on, are a store of the kind of this one that is not refused."""
    count = len(payloads)
    while count:
        with copy_of(payloads[:count], store.path, kind=type(store)) as copy:
            try:
                copy.verify()
                return count
            except StoreRefused as why:
                count = min(count, record_of(why.reason)) - 1
    return 0


def record_of(reason: str) -> int:
    """The number of the record that a refusal names."""
    return int(reason.split(" ")[1])
