"""A new file for a store: made and verified beside it, and put in its place in one step."""

from __future__ import annotations

import os
import shutil
import time
from typing import Any

from .kinds import split
from .lock import StoreLock
from .log import sync_folder
from .store import StoreRefused

WORK = ".editlens.new"
"""The folder beside a store in which its new file is made. The lock is held meanwhile, so one is enough."""
OLD = ".old"


class NotDone(Exception):
    """What was asked for was not done, and the store is as it was. The text says why."""


def dated() -> str:
    """The time of now, as a part of a name."""
    return time.strftime("%Y-%m-%dT%H%M%SZ", time.gmtime())


def free_name(begin: str, end: str = "") -> str:
    """The first of `begin`, `begin-2`, `begin-3` and so on, each with `end`, that names no file."""
    number, path = 1, begin + end
    while os.path.lexists(path):
        number += 1
        path = f"{begin}-{number}{end}"
    return path


class Replacement:
    """The new file of a store, for `with`. The lock of the folder is held until the end. The kind of the store is the one that is there.

    `new` is a store in a folder of its own, on the same file system: its file is written there. `put` verifies and syncs it, and renames
    it over the old one. Until then the store is as it was. A call that is killed leaves no more than the folder `.editlens.new`, which
    the next call takes away.
    """

    def __init__(self, place: str, path: str | None = None, wait: float = 0.0, kind: Any = None) -> None:
        folder, kind = (place, kind) if kind else split(place)
        self.folder, self.work = folder, os.path.join(folder, WORK)
        self.old = kind(folder, path)
        self.new = type(self.old)(self.work, self.old.path)
        self._lock = StoreLock(folder, wait)

    def __enter__(self) -> Replacement:
        self._lock.take()
        try:
            self._clear()
            os.mkdir(self.work, 0o700)
        except BaseException:
            self._lock.give_back()
            raise
        return self

    def __exit__(self, *_: object) -> None:
        self._clear()
        self._lock.give_back()

    def _clear(self):
        if os.path.lexists(self.work) and (os.path.islink(self.work) or not os.path.isdir(self.work)):
            raise NotDone(f"{self.work} is in the way: it is not the folder in which the new file of a store is made, so move it away")
        if os.path.lexists(self.work):
            shutil.rmtree(self.work)

    def put(self, count: int | None = None, state: Any = None, keeps_old: bool = False) -> str | None:
        """Puts the new file in place. Returns the path under which the old one is kept, or None.

        The program has to verify it, with this count of changes and this state where they are given. Otherwise NotDone is raised.
        """
        try:
            found = self.new.verify()
            is_meant = count in (None, found) and (state is None or self.new.show() == state)
        except StoreRefused as why:
            raise NotDone(f"the new file is not put in place, since the program says of it: store refused: {why.reason}") from None
        if not is_meant:
            raise NotDone("the new file is not put in place, since the program reads something else in it than was meant")
        kept = None
        if os.path.exists(self.old.file):
            self._take_after_old(self.new.file)
            kept = self._keep() if keeps_old else None
        _sync(self.new.file)
        self._lock.need_same(self.old.file)
        os.replace(self.new.file, self.old.file)
        sync_folder(self.folder)
        return kept

    def _take_after_old(self, path):
        """Gives a file the owner and the permissions of the old one."""
        old, new = os.stat(self.old.file), os.stat(path)
        if (old.st_uid, old.st_gid) != (new.st_uid, new.st_gid):
            try:
                os.chown(path, old.st_uid, old.st_gid)
            except PermissionError:
                raise NotDone(f"{self.old.file} belongs to user {old.st_uid}, group {old.st_gid}: call this as that user") from None
        shutil.copymode(self.old.file, path)

    def _keep(self):
        """Keeps a copy of the old file. A second name for the file itself would be refused by each program that writes, if this one were
        killed before the new file is in place."""
        kept, copy = free_name(f"{self.old.file}.{dated()}", OLD), os.path.join(self.work, OLD)
        shutil.copy2(self.old.file, copy)
        self._take_after_old(copy)
        _sync(copy)
        os.rename(copy, kept)
        sync_folder(self.folder)
        return kept


def _sync(path):
    with open(path, "rb") as file:
        os.fsync(file.fileno())
