"""The locks on a store: one program at a time writes there.

The commands that write (init, import, apply, pack, undo) take the same locks themselves, by flock(2): that of the open folder, and that of
the store's open file. So a command that writes ends with status 7 in a folder that a StoreLock holds. `show` and `verify` take no lock.
"""

from __future__ import annotations

import contextlib
import fcntl
import os
import time

from .store_file import HUB_FILE, SESSION_FILE, need_one_name, need_same

PAUSE = 0.02
"""How many seconds are between two looks at a lock."""
LOCKS = "/proc/locks"
"""Where Linux lists the locks that are held. To look there takes none, so nobody who wants one is kept out meanwhile."""


class StoreBusy(Exception):
    """Another program is writing to the store."""

    def __init__(self, folder: str) -> None:
        super().__init__(f"another program is writing to the store in {folder}: wait until it ends, or stop it; nothing was read or written")
        self.folder = folder


class StoreLock:
    """Holds the locks on a folder and on the stores in it, for a tool that changes the file of a store itself. It is for `with`, or for
    `take` and `give_back`.

    StoreBusy is raised where another program has one of them for longer than `wait` seconds. An OSError is raised where there is no such
    folder, or where its file system has no locks, and UnsafeFile, which is one, where a store there is a link or has several names. The
    kernel gives the locks back when the process ends, in whatever way.
    """

    def __init__(self, folder: str, wait: float = 0.0) -> None:
        self.folder, self.wait = folder, wait
        self._held: contextlib.ExitStack | None = None
        self._files: dict[str, int | None] = {}

    def __enter__(self) -> StoreLock:
        self.take()
        return self

    def __exit__(self, *_: object) -> None:
        self.give_back()

    def take(self) -> None:
        """Takes the locks, and keeps them. The descriptors are not inherited by programs that are started meanwhile."""
        if self._held is not None:
            raise ValueError("this lock is held already")
        deadline = time.monotonic() + self.wait
        while not self._try_to_take():
            if time.monotonic() >= deadline:
                raise StoreBusy(self.folder)
            time.sleep(min(PAUSE, max(0.0, deadline - time.monotonic())))

    def _try_to_take(self):
        with contextlib.ExitStack() as held:
            if not _is_taken(_opened(held, self.folder, os.O_DIRECTORY)):
                return False
            files = {}
            for path in (os.path.join(self.folder, it) for it in (SESSION_FILE, HUB_FILE)):
                files[path] = need_one_name(path) and _opened(held, path, os.O_NOFOLLOW | os.O_NONBLOCK)
                if files[path] is not None:
                    if not _is_taken(files[path]):
                        return False
                    need_same(path, files[path])
            self._held, self._files = held.pop_all(), files
            return True

    def need_same(self, path: str) -> None:
        """Raises UnsafeFile where the path of a store leads to another file than when the lock was taken: what is there now is not locked."""
        held = self._files[path]
        if held is not None:
            need_same(path, held)
        elif os.path.lexists(path):
            raise FileExistsError(f"{path} was made by another program meanwhile")

    def give_back(self) -> None:
        """Gives the locks back, where they are held."""
        if self._held is not None:
            self._held.close()
            self._held, self._files = None, {}


def _opened(held: contextlib.ExitStack, path: str, flags: int) -> int:
    descriptor = os.open(path, os.O_RDONLY | flags)
    held.callback(os.close, descriptor)
    return descriptor


def _is_taken(descriptor: int) -> bool:
    try:
        fcntl.flock(descriptor, fcntl.LOCK_EX | fcntl.LOCK_NB)
    except BlockingIOError:
        return False
    return True


def is_busy(folder: str) -> bool:
    """Whether a program is seen that holds the lock on a folder, or on a store in it, now.

    A lock of another container is not listed, nor is one on some file systems: where nobody is seen, somebody may hold it all the same.
    """
    wanted = set()
    for path in (folder, os.path.join(folder, SESSION_FILE), os.path.join(folder, HUB_FILE)):
        with contextlib.suppress(FileNotFoundError):
            found = os.stat(path)
            wanted.add(f"{os.major(found.st_dev):02x}:{os.minor(found.st_dev):02x}:{found.st_ino}")
    try:
        with open(LOCKS, encoding="ascii") as lines:
            # A lock that is waited for begins with an arrow, and is not held.
            return any(it[1] == "FLOCK" and it[5] in wanted for it in map(str.split, lines))
    except FileNotFoundError:
        return False


def need_free(folder: str) -> None:
    """Raises StoreBusy where a program is seen that writes to a store in a folder, and UnsafeFile where no program writes to it."""
    if is_busy(folder):
        raise StoreBusy(folder)
    for name in (SESSION_FILE, HUB_FILE):
        need_one_name(os.path.join(folder, name))
