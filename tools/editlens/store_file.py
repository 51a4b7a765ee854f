"""The file of a store, as the system has it: a regular file with one name.

By a second name, a link of either kind, another program would look for the lock of another folder. So what writes refuses such a file.
"""

from __future__ import annotations

import os
import stat
from io import FileIO

SESSION_FILE, HUB_FILE = "editlens.store", "edithub.store"


class UnsafeFile(OSError):
    """A file is not one that a program may take for that of a store. The text says why, and what to do."""


def open_regular(path: str) -> FileIO:
    """Opens a regular file to read its bytes, without a buffer. A pipe is not waited for. Raises UnsafeFile."""
    file = open(path, "rb", buffering=0, opener=lambda name, flags: os.open(name, flags | os.O_NONBLOCK))
    if stat.S_ISREG(os.fstat(file.fileno()).st_mode):
        return file
    file.close()
    raise UnsafeFile(f"{path} is not a regular file")


def need_one_name(path: str) -> os.stat_result | None:
    """What is known of the file at a path, or None where nothing is there. Raises UnsafeFile unless it is a regular file with one name."""
    try:
        found = os.lstat(path)
    except FileNotFoundError:
        return None
    if stat.S_ISLNK(found.st_mode):
        raise UnsafeFile(f"{path} is a link: work in the folder that it leads to, since a lock on this one is not seen there")
    if not stat.S_ISREG(found.st_mode):
        raise UnsafeFile(f"{path} is not a regular file")
    if found.st_nlink == 0:
        raise UnsafeFile(f"{path} is a mount of a file that is in no folder any more, since another one took its place: mount that one anew")
    if found.st_nlink != 1:
        raise UnsafeFile(
            f"{path} has {found.st_nlink} names (hard links): remove the others, or put a copy in its place, since a program that works by "
            "another name does not see the lock here"
        )
    return found


def need_same(path: str, held: int) -> None:
    """Raises UnsafeFile unless a path leads to the file that is open as a descriptor, and to that one by no other name."""
    found, locked = need_one_name(path), os.fstat(held)
    if found is None or (found.st_dev, found.st_ino) != (locked.st_dev, locked.st_ino):
        raise UnsafeFile(f"{path} is not the file that was locked: another program has put one in its place, and nothing is written")
