"""The programs that the tools run: the proved ones if they are built, or else the unproved ones that are kept in .unproved/."""

import os
import shutil

TOP = os.path.dirname(os.path.dirname(os.path.dirname(os.path.abspath(__file__))))
INSTALLED = (TOP, os.path.join(os.path.dirname(TOP), "editlens"))
"""The folders in which an installed program may be: lib/editlens/, which is above the tools, or beside the libraries of Python."""
NOT_SOURCES = ("out", "must-fail")


class NoProgram(Exception):
    """There is no program to run."""

    def __init__(self, name: str = "editlens") -> None:
        super().__init__(f"there is no program: run ./build, or ./{name} run once, which builds an unproved one, or name one by {name.upper()}")


def proved(name: str = "editlens") -> str:
    """Where a program is that is installed or proved."""
    for folder in INSTALLED:
        installed = os.path.join(folder, f"{name}-program")
        if os.path.exists(installed):
            return installed
    return os.path.join(TOP, "crates", name, "out", name)


def kept(name: str = "editlens") -> str:
    """Where a program is that was built without proofs."""
    return os.path.join(TOP, ".unproved", name)


def newest_source() -> float:
    """The time of the last change of a source."""
    newest = os.path.getmtime(os.path.join(TOP, "crates.txt"))
    for folder, folders, names in os.walk(os.path.join(TOP, "crates")):
        folders[:] = [it for it in folders if it not in NOT_SOURCES]
        for name in names:
            newest = max(newest, os.path.getmtime(os.path.join(folder, name)))
    return newest


def find_program(name: str = "editlens") -> str:
    """The path of a program: what EDITLENS names (EDITHUB for `edithub`), the proved one, the unproved one if no source is newer, or one on
    the PATH."""
    named = os.environ.get(name.upper())
    if named:
        return named
    if os.access(proved(name), os.X_OK):
        return proved(name)
    if os.access(kept(name), os.X_OK) and os.path.getmtime(kept(name)) > newest_source():
        return kept(name)
    found = shutil.which(name)
    if found:
        return found
    raise NoProgram(name)
