"""The repository, read by the scripts of dev/: its crates, contracts, lemmas, edits and refusals."""

import os
import subprocess

TOP = os.path.dirname(os.path.dirname(os.path.dirname(os.path.abspath(__file__))))


class NotARepository(Exception):
    """The files are not those of a clone, so git cannot list them."""


def read_lines(path):
    """The lines of a file, without their ends."""
    with open(path, encoding="utf-8") as file:
        return file.read().splitlines()


def tracked(top=TOP):
    """The files that git knows and that are there, below the top of the repository."""
    ran = subprocess.run(["git", "-C", top, "ls-files", "-z"], stdout=subprocess.PIPE, text=True, check=False)
    if ran.returncode:
        raise NotARepository(f"{top} is not a clone: git lists no files there")
    return [it for it in ran.stdout.split("\0") if it and os.path.isfile(os.path.join(top, it))]
