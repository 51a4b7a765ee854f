"""Files that a script of dev/ writes, in full or in part: written anew, or only compared."""

import os

from . import TOP


def add_words(words, name):
    """Adds --write and --check to the words of a script that writes a file."""
    words.add_argument("--write", action="store_true", help=f"write {name}")
    words.add_argument("--check", action="store_true", help=f"only say whether {name} is up to date")


def write_or_check(given, path, wanted, script):
    """Writes a file below the top, if --write is given, or compares it, and says what came of that. Returns the status of the script."""
    place = os.path.join(TOP, path)
    if given.write:
        with open(place, "w", encoding="utf-8") as file:
            file.write(wanted)
        return 0
    if os.path.exists(place):
        with open(place, encoding="utf-8") as file:
            if file.read() == wanted:
                print(f"{path} is up to date")
                return 0
    print(f"{path} is out of date: run {script} --write")
    return 1
