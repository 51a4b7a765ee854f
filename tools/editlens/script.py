"""What the scripts of tools/ have in common."""

from __future__ import annotations

import argparse
import sys
from typing import Any, Callable, NoReturn

from .answers import ProgramRefused, RunEnded
from .explain import explain_program
from .json_text import NotJson
from .lock import StoreBusy
from .program import NoProgram
from .version import version


HOW: dict[str, dict[str, Any]] = {
    "side": {"choices": ["left", "right"]},
    "which": {"choices": ["left", "right", "both"], "metavar": "SIDE"},
    "views": {"nargs": "+", "metavar": "PROGRAM VIEW"},
    "--store": {"metavar": "FOLDER"},
    "--link": {"action": "store_true"},
    "--import": {"action": "store_true", "dest": "document"},
    "script": {"nargs": "?"},
    "--form": {"metavar": "FILE"},
    "--left-form": {"metavar": "FILE"},
    "--right-form": {"metavar": "FILE"},
    "--drop-private": {"action": "store_true"},
    "--json-schema": {"action": "store_true"},
    "--typescript": {"action": "store_true"},
    "way": {"choices": ["to", "from"]},
    "--as": {"choices": ["json", "yaml", "toml"], "dest": "syntax"},
    "--like": {"metavar": "FILE"},
    "--left-file": {"metavar": "FILE"},
    "--right-file": {"metavar": "FILE"},
    "--base": {"metavar": "N", "type": int},
}


def words(about: str | None, *arguments: tuple[str, str]) -> argparse.Namespace:
    """The words of a command line: each argument is its name and its help. Some names have a form of their own."""
    parser = argparse.ArgumentParser(description=about, formatter_class=argparse.RawDescriptionHelpFormatter)
    for name, told in arguments:
        parser.add_argument(name, help=told, **HOW.get(name, {}))
    parser.add_argument("--version", action="version", version=f"editlens {version()}")
    return parser.parse_args()


def read_text(path: str) -> str:
    """The text of a file, with its line ends as they are, or of the standard input if the path is `-`. Ends with 2 if there is none."""
    try:
        if path == "-":
            return sys.stdin.buffer.read().decode()
        with open(path, encoding="utf-8", newline="") as file:
            return file.read()
    except (OSError, UnicodeDecodeError) as why:
        print(f"{path}: {why}", file=sys.stderr)
        sys.exit(2)


def run(main: Callable[[], Any], program_text: str) -> NoReturn:
    """Runs a script's work, and ends with its status. A refused program is explained, and ends with 3 as the program does; a busy store with 7."""
    try:
        sys.exit(main())
    except ProgramRefused as why:
        print(*explain_program(program_text, why.reason), sep="\n", file=sys.stderr)
        sys.exit(3)
    except StoreBusy as why:
        print(why, file=sys.stderr)
        sys.exit(7)
    except (NoProgram, RunEnded, NotJson, OSError) as why:
        print(why, file=sys.stderr)
        sys.exit(2)
