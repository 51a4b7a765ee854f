"""The parts of a script: its lens program, or those of the views of a hub, and the lines of its journal."""

from __future__ import annotations

from typing import Iterable

SEPARATOR = "---"
BETWEEN = "+++"
HUB = "hub"
"""What an edit of a hub's own document names, in place of the number of a view."""


def program_of(script: str) -> str:
    """The program part of a script: all before the first line that is the separator."""
    lines = script.split("\n")
    for number, line in enumerate(lines):
        if line.removesuffix("\r") == SEPARATOR:
            return "".join(it + "\n" for it in lines[:number])
    return script


def journal_of(script: str) -> list[str]:
    """The lines of the journal of a script that are not blank."""
    lines = script.split("\n")
    for number, line in enumerate(lines):
        if line.removesuffix("\r") == SEPARATOR:
            return [it for it in lines[number + 1 :] if it.strip(" \t\r")]
    return []


def views_of(program_part: str) -> list[str]:
    """The lens programs of a program part: what is between the lines `+++`, numbered from 0."""
    views: list[str] = []
    lines: list[str] = []
    for line in program_part.split("\n"):
        if line.removesuffix("\r") == BETWEEN:
            views.append("".join(it + "\n" for it in lines))
            lines = []
        else:
            lines.append(line)
    return [*views, "\n".join(lines)]


def joined(programs: Iterable[str]) -> str:
    """The program part of some lens programs."""
    return f"{BETWEEN}\n".join(it if it.endswith("\n") else it + "\n" for it in programs)
