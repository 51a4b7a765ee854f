"""Two texts as runs of characters, by the definitions of the crate bridge_texts. Behind the last run both texts have the same characters."""

from __future__ import annotations

from typing import Iterable, List, Sequence, Tuple

KEPT, ADDED, GONE = "kept", "added", "gone"
"""The sorts of runs: of characters that both texts have, that the far one alone has, and that the near one alone has."""

Run = Tuple[str, int]
"""A sort, and how many characters."""


def shortest(runs: Iterable[Run]) -> Tuple[Run, ...]:
    """The runs in their shortest form: none is empty, neighbours differ in sort, and the last one is not kept."""
    found: List[Run] = []
    for sort, count in runs:
        if found and found[-1][0] == sort:
            found[-1] = (sort, found[-1][1] + count)
        elif count:
            found.append((sort, count))
    if found and found[-1][0] == KEPT:
        found.pop()
    return tuple(found)


def turned(runs: Iterable[Run]) -> Tuple[Run, ...]:
    """The runs from the far text to the near one."""
    other = {KEPT: KEPT, ADDED: GONE, GONE: ADDED}
    return tuple((other[sort], count) for sort, count in runs)


def _cut(runs: Sequence[Run], count: int, skipped: str) -> tuple[list[Run], list[Run]]:
    """The runs up to some characters, and the others. Those of the sort `skipped` are not in the text whose characters are counted."""
    front: list[Run] = []
    for at, (sort, size) in enumerate(runs):
        if count == 0:
            return front, list(runs[at:])
        if sort != skipped and size > count:
            return [*front, (sort, count)], [(sort, size - count), *runs[at + 1 :]]
        front.append((sort, size))
        count -= 0 if sort == skipped else size
    return [*front, (KEPT, count)], []


def far_spliced(runs: Sequence[Run], place: int, count: int, added: int) -> Tuple[Run, ...]:
    """The runs after a splice of the far text: `count` characters from a place on are replaced by `added` ones."""
    front, rest = _cut(runs, place, GONE)
    middle, back = _cut(rest, count, GONE)
    lost = [(GONE, size) for sort, size in middle if sort != ADDED]
    return shortest([*front, (ADDED, added), *lost, *back])


def near_spliced(runs: Sequence[Run], place: int, count: int, text: str) -> tuple[list[dict[str, list]], Tuple[Run, ...]]:
    """A splice of the near text as splices of the far one, and the runs after both.

    What the far text has added at the place stands before what the splice puts there. What it has added among the characters that go stays.
    """
    front, rest = _cut(runs, place, ADDED)
    while rest and rest[0][0] == ADDED:
        front.append(rest.pop(0))
    middle, back = _cut(rest, count, ADDED)
    spared = [(sort, size) for sort, size in middle if sort == ADDED]
    begin = sum(size for sort, size in front if sort != GONE)
    return _pieces(begin, middle, text), shortest([*front, (KEPT, len(text)), *spared, *back])


def _pieces(begin: int, middle: Iterable[Run], text: str) -> list[dict[str, list]]:
    """The splices that put a text at a place of the far text, and take away what both texts have of the runs there."""
    found, taken = [], 0
    for sort, size in [*middle, (ADDED, 0)]:
        if sort == KEPT:
            taken += size
        if sort == ADDED:
            if taken or text:
                found.append({"splice": [begin, taken, text]})
            begin, taken, text = begin + len(text) + size, 0, ""
    return found
