"""Which item of a list is which of an older one, so that comments stay with what they are about. No value comes of it."""

from __future__ import annotations

from typing import Any

from .text import is_same, sort_of, write_file

MOST_COMPARED = 10_000
"""How many pairs of items are compared by what they have inside."""


def aligned(old: list[Any], new: list[Any]) -> list[int | None]:
    """For each new item the number of the old one that it is taken to be, or None. No two are the same old one."""
    ends = min(len(old), len(new))
    before = next((it for it in range(ends) if not is_same(old[it], new[it])), ends)
    behind = next((it for it in range(ends - before) if not is_same(old[-1 - it], new[-1 - it])), ends - before)
    found = [*range(before), *[None] * (len(new) - before - behind), *range(len(old) - behind, len(old))]
    left_old = list(range(before, len(old) - behind))
    left_new = list(range(before, len(new) - behind))
    for take in (_same, _alike, _in_order):
        for place, number in take(old, new, left_old, left_new):
            found[place] = number
            left_new.remove(place)
            left_old.remove(number)
    return found


def _same(old, new, left_old, left_new):
    """The pairs that are the same value."""
    by_text = {}
    for number in left_old:
        by_text.setdefault(write_file(old[number]), []).append(number)
    pairs = []
    for place in left_new:
        numbers = by_text.get(write_file(new[place]))
        if numbers:
            pairs.append((place, numbers.pop(0)))
    return pairs


def _alike(old, new, left_old, left_new):
    """The pairs of objects that have most in common, the nearest first."""
    if len(left_old) * len(left_new) > MOST_COMPARED:
        return []
    rated = []
    for place in left_new:
        for number in left_old:
            common = _common(old[number], new[place])
            if common:
                rated.append((-common, abs(place - number), place, number))
    pairs, used_new, used_old = [], set(), set()
    for _, _, place, number in sorted(rated):
        if place not in used_new and number not in used_old:
            pairs.append((place, number))
            used_new.add(place)
            used_old.add(number)
    return pairs


def _common(one, other):
    """How many simple values two objects have in common, at any depth."""
    if not isinstance(one, dict) or not isinstance(other, dict):
        return 0
    return sum(_alike_inside(value, other[name]) for name, value in one.items() if name in other)


def _alike_inside(one, other):
    if isinstance(one, list) and isinstance(other, list):
        return sum(map(_alike_inside, one, other))
    return _common(one, other) if isinstance(one, dict) else int(is_same(one, other))


def _in_order(old, new, left_old, left_new):
    """Where as many old items are left as new ones, those of one sort are taken one after another; simple values are of one sort."""
    if len(left_old) != len(left_new):
        return []
    return [(place, number) for place, number in zip(left_new, left_old) if _sort(old[number]) == _sort(new[place])]


def _sort(value):
    return sort_of(value) if isinstance(value, (dict, list)) else "simple"
