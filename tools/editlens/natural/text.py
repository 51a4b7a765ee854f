"""The JSON of users' files: every number keeps its own text, and no member of an object may come twice."""

from __future__ import annotations

import json
import math
from typing import Any, cast

from ..json_text import NotJson

MOST_DIGITS = 4_000
"""A whole number of more digits is kept as a text, since Python reads no longer ones."""
MOST_EXPONENT = 18
"""An exponent of more digits is compared by its letters: no two such numbers are computed."""


_scalar = json.JSONEncoder(ensure_ascii=False).encode


class Number(float):
    """A number that is not a whole one, with its text as the file has it: `1.50` is not `1.5`."""

    text: str

    def __new__(cls, text: str) -> Number:
        made = super().__new__(cls, text)
        made.text = text
        return made


def _whole(digits):
    return Number(digits) if digits == "-0" or len(digits) > MOST_DIGITS else int(digits)


def _constant(name):
    raise NotJson(f"{name} is not JSON")


def _members(pairs):
    made = dict(pairs)
    if len(made) != len(pairs):
        seen = set()
        twice = next(name for name, _ in pairs if name in seen or seen.add(name))
        raise NotJson(f"the member {write_file(twice)} comes twice in an object")
    return made


def read_file(text: str) -> Any:
    """The tree of the text of a user's file. Raises NotJson."""
    try:
        tree = json.loads(text.removeprefix("\ufeff"), parse_int=_whole, parse_float=Number, parse_constant=_constant, object_pairs_hook=_members)
        write_file(tree).encode()
    except NotJson:
        raise
    except (ValueError, RecursionError) as why:
        raise NotJson(str(why)) from None
    return tree


def need_json(tree: Any) -> None:
    """Raises NotJson where a value of a Python program is not JSON, or has a text that no file may have."""
    left = [tree]
    while left:
        part = left.pop()
        if isinstance(part, dict):
            left += part
            left += part.values()
            if not all(isinstance(name, str) for name in part):
                raise NotJson("a name of a member is not a text")
        elif isinstance(part, list):
            left += part
        elif isinstance(part, str):
            _need_text(part)
        elif isinstance(part, float) and not isinstance(part, Number) and not math.isfinite(part):
            raise NotJson(f"{part} is not a number of JSON")
        elif isinstance(part, int) and not isinstance(part, bool) and abs(part) >= 10**MOST_DIGITS:
            raise NotJson(f"a whole number of more than {MOST_DIGITS:,} digits is given as a Number, with its text")
        elif part is not None and not isinstance(part, (int, float)):
            raise NotJson(f"a value of the type {type(part).__name__} is not JSON")


def _need_text(text):
    try:
        text.encode()
    except UnicodeEncodeError:
        raise NotJson("a text has half of a surrogate pair") from None


def number_text(tree: Any) -> str | None:
    """The text of a number, or None if the tree is not a number."""
    if isinstance(tree, Number):
        return tree.text
    if type(tree) is int:
        return str(tree)
    return _scalar(tree) if type(tree) is float else None


def read_number(text: str) -> Any:
    """The number with this text, or None if it is not the text of a number of JSON."""
    try:
        tree = read_file(text)
    except NotJson:
        return None
    return tree if number_text(tree) == text else None


def write_file(tree: Any) -> str:
    """The compact text of a tree, with the members of objects in byte order and each number as it was read."""
    if isinstance(tree, dict):
        return "{" + ",".join([f"{_scalar(name)}:{write_file(tree[name])}" for name in sorted(tree)]) + "}"
    if isinstance(tree, list):
        return "[" + ",".join(map(write_file, tree)) + "]"
    return number_text(tree) or _scalar(tree)


def shown(tree: Any, most: int = 60) -> str:
    """The text of a tree, cut after some characters."""
    text = write_file(tree)
    return text if len(text) <= most else text[: most - 2] + ".."


def sort_of(tree: Any) -> str:
    """The sort of a tree: null, bool, number, string, array or object."""
    if tree is None:
        return "null"
    if isinstance(tree, bool):
        return "bool"
    if isinstance(tree, (int, float)):
        return "number"
    names: dict[Any, str] = {str: "string", list: "array", dict: "object"}
    return names[type(tree)]


def is_same(one: Any, other: Any) -> bool:
    """Whether two trees are the same file: numbers by their letters, members in any order."""
    if one is other:
        return True
    if isinstance(one, dict):
        return isinstance(other, dict) and one.keys() == other.keys() and all(is_same(it, other[name]) for name, it in one.items())
    if isinstance(one, list):
        return isinstance(other, list) and len(one) == len(other) and all(map(is_same, one, other))
    number = number_text(one)
    return number == number_text(other) if number else sort_of(one) == sort_of(other) and one == other


def is_equal(one: Any, other: Any) -> bool:
    """Whether two trees are equal as RFC 6902 compares them: numbers by their values."""
    if sort_of(one) != sort_of(other):
        return False
    if isinstance(one, dict):
        return one.keys() == other.keys() and all(is_equal(one[name], other[name]) for name in one)
    if isinstance(one, list):
        return len(one) == len(other) and all(map(is_equal, one, other))
    if sort_of(one) == "number":
        return number_value(cast(str, number_text(one))) == number_value(cast(str, number_text(other)))
    return one == other


def number_value(text: str) -> Any:
    """The value of a number's text: its sign, its digits without zeros around them, and its exponent. No power of ten is computed.

    Where the exponent is too long for that, it is the text: such a number is equal to none that is written otherwise.
    """
    mantissa, _, exponent = text.lstrip("-").lower().partition("e")
    whole, _, part = mantissa.partition(".")
    digits = (whole + part).lstrip("0")
    short = digits.rstrip("0")
    if not short:
        return "", "", 0
    if len(exponent.lstrip("+-").lstrip("0")) > MOST_EXPONENT:
        return text
    sign = text[:1] if text.startswith("-") else ""
    return sign, short, int(exponent or "0") - len(part) + len(digits) - len(short)
