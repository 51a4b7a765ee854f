"""JSON as editlens reads and writes it."""

from __future__ import annotations

import json
import math
from typing import Any, Iterable


class NotJson(ValueError):
    """A text that is not JSON, or that editlens does not read."""


def _int_of(digits):
    # editlens reads -0 as a number with a fraction, which is not an int.
    return -0.0 if digits == "-0" else int(digits)


def _float_of(digits):
    value = float(digits)
    if math.isinf(value):
        raise NotJson(f"{digits} is above every number")
    return value


def _constant(name):
    raise NotJson(f"{name} is not JSON")


def read_json(text: str | bytes) -> Any:
    """The tree of a text. Where a name comes twice in an object, the last member stands."""
    try:
        tree = json.loads(text, parse_int=_int_of, parse_float=_float_of, parse_constant=_constant)
        json.dumps(tree, ensure_ascii=False).encode()
    except NotJson:
        raise
    except (ValueError, RecursionError) as why:
        raise NotJson(str(why)) from None
    return tree


def read_json_file(path: str) -> Any:
    """The tree of a file."""
    with open(path, "rb") as file:
        try:
            return read_json(file.read().decode())
        except ValueError as why:
            raise NotJson(f"{path}: {why}") from None


def write_json(tree: Any) -> str:
    """The compact text of a tree, with the members of objects in byte order, as editlens writes it."""
    return json.dumps(tree, ensure_ascii=False, sort_keys=True, separators=(",", ":"))


def pointer(path: Iterable[Any]) -> str:
    """The JSON Pointer (RFC 6901) of a list of names and places."""
    return "".join("/" + str(step).replace("~", "~0").replace("/", "~1") for step in path)


def place_name(path: Iterable[Any]) -> str:
    """A place as a message has it: its pointer, or that it is the document."""
    return pointer(path) or "(the document)"


def read_pointer(text: str) -> Any:
    """The steps of a JSON Pointer, each a string."""
    if text == "":
        return []
    if not text.startswith("/"):
        raise ValueError(f"{text} is not a JSON Pointer: it begins with no /")
    return [step.replace("~1", "/").replace("~0", "~") for step in text[1:].split("/")]


def shown(tree: Any, most: int = 60) -> str:
    """The text of a tree, cut after so many characters."""
    text = write_json(tree)
    return text if len(text) <= most else text[: most - 2] + ".."
