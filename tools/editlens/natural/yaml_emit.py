"""New YAML: values as lines of a block, or in one line."""

from __future__ import annotations

import json
import re
from typing import Any

from ..json_text import NotJson
from .text import number_text
from .yaml_nodes import MERGE, meaning

STEP = 2
"""How many columns a block is deeper than what is around it, where a file shows no other way."""

_PLAIN = re.compile(r"[A-Za-z0-9_/][A-Za-z0-9_./@+=,%-]*(:+[A-Za-z0-9_./@+=,%-]+)*( [A-Za-z0-9_./(][A-Za-z0-9_./@+=,()%-]*)*\Z")
_IN_FLOW = re.compile(r"[^,:]*\Z")
_ODD = re.compile("[\x00-\x09\x0b-\x1f\x7f-\x9f\u2028\u2029\ud800-\udfff\ufeff\ufffe\uffff]")


def scalar(value: Any, style: str | None = None, in_flow: bool = False) -> str:
    """The text of a value without members in one line. `style` is the quote of the text that was there before, if it was quoted."""
    if not isinstance(value, str):
        return "null" if value is None else number_text(value) or ("true" if value else "false")
    if style == "'" and "\n" not in value and not _ODD.search(value):
        return "'" + value.replace("'", "''") + "'"
    if style != '"' and is_plain(value) and (not in_flow or _IN_FLOW.match(value)):
        return value
    return quoted(value)


def quoted(text: str) -> str:
    """A text in double quotes, which has the escapes of JSON."""
    return _ODD.sub(lambda it: f"\\u{ord(it[0]):04x}", json.dumps(text, ensure_ascii=False))


def is_plain(text: str) -> bool:
    """Whether a text may stand without quotes."""
    try:
        return bool(_PLAIN.match(text)) and meaning(text) == text and text != MERGE
    except NotJson:
        return False


def flow(value: Any) -> str:
    """A value in one line, with all that is in it."""
    if isinstance(value, dict):
        return "{" + ", ".join(f"{scalar(name, in_flow=True)}: {flow(it)}" for name, it in value.items()) + "}"
    if isinstance(value, list):
        return "[" + ", ".join(map(flow, value)) + "]"
    return scalar(value, in_flow=True)


def is_block_text(value: Any) -> bool:
    """Whether a text is written line by line behind a |: its lines are not empty at their ends, and have no odd letters."""
    if not isinstance(value, str) or "\n" not in value or _ODD.search(value):
        return False
    body = value[:-1] if value.endswith("\n") else value
    lines = body.split("\n")
    return bool(lines[0].strip()) and bool(lines[-1].strip()) and not lines[0].startswith(" ") and all(it == it.rstrip(" ") for it in lines)


class Layout:
    """How new blocks of a file are written: how many columns a map and a list are deeper than what is around them."""

    def __init__(self, of_maps: int = STEP, of_lists: int = STEP) -> None:
        self.of_maps, self.of_lists = of_maps, of_lists

    def value(self, value: Any, column: int, style: str | None = None) -> tuple[str, list[str]]:
        """What stands behind the key of an entry at a column: the rest of its line, and the lines below."""
        if value and isinstance(value, dict):
            return "", self.map_lines(value, column + self.of_maps)
        if value and isinstance(value, list):
            return "", self.list_lines(value, column + self.of_lists)
        if is_block_text(value) and style not in ("'", '"'):
            return ("|" if value.endswith("\n") else "|-"), self._text_lines(value, column + self.of_maps)
        return (flow(value) if isinstance(value, (dict, list)) else scalar(value, style)), []

    def _text_lines(self, text, column):
        body = text[:-1] if text.endswith("\n") else text
        return [" " * column + it if it else "" for it in body.split("\n")]

    def entry_lines(self, name: str, value: Any, column: int) -> list[str]:
        """The lines of an entry of a map whose keys stand at a column."""
        here, below = self.value(value, column)
        return [" " * column + scalar(name) + ":" + (f" {here}" if here else ""), *below]

    def map_lines(self, tree: dict[str, Any], column: int) -> list[str]:
        """The lines of a map whose keys stand at a column."""
        return [line for name, value in tree.items() for line in self.entry_lines(name, value, column)]

    def item_lines(self, value: Any, column: int) -> list[str]:
        """The lines of an item of a list whose dashes stand at a column."""
        if value and isinstance(value, (dict, list)):
            lines = self.map_lines(value, column + 2) if isinstance(value, dict) else self.list_lines(value, column + 2)
            return [" " * column + "- " + lines[0].lstrip(" "), *lines[1:]]
        here, below = self.value(value, column)
        return [" " * column + "- " + here, *below]

    def list_lines(self, tree: list[Any], column: int) -> list[str]:
        """The lines of a list whose dashes stand at a column."""
        return [line for it in tree for line in self.item_lines(it, column)]

    def lines(self, tree: Any) -> list[str]:
        """The lines of a whole file."""
        if tree and isinstance(tree, (dict, list)):
            return self.map_lines(tree, 0) if isinstance(tree, dict) else self.list_lines(tree, 0)
        here, below = self.value(tree, 0)
        return [here, *below]
