"""The syntaxes of users' files: JSON, YAML and TOML. All of them show a tree of JSON; the ending of a file says which one it has."""

from __future__ import annotations

import os
from typing import Any

from ..json_text import NotJson
from .text import read_file, write_file
from .toml_text import new_toml, read_toml, toml_like
from .yaml_nodes import read_nodes
from .yaml_text import new_yaml, yaml_like

SYNTAXES = ("json", "yaml", "toml")
_BY_ENDING = {".yaml": "yaml", ".yml": "yaml", ".toml": "toml"}


def syntax_of(path: str | os.PathLike[str]) -> str:
    """The syntax of the file at a path, by its ending."""
    return next((it for ending, it in _BY_ENDING.items() if str(path).lower().endswith(ending)), "json")


def read_text_of(text: str, syntax: str) -> Any:
    """The tree of the text of a user's file. Raises NotJson."""
    if syntax == "yaml":
        return read_nodes(text.removeprefix("\ufeff")).tree
    return read_toml(text) if syntax == "toml" else read_file(text)


def write_text_of(tree: Any, syntax: str, before: str | None = None) -> str:
    """The text of a user's file. Where there was one before, its comments and its order stay. Raises NotJson."""
    if syntax == "yaml":
        return new_yaml(tree) if before is None else yaml_like(before, tree)
    if syntax == "toml":
        return new_toml(tree) if before is None else toml_like(before, tree)
    return write_file(tree) + "\n"


def read_file_at(path: str | os.PathLike[str]) -> Any:
    """The tree of a user's file at a path, by the syntax of its ending. Raises NotJson."""
    return text_and_tree_at(path)[1]


def text_and_tree_at(path: str | os.PathLike[str]) -> tuple[str, Any]:
    """The text of a user's file at a path, and its tree. Raises NotJson."""
    with open(path, "rb") as file:
        try:
            text = file.read().decode()
            return text, read_text_of(text, syntax_of(path))
        except ValueError as why:
            raise NotJson("\n".join(f"{path}: {line}" for line in str(why).split("\n"))) from None
