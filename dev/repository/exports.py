"""The exports of crates/editlens_c, read from its sources."""

import os
import re
from dataclasses import dataclass

from . import TOP

CRATE = os.path.join(TOP, "crates", "editlens_c", "src")


@dataclass(frozen=True)
class Export:
    """A function that C calls: its name, its parameters as pairs of a name and a type of the sources, and the type of its result, or nothing."""

    name: str
    parameters: tuple[tuple[str, str], ...]
    result: str


def read_source(name: str) -> str:
    """The text of a source of the crate."""
    with open(os.path.join(CRATE, name), encoding="utf-8") as file:
        return file.read()


def read_exports(source: str) -> list[Export]:
    """The exports of a source, in its order. An allocator is among the parameters, and is nothing to C."""
    text = re.sub(r"//.*", "", read_source(source))
    found = []
    for name, given, result in re.findall(r'extern "C" fn (\w+)\((.*?)\)(?:\s*->\s*(\w+))?\s*(?:ghost|requires|ensures|\{)', text, re.S):
        pairs = (it.split(":", 1) for it in given.replace("\n", " ").split(",") if it.strip())
        found.append(Export(name, tuple((it.strip(), ty.strip()) for it, ty in pairs), result))
    return found
