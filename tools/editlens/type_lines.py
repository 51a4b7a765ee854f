"""A type with one field, tag or member a line. It is the text that `check` prints, with line feeds and spaces between the same tokens."""

from __future__ import annotations

from typing import Any

from .types import write_name, write_type

STEP = "  "


def type_lines(ty: Any, indent: str = "") -> list[str]:
    """The lines of a type. The first one is not indented, so that it may go on a line that has begun."""
    if ty.kind in ("list", "keyed", "tree"):
        first, *rest = type_lines(ty.inner, indent)
        return [f"{ty.kind} {first}", *rest]
    if ty.kind in ("record", "alternatives") and ty.fields:
        begin, end = ("{", "}") if ty.kind == "record" else ("<", ">")
        return [begin, *_field_lines(ty.fields, indent + STEP), indent + end]
    return [write_type(ty)]


def _field_lines(fields, indent):
    for number, (name, inner) in enumerate(fields, 1):
        lines = type_lines(inner, indent)
        lines[0] = f"{indent}{write_name(name)}: {lines[0]}"
        lines[-1] += "," if number < len(fields) else ""
        yield from lines
