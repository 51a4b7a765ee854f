"""A guess at the type of a place and at its forms: what `samples` and `schemas` make, and what `ties` brings together."""

from __future__ import annotations

import re
from dataclasses import dataclass, field, replace
from typing import Any, Iterable

from ..json_text import pointer
from ..types import LEAST_INT, MOST_INT, Ty

NONE, NULL, SOME = "none", "null", "some"
SORT_TAGS = {"string": "string", "number": "number", "bool": "truth", "array": "array", "object": "object"}
"""The tags of alternatives that are told apart by the sort of JSON."""


@dataclass(frozen=True)
class Guess:
    """What is guessed of a place. `inner` has the guesses of fields and tags by their names, or that of all contents as `*`.

    `values` are texts of simple values that samples have there, and `keys` the members that differ in every item of a list. A place of
    which no sample has a value `is_unknown`.
    """

    kind: str
    inner: dict = field(default_factory=dict)
    form: object = None
    start: object = None
    members: tuple = ()
    doubts: tuple = ()
    values: frozenset = frozenset()
    keys: tuple = ()
    is_unknown: bool = False

    def ty(self) -> Ty:
        """The type that is guessed."""
        if self.kind in ("record", "alternatives"):
            fields = tuple((name, it.ty()) for name, it in self.inner.items())
            return Ty(self.kind, fields=tuple(sorted(fields, key=lambda it: it[0].encode())) if self.kind == "record" else fields)
        if self.inner:
            return Ty(self.kind, inner=self.inner["*"].ty())
        return Ty(self.kind, members=self.members, start=self.start)

    def forms(self, path: tuple = ()) -> dict:
        """The form file of the place: its forms by their places."""
        found = {} if self.form is None else {pointer(path): self.form}
        for name, it in self.inner.items():
            found.update(it.forms((*path, name)))
        return found

    def doubting(self, *doubts: str) -> "Guess":
        """The same guess with further doubts."""
        return replace(self, doubts=(*self.doubts, *doubts))

    def is_any(self) -> bool:
        """Whether any JSON value fits."""
        return self.form == "json"

    def roles(self) -> dict:
        """The tags of alternatives that are written as no member or as null, by the word of their form."""
        if self.kind != "alternatives" or not isinstance(self.form, dict):
            return {}
        return {word: self.form[word] for word in ("missing", "null") if word in self.form}

    def contents(self) -> dict:
        """The guesses of what is written alone: by their tags where several kinds are, otherwise as `some`."""
        if self.kind == "alternatives" and (self.form == "untagged" or self.roles()):
            return {tag: it for tag, it in self.inner.items() if tag not in self.roles().values()}
        return {SOME: self}


def scalar(kind: str, values: Iterable[Any] = ()) -> Guess:
    """A guess of a simple type."""
    return Guess(kind, start={"bool": False, "int": 0, "text": ""}.get(kind), values=frozenset(values))


def number(values: Iterable[Any] = ()) -> Guess:
    """A number of any size, kept to the letter."""
    return Guess("text", form="number", start="0", values=frozenset(values))


def anything(*doubts: str, is_unknown: bool = False, values: Iterable[Any] = ()) -> Guess:
    """Any JSON value, kept as its text."""
    return Guess("text", form="json", start="null", doubts=doubts, is_unknown=is_unknown, values=frozenset(values))


def together(contents: dict, is_missing: bool, is_null: bool) -> Guess:
    """The guess of a place that has one of some contents, by their sorts of JSON, or is null or missing."""
    inside = next(iter(contents.values()))
    if len(contents) == 1 and not is_missing and (not is_null or inside.is_any()):
        return inside
    is_null = is_null and not (len(contents) == 1 and inside.is_any())
    roles = {"missing": NONE} if is_missing else {}
    if is_null:
        roles["null"] = NULL if is_missing else NONE
    tags = {tag: Guess("unit") for tag in roles.values()}
    tags.update(contents if len(contents) > 1 else {SOME: inside})
    values = frozenset().union(*(it.values for it in contents.values()))
    return Guess("alternatives", inner=tags, form=roles or "untagged", values=values)


def is_name(text: str) -> bool:
    """Whether a text can be a field, a tag or a member of a program."""
    return 1 <= len(text) <= 64 and all(it >= " " and it not in '"\\' for it in text)


def is_small(value: int) -> bool:
    """Whether a whole number is within 64 bits."""
    return LEAST_INT <= value <= MOST_INT


def plain_name(name: str) -> str:
    """A name without what differs between habits of writing: `firstName`, `first_name` and `First name` are one."""
    return re.sub(r"[^0-9a-z]", "", name.lower())
