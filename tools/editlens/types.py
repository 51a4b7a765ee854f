"""The types that `check` prints, read and written, and the tokens of a lens program."""

from __future__ import annotations

import re
from dataclasses import dataclass, field
from typing import Any, Iterator

KEYWORDS = frozenset(
    "type lens main unit bool int text enum list keyed tree id bij disc then left right each part inv".split()
)
MOST_INT, LEAST_INT = 2**63 - 1, -(2**63)
_SPACE = re.compile(rb"(?:[ \t\r\n]|#[^\n]*)*")
_TOKEN = re.compile(rb'[A-Za-z_][A-Za-z0-9_]*|"[^"\\\n]*"|-?[0-9]+|[=;{}<>\[\]():,~]')


@dataclass(frozen=True)
class Token:
    """A token of a program: its sort, its text, and the number of bytes before it."""

    sort: str
    text: str
    at: int


def token_at(data: bytes, at: int) -> Token:
    """The first token at or behind a number of bytes. Its sort is `bad` where no token begins there, and `end` at the end."""
    space = _SPACE.match(data, at)
    assert space, "it matches everywhere"
    at = space.end()
    if at == len(data):
        return Token("end", "", at)
    found = _TOKEN.match(data, at)
    if not found:
        rest = data[at : at + 20].split(b"\n")[0]
        return Token("bad", rest.decode(errors="replace"), at)
    text = found.group().decode(errors="replace")
    if text[0] == '"':
        is_string = text.encode() == found.group() and 1 <= len(text) - 2 <= 64 and all(it >= " " for it in text)
        return Token("string" if is_string else "bad", text, at)
    if text[0] == "-" or text[0].isdigit():
        is_number = len(text.lstrip("-")) <= 19 and LEAST_INT <= int(text) <= MOST_INT
        return Token("number" if is_number else "bad", text, at)
    if text[0].isalpha() or text[0] == "_":
        sort = "keyword" if text in KEYWORDS else "name"
        return Token(sort if len(text) <= 64 else "bad", text, at)
    return Token("mark", text, at)


def tokens(data: bytes) -> list[Token]:
    """The tokens of a text, up to its end or to the first bad one."""
    found, at = [], 0
    while True:
        token = token_at(data, at)
        found.append(token)
        if token.sort in ("bad", "end"):
            return found
        at = token.at + len(token.text.encode())


@dataclass(frozen=True)
class Ty:
    """A type. `fields` are the fields of a record, by bytes, or the tags of alternatives, in written order.

    `written` are the names of the fields in the order in which a program has them, and makes no other type.
    """

    kind: str
    fields: tuple = ()
    inner: "Ty | None" = None
    members: tuple = ()
    start: object = field(default=None)
    written: tuple = field(default=(), compare=False, repr=False)

    def field(self, name: Any) -> Any:
        """The type of a field or of a tag's content, or None."""
        return next((inner for it, inner in self.fields if it == name), None)

    def names(self) -> list[str]:
        """The fields or tags."""
        return [name for name, _ in self.fields]

    def __str__(self) -> str:
        return write_type(self)


class NotAType(ValueError):
    """A text that is not a type."""


class TypeReader:
    """Reads types, token by token."""

    def __init__(self, text: str) -> None:
        self.tokens = tokens(text.encode())
        self.next = 0

    def take(self, *texts: str) -> bool:
        token = self.tokens[self.next]
        if token.sort != "string" and token.text in texts:
            self.next += 1
            return True
        return False

    def need(self, text: str) -> None:
        if not self.take(text):
            raise NotAType(f"{text} is wanted at byte {self.tokens[self.next].at}")

    def string(self) -> str:
        token = self.tokens[self.next]
        if token.sort != "string":
            raise NotAType(f"a string is wanted at byte {token.at}")
        self.next += 1
        return token.text[1:-1]

    def number(self) -> int:
        token = self.tokens[self.next]
        if token.sort != "number":
            raise NotAType(f"a number is wanted at byte {token.at}")
        self.next += 1
        return int(token.text)

    def name(self) -> str:
        token = self.tokens[self.next]
        if token.sort == "string":
            return self.string()
        if token.sort != "name":
            raise NotAType(f"a field is wanted at byte {token.at}")
        self.next += 1
        return token.text

    def fields(self, end: str) -> list[tuple[str, Ty]]:
        found: list[tuple[str, Ty]] = []
        if end == "}" and self.take(end):
            return found
        while True:
            name = self.name()
            self.need(":")
            found.append((name, self.type()))
            if not self.take(","):
                self.need(end)
                return found

    def type(self) -> Ty:
        if self.take("unit"):
            return Ty("unit")
        if self.take("bool"):
            return Ty("bool", start=False)
        if self.take("int"):
            return Ty("int", start=self.number() if self.take("=") else 0)
        if self.take("text"):
            return Ty("text", start=self.string() if self.take("=") else "")
        if self.take("enum"):
            self.need("[")
            members = [self.string()]
            while self.take(","):
                members.append(self.string())
            self.need("]")
            start = self.string() if self.take("=") else members[0]
            return Ty("enum", members=tuple(members), start=start)
        if self.take("{"):
            fields = self.fields("}")
            return Ty("record", fields=tuple(sorted(fields, key=lambda it: it[0].encode())), written=tuple(name for name, _ in fields))
        if self.take("<"):
            return Ty("alternatives", fields=tuple(self.fields(">")))
        for kind in ("list", "keyed", "tree"):
            if self.take(kind):
                return Ty(kind, inner=self.type())
        raise NotAType(f"a type is wanted at byte {self.tokens[self.next].at}")


def read_type(text: str) -> Ty:
    """The type of a text without names of other types, as `check` prints it."""
    reader = TypeReader(text)
    found = reader.type()
    if reader.tokens[reader.next].sort != "end":
        raise NotAType(f"the end is wanted at byte {reader.tokens[reader.next].at}")
    return found


def read_types(text: str) -> list[Ty]:
    """The types at the beginning of a text, with a space between them."""
    reader, found = TypeReader(text), []
    while reader.tokens[reader.next].sort != "end":
        found.append(reader.type())
    return found


def write_name(name: str) -> str:
    """A field, a tag or a name as a program has it."""
    is_name = re.fullmatch(r"[A-Za-z_][A-Za-z0-9_]{0,63}", name) and name not in KEYWORDS
    return name if is_name else f'"{name}"'


def write_type(ty: Any) -> str:
    """The canonical text of a type."""
    if ty.kind in ("unit", "bool"):
        return ty.kind
    if ty.kind == "int":
        return "int" if ty.start == 0 else f"int = {ty.start}"
    if ty.kind == "text":
        return "text" if ty.start == "" else f'text = "{ty.start}"'
    if ty.kind == "enum":
        members = ", ".join(f'"{it}"' for it in ty.members)
        return f"enum[{members}]" + ("" if ty.start == ty.members[0] else f' = "{ty.start}"')
    if ty.kind in ("record", "alternatives"):
        fields = ", ".join(f"{write_name(name)}: {write_type(inner)}" for name, inner in ty.fields)
        return f"{{{fields}}}" if ty.kind == "record" else f"<{fields}>"
    return f"{ty.kind} {write_type(ty.inner)}"


def initial(ty: Any) -> Any:
    """The initial document of a type."""
    if ty.kind == "record":
        return {name: initial(inner) for name, inner in ty.fields}
    if ty.kind == "alternatives":
        return {ty.fields[0][0]: initial(ty.fields[0][1])}
    if ty.kind == "list":
        return []
    if ty.kind == "keyed":
        return {}
    if ty.kind == "tree":
        return {"depths": [0], "items": [initial(ty.inner)]}
    return ty.start


def differences(one: Any, other: Any, path: tuple[str, ...] = ()) -> Iterator[tuple[tuple[str, ...], Ty | None, Ty | None]]:
    """The places at which two types differ: paths with the two types there."""
    if one == other:
        return
    same_names = one.names() == other.names()
    if one.kind == other.kind == "record":
        for name in sorted(set(one.names()) | set(other.names())):
            here, there = one.field(name), other.field(name)
            if here and there:
                yield from differences(here, there, (*path, name))
            else:
                yield (*path, name), here, there
    elif one.kind == other.kind == "alternatives" and same_names:
        for name, inner in one.fields:
            yield from differences(inner, other.field(name), (*path, name))
    elif one.kind == other.kind and one.kind in ("list", "keyed", "tree"):
        yield from differences(one.inner, other.inner, (*path, "*"))
    else:
        yield path, one, other
