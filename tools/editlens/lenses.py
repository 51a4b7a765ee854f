"""The lens of a program, read with every name expanded: docs/LANGUAGE.md has the form. The program itself says whether it is accepted."""

from __future__ import annotations

from dataclasses import dataclass

from .types import Ty, TypeReader

WITH_INNER = ("each", "keyed", "tree", "inv")


@dataclass(frozen=True)
class Row:
    """A row of a record lens. A row of both sides has two names and a lens, any other one name and a type."""

    side: str
    left: "str | None"
    right: "str | None"
    lens: "Lens | None" = None
    type: "Ty | None" = None


@dataclass(frozen=True)
class Lens:
    """A lens. `inner` are the lenses inside, `rows` the rows of a record or the arms of alternatives, `types` those that it names itself."""

    kind: str
    inner: tuple = ()
    rows: tuple = ()
    types: tuple = ()
    tags: tuple = ()


class NotAProgram(ValueError):
    """A text that is not a lens program."""


class _Reader(TypeReader):
    """Reads a program. Definitions are kept by their names, and a name that is mentioned is replaced by its definition."""

    def __init__(self, text):
        super().__init__(text)
        self.types, self.lenses = {}, {}

    def token(self):
        return self.tokens[self.next]

    def named(self, definitions):
        name = self.name()
        if name not in definitions:
            raise NotAProgram(f"nothing defines {name}")
        return definitions[name]

    def program(self):
        while not self.take("main"):
            is_type = self.take("type")
            if not is_type:
                self.need("lens")
            name = self.name()
            self.need("=")
            (self.types if is_type else self.lenses)[name] = self.type() if is_type else self.lens()
            self.need(";")
        return self.lens()

    def type(self):
        return self.named(self.types) if self.token().sort == "name" else super().type()

    def lens(self):
        if self.token().sort == "name":
            return self.named(self.lenses)
        for kind in ("id", "disc"):
            if self.take(kind):
                return Lens(kind, types=tuple(self.type() for _ in range(1 + (kind == "disc"))))
        if self.take("bij"):
            return self.bijection()
        if self.take("then"):
            return self.composed()
        if self.take("{"):
            return Lens("record", rows=tuple(self.rows("}", self.row)))
        if self.take("<"):
            return Lens("alternatives", rows=tuple(self.rows(">", self.paired)))
        if self.take("part"):
            self.need("<")
            fields = self.fields(">")
            return Lens("part", types=tuple(it for _, it in fields), tags=tuple(name for name, _ in fields))
        for kind in WITH_INNER:
            if self.take(kind):
                return Lens(kind, inner=(self.lens(),))
        raise NotAProgram(f"a lens is wanted at byte {self.token().at}")

    def composed(self):
        self.need("(")
        first = self.lens()
        self.need(",")
        second = self.lens()
        self.need(")")
        return Lens("then", inner=(first, second))

    def bijection(self):
        self.need("[")
        while True:
            self.string()
            self.need("=")
            self.string()
            if not self.take(","):
                break
        self.need("]")
        if self.take("="):
            self.string()
        return Lens("bij")

    def rows(self, end, one):
        if end == "}" and self.take(end):
            return
        while True:
            yield one()
            if not self.take(","):
                self.need(end)
                return

    def row(self):
        for side in ("left", "right"):
            if self.take(side):
                name = self.name()
                self.need(":")
                return Row(side, name if side == "left" else None, name if side == "right" else None, type=self.type())
        return self.paired()

    def paired(self):
        left = self.name()
        self.need("~")
        right = self.name()
        self.need(":")
        return Row("both", left, right, self.lens())


def read_lens(program_text: str) -> Lens:
    """The lens of a program that `check` accepts."""
    return _Reader(program_text).program()
