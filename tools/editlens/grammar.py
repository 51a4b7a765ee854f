"""Where a text stops being a lens program, and what is wanted there: the productions of docs/LANGUAGE.md, read one token at a time."""

from __future__ import annotations

from .types import Token, tokens

FIELD = "a field"
NAME = "a name"
STRING = "a string"


class _Stuck(Exception):
    def __init__(self, token, wanted):
        super().__init__()
        self.token, self.wanted = token, wanted


class _Reader:
    """Reads a program by its productions. `tried` are the tokens that the place would have taken as well."""

    def __init__(self, data):
        self.tokens, self.next, self.tried = tokens(data), 0, []

    def token(self):
        return self.tokens[self.next]

    def is_next(self, wanted):
        token = self.token()
        if wanted == FIELD:
            return token.sort in ("name", "string")
        if wanted in (NAME, STRING, "a number"):
            return token.sort == wanted.split()[1]
        return token.sort in ("keyword", "mark") and token.text == wanted

    def take(self, wanted):
        if self.is_next(wanted):
            self.next, self.tried = self.next + 1, []
            return True
        self.tried.append(wanted)
        return False

    def need(self, *wanted):
        for it in wanted:
            if self.take(it):
                return it
        raise _Stuck(self.token(), list(dict.fromkeys(self.tried)))

    def program(self):
        while True:
            word = self.need("type", "lens", "main")
            if word == "main":
                self.lens()
                if self.token().sort != "end":
                    self.tried.append("the end")
                    raise _Stuck(self.token(), list(dict.fromkeys(self.tried)))
                return
            self.need(NAME)
            self.need("=")
            self.type() if word == "type" else self.lens()
            self.need(";")

    def many(self, one, end, may_be_empty=False):
        if may_be_empty and self.take(end):
            return
        while True:
            one()
            if self.need(",", end) == end:
                return

    def type(self):
        word = self.need("unit", "bool", "int", "text", "enum", "{", "<", "list", "keyed", "tree", NAME)
        if word == "enum":
            self.need("[")
            self.many(lambda: self.need(STRING), "]")
        if word in ("{", "<"):
            self.many(self.field, "}" if word == "{" else ">", word == "{")
        if word in ("list", "keyed", "tree"):
            self.type()
        if word in ("int", "text", "enum") and self.take("="):
            self.need("a number" if word == "int" else STRING)

    def field(self):
        self.need(FIELD)
        self.need(":")
        self.type()

    def lens(self):
        word = self.need("id", "disc", "bij", "then", "{", "<", "each", "keyed", "tree", "part", "inv", NAME)
        if word in ("id", "disc"):
            self.type()
        if word == "disc":
            self.type()
        if word == "bij":
            self.need("[")
            self.many(self.pair, "]")
            if self.take("="):
                self.need(STRING)
        if word == "then":
            self.need("(")
            self.lens()
            self.need(",")
            self.lens()
            self.need(")")
        if word == "{":
            self.many(self.row, "}", True)
        if word == "<":
            self.many(self.paired, ">")
        if word in ("each", "keyed", "tree", "inv"):
            self.lens()
        if word == "part":
            self.need("<")
            self.many(self.field, ">")

    def pair(self):
        self.need(STRING)
        self.need("=")
        self.need(STRING)

    def row(self):
        if self.need("left", "right", FIELD) == FIELD:
            self.rest_of_pair()
        else:
            self.field()

    def paired(self):
        self.need(FIELD)
        self.rest_of_pair()

    def rest_of_pair(self):
        self.need("~")
        self.need(FIELD)
        self.need(":")
        self.lens()


def wanted_at(data: bytes) -> tuple[Token, list[str]] | None:
    """The first token that does not fit, with what is wanted there; None where the text is a program. Nesting is not counted."""
    try:
        _Reader(data).program()
    except _Stuck as where:
        return where.token, where.wanted
    return None
