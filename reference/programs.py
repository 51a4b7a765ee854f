"""Lens programs: the grammar and the canonical text of docs/LANGUAGE.md. Tokens are those of the tools.

It knows numbers as tokens but no declared initial values, and no case that is written from it has one.
"""

from editlens.types import tokens, write_name

CONTENTS = ("name", "string", "number")


def token_pairs(text):
    """Pairs of a token and its offset: a keyword, a mark, a pair of a sort and its content, "bad" or "end"."""
    for token in tokens(text):
        content = token.text.strip('"') if token.sort != "number" else str(int(token.text))
        yield (token.sort, content) if token.sort in CONTENTS else token.text if token.sort in ("keyword", "mark") else token.sort, token.at


class Refused(Exception):
    """A program that is refused: the reason, and what belongs to it."""


class Reader:
    """Reads a program, token by token. A type or a lens is a list of its word and its parts; a name has its offset."""

    def __init__(self, text):
        self.left = list(token_pairs(text))
        self.inside = 0

    def refuse(self):
        """Refuses the program at the next token."""
        raise Refused("not-a-program", self.left[0][1])

    def has(self, *wanted):
        """Whether the next token is one of these, or of one of these sorts."""
        token = self.left[0][0]
        return (token[0] if isinstance(token, tuple) else token) in wanted

    def take(self, *wanted):
        """The next token, which has to be one of these. A name has its offset."""
        if not self.has(*wanted):
            self.refuse()
        token, at = self.left.pop(0)
        return (token[1], at) if isinstance(token, tuple) else token

    def nested(self, read):
        """What is read one level deeper, where there are fewer than 100."""
        if self.inside == 100:
            self.refuse()
        self.inside += 1
        tree = read()
        self.inside -= 1
        return tree

    def items(self, start, item, end, may_be_empty=False):
        """Items between two marks, with commas between them."""
        self.take(start)
        items = []
        if not (may_be_empty and self.has(end)):
            items.append(item())
            while not self.has(end):
                self.take(",")
                items.append(item())
        self.take(end)
        return items

    def field(self):
        """The name of a field."""
        return self.take("name", "string")[0]

    def string(self):
        """A text between quotes."""
        return self.take("string")[0]

    def typed_field(self):
        """A field with its type."""
        name = self.field()
        self.take(":")
        return name, self.type()

    def type(self):
        """A type, one level deeper."""
        return self.nested(self.one_type)

    def one_type(self):
        """A type."""
        if self.has("{"):
            return ["rec", self.items("{", self.typed_field, "}", True)]
        if self.has("<"):
            return ["alt", self.items("<", self.typed_field, ">")]
        word = self.take("unit", "bool", "int", "text", "enum", "list", "keyed", "tree", "name")
        if isinstance(word, tuple):
            return ["type", *word]
        if word == "enum":
            return [word, self.items("[", self.string, "]")]
        return [word, self.type()] if word in ("list", "keyed", "tree") else [word]

    def lens(self):
        """A lens, one level deeper."""
        return self.nested(self.one_lens)

    def one_lens(self):
        """A lens."""
        if self.has("{"):
            return ["rows", self.items("{", self.row, "}", True)]
        if self.has("<"):
            return ["arms", self.items("<", self.arm, ">")]
        word = self.take("id", "disc", "bij", "then", "each", "keyed", "tree", "part", "inv", "name")
        if isinstance(word, tuple):
            return ["lens", *word]
        if word == "then":
            self.take("(")
            first = self.lens()
            self.take(",")
            second = self.lens()
            self.take(")")
            return [word, first, second]
        if word == "bij":
            return [word, self.items("[", self.pair, "]")]
        if word == "part":
            return [word, self.items("<", self.typed_field, ">")]
        if word == "disc":
            return [word, self.type(), self.type()]
        return [word, self.type()] if word == "id" else [word + " lens", self.lens()]

    def pair(self):
        """A pair of a bijection."""
        left = self.string()
        self.take("=")
        return left, self.string()

    def arm(self):
        """Two names with the lens between them."""
        left = self.field()
        self.take("~")
        right = self.field()
        self.take(":")
        return left, right, self.lens()

    def row(self):
        """A row of a record."""
        if self.has("left", "right"):
            return (self.take("left", "right"), *self.typed_field())
        return ("both", *self.arm())

    def program(self):
        """A program: its definitions, and the main lens."""
        definitions = []
        while self.has("type", "lens"):
            sort = self.take("type", "lens")
            name, at = self.take("name")
            self.take("=")
            definitions.append((sort, name, at, self.type() if sort == "type" else self.lens()))
            self.take(";")
        self.take("main")
        main = self.lens()
        self.take("end")
        return definitions, main


def mentions(tree):
    """The names that a type or a lens mentions, in written order: the sort, the name and its offset."""
    if isinstance(tree, list) and len(tree) == 3 and tree[0] in ("type", "lens") and isinstance(tree[2], int):
        yield tree
    elif isinstance(tree, (list, tuple)):
        for part in tree:
            yield from mentions(part)


def read_program(text):
    """The definitions and the main lens of a program. Raises Refused."""
    if len(text) > 65536:
        raise Refused("program-too-long", None)
    definitions, main = Reader(text).program()
    earlier = {}
    for sort, name, at, tree in definitions + [("main", None, None, main)]:
        if name in earlier:
            raise Refused("repeated-name", at)
        for wanted, mentioned, place in mentions(tree):
            if earlier.get(mentioned) != wanted:
                raise Refused("unknown-name", place)
        earlier[name] = sort
    return definitions, main


def in_list(items, write):
    """Items with commas between them."""
    return ", ".join(write(*item) if isinstance(item, tuple) else write(item) for item in items)


def quoted(text):
    """A string between quotes."""
    return '"%s"' % text


def field_and_type(name, ty):
    """A field with its type."""
    return write_name(name) + ": " + written(ty)


def written_row(side, name, *rest):
    """The text of a row."""
    if side == "both":
        return written_arm(name, *rest)
    return side + " " + field_and_type(name, *rest)


def written_arm(left, right, lens):
    """The text of an arm, or of a row that ties two fields."""
    return write_name(left) + " ~ " + write_name(right) + ": " + written(lens)


def written(tree):
    """The canonical text of a type or a lens."""
    word, what = tree[0], tree[1] if len(tree) > 1 else None
    if word in ("type", "lens"):
        return what
    if word == "enum":
        return "enum[" + in_list(what, quoted) + "]"
    if word == "bij":
        return "bij[" + in_list(what, lambda left, right: quoted(left) + "=" + quoted(right)) + "]"
    if word in ("rec", "rows"):
        return "{" + in_list(what, field_and_type if word == "rec" else written_row) + "}"
    if word in ("alt", "arms"):
        return "<" + in_list(what, field_and_type if word == "alt" else written_arm) + ">"
    if word == "part":
        return "part <" + in_list(what, field_and_type) + ">"
    if word == "then":
        return "then(" + written(tree[1]) + ", " + written(tree[2]) + ")"
    return " ".join([word.split()[0]] + [written(part) for part in tree[1:]])


def written_program(definitions, main):
    """The canonical text of a program."""
    lines = ["%s %s = %s;\n" % (sort, name, written(tree)) for sort, name, _, tree in definitions]
    return "".join(lines) + "main " + written(main)


def program_answer(text):
    """The canonical text of a program, or the fault."""
    try:
        return {"canonical": written_program(*read_program(text))}
    except Refused as fault:
        return {"fault": fault.args[0], **({} if fault.args[1] is None else {"at": fault.args[1]})}
