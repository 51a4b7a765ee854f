"""Writes cases of programs for case_layers, worked out by the rules of docs/LANGUAGE.md."""

from editlens.types import tokens, write_type

from ..checks import check_answer
from ..programs import program_answer, token_pairs
from . import lines_of
from .chance import Chance


class ProgramChance(Chance):
    """A source of lens programs. Some are not well typed."""

    def lens(self, depth, names):
        """The text of a lens. Fields and tags repeat now and then, and so do middles that differ."""
        kind = self.choice(["id", "disc", "bij", "name"] + ["then", "rows", "arms", "each", "keyed", "tree", "part", "inv"] * (3 if depth else 0))

        def inner():
            return self.lens(depth - 1, names)

        def ty():
            return self.written_type(names)

        def pair():
            return self.choice("abcdefg") + " ~ " + self.choice("abcdefg") + ": " + inner()

        def alone():
            return self.choice(["left", "right"]) + " " + self.choice("abcdefg") + ": " + ty()

        if kind == "name":
            return self.choice(names + ["id int"])
        if kind == "disc":
            return "disc " + ty() + " " + ty()
        if kind == "bij":
            return "bij[" + ", ".join('"%s"="%s"' % (self.choice("abcdef"), self.choice("abcdef")) for _ in range(self.randint(1, 3))) + "]"
        if kind == "then":
            first = inner()
            return "then(" + first + ", " + ("inv " + first if self.random() < 0.8 else inner()) + ")"
        if kind == "part":
            return "part <" + ", ".join(self.choice("abcdef") + ": " + ty() for _ in range(self.randint(1, 3))) + ">"
        if kind == "arms":
            return "<" + ", ".join(pair() for _ in range(self.randint(1, 3))) + ">"
        if kind == "rows":
            return "{" + ", ".join(self.choice([pair, alone])() for _ in range(self.randint(0, 3))) + "}"
        return kind + " " + (ty() if kind == "id" else inner())

    def written_type(self, names):
        """The text of a type, or now and then a name."""
        return self.choice(names) if names and self.random() < 0.2 else write_type(self.some_type(1))

    def program(self):
        """The text of a program, of which names are mostly known and distinct."""
        types, lenses, text = [], [], ""
        for name in self.sample(["t", "u", "l_1", "K", "m"], self.randint(0, 3)):
            known = (types, lenses) if self.random() < 0.95 else (["t"], ["l_1"])
            if self.random() < 0.5:
                text += "type " + name + " = " + self.written_type(known[0]) + "; "
                types.append(name)
            else:
                text += "lens " + name + " = " + self.lens_over(*known) + "; "
                lenses.append(name)
        return text + "main " + self.lens_over(types, lenses)

    def lens_over(self, types, lenses):
        """The text of a lens that mostly uses names of the right sort."""
        names = lenses if self.random() < 0.5 else types
        return self.lens(2, names if self.random() < 0.9 else types + lenses)

    def spaced(self, text, change):
        """The text with other space between its tokens and comments there, and with one token changed where that is wanted."""
        raw = [token.text.encode() for token in tokens(text.encode())][:-1]
        if change:
            marks = [b"main", b"id", b"int", b"{", b"}", b"<", b">", b",", b":", b"~", b";", b"=", b"t", b'"a"', b"left", b"$", b'""']
            other = self.choice(marks)
            k = self.randrange(len(raw))
            raw[k : k + 1] = self.choice([[], [other], [raw[k], other]])
        return b"".join(token + self.choice([b" ", b" ", b"\n", b"\t\r", b' # "c {\n']) for token in raw).decode()


def program_rows(chance, count):
    """Programs that are read, and some that are not."""
    for number in range(count):
        text = chance.spaced(chance.program(), number % 3)
        yield {"call": "read_program", "text": text, "answer": program_answer(text.encode())}
    for word, times, last in [("each ", 98, "id int"), ("each ", 99, "id int"), ("each ", 100, "id int"), ("inv ", 250, "id int"),
                              ("then(id int, ", 97, "id int" + ")" * 97), ("then(id int, ", 100, "id int" + ")" * 100)]:
        for start in ["main ", "type t = int; main "]:
            answer = program_answer((start + word * times + last).encode())
            yield {"call": "read_program", "repeat": [[start, 1], [word, times], [last, 1]], "answer": answer}


def token_rows(chance, count):
    """Texts as their tokens."""
    pieces = ["main", "mains", "_", "a9", "9", '"a b"', '"é"', '"', '""', "#", "\n", " ", "\r\n", "\t", "=", ";", "{", "}", "<", ">", "[", "]",
              "(", ")", ":", ",", "~", "a" * 64, "b" * 65, '"' + "é" * 64 + '"', '"' + "é" * 65 + '"', "\\", "\x0b", "\x00", "é", "list"]
    for _ in range(count):
        text = "".join(chance.choice(pieces) for _ in range(chance.randint(0, 6)))
        shown = [[":".join(token) if isinstance(token, tuple) else token, at] for token, at in token_pairs(text.encode())]
        yield {"call": "tokens", "text": text, "answer": shown}


def check_rows(chance, count):
    """Programs with their two types, and programs at the limits."""
    for _ in range(count):
        text = chance.program()
        yield {"call": "check", "text": text, "answer": check_answer(text.encode())}
    for start, word, times, last in [
        ("main ", "each ", 31, "id int"),
        ("main ", "each ", 32, "id int"),
        ("main id ", "list ", 31, "int"),
        ("main id ", "list ", 32, "int"),
        ("main each id ", "list ", 31, "int"),
        ("main inv each id ", "list ", 30, "int"),
        ("main part <p: ", "list ", 29, "int>"),
        ("main part <p: ", "list ", 30, "int>"),
        ("lens l = ", "each ", 32, "id int; main id {a: int, a: int}"),
    ]:
        answer = check_answer((start + word * times + last).encode())
        yield {"call": "check", "repeat": [[start, 1], [word, times], [last, 1]], "answer": answer}
    for members in (4093, 4094):
        for end in ["]", ', "m1"]']:
            text = 'main id enum["m0"' + "".join(', "m%d"' % number for number in range(1, members)) + end
            answer = check_answer(text.encode())
            if "fault" in answer:
                yield {"call": "check", "repeat": [['main id enum["m0"', 1], [', "m#"', members - 1, 1], [end, 1]], "answer": answer}


def files():
    """The files of cases. One source of chance goes through both, in this order."""
    chance = ProgramChance(14)
    yield "case_layers/data/programs_reference.jsonl", lines_of([*program_rows(chance, 600), *token_rows(chance, 300)])
    yield "case_layers/data/types_reference.jsonl", lines_of(check_rows(chance, 600))
