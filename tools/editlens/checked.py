"""What the program says of a lens program: its two types, or why it is refused, with the place in its text."""

from __future__ import annotations

import subprocess

from .answers import ProgramRefused, RunEnded
from .grammar import wanted_at
from .json_text import pointer
from .lines import lines_of
from .parts import SEPARATOR, views_of
from .program import find_program
from .types import Ty, differences, read_type, read_types, token_at, tokens, write_type

OFFSETS = ("not-a-program", "unknown-name", "repeated-name")

BYTE_ORDER_MARK = b"\xef\xbb\xbf"

REASONS = {
    "program-too-long": "the program part has more than 65,536 bytes",
    "too-large": "a definition has more than 4,096 parts, with every name expanded",
    "too-many-views": "there are more than 64 views",
    "too-deep": "a lens or a type has a height of more than 32",
    "unknown-name": "no earlier definition of the sort that is wanted here, type or lens, has this name",
    "repeated-name": "an earlier definition has this name already",
}


def place_of(data: bytes, at: int) -> tuple[int, int, str]:
    """The line, from 1, the column in characters, from 1, and the text of the line of a byte."""
    begin = data.rfind(b"\n", 0, at) + 1
    end = data.find(b"\n", at)
    text = data[begin : len(data) if end < 0 else end].decode(errors="replace")
    column = len(data[begin:at].decode(errors="replace")) + 1
    return data.count(b"\n", 0, at) + 1, column, text.rstrip("\r")


def pointed(data: bytes, at: int, width: int = 1) -> list[str]:
    """The line of a byte with a caret below it."""
    line, column, text = place_of(data, at)
    pad = "".join("\t" if it == "\t" else " " for it in text[: column - 1])
    return [f"line {line}, column {column}:", f"  {text}", f"  {pad}{'^' * max(1, width)}"]


def _bad_token(data, token):
    line = place_of(data, token.at)[2]
    if data.startswith(BYTE_ORDER_MARK) and token.at < len(BYTE_ORDER_MARK):
        return "the text begins with a byte order mark; it is saved as UTF-8 without one"
    if line.strip() == SEPARATOR:
        return f"the separator is a line of {SEPARATOR} alone; this one has a space beside it, and begins no journal"
    if token.text.startswith(("//", "/*")):
        return "a comment begins with # and goes to the end of its line"
    if token.text.startswith("-"):
        return "a - without a digit behind it; a field with a - in it is written between quotes"
    if token.text.startswith('"'):
        return 'a string that is not closed on its line, is empty, has a \\ in it or more than 64 characters'
    if token.text[:1].isdigit():
        return "a number of more than 19 digits, or one that is not within 64 bits"
    return "no token begins like this"


def explain_program(text: str, reason: str) -> list[str]:
    """The lines that explain why a program is refused. `reason` is what stands behind `program refused:`."""
    data, words = text.encode(), reason.split(" ", 1)
    said = [f"program refused: {reason}"]
    if words[0] == "view":
        number, inner = words[1].split(" ", 1)
        return said + explain_program(views_of(text)[int(number)], inner)[1:]
    if words[0] == "views-differ":
        first, second = (check(views_of(text)[it])[0] for it in (0, int(words[1])))
        return [*said, f"the left type of view {words[1]} is not that of view 0:", *_type_differences(second, first)]
    if words[0] in OFFSETS:
        at = int(words[1])
        token = token_at(data, at)
        said += pointed(data, at, 1 if token.sort == "bad" else len(token.text))
        if words[0] != "not-a-program":
            return [*said, f"{token.text}: {REASONS[words[0]]}"]
        return said + _unexpected(data, token)
    if words[0] == "middle-differs":
        first, second = read_types(words[1])
        said.append("the right type of the first lens of a `then` is not the left type of the second:")
        return said + _type_differences(first, second)
    if words[0] in REASONS:
        return [*said, REASONS[words[0]]]
    name = words[1].strip('"')
    what = "is the initial value, and not a member" if words[0] == "not-a-member" else "comes twice on one side"
    said.append(f"{words[1]} {what}; it stands at")
    places = [place_of(data, it.at)[:2] for it in tokens(data) if it.text.strip('"') == name and it.sort in ("name", "string")]
    return said + [f"  line {line}, column {column}" for line, column in places]


def _type_differences(first, second):
    said = []
    for path, one, other in differences(first, second):
        shown_types = (write_type(it) if it else "no such field" for it in (one, other))
        said.append("  at {}: {} against {}".format(pointer(path) or "(the document)", *shown_types))
    return said


def _unexpected(data, token):
    found = "the end of the program" if token.sort == "end" else f"{token.sort} {token.text}"
    said = [f"found: {found}"]
    if token.sort == "bad":
        said = [f"found: {token.text}", _bad_token(data, token)]
    stuck = wanted_at(data)
    if stuck and stuck[0].at == token.at:
        said.append("wanted: " + " or ".join(stuck[1]))
        if token.sort == "keyword" and "a field" in stuck[1]:
            said.append(f'{token.text} is a keyword: as a field it is written "{token.text}"')
    elif not stuck:
        said.append("a type or a lens stands inside 100 others here")
    return said


def check(program_text: str, path: str | None = None) -> tuple[Ty, Ty]:
    """The types of the left and of the right document. Raises ProgramRefused."""
    path = path or find_program()
    ran = subprocess.run([path, "check"], input=program_text.encode(), stdout=subprocess.PIPE, check=False)
    lines = lines_of(ran.stdout)
    if ran.returncode == 3:
        raise program_refused(program_text, lines[0])
    if ran.returncode:
        raise RunEnded(ran.returncode)
    return read_type(lines[0].removeprefix("left ")), read_type(lines[1].removeprefix("right "))


def program_refused(program_part: str, line: str) -> ProgramRefused:
    """The ProgramRefused of a line `program refused: ..`, which explains itself."""
    reason = line.rstrip("\n").removeprefix("program refused: ")
    return ProgramRefused(reason, lambda: explain_program(program_part, reason)[1:])
