"""The text of a proposed program: one field a line, and each doubt as a comment before the line that it is about."""

from ..json_text import shown
from ..type_lines import STEP
from ..types import write_name, write_type
from .guess import Guess
from .ties import Tie


def program_text(heads: list, main: "Guess | Tie | tuple") -> str:
    """The program of a guess, of a lens, or of two guesses that nothing ties, with some comments at its head."""
    if isinstance(main, Tie):
        doubts, lines = main.doubts, _lens(main, "")
        doubts = (*doubts, *_own_doubts(main))
    elif isinstance(main, Guess):
        doubts, lines = main.doubts, _before("id", _type(main, ""))
    else:
        left, right = (_type(it, STEP) for it in main)
        doubts, lines = (*main[0].doubts, *main[1].doubts), ["disc", *_indented(left, STEP), *_indented(right, STEP)]
    lines[0] = f"main {lines[0]}"
    return "".join(f"{line}\n" for line in [*(_comment(it) for it in heads), *(_comment(f"? {it}") for it in doubts), *lines])


def _comment(text, indent=""):
    return f"{indent}# {text}"


def _before(word, lines):
    return [f"{word} {lines[0]}", *lines[1:]]


def _indented(lines, indent):
    return [indent + lines[0], *lines[1:]]


def _own_doubts(tie):
    """The doubts of both sides of a lens, each once."""
    both = [it for it in tie.left.doubts if it in tie.right.doubts]
    for side, guess in (("left", tie.left), ("right", tie.right)):
        both += [f"{side}: {it}" for it in guess.doubts if it not in both]
    return tuple(both)


def _all_doubts(tie):
    """The doubts of a lens that is written on one line with what is inside it in containers."""
    found = (*tie.doubts, *_own_doubts(tie))
    while tie.inner:
        tie = tie.inner
        found += (*tie.doubts, *_own_doubts(tie))
    return tuple(dict.fromkeys(found))


def _contents_doubts(guess):
    found = guess.doubts
    while guess.kind in ("list", "keyed", "tree"):
        guess = guess.inner["*"]
        found += guess.doubts
    return tuple(dict.fromkeys(found))


def _listed(begin, elements, end, indent):
    """The lines of a list in brackets. An element is its doubts and its lines; the first line has no indent yet."""
    if not elements:
        return [begin + end]
    made = [begin]
    for number, (doubts, lines) in enumerate(elements, 1):
        made += [_comment(f"? {it}", indent + STEP) for it in doubts]
        lines = _indented(lines, indent + STEP)
        lines[-1] += "," if number < len(elements) else ""
        made += lines
    return [*made, indent + end]


def _type(guess, indent):
    """The lines of a type. The first one is not indented."""
    if guess.kind in ("list", "keyed", "tree"):
        return _before(guess.kind, _type(guess.inner["*"], indent))
    if guess.kind in ("record", "alternatives") and not _is_short(guess):
        fields = [(_contents_doubts(it), _before(f"{write_name(name)}:", _type(it, indent + STEP))) for name, it in guess.inner.items()]
        return _listed("{" if guess.kind == "record" else "<", fields, "}" if guess.kind == "record" else ">", indent)
    return [write_type(guess.ty())]


def _is_short(guess):
    """Whether alternatives stand on one line: a value that may be missing or null."""
    return bool(guess.roles()) and all(not it.inner and not it.doubts for it in guess.inner.values())


def _lens(tie, indent):
    """The lines of a lens. The first one is not indented."""
    if tie.kind == "id":
        return [f"id {write_type(tie.left.ty())}"]
    if tie.inner:
        return _before(tie.kind, _lens(tie.inner, indent))
    if tie.kind == "alternatives":
        arms = [(_row_doubts(row), _paired(row, indent)) for row in tie.rows]
        if tie.left.roles() and all(len(lines) == 1 and not doubts for doubts, lines in arms):
            return [f"<{', '.join(lines[0] for _, lines in arms)}>"]
        return _listed("<", arms, ">", indent)
    rows = []
    for row in tie.rows:
        if row.tie:
            rows.append((_row_doubts(row), _paired(row, indent)))
            continue
        side, name = ("left", row.left) if row.right is None else ("right", row.right)
        guess = (tie.left if side == "left" else tie.right).inner[name]
        rows.append((_contents_doubts(guess), _before(f"{side} {write_name(name)}:", _type(guess, indent + STEP))))
    return _listed("{", rows, "}", indent)


def _row_doubts(row):
    return (*row.doubts, *_all_doubts(row.tie))


def _paired(row, indent):
    return _before(f"{write_name(row.left)} ~ {write_name(row.right)}:", _lens(row.tie, indent + STEP))


def form_lines(form: dict) -> list:
    """A form file with a place a line."""
    places = [f"  {_long(place)}: {_long(it)}" for place, it in form.items()]
    return ["{", *(f"{line}," for line in places[:-1]), *places[-1:], "}"]


def _long(tree):
    return shown(tree, most=1 << 30)
