"""Proposals: the types, the form files and the lens that samples of JSON or a JSON Schema fit. A person reads them, with their doubts."""

from dataclasses import dataclass, replace

from ..answers import ProgramRefused
from ..checked import check
from ..documents import fits
from ..json_text import write_json
from ..load import load_words
from ..natural import FormFault, read_form, to_document, to_file, write_file
from .guess import Guess
from .samples import guess_of
from .schemas import guess_of_schema, is_schema
from .ties import tie
from .written import form_lines, program_text

LEVELS = (14, 10, 7, 5, 4, 3, 2, 1, 0)
"""How deeply samples are taken apart: fewer levels, where the program would be above its limits."""
MOST_SHOWN = 5
MOST_COMPARED = 50_000
"""Two samples are compared only if their documents have no more characters together."""
TOO_MUCH = ("too-large", "too-deep", "program-too-long")


class NotProposed(ValueError):
    """Nothing is proposed, with the reason."""


@dataclass(frozen=True)
class Proposal:
    """A program that is accepted, with the form file of each side."""

    program: str
    forms: dict

    def form_text(self, side: str) -> str:
        """The form file of a side."""
        return "\n".join(form_lines(self.forms[side])) + "\n"


def propose(samples: dict, are_schemas: bool = False) -> Proposal:
    """The proposal for samples of one side, `left`, or of both. What comes of it was tried: the program is accepted, and every sample fits."""
    for side, trees in samples.items():
        if not trees:
            raise NotProposed(f"there is no sample of the {side} side")
    for levels in LEVELS:
        guesses = {side: _guess(trees, levels, are_schemas) for side, trees in samples.items()}
        made = _proposal(guesses, samples)
        try:
            types = dict(zip(("left", "right"), check(made.program)))
        except ProgramRefused as why:
            if why.reason.split()[0] in TOO_MUCH:
                continue
            raise NotProposed(f"the proposed program is refused: {why}") from None
        documents = {side: _tried(types[side], made.forms[side], trees, are_schemas) for side, trees in samples.items()}
        return _with_disagreements(made, documents)
    raise NotProposed("the samples have more parts than a program may have")


def _guess(trees, levels, are_schemas):
    if not are_schemas and not is_schema(trees[0]):
        return guess_of(trees, levels)
    if len(trees) > 1:
        raise NotProposed("a side has one JSON Schema, or samples")
    return guess_of_schema(trees[0], levels)


def _proposal(guesses, samples):
    counts = " and ".join(f"{len(trees):,} of the {side} side" if len(samples) > 1 else f"{len(trees):,}" for side, trees in samples.items())
    heads = [f"Proposed from samples: {counts}. Every line with a ? is a doubt, to be decided by a person."]
    left, right = guesses["left"], guesses.get("right")
    if right is None:
        return Proposal(program_text(heads, left), {"left": left.forms()})
    made = tie(left, right)
    if made is None:
        heads.append("? nothing ties the two sides: their shapes do not fit")
        return Proposal(program_text(heads, (left, right)), {"left": left.forms(), "right": right.forms()})
    if made.is_empty():
        heads.append("? no value is tied")
    return Proposal(program_text(heads, made), {"left": made.left.forms(), "right": made.right.forms()})


def _tried(ty, form, trees, are_schemas):
    """The documents of the samples. What is proposed and does not fit them is a fault of this module."""
    try:
        shape = read_form(ty, form)
        documents = [] if are_schemas or is_schema(trees[0]) else [to_document(shape, it) for it in trees]
    except (FormFault, ValueError) as why:
        raise NotProposed(f"what is proposed does not fit: {why}") from None
    for tree, document in zip(trees, documents):
        if not fits(ty, document) or write_file(to_file(shape, document)) != write_file(tree):
            raise NotProposed("a sample does not come back from its document")
    return documents


def _with_disagreements(made, documents):
    """The proposal with the places where two samples disagree, one on each side, if they do."""
    if any(len(it) != 1 for it in documents.values()) or len(documents) < 2:
        return made
    if sum(len(write_json(it)) for it, in documents.values()) > MOST_COMPARED:
        lines = ["# ? whether the samples agree was not looked at: tools/load lists where they do not"]
    else:
        found = load_words(made.program, documents["left"][0], documents["right"][0]).disagreements
        # A key may have a line feed, which would end the comment.
        lines = [f"# ? the samples disagree, at {' '.join(str(it).split())}" for it in found[:MOST_SHOWN]]
        lines += [f"# ? and at {len(found) - MOST_SHOWN:,} other places"] if len(found) > MOST_SHOWN else []
    first, *rest = made.program.split("\n", 1)
    return replace(made, program="\n".join([first, *lines, *rest]))


__all__ = ["Guess", "NotProposed", "Proposal", "propose"]
