"""The lemmas of the proofs, found by their text: which are stated twice, and which nothing names."""

import collections
import os
import re
from dataclasses import dataclass

from . import TOP, tracked

STATED = re.compile(r"^(?:abbrev )?(?:pub )?([^\s:=(){}]+) : (.+?)(?=^\S)", re.M | re.S)
NAMED = re.compile(r"^(?:abbrev )?(?:pub )?([^\s:=(){}]+) : ", re.M)
BINDERS = re.compile(r"[({]([^():{}]+?) :")
SYMBOLS = re.compile(r"[^\s(){},.;]+|[(){},.;]")
WORDS = re.compile(r"[^\s(){}\[\],.;∷]+")
LEAST_LENGTH = 24
# Files whose lemmas the prover asks for by their names.
ASKED_FOR = ("Examples.antt", "Answers.antt", "Invariants.antt", "Proof.antt")


@dataclass(frozen=True)
class Lemma:
    """A lemma: its name, and the file of its crate."""

    crate: str
    file: str
    name: str


def body_of(path, top=TOP):
    """The text of a source without its comments."""
    with open(os.path.join(top, path), encoding="utf-8") as file:
        return re.sub(r"(--|//).*", "", file.read())


def renamed(statement):
    """A statement with its variables numbered in the order of their binders."""
    names = []
    for binder in BINDERS.findall(statement):
        names += [it for it in binder.split() if it not in names and it != "_"]
    return " ".join(f"v{names.index(it)}" if it in names else it for it in SYMBOLS.findall(statement))


def is_law(statement):
    """Whether a statement says something, and is not a short one that many lemmas share by chance."""
    return ("≡" in statement or "→" in statement) and len(statement) > LEAST_LENGTH and not statement.endswith("Type 0")


def proofs(top=TOP):
    """The files of proofs."""
    return [it for it in tracked(top) if it.startswith("crates/") and "/proofs/" in it and it.endswith(".antt")]


def stated_twice(is_inside=False, top=TOP):
    """Statements that several crates have, up to the names of variables, with their lemmas. The one that most have is first.

    If `is_inside`, statements that one crate has several times count, too.
    """
    found = collections.defaultdict(list)
    for path in proofs(top):
        for name, statement in STATED.findall(body_of(path, top)):
            plain = renamed(" ".join(statement.split()))
            if is_law(plain):
                found[plain].append(Lemma(path.split("/")[1], path.removeprefix("crates/"), name))
    several = [(it, lemmas) for it, lemmas in found.items() if len(lemmas) > 1]
    rows = [(it, lemmas) for it, lemmas in several if is_inside or len({lemma.crate for lemma in lemmas}) > 1]
    return sorted(rows, key=lambda row: (-len(row[1]), row[0]))


def named_nowhere(top=TOP):
    """Lemmas whose names occur in no other place, and the number of all lemmas that were looked at."""
    count, lemmas = collections.Counter(), []
    for path in (it for it in tracked(top) if it.endswith((".antt", ".rt"))):
        body = body_of(path, top)
        for word in WORDS.findall(body):
            count.update(word.split("::"))
            count[word] += "::" in word
        if "/proofs/" in path and not path.endswith(ASKED_FOR):
            for name in NAMED.findall(body):
                own = len(re.findall(rf"^(?:(?:abbrev )?pub )?{re.escape(name)}(?=\s)", body, re.M))
                lemmas.append((Lemma(path.split("/")[1], path.removeprefix("crates/"), name), own))
    return [lemma for lemma, own in lemmas if count[lemma.name] <= max(own, 2)], len(lemmas)
