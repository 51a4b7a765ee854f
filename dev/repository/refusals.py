"""The refusals: what the sources say of every public call that can refuse, joined with a table of clauses and tests.

A line of dev/refusals.table that begins at the margin names a call, as `gate_log create_log`. The lines below it say of its refusals:

    NAMES | CLAUSES | TESTS | WHEN

Names are separated by spaces; `StoreRefused/log-full` is one reason of a refusal. `never` before the names says that the contract rules
them out; this may be `NoMemory`, too. A test is a path below crates/, or one that begins with bindings/, and behind a colon what has to be
there: words of one line of the file, joined by ` & `. `-` says that there is none. `cannot: WHY` in place of tests says why nothing can show
the refusal. WHEN may be left out where the docstring of the call has a line for the refusal. A line `answers CALL | WHY` names a call whose
`Option` or status is no refusal.

A call that makes a value of its own type, which is `Open` or says why it is not, has each other variant as a refusal.
"""

import os
import re
from collections import defaultdict
from dataclasses import dataclass

from . import TOP, read_lines
from .contracts import enums, libraries, public_calls

TABLE = os.path.join(TOP, "dev", "refusals.table")
MEMORY = ("NoMemory", "OutOfMemory")
OPEN = "Open"
CANNOT = "cannot: "

@dataclass
class Line:
    """A line of the table: names of refusals, with what is said of them."""

    names: list
    clauses: list
    tests: list
    when: str
    is_never: bool
    cannot: str = ""


def read_table(path=TABLE):
    """The lines of the table by their calls, and why some calls do not refuse."""
    lines, answers, call = defaultdict(list), {}, None
    for text in read_lines(path):
        if not text.strip() or text.startswith("#"):
            continue
        if text.startswith("answers "):
            name, _, why = text.removeprefix("answers ").partition(" | ")
            answers[name] = why
        elif not text.startswith(" "):
            call = text.strip()
            lines[call] = lines[call]
        else:
            names, clauses, tests, when = ([it.strip() for it in text.split(" | ")] + ["", "", ""])[:4]
            is_never = names.startswith("never ")
            cannot = tests.removeprefix(CANNOT) if tests.startswith(CANNOT) else ""
            lines[call].append(
                Line(
                    names.removeprefix("never ").split(),
                    [it for it in clauses.split() if it != "-"],
                    [] if cannot else [it.strip() for it in tests.split(" ; ") if it.strip() not in ("", "-")],
                    when,
                    is_never,
                    cannot,
                )
            )
    return lines, answers


class Refusals:
    """The refusals of calls, by the enums of all crates."""

    def __init__(self):
        self.enums = {crate: enums(crate) for crate in libraries()}

    def variants(self, call, name):
        """The variants of an enum that a call names: of its own crate, or of the crate that it uses it from."""
        if name in self.enums[call.crate]:
            return self.enums[call.crate][name]
        text = "\n".join(read_lines(os.path.join(TOP, call.file)))
        used = re.search(rf"(?m)^use (\w+)(?:::\w+)*::(?:\{{[^}}]*\b{name}\b[^}}]*\}}|{name});", text)
        crates = [used[1]] if used and used[1] in self.enums and name in self.enums[used[1]] else list(self.enums)
        return next((self.enums[crate][name] for crate in crates if name in self.enums[crate]), [])

    def of(self, call):
        """The names of the refusals of a call without that of memory, and whether it can run out of memory."""
        result = re.match(r"Result<(.*), (\w+)>$", call.result)
        if result:
            found = ["None"] if result[1].startswith("Option<") else []
            if result[2] == "AllocError":
                return found, True
            names = ["Failed"] if result[2] == "Failed" else self.variants(call, result[2])
            return found + [it for it in names if it not in MEMORY], any(it in MEMORY for it in names)
        if call.result.startswith("Option<"):
            return ["None"], False
        if call.result == call.owner and OPEN in self.variants(call, call.result):
            names = self.variants(call, call.result)
            return [it for it in names if it not in (OPEN, *MEMORY)], any(it in MEMORY for it in names)
        if call.result.endswith("Status") and not call.owner.endswith("Status"):
            names = self.variants(call, call.result)
            return [it for it in names if it not in ("Done", *MEMORY)], any(it in MEMORY for it in names)
        return [], False


def said(doc):
    """What a docstring says of each refusal, in lines that begin with its name."""
    found, names = {}, []
    for line in doc:
        begun = re.match(r"- (?:Then, [^`]*|For [^`]*)?((?:`\w+`(?:, | and )?)+)(?: \{[^}]*\}`)?: ?(.*)", line)
        if begun:
            names = re.findall(r"`(\w+)`", begun[1])
            found.update((name, begun[2]) for name in names)
        elif line.startswith("- ") or not line:
            names = []
        else:
            found.update((name, found[name] + " " + line) for name in names)
    return found


def first_sentence(text):
    """The first sentence of a text, without its full stop."""
    return re.split(r"(?<=[^.])\.(?= [A-Z]|$)", text.strip())[0].strip()


def below_top(path):
    """The place of a test from the top of the repository. An edit may be in mutants/ in place of its crate."""
    if path.startswith("bindings/"):
        return path
    mutant = os.path.join("mutants", path.replace("/must-fail/", "/"))
    return mutant if "/must-fail/" in path and os.path.isfile(os.path.join(TOP, mutant)) else f"crates/{path}"


def lacking(test):
    """What of a test does not exist, or None."""
    path, _, words = test.partition(":")
    place = os.path.join(TOP, below_top(path))
    if not os.path.isfile(place):
        return f"there is no file {below_top(path)}"
    wanted = [it.strip() for it in words.split(" & ") if it.strip()]
    with open(place, encoding="utf-8", errors="replace") as file:
        if wanted and not any(all(word in line for word in wanted) for line in file):
            return f"{below_top(path)} has no line with {words}"
    return None


def shown(test):
    """A test as it is named here: by its file, and the name of a function."""
    path, _, words = test.partition(":")
    return f"{below_top(path)}:{words.removeprefix('fn ')}" if words.startswith("fn ") else below_top(path)


def faults_of(call, names, lines):
    """What is wrong with the lines of a call."""
    where = f"{call.crate} {call.path}"
    have = [name.split("/")[0] for line in lines for name in line.names if not (line.is_never and name in MEMORY)]
    for name in names:
        if name not in have:
            yield f"{where}: the table has no line for {name}"
    for name in set(have) - set(names):
        yield f"{where}: the call has no refusal {name}"
    docs = said(call.doc)
    for line in lines:
        for clause in line.clauses:
            if call.clauses.get(clause, ("",))[0] != "ensures":
                yield f"{where}: the contract has no clause {clause}"
        for test in line.tests:
            if lacking(test):
                yield f"{where}, {' '.join(line.names)}: {lacking(test)}"
        if not line.is_never and not line.when and any(name not in docs for name in line.names):
            yield f"{where}, {' '.join(line.names)}: nothing says when"


def named(name):
    """A refusal as it is named here, with its reason behind it."""
    head, _, reason = name.partition("/")
    return f"{head} ({reason})" if reason else head


def rows_of(call, lines):
    """The lines that say of a call where it is, and of each refusal when it comes, by which clause, and what shows it."""
    docs = said(call.doc)
    yield f"{call.path}  {call.file}:{call.line}"
    for line in lines:
        clauses = "clause " + (", ".join(line.clauses) or "NONE")
        tests = CANNOT + line.cannot if line.cannot else "shown by " + (", ".join(dict.fromkeys(map(shown, line.tests))) or "nothing")
        for names in [line.names] if line.is_never else [[name] for name in line.names]:
            when = f"never {line.when}".strip() if line.is_never else line.when or first_sentence(docs[names[0]])
            yield f"    {', '.join(map(named, names))}: {when}"
            yield f"        {clauses}" + ("" if line.is_never else f"; {tests}")


def section(crate, lines, answers, refusals, faults):
    """What is said of a crate."""
    rows, memory, known = [], [], set()
    for call in public_calls(crate):
        name = f"{crate} {call.path}"
        names, is_memory = refusals.of(call)
        if name in answers:
            known.add(name)
        elif names:
            known.add(name)
            faults += faults_of(call, names, lines.get(name, []))
            if not faults:
                rows += rows_of(call, lines[name])
        elif is_memory:
            memory.append(call.path)
    named = [name for name in [*lines, *answers] if name.split()[0] == crate]
    faults += [f"{name}: there is no such call that can refuse" for name in named if name not in known]
    if memory:
        rows.append(f"Only out of memory: {', '.join(memory)}")
    rows += [f"Not a refusal: {name.split()[1]}, {why}" for name, why in answers.items() if name.split()[0] == crate]
    return "\n".join([f"== {crate}", *rows]) + "\n" if rows else ""


def refusals_of(lines, is_wanted):
    """Each refusal of a line that is wanted, as a call and a name. Lines that say never are left out."""
    some = [(call, line) for call, these in lines.items() for line in these if not line.is_never and is_wanted(line)]
    return [(call, name) for call, line in some for name in line.names]


def unshown(lines):
    """Each refusal that nothing shows, though something could, as a call and a name."""
    return refusals_of(lines, lambda line: not line.tests and not line.cannot)


def counts(lines):
    """How many calls refuse, by how many refusals, how many of these nothing shows, and of how many the table says why nothing can."""
    names, hidden = refusals_of(lines, lambda line: True), refusals_of(lines, lambda line: line.cannot)
    alone = len(hidden) + len(unshown(lines))
    text = f"{len(lines)} calls have {len(names)} refusals here. Nothing but the proof shows {alone} of them; "
    return text + f"of {len(hidden)} of these the table says why nothing can.\n"


def report(only=()):
    """What is said of all crates, or of those that are named, and what is wrong with the table."""
    lines, answers = read_table()
    refusals, faults = Refusals(), []
    crates = libraries()
    faults += [f"{name}: there is no such crate" for name in [*lines, *answers, *only] if name.split()[0] not in crates]
    sections = [section(crate, lines, answers, refusals, faults) for crate in crates if not only or crate in only]
    parts = [it for it in sections if it] or ["No public call of these can refuse.\n"]
    return "\n".join(parts + ([] if only else [counts(lines)])), faults
