"""The public calls of the crates, read from their sources: each with its result, its docstring and the clauses of its contract."""

import glob
import os
import re
from dataclasses import dataclass, field

from . import TOP, read_lines

HEAD = re.compile(r"^(?P<indent> *)(?P<pub>pub )?(?:const )?fn (?P<name>\w+)")
CLAUSE = re.compile(r"^\s*(requires|ensures)\b *(\w*) *(\{.*)$")
# The groups of crates.txt whose crates are no libraries, and the crate of the program's group that has no call.
OTHER_GROUPS = ("Tests.", "Measurements.")
PROGRAMS = ("editlens", "edithub", "editstore")


@dataclass
class Call:
    """A public call: where it is, what it returns, and what is said of it."""

    crate: str
    file: str
    line: int
    owner: str
    name: str
    result: str
    doc: list
    clauses: dict = field(default_factory=dict)

    @property
    def path(self):
        """The call as a caller writes it behind the name of its crate."""
        return f"{self.owner}::{self.name}" if self.owner else self.name


def libraries(top=TOP):
    """The library crates, in the order of crates.txt."""
    group, found = "", []
    with open(os.path.join(top, "crates.txt"), encoding="utf-8") as lines:
        for line in lines:
            if line.startswith("# "):
                group = line[2:].strip()
            elif ":" in line and group not in OTHER_GROUPS and line.split()[0].rstrip(":") not in PROGRAMS:
                # (the name of a static library stands before the word staticlib)
                found.append(line.split()[0].rstrip(":"))
    return found


def sources(crate, top=TOP):
    """The source files of a crate, without its tests."""
    paths = glob.glob(os.path.join(top, "crates", crate, "src", "**", "*.rt"), recursive=True)
    return sorted(path for path in paths if os.path.basename(path) != "tests.rt")


def exports(crate, top=TOP):
    """The modules of a crate that are public, and the names that it exports of others."""
    text = "\n".join(read_lines(os.path.join(top, "crates", crate, "src", "lib.rt")))
    modules = set(re.findall(r"(?m)^pub mod (\w+);", text))
    names = set()
    for path, several in re.findall(r"(?ms)^pub use ([\w:]+?)(?:::\{([^}]*)\})?;", text):
        if several:
            module, given = path, several.split(",")
        else:
            module, _, one = path.rpartition("::")
            given = [one]
        module = module.removeprefix("crate::").split("::")[-1]
        names.update((module, it.split(" as ")[0].strip()) for it in given if it.strip())
    return modules, names


def enums(crate, top=TOP):
    """The enums of a crate, each with its variants in order."""
    found = {}
    for path in sources(crate, top):
        text = "\n".join(re.sub(r"//.*|#\[.*\]", "", line) for line in read_lines(path))
        for name, body in re.findall(r"(?ms)^pub(?:\([a-z]+\))? enum (\w+)[^{]*\{(.*?)^\}", text):
            body = re.sub(r"\([^)]*\)|\{[^}]*\}| = \d+", "", body)
            found[name] = [it.strip() for it in body.split(",") if it.strip()]
    return found


def owner_of(line):
    """The type of the `impl` or the trait that a line begins, whether that is a trait's `impl`, and whether it is a trait. Or None."""
    if line.startswith("pub trait "):
        return re.match(r"pub trait (\w+)", line)[1], False, True
    if line.startswith("impl"):
        head = re.sub(r"<[^<>]*(<[^<>]*>[^<>]*)*>", "", line[4:]).split("{")[0].split(" where ")[0].strip()
        return head.split(" for ")[-1].split(" ")[0], " for " in head, False
    return None


def clauses_of(lines):
    """The clauses of a contract, by their names, each with its text. What has no name is `ensures` or `requires`."""
    found, name = {}, None
    for line in lines:
        begun = CLAUSE.match(line)
        if begun:
            name = begun[2] or begun[1]
            kind = begun[1]
            found[name] = (kind, begun[3])
        elif name and not line.strip().startswith("//"):
            found[name] = (found[name][0], found[name][1] + " " + line.strip())
    return found


def contract_end(lines, at, indent):
    """The line behind the contract of a function whose head begins at a line: its body begins there, or the next item."""
    while at < len(lines):
        line = lines[at]
        bare = line.split("//")[0].rstrip()
        if line == indent + "{" or bare.endswith(";") or (bare.endswith(" {") and not CLAUSE.match(line)):
            return at + 1
        at += 1
    return at


def calls_of(path, crate, top=TOP):
    """The public functions of a file, those of its private types among them."""
    lines, owner, doc, found = read_lines(path), None, [], []
    at = 0
    while at < len(lines):
        line = lines[at]
        if line.strip().startswith("///"):
            doc.append(line.strip()[3:].strip())
        elif line == "}":
            owner = None
        elif owner_of(line):
            owner, doc = owner_of(line), []
        elif HEAD.match(line) and (HEAD.match(line)["pub"] or owner and owner[2]) and not (owner and owner[1]):
            head = HEAD.match(line)
            end = contract_end(lines, at, head["indent"])
            block = lines[at:end]
            first = next((n for n, it in enumerate(block) if CLAUSE.match(it)), len(block))
            signature = " ".join(it.split("//")[0].strip() for it in block[:first])
            result = signature.partition(" -> ")[2].split(" where")[0].rstrip(" {;")
            place = os.path.relpath(path, top), at + 1
            found.append(Call(crate, *place, owner[0] if owner else "", head["name"], result, doc, clauses_of(block[first:])))
            doc, at = [], end - 1
        elif line.strip() and not line.strip().startswith("#["):
            doc = []
        at += 1
    return found


def public_calls(crate, top=TOP):
    """The calls of a crate that its users can make, in the order of its files."""
    modules, names = exports(crate, top)
    types = {name for _, name in names}
    for path in sources(crate, top):
        inside = os.path.relpath(path, os.path.join(top, "crates", crate, "src"))
        parts = inside.removesuffix(".rt").split(os.sep)
        for call in calls_of(path, crate, top):
            is_open = parts == ["lib"] or len(parts) == 1 and parts[0] in modules
            if is_open or (parts[-1], call.name) in names and not call.owner or call.owner in types:
                yield call
