"""What must agree with the sources: the table of refusals, the number of edits, the map of crates. And how calls are found."""

import os
import re
import subprocess
import sys
import tempfile

from editlens.program import TOP

sys.path.insert(0, os.path.join(TOP, "dev"))

from repository import promises  # noqa: E402
from repository.contracts import enums, libraries, public_calls  # noqa: E402
from repository.crates import direct, head_of, levels, read_crates  # noqa: E402
from repository.edits import by_crate, page_with_table, table_of  # noqa: E402
from repository.lemmas import renamed  # noqa: E402
from repository.map import ELSEWHERE, above_its_group, lists, page_with_map, picture  # noqa: E402
from repository.map import faults_of as faults_of_map  # noqa: E402
from repository.refusals import Line, Refusals, faults_of, lacking, read_table, report, rows_of, said, unshown  # noqa: E402

NEEDS_PROGRAM = False
CRATES = """# Base: one crate.
low:

# Tests.
low_tests: low
"""
LIBRARY = """mod inner;
pub mod open;

pub use crate::inner::{Fault, Kept};
"""
INNER = '''/// Why not.
pub enum Fault {
    /// Too small.
    #[error("small")]
    Small { by: u64 },
    /// Memory ran out.
    NoMemory,
}

pub struct Kept;

impl Kept {
    /// Takes a number.
    ///
    /// - `Small`: if and only if it is
    ///   below 3.
    /// - `NoMemory`: only if memory ran out.
    pub fn take(
        &mut self,
        number: u64,
    ) -> Result<Vec<u8>, Fault>
    where
        u64: Copy,
        requires { number < 9 }
        // It is exact.
        ensures small { IsErrOf result Fault.Small
            ↔ (number < 3) }
    {
        inner(number)
    }
}

pub struct Hidden;

impl Hidden {
    pub fn take(&self) -> Option<u64> {
        None
    }
}
'''
OPEN = """/// A number, or None if and only if there is none.
pub fn number() -> Option<u64>
    ensures { result ≡ None }
{
    None
}

fn private() -> Option<u64> {
    None
}
"""


def small_crate(folder):
    """Writes a repository with one library of two modules, one of them public."""
    for path, text in {"crates.txt": CRATES, "lib.rt": LIBRARY, "inner.rt": INNER, "open.rt": OPEN}.items():
        place = os.path.join(folder, path if path == "crates.txt" else os.path.join("crates/low/src", path))
        os.makedirs(os.path.dirname(place), exist_ok=True)
        with open(place, "w", encoding="utf-8") as file:
            file.write(text)


def read(path):
    """The text of a file of the repository."""
    with open(os.path.join(TOP, path), encoding="utf-8") as file:
        return file.read()


def test_every_refusal_is_in_the_table():
    text, faults = report()
    assert not faults, faults
    part, faults = report(["gate_log"])
    assert not faults and part.startswith("== gate_log\ncreate_log  crates/gate_log/src/log.rt:") and part in text, part


def test_public_calls_are_found():
    with tempfile.TemporaryDirectory() as folder:
        small_crate(folder)
        assert libraries(folder) == ["low"]
        assert enums("low", folder) == {"Fault": ["Small", "NoMemory"]}
        take, number = public_calls("low", folder)
        assert (take.path, take.result) == ("Kept::take", "Result<Vec<u8>, Fault>"), take
        assert list(take.clauses) == ["requires", "small"] and "number < 3" in take.clauses["small"][1], take.clauses
        assert said(take.doc) == {"Small": "if and only if it is below 3.", "NoMemory": "only if memory ran out."}
        assert (number.path, number.result, list(number.clauses)) == ("number", "Option<u64>", ["ensures"]), number


def test_what_is_wrong_is_named():
    with tempfile.TemporaryDirectory() as folder:
        small_crate(folder)
        take = next(iter(public_calls("low", folder)))
        good = Line(["Small"], ["small"], [], "", False)
        assert not list(faults_of(take, ["Small"], [good]))
        assert "no line for Small" in "".join(faults_of(take, ["Small"], []))
        assert "no refusal Large" in "".join(faults_of(take, ["Small"], [good, Line(["Large"], [], [], "then", False)]))
        for clause in ("large", "requires"):
            assert f"no clause {clause}" in "".join(faults_of(take, ["Small"], [Line(["Small"], [clause], [], "", False)]))
    assert "no file" in lacking("low/src/missing.rt")
    assert "no line" in lacking("gate_log/src/log.rt:create_log & no such words")
    assert lacking("gate_log/src/log.rt:fn create_log") is None
    assert lacking("bindings/header:def differences") is None
    assert lacking("bindings/header:no such words") == "bindings/header has no line with no such words"


def test_a_call_that_opens_its_own_type_refuses_by_each_other_variant():
    refusals, calls = Refusals(), {it.path: it for crate in ("embed_hub", "texts") for it in public_calls(crate)}
    assert refusals.of(calls["EmbeddedHub::resume"]) == (["Refused", "StateRefused"], True)
    assert refusals.of(calls["Side::other"]) == ([], False)


def test_why_nothing_can_show_a_refusal():
    table = "low Kept::take\n  Small | small | - | if it is\n  Large | small | cannot: no number is | if it is\n"
    with tempfile.TemporaryDirectory() as folder:
        small_crate(folder)
        take = next(iter(public_calls("low", folder)))
        path = os.path.join(folder, "table")
        with open(path, "w", encoding="utf-8") as file:
            file.write(table)
        lines = read_table(path)[0]
        assert unshown(lines) == [("low Kept::take", "Small")], unshown(lines)
        head, small, none, large, why = rows_of(take, lines["low Kept::take"])
        assert (head, small, large) == ("Kept::take  crates/low/src/inner.rt:18", "    Small: if it is", "    Large: if it is"), (head, small, large)
        assert none.endswith("; shown by nothing") and why.endswith("clause small; cannot: no number is"), (none, why)


def test_the_edits_are_counted():
    page = read("docs/TRUST.md")
    assert table_of() in page and page == page_with_table(), "docs/TRUST.md counts other edits: run dev/edits --write"


def test_the_promises_are_those_of_the_records():
    page = read(promises.PAGE)
    assert promises.table_of() in page and page == promises.page_with_table(), "docs/TRUST.md has other promises: run dev/promises --write"


def test_edits_are_counted_in_both_folders():
    with tempfile.TemporaryDirectory() as folder:
        with open(os.path.join(folder, "crates.txt"), "w", encoding="utf-8") as file:
            file.write("# Base: some.\nlow:\nmiddle: low\n\n# Top.\nhigh: low\n\n# Tests.\ntests: high\n")
        for path in ("crates/low/must-fail/a", "crates/low/must-fail/b", "crates/high/must-fail/c", "mutants/middle/d", "mutants/low/e"):
            os.makedirs(os.path.dirname(os.path.join(folder, path)), exist_ok=True)
            open(os.path.join(folder, path + ".edit"), "w", encoding="utf-8").close()
        said_now = table_of(folder).splitlines()
        assert said_now[0] == "There are 3 that the gate tries, and 2 in `mutants/`:", said_now
        assert said_now[-2:] == ["| Base | 2 | 2 |", "| Top | 1 | 0 |"], said_now
        each = list(by_crate(folder))
        assert each[0] == "low: 2 in the gate, 1 in mutants/" and len(each) == 3, each


def test_levels_of_crates():
    with tempfile.TemporaryDirectory() as folder:
        with open(os.path.join(folder, "crates.txt"), "w", encoding="utf-8") as file:
            file.write("# Base.\nlow:\nmiddle: low kit_library\n\n# Top.\nhigh: middle low\n")
        crates = read_crates(folder)
        assert levels(crates) == {"low": 1, "middle": 2, "high": 3}
        assert crates["middle"].below == ("low",) and crates["high"].group == "Top."
        assert direct(crates, "high") == ["middle"]
        os.makedirs(os.path.join(folder, "crates/low/src"))
        with open(os.path.join(folder, "crates/low/src/lib.rt"), "w", encoding="utf-8") as file:
            file.write("//! Small values, of 3.5 kinds: the rest\n//! needs them. More.\n//!\n//! Other.\nmod a;\n")
        assert head_of("low", folder) == "Small values, of 3.5 kinds: the rest needs them"


def test_statements_are_compared_without_names_of_variables():
    assert renamed("(a b : Nat) → plus a b ≡ plus b a") == renamed("(n m : Nat) → plus n m ≡ plus m n")
    assert renamed("(a b : Nat) → plus a b ≡ plus b a") != renamed("(n m : Nat) → plus n m ≡ plus n m")


def test_the_map_of_a_small_repository():
    with tempfile.TemporaryDirectory() as folder:
        small_crate(folder)
        crates = read_crates(folder)
        assert picture(crates) == ["Tests", "   2  low_tests", "", "Base", "   1  low"], picture(crates)
        rows = list(lists(crates, folder))
        assert "One crate." in rows and rows[-1] == ELSEWHERE["Tests"], rows
        wrong = list(faults_of_map(crates, folder))
        assert wrong == ["crates/low_tests is not there", "the head of crates/low does not say what it is"], wrong
        with open(os.path.join(folder, "crates.txt"), "a", encoding="utf-8") as file:
            file.write("\n# Laws.\nlaws: low\n\n# Last.\nlast:\nfirst: laws\n")
        assert not list(above_its_group(read_crates(folder)))
        with open(os.path.join(folder, "crates.txt"), "a", encoding="utf-8") as file:
            file.write("\n# Base: one crate.\nhigh: last laws\n")
        assert list(above_its_group(read_crates(folder))) == [("high", "last")]


def test_the_map_is_up_to_date():
    page = read("docs/ARCHITECTURE.md")
    assert page == page_with_map() and not list(faults_of_map(read_crates())), "docs/ARCHITECTURE.md has another map: run dev/map --write"


def test_the_case_files_are_what_their_writers_make():
    ran = subprocess.run([sys.executable, os.path.join(TOP, "reference", "write_all"), "--check"], stdout=subprocess.PIPE, text=True)
    assert ran.returncode == 0 and ran.stdout.endswith(" 0 differ\n"), ran.stdout
    said = read("reference/CASES.md")
    names = re.findall(r"(?m)^(\w+)\.cases$", read("crates/case_commands/args"))
    assert names, "case_commands reads no file"
    assert not [it for it in names if f"`{it}`" not in said], "CASES.md does not say where each file of case_commands comes from"
