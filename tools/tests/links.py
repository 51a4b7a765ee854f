"""What docs/check looks at: links to pages and their headings and to lines of sources, and examples that want another program."""

import os
import sys
import tempfile
from importlib.machinery import SourceFileLoader
from importlib.util import module_from_spec, spec_from_loader

from editlens.program import TOP

NEEDS_PROGRAM = False
SPEC = """-- A word.
use Other.{thing}

-- a record
pub record Taken (bytes : List ℕ) : Type 0 where
  pub front : List ℕ
abbrev pub IsFew : ℕ → Type 0
IsFew n = n ≤ 3
"""
CODE = """//! Code.
use other::thing;

/// Takes.
pub fn take(n: u64) -> u64
    ensures few { IsFew result }
        → Taken n
{
    n
}
"""
PAGE = """# A page

## What it says, in `code`

<a id="marked"></a> A place.

```
[no link](nowhere.md)
```

[one](a.antt#L5) [two](a.rt#L7) [three](missing.md) [four](https://example.org/x) [five](#what-it-says-in-code) [six](#nothing)
"""


def checker():
    """The script docs/check as a module."""
    loader = SourceFileLoader("docs_check", os.path.join(TOP, "docs", "check"))
    module = module_from_spec(spec_from_loader(loader.name, loader))
    sys.dont_write_bytecode = True
    loader.exec_module(module)
    return module


def test_links_lead_to_headings_and_to_lines_that_begin_something():
    docs = checker()
    with tempfile.TemporaryDirectory() as folder:
        for name, text in {"a.antt": SPEC, "a.rt": CODE, "page.md": PAGE}.items():
            with open(os.path.join(folder, name), "w", encoding="utf-8") as file:
                file.write(text)
        page = os.path.join(folder, "page.md")
        good = ("a.antt", "a.antt#L5", "a.antt#L6", "a.antt#L7", "a.rt#L5", "a.rt#L6", "#marked", "page.md#a-page")
        bad = ("b.antt", "a.antt#L1", "a.antt#L2", "a.antt#L8", "a.antt#L99", "a.rt#L2", "a.rt#L7", "a.rt#L9", "a.rt#few", "page.md#L1")
        assert not [it for it in good if docs.wrong(page, it)], [it for it in good if docs.wrong(page, it)]
        assert not [it for it in bad if not docs.wrong(page, it)], [it for it in bad if not docs.wrong(page, it)]
        assert [link for link, _ in docs.bad_links(page)] == ["a.rt#L7", "missing.md", "#nothing"], list(docs.bad_links(page))


def test_links_to_lines_are_renumbered():
    docs = checker()
    from repository.links import renumbered

    with tempfile.TemporaryDirectory() as folder:
        for name, text in {"a.antt": SPEC, "a.rt": CODE}.items():
            with open(os.path.join(folder, name), "w", encoding="utf-8") as file:
                file.write(text)
        page = os.path.join(folder, "page.md")
        moved = "[`Taken`](a.antt#L1), [`few`](a.rt#L1), [`x::take`](a.rt#L?), [`IsFew`](a.antt#L7), [words](a.rt#L5) [`lost`](a.rt#L5)"
        now, lost = renumbered(page, moved)
        assert now == moved.replace("a.antt#L1", "a.antt#L5").replace("a.rt#L1", "a.rt#L6").replace("a.rt#L?", "a.rt#L5"), now
        assert lost == ["[`lost`](a.rt#L5)"], lost
        assert docs.wrong(page, "a.rt#L5", "`few`") and not docs.wrong(page, "a.rt#L5", "`take`") and not docs.wrong(page, "a.rt#L5", "this")


def test_every_clause_of_the_top_call_may_be_linked():
    docs = checker()
    with open(os.path.join(TOP, "crates/editlens_main/src/top.rt"), encoding="utf-8") as file:
        lines = file.read().splitlines()
    clauses = [it for it in lines if it.startswith("    ensures ")]
    assert clauses and all(docs.BEGINS[".rt"].match(it) for it in clauses)


def test_an_example_that_wants_another_program_is_skipped_without_it():
    docs = checker()
    with open(os.path.join(TOP, "dev/setup"), encoding="utf-8") as file:
        listed = {line.split()[0] for line in file.read().split("<<'END'\n")[1].split("\nEND")[0].splitlines()}
    assert {package for _, package, _ in docs.OTHERS} <= listed, docs.OTHERS
    docs.OTHERS = [("augtool ", "augeas-tools", "/nowhere/augtool"), ("jq ", "jq", os.devnull)]
    with tempfile.TemporaryDirectory() as folder:
        page = os.path.join(folder, "page.md")
        with open(page, "w", encoding="utf-8") as file:
            file.write("```\n$ augtool ls /\n$ edithub show\n$ echo jq here\njq here\n$ echo other\nthis\n```\n")
        count, differ, said = docs.check(page, sys.executable, None)
    assert (count, differ, len(said)) == (2, 1, 3), said
    assert said[0].endswith("page.md:2, augeas-tools is not installed") and said[1].endswith("page.md:3, there is no program edithub"), said
    assert "wanted:\nthis\ncame:\nother\n" in said[2], said
