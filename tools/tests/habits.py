"""The files around the program that say again what the pages say: the manual page, completion, highlighters and the changelog."""

import json
import os
import re
import shutil
import subprocess
import sys
from importlib.util import find_spec

from editlens.program import TOP
from editlens.types import KEYWORDS

from . import Skipped

sys.path.insert(0, os.path.join(TOP, "dev"))

from repository.hints import lacking, untyped  # noqa: E402
from repository.manual import HUBS, PAGE, manual, version  # noqa: E402
from repository.pages import read_page, roff, section, table_with  # noqa: E402
from repository.tools import named, tools, verbs  # noqa: E402

NEEDS_PROGRAM = False


def commands(heading="Commands"):
    """The words that name a command, by a section of docs/FORMATS.md."""
    table = table_with(section(read_page("docs/FORMATS.md"), heading), "Words")
    return {row[0].strip("`").split()[0] for row in table.rows if row[0].startswith("`")}


def test_the_manual_page_is_up_to_date():
    assert read_page(PAGE) == manual(), "docs/editlens.1 is out of date: run dev/manual --write"


def test_markdown_for_a_manual_page():
    assert roff("a `b-c` of [the log](#log), **not** x\\y") == "a \\fBb\\-c\\fR of the log, \\fBnot\\fR x\\ey"
    assert roff("'quoted'\n.dot") == "\\&'quoted'\n\\&.dot"
    page = "# P\n\n## One\n\n| A | B |\n|---|---|\n| `x\\|y` | z |\n\n## Two\n\n| A | B |\n|---|---|\n| 1 | 2 |\n"
    assert table_with(section(page, "One"), "A").rows == (("`x|y`", "z"),)
    assert table_with(section(page, "Two"), "A").rows == (("1", "2"),)


def completed(*words):
    """What completion for bash offers for the last of these words."""
    script = f"source completions/editlens.bash; COMP_WORDS=({' '.join(words)}); COMP_CWORD={len(words) - 1}; _editlens; echo ${{COMPREPLY[*]}}"
    words = ["bash", "-c", script.replace("''", '""')]
    return set(subprocess.run(words, cwd=TOP, stdout=subprocess.PIPE, text=True, check=True).stdout.split())


def test_completion_knows_every_command_and_every_tool():
    of_store, own = set(verbs()), set(verbs()) - {"check", "import"}
    assert completed("./editlens", "''") == commands() | set(named()) | own | {"hub-store", "--help", "--version"}
    assert completed("./edithub", "''") == commands(HUBS) | {"--help", "--version"}
    assert completed("./editlens", "hub-store", "''") == commands(HUBS)
    assert completed("./editlens", "store", "''") == of_store
    assert completed("./editlens", "un") == {"undo"}
    assert completed("./editlens", "patch", "--left") == {"--left-file", "--left-form"}
    assert completed("./editlens", "store", "change-lens", "--re") == {"--rename"}
    page = read_page("completions/_editlens")
    lists = {name: set(re.findall(r"'([\w-]+):", body)) for name, body in re.findall(r"(?s)(\w+)=\(\n(.*?)\n\)", page)}
    assert lists == {"commands": commands(), "hub_commands": commands(HUBS), "verbs": own}, lists


def test_the_manual_page_has_no_fault_of_form():
    if not shutil.which("mandoc"):
        raise Skipped("mandoc is not installed")
    ran = subprocess.run(["mandoc", "-T", "lint", "-W", "error", PAGE], cwd=TOP, stdout=subprocess.PIPE, stderr=subprocess.STDOUT, text=True, check=False)
    assert (ran.returncode, ran.stdout) == (0, ""), ran.stdout
    page = read_page(PAGE)
    assert all(f"\\fB{it}".replace("-", "\\-") in page for it in (*named(), *commands(HUBS))), "a tool or a command is missing"


def test_highlighters_know_every_keyword():
    grammar = json.loads(read_page("editors/editlens.tmLanguage.json"))
    groups = [rule["match"] for rule in grammar["repository"].values() if rule["match"].startswith("\\b(")]
    assert {word for group in groups for word in group[3:-3].split("|")} == KEYWORDS, groups
    assert {f"#{name}" for name in grammar["repository"]} == {it["include"] for it in grammar["patterns"]}


def test_the_lexer_knows_every_token():
    try:
        from pygments.token import Error, Keyword
    except ImportError:
        raise Skipped("python3-pygments is not installed") from None
    sys.path.insert(0, os.path.join(TOP, "editors"))
    from pygments_editlens import EditlensLexer

    text = 'type t = enum["a b", "c"] = "c"; # a comment\nmain {x ~ y: id t, left z: int = -5, right w: keyed list text}\n'
    found = list(EditlensLexer().get_tokens(text))
    assert "".join(piece for _, piece in found) == text
    assert not [piece for kind, piece in found if kind in Error]
    every = EditlensLexer().get_tokens(" ".join(sorted(KEYWORDS)))
    assert {piece for kind, piece in every if kind in Keyword} == KEYWORDS


def test_the_picture_of_the_program_is_drawn_anew():
    if find_spec("pygments") is None:
        raise Skipped("python3-pygments is not installed")
    drawn = subprocess.run([os.path.join(TOP, "dev", "highlight"), "--print"], stdout=subprocess.PIPE, text=True, check=True)
    assert read_page("docs/program.svg") == drawn.stdout, "run dev/highlight"


def test_sentences_are_short():
    ran = subprocess.run([sys.executable, os.path.join(TOP, "dev", "long_sentences")], stdout=subprocess.PIPE, text=True)
    assert ran.returncode == 0, ran.stdout


def test_the_tools_print_the_version_and_what_they_do():
    for name in tools():
        for word, wanted in (("--version", f"editlens {version()}\n"), ("--help", f"usage: {name} ")):
            ran = subprocess.run([sys.executable, os.path.join(TOP, "tools", name), word], stdout=subprocess.PIPE, text=True)
            assert ran.returncode == 0 and ran.stdout.startswith(wanted), ran


def test_the_changelog_has_the_version():
    assert re.fullmatch(r"\d+\.\d+\.\d+", version()), version()
    assert re.search(rf"(?m)^## {re.escape(version())} - \d{{4}}-\d\d-\d\d$", read_page("CHANGELOG.md")), version()


def test_public_functions_have_hints_of_types():
    """docs/check asks mypy whether they are right."""
    assert lacking() == []
    text = "def a(b: int, *c) -> int: ...\nasync def d(): ...\ndef _e(f): ...\ndef g(h: int) -> int:\n    def i(j): ...\n"
    text += "class K:\n    def l(self, m): ...\n    def _n(self, o): ...\n    def __p__(self) -> None: ...\n"
    text += "    @classmethod\n    def q(cls) -> int: ...\nclass _R:\n    def s(self, t): ...\n"
    text += "class U:\n    class V:\n        def w(self, self_too) -> int: ...\ndef x(self) -> int: ...\n"
    assert untyped(text) == ["a", "d", "K.l", "U.V.w", "x"]
