"""bindings/header over a copy of the sources that it reads, as they are and with one wrong number or name in each binding."""

import os
import shutil
import subprocess
import sys
import tempfile
from contextlib import contextmanager

from editlens.program import TOP

NEEDS_PROGRAM = False
# A file of bindings/ or of the crate, a text that is in it once, and what is wrong there. The line behind it has to be said.
WRONG = [
    ("bindings/c/editlens.h", "EDITLENS_FULL 10 ", "EDITLENS_FULL 20 ", "the constant FULL: 10 in the sources, 20 in editlens.h"),
    ("bindings/c/editlens.h", "#define EDITLENS_NOT_VIEW 66\n", "", "the constant NOT_VIEW: 66 in the sources, None in editlens.h"),
    ("bindings/rust/src/raw.rs", "LINE_FEED: u32 = 8;", "LINE_FEED: u32 = 7;", "the constant LINE_FEED: 8 in the sources, 7 in raw.rs"),
    ("bindings/python/editlens_library.py", "VERSION = 2\n", "VERSION = 3\n", "the constant VERSION: 2 in the sources, 3 in editlens_library.py"),
    ("bindings/python/editlens_library.py", "FULL, RECORDS_REFUSED,", "RECORDS_REFUSED, FULL,", "the constant FULL: 10 in the sources, 11 in editlens_library.py"),
    ("bindings/python/editlens_hub.py", "range(61, 67)", "range(60, 66)", "the constant NO_VIEW: 61 in the sources, 60 in editlens_hub.py"),
    ("bindings/node/index.js", "leftType: 4", "leftType: 5", "the constant LEFT_TYPE: 4 in the sources, 5 in index.js"),
    ("bindings/node/index.js", "'blank', 'refused', 'program", "'refused', 'blank', 'program", "the constant BLANK: 1 in the sources, 2 in index.js"),
    ("bindings/node/index.js", "'import-left', 'import-right', 'reopen'", "'import-right', 'import-left', 'reopen'", "index.js opens by open, resume, import-right"),
    ("bindings/node/index.d.ts", " | 'undoRight'", "", "index.js has the parts state, left,"),
    ("bindings/node/hub.js", "view: 2", "view: 3", "the constant VIEW_DOCUMENT: 2 in the sources, 3 in hub.js"),
    ("bindings/node/hub.js", ", 'not-open'", "", "the constant NOT_OPEN: 13 in the sources, None in hub.js"),
    ("bindings/python/editlens_hub.py", "up to 64 views", "up to 32 views", "editlens_hub.py says 32 views, and the sources say 64"),
    ("bindings/c/editlens.h", "there are more than 64;", "there are more than 63;", "editlens.h says 63 views, and the sources say 64"),
    ("bindings/rust/src/hub.rs", "up to 64 views", "up to 65 views", "hub.rs says 65 views, and the sources say 64"),
    ("crates/hub_run/src/pieces.rt", "MOST_VIEWS: usize = 64;", "MOST_VIEWS: usize = 65;", "editlens.h says 64 views, and the sources say 65"),
    ("crates/editlens_c/src/codes.rt", "NO_CHANGE: u32 = 12;", "NO_CHANGE: u32 = 14;", "the constant NO_CHANGE: 14 in the sources, 12 in editlens.h"),
]


@contextmanager
def copied():
    """A copy of the sources that bindings/header reads. Yields the folder, and a call that runs the script there: its status and its lines."""
    with tempfile.TemporaryDirectory() as top:
        for folder in ("bindings", "crates/editlens_c/src", "crates/hub_run/src", "dev/repository"):
            shutil.copytree(os.path.join(TOP, folder), os.path.join(top, folder), ignore=shutil.ignore_patterns("__pycache__", "target", "out"))

        def compare():
            ran = subprocess.run([sys.executable, os.path.join(top, "bindings", "header")], stdout=subprocess.PIPE, text=True, check=False)
            return ran.returncode, ran.stdout.splitlines()

        yield top, compare


def test_the_bindings_have_the_numbers_of_the_sources():
    with copied() as (_, compare):
        assert compare() == (0, []), compare()


def test_a_wrong_number_is_said_of_each_binding():
    with copied() as (top, compare):
        for name, right, wrong, said in WRONG:
            path = os.path.join(top, name)
            with open(path, encoding="utf-8") as file:
                text = file.read()
            assert text.count(right) == 1, (name, right)
            with open(path, "w", encoding="utf-8") as file:
                file.write(text.replace(right, wrong))
            status, lines = compare()
            assert status == 1 and any(it.startswith(said) for it in lines), (name, wrong, status, lines)
            with open(path, "w", encoding="utf-8") as file:
                file.write(text)
