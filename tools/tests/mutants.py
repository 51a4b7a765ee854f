"""dev/mutant in a small repository, with a stand-in for rt that shows the edits that it is to try."""

import os
import shutil
import subprocess
import sys
import tempfile
from contextlib import contextmanager

from editlens.program import TOP

from . import Skipped

NEEDS_PROGRAM = False
# It prints the words, and the edits that the crate has where it runs. An edit with the text "passes" is not refused.
RT = """#!/bin/sh
echo "rt $*: $(ls crates/$2/must-fail | tr '\\n' ' ')$(ls -d mutants 2>/dev/null)"
! grep -q passes crates/$2/must-fail/*
"""
EDITS = {
    "crates/low/must-fail/gate.edit": "refused",
    "crates/high/src/lib.rt": "//! Code.",
    "mutants/low/one.edit": "refused",
    "mutants/low/two.edit": "refused",
    "mutants/high/three.edit": "refused",
}


def write(path, text):
    """Writes a file, with the folders above it."""
    os.makedirs(os.path.dirname(path), exist_ok=True)
    with open(path, "w", encoding="utf-8") as file:
        file.write(text)


@contextmanager
def repository(edits):
    """A repository with these files and a copy of dev/. Yields a call that runs dev/mutant there: its status and its lines."""
    if not shutil.which("git"):
        raise Skipped("git is not installed")
    with tempfile.TemporaryDirectory() as folder:
        top = os.path.join(folder, "top")
        shutil.copytree(os.path.join(TOP, "dev"), os.path.join(top, "dev"), ignore=shutil.ignore_patterns("__pycache__"))
        for path, text in edits.items():
            write(os.path.join(top, path), text)
        write(os.path.join(folder, "bin", "rt"), RT)
        os.chmod(os.path.join(folder, "bin", "rt"), 0o755)
        subprocess.run(["git", "init", "--quiet", top], check=True)
        subprocess.run(["git", "-C", top, "add", "."], check=True)
        env = {**os.environ, "PATH": os.path.join(folder, "bin") + os.pathsep + os.environ["PATH"]}

        def run(*crates):
            words = [sys.executable, os.path.join(top, "dev", "mutant"), *crates]
            ran = subprocess.run(words, stdout=subprocess.PIPE, text=True, env=env)
            return ran.returncode, ran.stdout.splitlines()

        yield run


def test_mutants_are_tried_on_a_copy():
    with repository(EDITS) as run:
        status, lines = run()
        assert status == 0 and lines[-1] == "mutants: 3 edits of 2 crates, all refused", lines
        assert "rt must-fail low: one.edit two.edit " in lines and "rt must-fail high: three.edit " in lines, lines
        assert run("high") == (0, ["high: 1 edits", "rt must-fail high: three.edit ", "mutants: 1 edits of 1 crates, all refused"])
        assert run("other") == (2, ["mutants/ has no edits of other; it has those of high, low"])


def test_an_edit_that_passes_fails():
    with repository({**EDITS, "mutants/low/two.edit": "passes"}) as run:
        status, lines = run()
        assert status == 1 and lines[-1] == "mutants: 3 edits of 2 crates, not all refused: low", lines
    with repository({"crates/low/src/lib.rt": "//! Code."}) as run:
        assert run() == (0, ["mutants/ has no edits"])
