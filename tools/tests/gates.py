"""The gate .ci/run and the installer dev/setup, in a folder of their own, with substitutes for rt, for apt-get and for the checks."""

import os
import re
import shutil
import subprocess
import tempfile
from contextlib import contextmanager

from editlens.program import TOP

NEEDS_PROGRAM = False
SHELL = ("bash", "cat", "cut", "dirname", "grep", "id", "ln", "mkdir", "mktemp", "rm", "sed", "sleep", "tail", "timeout")
RT = "echo rt \"$*\"; echo '7 passed, 0 failed'; exit {status}"
# It does what the files beside it say: a word of `silent` gets no answer, and what it installs is on the path then.
APT = """case $* in *--print-uris*) word=resolve ;; *--download-only*) word=download ;; *update*) word=update ;; *) word=install ;; esac
echo "$word" >>{folder}/calls
grep -q "$word" {folder}/silent && exit 100
[ "$word" = install ] && for each in {commands}; do printf '#!/bin/sh\\n' >{folder}/bin/"$each"; chmod +x {folder}/bin/"$each"; done
exit 0
"""


def write(path, text):
    """Writes a script, with the folders above it."""
    os.makedirs(os.path.dirname(path), exist_ok=True)
    with open(path, "w", encoding="utf-8") as file:
        file.write(f"#!/bin/bash\n{text}\n")
    os.chmod(path, 0o755)


@contextmanager
def folder_with(*paths):
    """A folder with these files of the repository, and a folder bin/ with the commands of a shell and no others."""
    with tempfile.TemporaryDirectory() as folder:
        for path in paths:
            os.makedirs(os.path.join(folder, os.path.dirname(path)), exist_ok=True)
            shutil.copy(os.path.join(TOP, path), os.path.join(folder, path))
        os.mkdir(os.path.join(folder, "bin"))
        for name in SHELL:
            os.symlink(shutil.which(name), os.path.join(folder, "bin", name))
        yield folder


def run(folder, *words, **more):
    """Runs a script of a folder. Returns its status, and the lines of its two streams."""
    surroundings = {"PATH": os.path.join(folder, "bin"), "EDITLENS_PAUSE": "0", **more}
    ran = subprocess.run(words, cwd=folder, env=surroundings, capture_output=True, text=True, check=False)
    return ran.returncode, ran.stdout.splitlines(), ran.stderr.splitlines()


def gate(setup=(0, ""), rt=0, checks=None, **more):
    """What the gate does: with a status and output of dev/setup, a status of rt, and a status and output of each check."""
    with folder_with(".ci/run") as folder:
        write(os.path.join(folder, "bin", "rt"), RT.format(status=rt))
        write(os.path.join(folder, "dev/setup"), f"echo \"{setup[1]}\"; exit {setup[0]}")
        write(os.path.join(folder, "bindings/behind_gate"), 'mkdir "$1"/lib')
        for name in ("docs/check", "tools/check", "bindings/check", "service/check"):
            status, said = (checks or {}).get(name, (0, "all is well"))
            write(os.path.join(folder, name), f"echo \"{said}\"; [ -z \"$1\" ] || echo >\"$1\"/{name.replace('/', '-')}; exit {status}")
        return run(folder, "bash", ".ci/run", **more)


def test_a_gate_that_passes_ends_with_the_line_of_rt():
    for more in ({}, {"CI": "true"}):
        status, out, err = gate(**more)
        assert (status, out) == (0, ["rt ci", "7 passed, 0 failed"]) and len(err) == 1 and err[0].startswith("the checks took "), (out, err)


def test_a_machine_without_python_gets_it_before_rt_runs():
    """rt is written in Python. Where there is one, the packages are installed while rt proves."""
    with folder_with(".ci/run") as folder:
        write(os.path.join(folder, "bin", "rt"), "command -v python3 >/dev/null || exit 9; echo '7 passed, 0 failed'")
        write(os.path.join(folder, "dev/setup"), f"sleep 0.2; ln -s /bin/true {folder}/bin/python3; echo 'missing: strace, calls'; exit 3")
        write(os.path.join(folder, "bindings/behind_gate"), "exit 0")
        for name in ("docs/check", "tools/check"):
            write(os.path.join(folder, name), "echo all is well")
        status, out, err = run(folder, "bash", ".ci/run", CI="true")
        assert (status, out) == (0, ["7 passed, 0 failed"]) and err[0] == "missing: strace, calls", (status, out, err)


def test_a_gate_fails_with_rt_and_with_each_check():
    status, out, err = gate(rt=3)
    assert (status, out, err) == (3, ["rt ci", "7 passed, 0 failed"], []), (status, err)
    for name in ("docs/check", "tools/check", "bindings/check", "service/check"):
        status, out, err = gate(checks={name: (1, "this is wrong\n3 passed, 1 failed")})
        said = name if name.split("/")[0] in ("docs", "tools") else "check_library"
        assert status == 1 and err[0] == f"{said} failed:" and "this is wrong" in err and not re.search(r"\d passed, \d", "\n".join(err)), (name, err)


def test_what_passes_at_the_second_try_is_said():
    said = "passed at the second try: a.test_b: first failure why\n  more"
    status, _, err = gate(checks={"tools/check": (0, said)})
    assert status == 0 and err[0] == "tools/check, passed at the second try: a.test_b: first failure why" and len(err) == 2, err


def test_what_is_skipped_is_counted_and_named():
    """Without CI=true that is all; with it the gate fails."""
    checks = {"tools/check": (0, "skipped: a.test_b, strace is not installed\nskipped: a.test_c, why"), "bindings/check": (0, "skipped: the crate, no")}
    lines = ["tools/check: a.test_b, strace is not installed", "tools/check: a.test_c, why", "check_library: the crate, no"]
    status, _, err = gate(checks=checks, setup=(1, "missing: strace, calls"))
    assert status == 0 and err[:4] == ["skipped: 3", *(f"skipped: {it}" for it in lines)] and err[4].startswith("dev/setup"), err
    status, _, err = gate(checks=checks, CI="true")
    assert status == 1 and err[:4] == ["failed, since it was skipped: 3", *(f"failed, since it was skipped: {it}" for it in lines)], err


def test_a_registry_that_does_not_answer_excuses_what_wants_its_packages():
    checks = {"tools/check": (0, "skipped: a.test_b, strace is not installed")}
    status, _, err = gate(checks=checks, setup=(3, "missing: strace, calls"), CI="true")
    assert status == 0 and err[:2] == ["missing: strace, calls", "skipped, since the registry of packages did not answer: 1"], err
    checks["docs/check"] = (0, "skipped: docs/A.md:3, there is no program edithub")
    status, _, err = gate(checks=checks, setup=(3, "missing: strace, calls"), CI="true")
    assert status == 1 and "failed, since it was skipped: docs/check: docs/A.md:3, there is no program edithub" in err, err
    status, _, err = gate(setup=(1, "missing: strace, calls"), CI="true")
    assert status == 1, "a package that could not be installed"
    status, _, err = gate(checks=checks, setup=(3, "missing: redis-server, a queue"), CI="true")
    assert status == 1 and "failed, since it was skipped: 2" in err, err


def listed(folder):
    """The packages of dev/setup, each with how it is looked for, and for what."""
    with open(os.path.join(folder, "dev/setup"), encoding="utf-8") as file:
        text = file.read()
    return [line.split(maxsplit=3) for line in text.split("<<'END'\n")[1].split("\nEND")[0].splitlines()]


@contextmanager
def machine(silent="", user=0):
    """A folder for dev/setup, on a machine without one of its commands. No call of a word of `silent` is answered."""
    with folder_with("dev/setup") as folder:
        commands = " ".join(what for _, kind, what, _ in listed(folder) if kind == "command")
        write(os.path.join(folder, "bin/apt-get"), APT.format(folder=folder, commands=commands))
        os.remove(os.path.join(folder, "bin/id"))
        write(os.path.join(folder, "bin/id"), f"echo {user}")
        with open(os.path.join(folder, "silent"), "w", encoding="utf-8") as file:
            file.write(silent)
        yield folder


def calls(folder):
    """The calls of apt-get, as words."""
    path = os.path.join(folder, "calls")
    if not os.path.exists(path):
        return []
    with open(path, encoding="utf-8") as file:
        return file.read().split()


def named(lines):
    """The packages that lines say are missing."""
    return [re.fullmatch(r"missing: (\S+), .+", line)[1] for line in lines if line.startswith("missing: ")]


def test_what_is_missing_is_named_and_installed():
    with machine() as folder:
        wanted = [package for package, kind, _, _ in listed(folder) if kind == "command"]
        status, out, _ = run(folder, "dev/setup", "--check")
        assert status == 1 and set(wanted) <= set(named(out)) and calls(folder) == [], out
        others = set(named(out)) - set(wanted)
        status, out, _ = run(folder, "dev/setup")
        assert calls(folder) == ["update", "resolve", "download", "install"] and set(named(out)) == others and status == bool(others), out
        status, out, _ = run(folder, "dev/setup", "--check")
        assert status == bool(others) and set(named(out)) == others
        assert run(folder, "dev/setup", "--other")[0] == 2


def test_a_registry_is_asked_three_times():
    for silent in ("update", "download"):
        with machine(silent) as folder:
            status, out, err = run(folder, "dev/setup")
            assert status == 3 and calls(folder).count(silent) == 3 and "install" not in calls(folder) and named(out), (out, err)
            assert any("did not answer, three times" in line for line in err), err
    for silent in ("resolve", "install"):
        with machine(silent) as folder:
            status, out, err = run(folder, "dev/setup")
            assert status == 1 and calls(folder).count(silent) == 1 and named(out), (out, err)


def test_another_user_than_root_is_told_what_to_type():
    with machine(user=1000) as folder:
        status, out, err = run(folder, "dev/setup")
        assert status == 1 and calls(folder) == [] and "sudo apt-get install" in err[0] and "strace" in err[0] and named(out), err


def test_each_reason_to_skip_names_a_package_of_the_list():
    """So that what is skipped for want of a package is told from all else."""
    packages = {it[0] for it in listed(TOP)}
    found = set()
    for folder in ("tools/tests", "tools/editlens", "examples/queue", "bindings", "dev/repository"):
        for name in os.listdir(os.path.join(TOP, folder)):
            path = os.path.join(TOP, folder, name)
            if os.path.isfile(path) and name != "gates.py":
                with open(path, encoding="utf-8", errors="replace") as file:
                    found |= set(re.findall(r"((?:[\w-]+ (?:and|or) )*[\w-]+) (?:is|are) not installed", file.read()))
    assert len(found) >= 8, found
    for words in found:
        assert set(re.split(" (?:and|or) ", words)) <= packages, words
