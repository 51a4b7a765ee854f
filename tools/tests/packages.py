"""What `./build --install` and `./build --package` make: the files, and that they run without the repository and without Rattle."""

import os
import re
import shutil
import subprocess
import sys
import tarfile
import tempfile

from editlens.program import TOP, find_program

from . import Skipped

sys.path.insert(0, os.path.join(TOP, "dev"))

from repository.manual import EXAMPLE as MANUAL_EXAMPLE  # noqa: E402
from repository.package import Built, archive, install  # noqa: E402
from repository.tools import named, tools  # noqa: E402

EXAMPLE = os.path.join(TOP, "examples", "tasks")
PLAIN = {"PATH": "/usr/bin:/bin"}


def example(end):
    """The script of an example, or what it writes."""
    with open(f"{EXAMPLE}.{end}", "rb") as file:
        return file.read()


def libraries(program):
    """The files that the loader of the C library takes for a program: those of the C library, and the loader itself."""
    told = subprocess.run(["ldd", program], stdout=subprocess.PIPE, text=True, check=True).stdout.split()
    return [it for it in told if it.startswith("/")]


def test_an_installed_program_runs_with_the_c_library_alone():
    unshare, chroot = (shutil.which(it, path="/usr/sbin:/sbin:/usr/bin:/bin") for it in ("unshare", "chroot"))
    if not unshare or not chroot or not shutil.which("ldd"):
        raise Skipped("there is no unshare, chroot or ldd")
    with tempfile.TemporaryDirectory() as root:
        install({"editlens": find_program()}, os.path.join(root, "usr"))
        for path in libraries(find_program()):
            os.makedirs(os.path.dirname(root + path), exist_ok=True)
            shutil.copy(path, root + path)
        inside = [unshare, "--map-root-user", chroot, root]
        inside = [chroot, root] if os.geteuid() == 0 else inside
        if subprocess.run([*inside, "/usr/lib/editlens/editlens-program"], stdout=subprocess.PIPE, stderr=subprocess.PIPE).returncode != 2:
            raise Skipped("no process may have a root of its own here")
        words = [*inside, "/usr/lib/editlens/editlens-program", "run"]
        ran = subprocess.run(words, input=example("script"), stdout=subprocess.PIPE, stderr=subprocess.PIPE, env={})
        assert (ran.returncode, ran.stdout) == (1, example("out")), ran


def test_installed_tools_run_the_installed_program():
    with tempfile.TemporaryDirectory() as room:
        script = install({"editlens": find_program()}, os.path.join(room, "prefix"))
        assert script == os.path.join(room, "prefix", "bin", "editlens")
        explain = os.path.join(room, "prefix", "bin", "editlens-explain")
        ran = subprocess.run([sys.executable, "-B", explain, EXAMPLE + ".script"], stdout=subprocess.PIPE, text=True, cwd=room, env=PLAIN)
        assert ran.returncode == 1 and ran.stdout.startswith("refused 4 no-apply 0 range\n"), ran


def test_a_program_is_installed_over_another():
    with tempfile.TemporaryDirectory() as room:
        source = os.path.join(room, "program")
        for said in ("first", "second"):
            with open(source, "w", encoding="utf-8") as file:
                file.write(f"#!/bin/sh\necho {said}\n")
            script = install({"editlens": source}, os.path.join(room, "prefix", "bin"))
            assert script == os.path.join(room, "prefix", "bin", "editlens"), "a folder bin means the folder above it"
            copy = os.path.join(room, "prefix", "lib", "editlens", "editlens-program")
            assert subprocess.run([copy], stdout=subprocess.PIPE, text=True, check=True).stdout == said + "\n"
            assert sorted(os.listdir(os.path.dirname(copy))) == ["VERSION", "bindings", "editlens-program", "service", "tools"]


def test_edithub_is_installed_beside_the_tools():
    with tempfile.TemporaryDirectory() as room:
        source = os.path.join(room, "program")
        with open(source, "w", encoding="utf-8") as file:
            file.write("#!/bin/sh\necho this hub\n")
        name = install({"edithub": source}, os.path.join(room, "prefix"))
        assert name == os.path.join(room, "prefix", "bin", "edithub"), name
        os.remove(source)
        assert subprocess.run([name], stdout=subprocess.PIPE, text=True, check=True).stdout == "this hub\n"


def test_an_installed_script_runs_the_installed_program():
    with tempfile.TemporaryDirectory() as room:
        script = install({"editlens": find_program()}, room)
        ran = subprocess.run([script, "run"], input=example("script"), stdout=subprocess.PIPE, cwd=room, env=PLAIN)
        assert (ran.returncode, ran.stdout) == (1, example("out")), ran


def test_the_example_of_the_manual_page():
    shown = MANUAL_EXAMPLE.replace("\\-", "-").split("\n.RS\n")[1].split("\n.RE")[0]
    first, script, second, answers = re.fullmatch(r"(?s)(.*?)\n(.*?)\n(\$ editlens run.*?)\n(.*)", shown).groups()
    assert first == "$ cat > level.script" and second == "$ editlens run < level.script"
    ran = subprocess.run([find_program(), "run"], input=script + "\n", stdout=subprocess.PIPE, text=True)
    assert (ran.returncode, ran.stdout) == (0, answers + "\n"), ran


def test_an_archive_has_what_is_installed_and_says_what_is_proved():
    if not os.path.exists(os.path.join(TOP, ".git")):
        raise Skipped("the repository is no clone of git")
    with tempfile.TemporaryDirectory() as room:
        program = os.path.join(room, "stands-for-the-program")
        with open(program, "w", encoding="utf-8") as file:
            file.write("#!/bin/sh\n")
        os.chmod(program, 0o755)
        built = Built({"editlens": program, "edithub": program})
        name, data = archive(built)
        path = os.path.join(room, name)
        with open(path, "wb") as file:
            file.write(data)
        with tarfile.open(path) as found:
            found.extractall(room)
        root = os.path.join(room, os.path.basename(path).removesuffix(".tar.xz"))
        with open(os.path.join(root, "PROVED"), encoding="utf-8") as file:
            assert "not proved by this build" in file.read()
        assert "fits" in tools() and "check" not in tools()
        programs = ("lib/editlens/editlens-program", "lib/editlens/edithub-program", "bin/editlens", "bin/edithub")
        for name in (*programs, *(f"bin/editlens-{it}" for it in named())):
            assert os.access(os.path.join(root, name), os.X_OK), name
        assert sorted(os.listdir(os.path.join(root, "lib/editlens/service")))[0] == "README.md"
        assert not any(os.path.exists(os.path.join(root, "lib/editlens/service", name)) for name in ("check", "example", "tests"))
        for name in ("service/schema/001_tables.sql", "service/openapi.json", "bindings/python/editlens_hub.py"):
            assert os.path.getsize(os.path.join(root, "lib/editlens", name)), name
        for name in ("share/man/man1/editlens.1", "share/zsh/site-functions/_editlens", "examples/tasks.out", "LICENSE", "INSTALL"):
            assert os.path.getsize(os.path.join(root, name)), name
        assert archive(built) == (os.path.basename(path), data), "two archives of the same files differ"
