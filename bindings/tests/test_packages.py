"""All packages, as one call of `./build --package` writes them: each is installed in a folder of its own, and its first example runs there.

    test_packages.py FOLDER     with the library that is below the folder, and with the programs that are there

The first examples are examples/tasks.script, those of docs/EMBEDDING.md, for C the program tasks.c, and for the service a pair that is made
over HTTP. A package that cannot be tried here is skipped, and said so.
"""

import filecmp
import glob
import importlib
import json
import os
import re
import shutil
import subprocess
import sys
import tarfile
import tempfile
import urllib.request
from typing import Callable

sys.dont_write_bytecode = True

TOP = os.path.dirname(os.path.dirname(os.path.dirname(os.path.abspath(__file__))))
sys.path[:0] = [os.path.join(TOP, "dev"), os.path.join(TOP, "tools")]

from editlens.program import NoProgram, find_program  # noqa: E402
from repository.manual import version  # noqa: E402
from repository.package import PROGRAMS, Built  # noqa: E402
from repository.release import release  # noqa: E402

PLAIN = {"PATH": os.environ["PATH"], "HOME": os.environ.get("HOME", "/")}
# What a file of types declares is what its module has, class by class, and nothing else.
DECLARED = r"""(path) => {
  const assert = require('assert'), text = require('fs').readFileSync(path + '.d.ts', 'utf8'), module = require(path);
  const declared = [...text.matchAll(/^export class (\w+)[^{]*\{([^]*?)^\}/gm)];
  assert.deepStrictEqual(declared.map((it) => it[1]).sort(), Object.keys(module).sort());
  for (const [, name, body] of declared) {
    const methods = [...body.matchAll(/^  (static )?(\w+)\(/gm)].map((it) => (it[1] || '') + it[2]);
    const own = [module[name].prototype, module[name]].map((it) => Object.getOwnPropertyNames(it));
    const found = [...own[0], ...own[1].filter((it) => !['length', 'name', 'prototype', 'stackTraceLimit'].includes(it)).map((it) => 'static ' + it)];
    assert.deepStrictEqual([...new Set(['constructor', ...methods])].sort(), found.sort());
  }
}"""
PROGRAM = "main {hours ~ time: id int, left done: bool}\n"


class Skipped(Exception):
    """A package that cannot be tried here, with the reason."""


def first_example(language: str) -> str:
    """The first block of docs/EMBEDDING.md that opens a session in a language."""
    with open(os.path.join(TOP, "docs", "EMBEDDING.md"), encoding="utf-8") as file:
        blocks = re.findall(rf"(?ms)^```{language}\n(.*?)^```", file.read())
    return next(it for it in blocks if "hours ~ time" in it)


class Release:
    """The folder that `./build --package` wrote, and what it said."""

    def __init__(self, folder: str, library: str) -> None:
        self.folder, given = folder, os.path.join(folder, "given")
        os.mkdir(given)
        for name in PROGRAMS:
            shutil.copy(find_program(name), os.path.join(given, name))
        self.built = Built({name: os.path.join(given, name) for name in PROGRAMS}, library)
        self.packages = os.path.join(folder, "packages")
        words = ["--package", self.packages, "--program", os.path.join(given, "editlens"), "--library", library]
        self.said = said(sys.executable, os.path.join(TOP, "build"), *words)

    def path(self, end: str) -> str:
        """The path of a package by the end of its name. What the machine could not make is skipped."""
        found = glob.glob(os.path.join(self.packages, f"*{end}"))
        if len(found) == 1:
            return found[0]
        raise Skipped("; ".join(re.findall(r"(?m)^left out: (.*)$", self.said)) or f"there is no package *{end}")


def said(*words: str, cwd: "str | None" = None) -> str:
    """What a command writes. One that fails is a failure of the test."""
    ran = subprocess.run(words, stdout=subprocess.PIPE, stderr=subprocess.STDOUT, text=True, env=PLAIN, cwd=cwd, check=False)
    assert ran.returncode == 0, ran.stdout
    return ran.stdout


def unpacked(path: str, root: str) -> None:
    """Unpacks a package for Debian of this version below a folder."""
    if not shutil.which("dpkg-deb"):
        raise Skipped("dpkg-deb is not there: this system is not Debian")
    assert said("dpkg-deb", "--field", path, "Version").strip() == version()
    said("dpkg-deb", "-x", path, root)


def answers(*words: str) -> None:
    """The first example: the program answers its four edits, of which the last one is refused."""
    example = os.path.join(TOP, "examples", "tasks")
    with open(f"{example}.script", "rb") as given, open(f"{example}.out", "rb") as wanted:
        ran = subprocess.run(words, stdin=given, stdout=subprocess.PIPE, env=PLAIN, check=False)
        assert (ran.returncode, ran.stdout) == (1, wanted.read()), ran


def runs_below(folder: str) -> None:
    """What is installed below a folder: the script, both programs, a tool, the page and completion."""
    answers(os.path.join(folder, "bin", "editlens"), "run")
    assert said(os.path.join(folder, "bin", "editlens-fits"), "--version") == f"editlens {version()}\n"
    script = [os.path.join(folder, "bin", "editlens"), "hub-store"]
    usage = subprocess.run(script, stdout=subprocess.PIPE, text=True, env=PLAIN, check=False)
    assert usage.returncode == 2 and usage.stdout.startswith("usage: edithub init|"), usage
    for name in ("share/man/man1/editlens.1*", "share/bash-completion/completions/edithub", "share/zsh/*/_editlens"):
        assert len(glob.glob(os.path.join(folder, name))) == 1, name


def test_archive(made: Release, room: str) -> None:
    """The archive, unpacked, with bin, lib and share copied as INSTALL says."""
    with tarfile.open(made.path("-linux-x86_64.tar.xz")) as archive:
        archive.extractall(room)
    (root,) = glob.glob(os.path.join(room, "editlens-*"))
    for name in ("bin", "lib", "share"):
        shutil.copytree(os.path.join(root, name), os.path.join(room, "local", name), symlinks=True)
    runs_below(os.path.join(room, "local"))


def test_debian(made: Release, room: str) -> None:
    """The package of the programs for Debian. tools/check installs it by dpkg too."""
    unpacked(made.path(f"editlens_{version()}_amd64.deb"), room)
    runs_below(os.path.join(room, "usr"))


def test_service(made: Release, room: str) -> None:
    """The service of the package for Debian: a worker over a PostgreSQL of its own, with the library of the package, makes a pair."""
    python = "/usr/bin/python3"
    if subprocess.run([python, "-c", "import aiohttp, asyncpg"], stderr=subprocess.DEVNULL, check=False).returncode:
        raise Skipped("python3-aiohttp or python3-asyncpg is not installed")
    unpacked(made.path(f"editlens_{version()}_amd64.deb"), room)
    sys.path.insert(0, os.path.join(TOP, "service"))
    fleet, postgres = (importlib.import_module(f"tests.{it}") for it in ("fleet", "postgres"))
    script = ["env", "-u", "EDITLENS_LIBRARY_PATH", os.path.join(room, "usr", "bin", "editlens")]
    try:
        server = postgres.Postgres()
    except postgres.NoPostgres as why:
        raise Skipped(str(why)) from None
    with server:
        server.make()
        said(*script, "manage", "--database", server.dsn, "migrate")
        with fleet.Worker(server.dsn, "--without-tokens", program=[*script, "serve"]) as worker:
            with open(f"/proc/{worker.process.pid}/maps", encoding="utf-8") as maps:
                assert os.path.join(os.path.realpath(room), "usr/lib/editlens/bindings/python/libeditlens.so") in maps.read()
            text = json.dumps({"program": PROGRAM}).encode()
            asked = urllib.request.Request(f"{worker.address}/pairs/one", text, {"Content-Type": "application/json"}, method="PUT")
            with urllib.request.urlopen(asked) as answer:
                assert answer.status == 201
            with urllib.request.urlopen(f"{worker.address}/pairs/one/right") as answer:
                assert json.load(answer) == {"time": 0}


def test_c(made: Release, room: str) -> None:
    """libeditlens-dev for Debian: tasks.c, compiled by what pkg-config says."""
    if not shutil.which("cc") or not shutil.which("pkg-config"):
        raise Skipped("build-essential or pkgconf is not installed")
    root = os.path.join(room, "root")
    unpacked(made.path(f"libeditlens-dev_{version()}_amd64.deb"), root)
    folder = os.path.join(root, "usr/lib")
    flags = subprocess.run(
        ["pkg-config", "--cflags", "--libs", "editlens"],
        env={**PLAIN, "PKG_CONFIG_PATH": os.path.join(folder, "pkgconfig"), "PKG_CONFIG_ALLOW_SYSTEM_LIBS": "1"},
        stdout=subprocess.PIPE, text=True, check=True,
    ).stdout.split()
    example = os.path.join(root, "usr/share/doc/libeditlens-dev/examples/tasks.c")
    said("cc", example, *flags, f"-Wl,-rpath,{folder}", "-o", os.path.join(room, "tasks"))
    with open(os.path.join(TOP, "bindings/c/tasks.out"), encoding="utf-8") as wanted:
        assert said(os.path.join(room, "tasks")) == wanted.read()


def test_python(made: Release, room: str) -> None:
    """The wheel, in an environment of its own."""
    if subprocess.run([sys.executable, "-c", "import ensurepip"], stderr=subprocess.DEVNULL, check=False).returncode:
        raise Skipped("python3-venv is not installed")
    said(sys.executable, "-m", "venv", os.path.join(room, "venv"))
    python = os.path.join(room, "venv", "bin", "python")
    said(python, "-m", "pip", "install", "--no-index", "--quiet", made.path(".whl"))
    runs_below(os.path.join(room, "venv"))
    shown = "\nprint(line.decode(), state, library.find_library())\n"
    out = said(python, "-c", first_example("python") + shown, cwd=room)
    assert out.startswith('ok 1 right [{"at":["time",[{"set":8}]]}]\n') and os.path.join(room, "venv") in out, out
    hub = f'import editlens_hub as hubs\nwith hubs.Hub([{PROGRAM.encode()!r}]) as hub: print(hub.texts())'
    assert "time" in said(python, "-c", hub, cwd=room)


def test_node(made: Release, room: str) -> None:
    """The package for Node, installed by npm without a registry, or unpacked as npm does; and its addon, built again from what the package has."""
    if not shutil.which("node"):
        raise Skipped("nodejs is not installed")
    path = made.path(".tgz")
    if shutil.which("npm"):
        said("npm", "install", "--offline", "--no-audit", "--no-fund", "--loglevel=error", path, cwd=room)
    else:
        with tarfile.open(path) as archive:
            archive.extractall(room)
        os.mkdir(os.path.join(room, "node_modules"))
        os.rename(os.path.join(room, "package"), os.path.join(room, "node_modules", "editlens"))
    example = first_example("js").replace("./index.js", "editlens") + "\nconsole.log(accepted, line, state.right)\n"
    wanted = 'true ok 1 right [{"at":["time",[{"set":8}]]}]\n {"time":8}\n'
    assert said("node", "-e", example, cwd=room) == wanted
    inside = os.path.join(room, "node_modules", "editlens")
    with open(os.path.join(inside, "README.md"), encoding="utf-8") as file:
        commands = re.findall(r"(?m)^    (cc .*)$", file.read())
    for addon in ("editlens.node", "editlens_hub.node"):
        os.remove(os.path.join(inside, addon))
    for command in commands:
        said("sh", "-c", command, cwd=inside)
    assert len(commands) == 2 and said("node", "-e", example, cwd=room) == wanted
    for name in ("index", "hub"):
        said("node", "-e", f"({DECLARED})('./node_modules/editlens/{name}')", cwd=room)
    hub = f"const {{Hub}} = require('editlens/hub.js'); console.log(new Hub([{PROGRAM!r}]).texts().length)"
    assert said("node", "-e", hub, cwd=room) == "3\n"


def test_rust(made: Release, room: str) -> None:
    """The crate, below a program of its own. Both are built without a registry."""
    assert "cargo package refuses" not in made.said, made.said
    with tarfile.open(made.path(".crate")) as archive:
        archive.extractall(room)
    os.makedirs(os.path.join(room, "user", "src"))
    with open(os.path.join(room, "user", "Cargo.toml"), "w", encoding="utf-8") as file:
        file.write(f'[package]\nname = "user"\nversion = "0.1.0"\nedition = "2021"\n[dependencies]\neditlens = {{ path = "../editlens-{version()}" }}\n')
    with open(os.path.join(room, "user", "src", "main.rs"), "w", encoding="utf-8") as file:
        lines = "\n    ".join(first_example("rust").splitlines())
        file.write(f'use editlens::{{Answer, Session}};\nfn main() -> Result<(), editlens::Error> {{\n    {lines}\n    println!("{{}}", right);\n')
        file.write("    let _ = (left, complement, other);\n    Ok(())\n}\n")
    out = said("cargo", "run", "--offline", "--quiet", "--manifest-path", os.path.join(room, "user", "Cargo.toml"))
    assert out == 'ok 1 right [{"at":["time",[{"set":8}]]}]\n{"time":8}\n', out


def test_image(made: Release, room: str) -> None:
    """The image: its layers are unpacked as a runtime does, and its entry point is run in there, without anything of this machine."""
    with tarfile.open(made.path(".oci.tar")) as archive:
        archive.extractall(os.path.join(room, "image"))

    def blob(named: dict) -> str:
        return os.path.join(room, "image", "blobs", *named["digest"].split(":"))

    def read(path: str) -> dict:
        with open(path, encoding="utf-8") as file:
            return json.load(file)

    manifest, root = read(blob(read(os.path.join(room, "image", "index.json"))["manifests"][0])), os.path.join(room, "root")
    for layer in manifest["layers"]:
        with tarfile.open(blob(layer)) as archive:
            archive.extractall(root)
    own = [] if os.geteuid() == 0 else ["unshare", "--map-root-user"]
    answers(*own, "/usr/sbin/chroot", root, *read(blob(manifest["config"]))["config"]["Entrypoint"], "run")


def test_sums(made: Release, room: str) -> None:
    """Each package has its sum in SHA256SUMS, and is named in docs/OPERATIONS.md."""
    held = set(os.listdir(made.packages))
    with open(os.path.join(made.packages, "SHA256SUMS"), encoding="utf-8") as sums:
        assert {line.split()[1] for line in sums} == held - {"SHA256SUMS"}
    said("sha256sum", "--check", "--quiet", "--strict", "SHA256SUMS", cwd=made.packages)
    with open(os.path.join(TOP, "docs", "OPERATIONS.md"), encoding="utf-8") as page:
        cells = re.findall(r"(?m)^\| (`[^|]*) \|", page.read().split("## Packages")[1])
    named = {it.replace("VERSION", version()) for it in re.findall(r"`([^`]*)`", " ".join(cells))}
    assert held <= named, held - named
    assert held == named or "left out: " in made.said, named - held


def test_two_builds(made: Release, room: str) -> None:
    """Two releases of a commit are the same bytes."""
    release(made.built, room)
    assert sorted(os.listdir(room)) == sorted(os.listdir(made.packages))
    differ = [it for it in os.listdir(room) if not filecmp.cmp(os.path.join(room, it), os.path.join(made.packages, it), shallow=False)]
    assert not differ, f"these differ in two builds: {differ}"


def main() -> int:
    library = os.path.abspath(sys.argv[1])
    if not os.path.exists(os.path.join(TOP, ".git")):
        print("skipped: the packages, the repository is no clone of git")
        return 0
    failed = 0
    with tempfile.TemporaryDirectory() as folder:
        try:
            made = Release(folder, library)
        except NoProgram as why:
            print(f"skipped: the packages, {why}")
            return 0
        for name, test in list(globals().items()):
            if name.startswith("test_"):
                failed += not passes(name, test, made)
    return 1 if failed else 0


def passes(name: str, test: Callable[[Release, str], None], made: Release) -> bool:
    """Runs a test in a folder of its own, and says what fails or is skipped."""
    with tempfile.TemporaryDirectory() as room:
        try:
            test(made, room)
        except Skipped as why:
            print(f"skipped: {name} of a package, {why}")
        except AssertionError as why:
            print(f"{name}: {why}")
            return False
    return True


if __name__ == "__main__":
    sys.exit(main())
