"""The packages that `./build --package` writes: each is installed in a folder or an environment of its own, and its first example is run there.

Those that have the library are tried by bindings/tests/test_packages.py, where there is one.
"""

import gzip
import json
import os
import shutil
import subprocess
import sys
import tarfile
import tempfile
from contextlib import contextmanager

from editlens.program import TOP, NoProgram, find_program
from editlens.version import version

from . import Skipped
from .packages import EXAMPLE, PLAIN, example

sys.path.insert(0, os.path.join(TOP, "dev"))

from repository.archives import members  # noqa: E402
from repository.bill import kit_libraries  # noqa: E402
from repository.deb import program_package  # noqa: E402
from repository.image import image  # noqa: E402
from repository.package import Built  # noqa: E402
from repository.release import release  # noqa: E402
from repository.tools import OF_SERVICE, tools  # noqa: E402
from repository.wheel import wheel  # noqa: E402


def built():
    """The programs that are there, without a library."""
    if not os.path.exists(os.path.join(TOP, ".git")):
        raise Skipped("the repository is no clone of git")
    programs = {"editlens": find_program()}
    try:
        programs["edithub"] = find_program("edithub")
    except NoProgram:
        pass
    return Built(programs)


def write(folder, named):
    """Writes a package into a folder, and returns its path."""
    path = os.path.join(folder, named[0])
    with open(path, "wb") as file:
        file.write(named[1])
    return path


def runs_from(folder):
    """What is installed below a folder runs: the script, the program of hubs where it is built, and the tools by one name and by another."""
    script = os.path.join(folder, "bin", "editlens")
    ran = subprocess.run([script, "run"], input=example("script"), stdout=subprocess.PIPE, env=PLAIN, cwd=folder, check=False)
    assert (ran.returncode, ran.stdout) == (1, example("out")), ran
    assert called(folder, "editlens", "--version") == (0, f"editlens {version()}\n")
    for words in (("editlens-explain", EXAMPLE + ".script"), ("editlens", "explain", EXAMPLE + ".script")):
        status, out = called(folder, *words)
        assert status == 1 and out.startswith("refused 4 no-apply 0 range\n"), out
    assert all(f"editlens {name} " in called(folder, "editlens", "--help")[1] for name in tools())
    if "edithub" in built().programs:
        usage = called(folder, "edithub", "nothing")
        assert usage[0] == 2 and usage[1].startswith("usage: edithub init|"), usage
        assert called(folder, "editlens", "hub-store", "nothing") == usage


def called(folder, name, *words):
    """The status and the output of what is installed below a folder by a name."""
    ran = subprocess.run([os.path.join(folder, "bin", name), *words], stdout=subprocess.PIPE, stdin=subprocess.DEVNULL, text=True, env=PLAIN, cwd=folder, check=False)
    return ran.returncode, ran.stdout


@contextmanager
def root_with(*packages):
    """A folder in which packages for Debian are installed, by dpkg where this user may, or else unpacked."""
    if not shutil.which("dpkg-deb"):
        raise Skipped("dpkg-deb is not there: this system is not Debian")
    with tempfile.TemporaryDirectory() as root:
        paths = [write(root, it) for it in packages]
        if os.geteuid() == 0:
            os.makedirs(os.path.join(root, "var/lib/dpkg/updates"))
            os.makedirs(os.path.join(root, "var/lib/dpkg/info"))
            with open(os.path.join(root, "var/lib/dpkg/status"), "w", encoding="utf-8"):
                pass
            how = {"stdout": subprocess.PIPE, "stderr": subprocess.STDOUT, "text": True, "env": {**PLAIN, "PATH": "/usr/sbin:/usr/bin:/sbin:/bin"}}
            ran = subprocess.run(["dpkg", f"--root={root}", "--force-depends", "--install", *paths], check=False, **how)
            assert ran.returncode == 0, ran.stdout
        else:
            for path in paths:
                subprocess.run(["dpkg-deb", "-x", path, root], check=True)
        yield root, paths


def field(path, name):
    """A field of a package for Debian, as dpkg reads it."""
    return subprocess.run(["dpkg-deb", "--field", path, name], stdout=subprocess.PIPE, text=True, check=True).stdout.strip()


def test_the_package_for_debian():
    with root_with(program_package(built())) as (root, (path,)):
        assert (field(path, "Package"), field(path, "Version"), field(path, "Architecture")) == ("editlens", version(), "amd64")
        runs_from(os.path.join(root, "usr"))
        for name in ("editlens.1.gz", "edithub.1.gz"):
            with gzip.open(os.path.join(root, "usr/share/man/man1", name)) as page:
                assert page.read().startswith(b'.\\" Written by dev/manual')
        with open(os.path.join(root, "usr/share/doc/editlens/PROVED"), encoding="utf-8") as file:
            assert "not proved by this build" in file.read()
        assert os.path.exists(os.path.join(root, "usr/share/bash-completion/completions/edithub"))
        assert field(path, "Recommends") == "python3-aiohttp, python3-asyncpg, python3-ruamel.yaml, python3-tomlkit"
        assert all(os.access(os.path.join(root, f"usr/bin/editlens-{name}"), os.X_OK) for name in OF_SERVICE)


def test_the_wheel_for_python():
    python = "/usr/bin/python3" if os.path.exists("/usr/bin/python3") else sys.executable
    if subprocess.run([python, "-c", "import ensurepip"], stderr=subprocess.DEVNULL, check=False).returncode:
        raise Skipped("python3-venv is not installed")
    with tempfile.TemporaryDirectory() as room:
        place = os.path.join(room, "venv")
        subprocess.run([python, "-m", "venv", place], check=True)
        path = write(room, wheel(built()))
        subprocess.run([os.path.join(place, "bin", "python"), "-m", "pip", "install", "--no-index", "--quiet", path], check=True, env=PLAIN)
        runs_from(place)
        words = ("python", "-c", "import editlens.version as v, editlens; print(v.version(), editlens.__file__.startswith(%r))" % place)
        assert called(place, *words) == (0, f"{version()} True\n")


def test_the_image_has_the_package_and_runs_alone():
    """Its layer is unpacked as a runtime does, and its entry point is run in there, without anything of this machine."""
    made = built()
    chroot = shutil.which("chroot", path="/usr/sbin:/sbin:/usr/bin:/bin")
    with tempfile.TemporaryDirectory() as room:
        with tarfile.open(write(room, image(made, program_package(made)[1]))) as archive:
            archive.extractall(os.path.join(room, "image"))

        def blob(named):
            with open(os.path.join(room, "image", "blobs", *named["digest"].split(":")), "rb") as file:
                return file.read()

        with open(os.path.join(room, "image", "index.json"), encoding="utf-8") as file:
            manifest = json.loads(blob(json.load(file)["manifests"][0]))
        config, layer = json.loads(blob(manifest["config"])), blob(manifest["layers"][0])
        with open(os.path.join(room, "layer.tar.gz"), "wb") as file:
            file.write(layer)
        root = os.path.join(room, "root")
        with tarfile.open(os.path.join(room, "layer.tar.gz")) as archive:
            archive.extractall(root)
        own = [] if os.geteuid() == 0 else [shutil.which("unshare"), "--map-root-user"]
        words = [*own, chroot, root, *config["config"]["Entrypoint"], "run"]
        ran = subprocess.run(words, input=example("script"), stdout=subprocess.PIPE, env={}, check=False)
        assert (ran.returncode, ran.stdout) == (1, example("out")), ran
        assert os.path.isdir(root + config["config"]["WorkingDir"])


def small(folder, said="one"):
    """Two programs of a few bytes, for what does not run them."""
    programs = {}
    for name in ("editlens", "edithub"):
        programs[name] = os.path.join(folder, name)
        with open(programs[name], "w", encoding="utf-8") as file:
            file.write(f"#!/bin/sh\necho {said}\n")
        os.chmod(programs[name], 0o755)
    return Built(programs)


def bytes_below(folder):
    """The bytes of each file of a folder."""
    found = {}
    for name in os.listdir(folder):
        with open(os.path.join(folder, name), "rb") as file:
            found[name] = file.read()
    return found


def test_two_releases_of_a_commit_are_the_same_bytes():
    built()
    with tempfile.TemporaryDirectory() as room:
        first, second = os.path.join(room, "first"), os.path.join(room, "second")
        paths, left_out = release(small(room), first)
        assert len(paths) == len(os.listdir(first)) == 6 and len(left_out) == 1 and "the library was not built" in left_out[0]
        release(small(room), second)
        assert bytes_below(first) == bytes_below(second)
        other = os.path.join(room, "other")
        release(small(room, "two"), other)
        assert all(bytes_below(first)[name] != data for name, data in bytes_below(other).items())


def test_a_release_says_what_is_in_it():
    built()
    with tempfile.TemporaryDirectory() as room:
        folder = os.path.join(room, "out")
        paths, _ = release(small(room), folder)
        assert all(version() in os.path.basename(it) for it in paths if not it.endswith("SHA256SUMS"))
        summed = subprocess.run(["sha256sum", "--check", "--quiet", "--strict", "SHA256SUMS"], cwd=folder, stdout=subprocess.PIPE, text=True, check=False)
        assert (summed.returncode, summed.stdout) == (0, ""), summed.stdout
        with open(os.path.join(folder, "SHA256SUMS"), encoding="utf-8") as file:
            sums = dict(line.split()[::-1] for line in file)
        assert set(sums) == {os.path.basename(it) for it in paths} - {"SHA256SUMS"}
        bill = json.loads(bytes_below(folder)[f"editlens-{version()}.cdx.json"])
        files = {it["name"]: it["hashes"][0]["content"] for it in bill["components"] if it["type"] == "file"}
        assert files == {name: it for name, it in sums.items() if not name.endswith(".cdx.json")}
        assert {"std", "clap", "serde_json"} <= set(kit_libraries()) <= {it["name"] for it in bill["components"]}


def test_an_archive_of_ar_is_read_as_it_was_written():
    found = members(program_package(small(tempfile.mkdtemp()))[1])
    assert list(found) == ["debian-binary", "control.tar.xz", "data.tar.xz"] and found["debian-binary"] == b"2.0\n"
