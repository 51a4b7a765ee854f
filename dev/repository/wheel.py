"""The package for Python: tools/ and bindings/python, with the programs and the shared library. `pip install FILE` wants no registry.

In an environment it is

    lib/pythonX.Y/site-packages/    the package editlens with libeditlens.so, and the modules editlens_library, editlens_hub and library_session
    bin/                            editlens, edithub and editlens-NAME for each tool
    lib/editlens/                   the programs, and VERSION
    share/                          the manual page and completion

It is the build backend of pyproject.toml too: `pip install .` takes what is built in the repository.
"""

import os

from . import TOP
from .archives import wheel_record, zip_archive
from .manual import version
from .package import PROGRAMS, Built, is_run, links, provenance, read, shared_files, time_of_commit, tool_files

TAG = "py3-none-linux_x86_64"
METADATA = """Metadata-Version: 2.1
Name: editlens
Version: {version}
Summary: Keeps two JSON documents of different shape in step by translating edits
License: MIT
Requires-Python: >=3.9
Description-Content-Type: text/markdown

"""


def _root():
    return f"editlens-{version()}"


def _packages(built):
    """The files of the package and of the modules."""
    for name, source in tool_files():
        if name.startswith("editlens/"):
            yield name, read(source), False
    for name in sorted(os.listdir(os.path.join(TOP, "bindings", "python"))):
        if name.endswith(".py"):
            yield name, read(os.path.join(TOP, "bindings", "python", name)), False
    if built.library:
        yield "editlens/libeditlens.so", read(os.path.join(built.library, "lib", "libeditlens.so")), False


def _others(built):
    """The files of the other folders: the scripts, the programs, the pages."""
    data, scripts = f"{_root()}.data/data", f"{_root()}.data/scripts"
    for name, source in tool_files():
        if "/" not in name:
            first, rest = read(source).split(b"\n", 1)
            assert b"python3" in first, name
            yield f"{scripts}/editlens-{name}", b"#!python\n" + rest, True
    for name in PROGRAMS:
        yield f"{scripts}/{name}", read(os.path.join(TOP, "editlens")), True
    for name, path in built.programs.items():
        yield f"{data}/{PROGRAMS[name]}", read(path), True
    shared = {name: source for name, source in shared_files() if not is_run(name)}
    # A wheel has no links, so what has another name is there twice.
    for name, target in links():
        if name.startswith("share/"):
            shared[name] = shared[os.path.join(os.path.dirname(name), target)]
    for name, source in sorted(shared.items()):
        yield f"{data}/{name}", read(source), False


def wheel(built):
    """The name of the wheel, and its bytes."""
    info = f"{_root()}.dist-info"
    texts = {
        "METADATA": METADATA.format(version=version()).encode() + read(os.path.join(TOP, "docs", "EMBEDDING.md")),
        "WHEEL": f"Wheel-Version: 1.0\nGenerator: editlens\nRoot-Is-Purelib: false\nTag: {TAG}\n".encode(),
        "LICENSE": read(os.path.join(TOP, "LICENSE")),
        "PROVED": provenance(built.is_proved).encode(),
    }
    files = [*_packages(built), *_others(built), *((f"{info}/{name}", data, False) for name, data in texts.items())]
    record = [wheel_record(name, data) for name, data, _ in files] + [f"{info}/RECORD,,"]
    files.append((f"{info}/RECORD", ("\n".join(record) + "\n").encode(), False))
    return f"{_root()}-{TAG}.whl", zip_archive(time_of_commit(), files)


def of_repository():
    """What is built in the repository: the proved programs or else the unproved ones, and the library of .library/."""
    programs = {}
    for name in PROGRAMS:
        for path in (os.path.join(TOP, "crates", name, "out", name), os.path.join(TOP, ".unproved", name)):
            if name not in programs and os.access(path, os.X_OK):
                programs[name] = path
    library = os.path.join(TOP, ".library")
    return Built(programs, library if os.path.exists(os.path.join(library, "lib", "libeditlens.so")) else None)


def build_wheel(wheel_directory, config_settings=None, metadata_directory=None):
    """Writes the wheel into a folder and returns its name: the call of a build backend."""
    name, data = wheel(of_repository())
    with open(os.path.join(wheel_directory, name), "wb") as file:
        file.write(data)
    return name
