"""Packages for Debian: editlens with its programs, tools and pages, and libeditlens-dev with the library. Both are archives of ar, as deb(5) says."""

import os
import re

from . import TOP, tracked
from .archives import Tar, ar, zipped
from .manual import version
from .package import files, is_run, links, provenance, read, time_of_commit

ARCHITECTURE = "amd64"
CONTROL = """Package: {name}
Version: {version}
Architecture: {architecture}
Maintainer: The authors of editlens <editlens@localhost>
Installed-Size: {size}
{more}
Description: {title}
{text}
"""
ABOUT = """ A lens program says how two JSON documents belong together. Each edit of
 either one is checked, and translated into the edit that the other one needs.
 An edit that does not apply is rejected with a named cause."""


def libc_of(paths):
    """The oldest version of the C library that has all that these files want of it, as 2.34."""
    found = {tuple(map(int, it.split(b"."))) for path in paths for it in re.findall(rb"GLIBC_(2\.\d+)", read(path))}
    return ".".join(map(str, max(found, default=(2, 17))))


def _placed(tree):
    """Where files of an installed editlens are in a package of Debian: below usr/, and pages and completion compressed as Debian has them."""
    for name, data, mode in tree:
        if name.startswith("share/man/"):
            name, data = name + ".gz", zipped(data)
        yield "usr/" + name.replace("share/zsh/site-functions", "share/zsh/vendor-completions"), data, mode


def _documents(name, built, examples):
    """The files below usr/share/doc of a package."""
    folder = f"usr/share/doc/{name}"
    yield f"{folder}/copyright", read(os.path.join(TOP, "LICENSE")), 0o644
    yield f"{folder}/changelog.gz", zipped(read(os.path.join(TOP, "CHANGELOG.md"))), 0o644
    yield f"{folder}/PROVED", provenance(built.is_proved).encode(), 0o644
    for path, source in examples:
        yield f"{folder}/{path}", read(source), 0o755 if os.access(source, os.X_OK) else 0o644


def _deb(name, tree, symlinks, **said):
    """The bytes of a package: of a tree of names, bytes and modes, of links, and of what is said of it."""
    time = time_of_commit()
    data = Tar(".", time)
    for path, content, mode in sorted(tree):
        data.add_folders_above(path)
        data.add(path, content, mode)
    for path, target in sorted(symlinks):
        data.add_folders_above(path)
        data.add(path, link=target, mode=0o777)
    size = sum(len(content) for _, content, _ in tree) // 1024 + 1
    control = Tar(".", time)
    control.add("control", CONTROL.format(name=name, version=version(), architecture=ARCHITECTURE, size=size, **said).encode())
    return ar(time, [("debian-binary", b"2.0\n"), ("control.tar.xz", control.compressed()), ("data.tar.xz", data.compressed())])


def program_package(built):
    """The name of the package of the programs, and its bytes."""
    tree = [(name, read(source), 0o755 if is_run(name) else 0o644) for name, source in files(built.programs, built.library)]
    examples = [(name, os.path.join(TOP, name)) for name in tracked() if name.startswith("examples/")]
    tree = [*_placed(tree), *_documents("editlens", built, examples)]
    symlinks = [("usr/" + name + ".gz" * name.startswith("share/man/"), target + ".gz" * name.startswith("share/man/")) for name, target in links()]
    linked = [*built.programs.values(), *([os.path.join(built.library, "lib", "libeditlens.so")] if built.library else [])]
    wanted = f"Depends: libc6 (>= {libc_of(linked)}), bash, coreutils, python3 (>= 3.9)"
    wanted += "\nRecommends: python3-aiohttp, python3-asyncpg, python3-ruamel.yaml, python3-tomlkit\nSuggests: chromium, postgresql\nSection: utils"
    title = "keeps two JSON documents of different shape in step by translating edits"
    data = _deb("editlens", tree, symlinks, more=f"{wanted}\nPriority: optional", title=title, text=ABOUT)
    return f"editlens_{version()}_{ARCHITECTURE}.deb", data


def library_package(built):
    """The name of the package of the library, and its bytes."""
    tree = []
    for top in ("lib", "include"):
        for folder, _, names in os.walk(os.path.join(built.library, top)):
            for path in (os.path.join(folder, name) for name in names):
                tree.append(("usr/" + os.path.relpath(path, built.library), read(path), 0o644))
    example = [("examples/tasks.c", os.path.join(TOP, "bindings", "c", "tasks.c"))]
    tree += _documents("libeditlens-dev", built, example)
    shared = os.path.join(built.library, "lib", "libeditlens.so")
    more = f"Depends: libc6 (>= {libc_of([shared])})\nSuggests: libc6-dev, pkgconf\nSection: libdevel\nPriority: optional"
    data = _deb("libeditlens-dev", tree, [], more=more, title="editlens as a library: the archive, the shared library and the header", text=ABOUT)
    return f"libeditlens-dev_{version()}_{ARCHITECTURE}.deb", data
