"""An installed editlens: its files below a folder, and an archive of them that runs on a machine without Rattle.

    bin/editlens                    the script, which runs the program and says what it does not say; bin/edithub is its other name
    bin/editlens-NAME               each tool
    lib/editlens/editlens-program   the program
    lib/editlens/edithub-program    the program that keeps hubs, where it was built
    lib/editlens/tools/             the tools with their library, and lib/editlens/VERSION
    lib/editlens/service/           the service, which bin/editlens-serve starts and bin/editlens-manage looks after
    lib/editlens/bindings/python/   the modules for Python that the service wants, with libeditlens.so where it was built
    share/man/man1/                 the manual page
    share/bash-completion/completions/, share/zsh/site-functions/_editlens
"""

import glob
import os
import platform
import shutil
import subprocess
from typing import Dict, NamedTuple, Optional

from . import TOP, tracked
from .archives import Tar
from .manual import version
from .tools import OF_SERVICE, tools

PROGRAMS = {"editlens": "lib/editlens/editlens-program", "edithub": "lib/editlens/edithub-program"}
TOOLS = "lib/editlens/tools"
SERVICE = "lib/editlens/service"
MODULES = "lib/editlens/bindings/python"
NOT_INSTALLED = ("check", "example", "tests", "__pycache__")
"""What the folder of the service has for those who change the project, or who try it in a clone."""
HOW = """editlens {version}

bin/editlens runs from here, and bin/edithub. They are a script that wants bash and coreutils, and runs a program of lib/editlens, which
wants the C library alone. The tools, bin/editlens-NAME, want Python 3.9 or later. The service, bin/editlens-serve, also wants Debian's
packages python3-aiohttp and python3-asyncpg, and a PostgreSQL: lib/editlens/service/README.md.
To have it on your path, copy bin, lib and share into ~/.local:

    cp -r bin lib share ~/.local

`man editlens` is the manual page. examples/ has scripts to try: bin/editlens run < examples/tasks.script
PROVED says which proofs stand behind the program. LICENSE is the license.
"""


class Built(NamedTuple):
    """What packages are made of: the paths of the programs by their names, the folder of the library, and whether all of it is proved."""

    programs: Dict[str, str]
    library: Optional[str] = None
    is_proved: bool = False


def shared_files(top=TOP):
    """The files of an installed editlens that no program stands behind: the path of each below the folder, and where it is now."""
    yield "bin/editlens", os.path.join(top, "editlens")
    yield "lib/editlens/VERSION", os.path.join(top, "VERSION")
    yield "share/man/man1/editlens.1", os.path.join(top, "docs", "editlens.1")
    yield "share/bash-completion/completions/editlens", os.path.join(top, "completions", "editlens.bash")
    yield "share/zsh/site-functions/_editlens", os.path.join(top, "completions", "_editlens")


def tool_files(top=TOP):
    """The tools and their library: the path of each below the folder of the tools, and where it is now."""
    for name in tools(top):
        yield name, os.path.join(top, "tools", name)
    for path in sorted(glob.glob(os.path.join(top, "tools", "editlens", "**"), recursive=True)):
        if os.path.isfile(path) and "__pycache__" not in path:
            yield os.path.relpath(path, os.path.join(top, "tools")), path


def service_files(top=TOP):
    """The service: the path of each file below the folder of the service, and where it is now."""
    folder = os.path.join(top, "service")
    for path in sorted(glob.glob(os.path.join(folder, "**"), recursive=True)):
        name = os.path.relpath(path, folder)
        if os.path.isfile(path) and name.split(os.sep)[0] not in NOT_INSTALLED and "__pycache__" not in path:
            yield name, path


def module_files(library, top=TOP):
    """What the service wants beside the tools: the modules for Python, and the shared library where there is one."""
    for path in sorted(glob.glob(os.path.join(top, "bindings", "python", "*.py"))):
        yield os.path.basename(path), path
    if library:
        yield "libeditlens.so", os.path.join(library, "lib", "libeditlens.so")


def files(programs, library=None, top=TOP):
    """The files of an installed editlens with programs: the path of each below the folder, and where it is now."""
    for name, path in programs.items():
        yield PROGRAMS[name], path
    yield from shared_files(top)
    for name, path in tool_files(top):
        yield f"{TOOLS}/{name}", path
    for name, path in service_files(top):
        yield f"{SERVICE}/{name}", path
    for name, path in module_files(library, top):
        yield f"{MODULES}/{name}", path


def links(top=TOP):
    """The links of an installed editlens: the path of each below the folder, and what it leads to."""
    names = [("bin/edithub", "editlens"), ("share/man/man1/edithub.1", "editlens.1"), ("share/bash-completion/completions/edithub", "editlens")]
    places = [*((TOOLS, name) for name in tools(top)), *((SERVICE, name) for name in OF_SERVICE)]
    return [*names, *((f"bin/editlens-{name}", f"../{folder}/{name}") for folder, name in places)]


def place_of(folder):
    """The folder above `bin`. Who names a folder `bin` means the folder above it."""
    whole = os.path.abspath(os.path.expanduser(folder))
    return os.path.dirname(whole) if os.path.basename(whole) == "bin" else whole


def put(path, write):
    """Makes a file or a link in one step, so that a running program is not disturbed."""
    os.makedirs(os.path.dirname(path), exist_ok=True)
    new = path + ".new"
    if os.path.lexists(new):
        os.remove(new)
    write(new)
    os.replace(new, path)


def is_run(name):
    """Whether a file is to be run."""
    is_tool = os.path.dirname(name) == TOOLS or name in [f"{SERVICE}/{it}" for it in OF_SERVICE]
    return is_tool or name in PROGRAMS.values() or name.startswith("bin/")


def install(programs, folder, library=None, top=TOP):
    """Installs editlens below a folder, with the programs that are given by their names, and the library for the service.

    Returns the path of the script.
    """
    place = place_of(folder)
    for name, source in files(programs, library, top):
        path = os.path.join(place, name)
        put(path, lambda new, source=source: shutil.copyfile(source, new))
        os.chmod(path, 0o755 if is_run(name) else 0o644)
    for name, target in links(top):
        put(os.path.join(place, name), lambda new, target=target: os.symlink(target, new))
    return os.path.join(place, "bin", next(iter(programs)))


def git(*words):
    """What a command of git prints, without its last line end."""
    return subprocess.run(["git", "-C", TOP, *words], stdout=subprocess.PIPE, text=True, check=True).stdout.rstrip("\n")


def provenance(is_proved):
    """What is known of the proofs of a program: the version, the commit and the kit."""
    changed = " with changes that are in no commit" if git("status", "--porcelain", "--untracked-files=no") else ""
    kit = subprocess.run(["rt", "version"], stdout=subprocess.PIPE, text=True, check=True).stdout.strip() if is_proved else ""
    told = f"proved by ./build with {kit}" if is_proved else "not proved by this build, which was given the program by its path"
    return f"editlens {version()}\ncommit {git('rev-parse', 'HEAD')}{changed}\n{told}\n"


def time_of_commit():
    """The time of the last commit, which all files of packages have."""
    return int(git("log", "-1", "--format=%ct"))


def read(path):
    """The bytes of a file."""
    with open(path, "rb") as file:
        return file.read()


def archive(built):
    """The name of the archive, and its bytes."""
    root = f"editlens-{version()}-{platform.system().lower()}-{platform.machine()}"
    tar = Tar(root, time_of_commit())
    examples = [(name, os.path.join(TOP, name)) for name in tracked() if name.startswith("examples/")]
    for name, source in sorted([*files(built.programs, built.library), *examples, ("LICENSE", os.path.join(TOP, "LICENSE"))]):
        tar.add(name, read(source), 0o755 if is_run(name) or os.access(source, os.X_OK) else 0o644)
    for name, target in links():
        tar.add(name, link=target, mode=0o777)
    tar.add("PROVED", provenance(built.is_proved).encode())
    tar.add("INSTALL", HOW.format(version=version()).encode())
    return root + ".tar.xz", tar.compressed()
