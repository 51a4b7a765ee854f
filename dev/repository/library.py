"""libeditlens: the archive that rt makes of crates/editlens_c, with what it wants of Rattle's C part, as a library that programs link.

    lib/libeditlens.a               for linking
    lib/libeditlens.so              for loading
    lib/pkgconfig/editlens.pc       for pkg-config
    include/editlens.h              the declarations

What is built without proofs says so in editlens.pc.
"""

import os
import shutil
import subprocess

from . import TOP
from .kit import kit
from .manual import version

ARCHIVE = os.path.join(TOP, "crates", "editlens_c", "out", "libeditlens_c.a")
HEADER = os.path.join(TOP, "bindings", "c", "editlens.h")
# What the shared library gives to others, and nothing else.
EXPORTS = """{
  global: editlens_version; editlens_session_*; editlens_hub_*;
  local: *;
};
"""
PKG_CONFIG = """prefix=${{pcfiledir}}/../..
libdir=${{prefix}}/lib
includedir=${{prefix}}/include

Name: editlens
Description: {mark}Keeps two JSON documents of different shape in step by translating edits
Version: {version}
Libs: -L${{libdir}} -leditlens
Cflags: -I${{includedir}}
"""
UNPROVED = "UNPROVED, with checks at run time. "


class NoCompiler(Exception):
    """There is no C compiler, or no ar."""

    def __init__(self):
        super().__init__("cc or ar, which put it together, is not here: build-essential is not installed")


def runtime():
    """The archive of Rattle's C part: three functions over malloc, realloc and free."""
    return os.path.join(kit(), "c", "liblibc_c.a")


def package_config(is_proved):
    """The text of editlens.pc."""
    return PKG_CONFIG.format(mark="" if is_proved else UNPROVED, version=version() + ("" if is_proved else "+unproved"))


def make_library(folder, archive=ARCHIVE, is_proved=True, words=()):
    """Writes the library below a folder, and returns the folder. The linker of the shared library is given the words, too."""
    compiler = shutil.which("cc") or shutil.which("gcc") or shutil.which("clang")
    if compiler is None or shutil.which("ar") is None:
        raise NoCompiler
    folder = os.path.abspath(folder)
    lib, include = os.path.join(folder, "lib"), os.path.join(folder, "include")
    for each in (os.path.join(lib, "pkgconfig"), include):
        os.makedirs(each, exist_ok=True)
    shutil.copyfile(HEADER, os.path.join(include, "editlens.h"))
    with open(os.path.join(lib, "pkgconfig", "editlens.pc"), "w", encoding="utf-8") as file:
        file.write(package_config(is_proved))
    static, shared, exports = (os.path.join(lib, it) for it in ("libeditlens.a", "libeditlens.so", "exports"))
    script = f"CREATE {static}\nADDLIB {archive}\nADDLIB {runtime()}\nSAVE\nEND\n"
    subprocess.run(["ar", "-M"], input=script, text=True, check=True)
    with open(exports, "w", encoding="utf-8") as file:
        file.write(EXPORTS)
    words = [*words, "-shared", "-o", shared, f"-Wl,--version-script={exports}", "-Wl,--whole-archive", static, "-Wl,--no-whole-archive"]
    subprocess.run([compiler, *words, "-Wl,-z,noexecstack", "-Wl,-z,relro,-z,now", "-Wl,-soname,libeditlens.so"], check=True)
    os.remove(exports)
    return folder
