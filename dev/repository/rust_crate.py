"""The crate for Rust, as `cargo package` makes and tries it: the binding, and the archive of the library that it links."""

import os
import re
import shutil
import subprocess
import tempfile

from . import TOP, tracked
from .manual import version
from .package import provenance, read

CRATE = "bindings/rust/"


class NoCargo(Exception):
    """There is no cargo, or it refuses the crate."""


def manifest():
    """Cargo.toml as the crate has it: with the version of the repository, and its own copy of the license."""
    text = read(os.path.join(TOP, CRATE, "Cargo.toml")).decode()
    text, count = re.subn(r'(?m)^version = ".*"$', f'version = "{version()}"', text)
    assert count == 1, "Cargo.toml has one version"
    return text.replace('license-file = "../../LICENSE"', 'license = "MIT"')


def write_crate(folder, built):
    """Writes the crate into a folder, as cargo takes it."""
    for name in tracked():
        if name.startswith(CRATE) and not name.startswith(CRATE + "tests/"):
            path = os.path.join(folder, name.removeprefix(CRATE))
            os.makedirs(os.path.dirname(path), exist_ok=True)
            shutil.copyfile(os.path.join(TOP, name), path)
    with open(os.path.join(folder, "Cargo.toml"), "w", encoding="utf-8") as file:
        file.write(manifest())
    with open(os.path.join(folder, "PROVED"), "w", encoding="utf-8") as file:
        file.write(provenance(built.is_proved))
    shutil.copyfile(os.path.join(TOP, "LICENSE"), os.path.join(folder, "LICENSE"))
    os.mkdir(os.path.join(folder, "lib"))
    shutil.copyfile(os.path.join(built.library, "lib", "libeditlens.a"), os.path.join(folder, "lib", "libeditlens.a"))
    lock = os.path.join(folder, "Cargo.lock")
    if os.path.exists(lock):
        os.remove(lock)


def crate_package(built):
    """The name of the crate, and its bytes. Raises NoCargo."""
    cargo = shutil.which("cargo")
    if not cargo:
        raise NoCargo("cargo is not installed")
    with tempfile.TemporaryDirectory() as room:
        folder = os.path.join(room, "crate")
        os.mkdir(folder)
        write_crate(folder, built)
        plain = {name: it for name, it in os.environ.items() if name != "EDITLENS_LIBRARY"}
        how = {"cwd": folder, "capture_output": True, "text": True, "env": {**plain, "CARGO_TARGET_DIR": os.path.join(room, "target")}}
        ran = subprocess.run([cargo, "package", "--offline", "--allow-dirty", "--quiet"], **how)
        if ran.returncode:
            raise NoCargo(f"cargo package refuses the crate:\n{ran.stderr}")
        name = f"editlens-{version()}.crate"
        return name, read(os.path.join(room, "target", "package", name))
