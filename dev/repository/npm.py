"""The package for Node: the classes over the addons, which are built for the machine, and what they are built from for others."""

import json
import os
import shutil
import subprocess
import tempfile

from . import TOP
from .archives import Tar, zipped
from .manual import version
from .package import provenance, read, time_of_commit

HEADERS = ("/usr/include/node", "/usr/include/nodejs/src")
NODE = os.path.join(TOP, "bindings", "node")
ADDONS = {"editlens.node": "editlens.c", "editlens_hub.node": "editlens_hub.c"}
SHOWN = ("index.js", "index.d.ts", "hub.js", "hub.d.ts")
README = """# editlens

Keeps two JSON documents of different shape in step. `require('editlens')` has a `Session`, and `require('editlens/hub.js')` a `Hub`.

The addons were built for Linux with glibc on x86-64, by N-API, which later versions of Node have too. For another machine they are built from
`src/` and a library of that machine:

    cc -O2 -shared -fPIC -I/usr/include/node -Isrc -o editlens.node src/editlens.c lib/libeditlens.a
    cc -O2 -shared -fPIC -I/usr/include/node -Isrc -o editlens_hub.node src/editlens_hub.c lib/libeditlens.a
"""


class NoNode(Exception):
    """There are no headers of Node, or no C compiler."""

    def __init__(self):
        super().__init__("libnode-dev or build-essential is not installed")


def package_json():
    """The description of the package."""
    said = {
        "name": "editlens",
        "version": version(),
        "description": "Keeps two JSON documents of different shape in step by translating edits",
        "license": "MIT",
        "main": "index.js",
        "types": "index.d.ts",
        "engines": {"node": ">=18"},
        "os": ["linux"],
        "cpu": ["x64"],
        "libc": ["glibc"],
    }
    return (json.dumps(said, indent=2) + "\n").encode()


def addon(source, library):
    """The bytes of an addon, which is compiled."""
    headers = next((it for it in (os.environ.get("NODE_HEADERS"), *HEADERS) if it and os.path.exists(os.path.join(it, "node_api.h"))), None)
    compiler = shutil.which("cc")
    if not headers or not compiler:
        raise NoNode
    with tempfile.TemporaryDirectory() as room:
        made = os.path.join(room, "addon.node")
        words = ["-O2", "-shared", "-fPIC", f"-I{headers}", f"-I{os.path.join(library, 'include')}", "-o", made, source]
        subprocess.run([compiler, *words, os.path.join(library, "lib", "libeditlens.a")], cwd=NODE, check=True)
        return read(made)


def npm_package(built):
    """The name of the package for Node, and its bytes. Raises NoNode."""
    files = {"package.json": package_json(), "README.md": README.encode(), "LICENSE": read(os.path.join(TOP, "LICENSE"))}
    files["PROVED"] = provenance(built.is_proved).encode()
    for name in SHOWN:
        files[name] = read(os.path.join(NODE, name))
    for name, source in ADDONS.items():
        files[name] = addon(source, built.library)
    for source in os.listdir(NODE):
        if source.endswith((".c", ".h")):
            files[f"src/{source}"] = read(os.path.join(NODE, source))
    files["src/editlens.h"] = read(os.path.join(built.library, "include", "editlens.h"))
    files["lib/libeditlens.a"] = read(os.path.join(built.library, "lib", "libeditlens.a"))
    tar = Tar("package", time_of_commit())
    for name, data in sorted(files.items()):
        tar.add(name, data)
    return f"editlens-{version()}.tgz", zipped(tar.data())
