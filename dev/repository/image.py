"""A container image as an archive of OCI: the package for Debian, with the C library of this machine below it.

It runs the program editlens, and edithub by another entry point. The tools in it want Python and the script bash, which the image does not have:
an image with them is made of one of Debian, in which the package is installed.
"""

import hashlib
import io
import json
import subprocess
import tarfile

from .archives import Tar, members, zipped
from .manual import version
from .package import PROGRAMS, read, time_of_commit

INDEX = "application/vnd.oci.image.index.v1+json"
MANIFEST = "application/vnd.oci.image.manifest.v1+json"
CONFIG = "application/vnd.oci.image.config.v1+json"
LAYER = "application/vnd.oci.image.layer.v1.tar+gzip"


def libraries(program):
    """The files that the loader of the C library takes for a program: those of the C library, and the loader itself. None for a script."""
    ran = subprocess.run(["ldd", program], stdout=subprocess.PIPE, stderr=subprocess.DEVNULL, text=True, check=False)
    return sorted({it for it in ran.stdout.split() if it.startswith("/")})


def layer(deb, programs):
    """The files of the image, as the bytes of an archive of tar: those of a package for Debian, and what its programs load."""
    made = Tar("", time_of_commit())
    for path in sorted({it for program in programs for it in libraries(program)}):
        made.add_folders_above(path.lstrip("/"))
        made.add(path.lstrip("/"), read(path), 0o755)
    with tarfile.open(fileobj=io.BytesIO(members(deb)["data.tar.xz"])) as data:
        for each in data:
            name = each.name.removeprefix("./")
            made.add_folders_above(name)
            if each.issym():
                made.add(name, link=each.linkname, mode=0o777)
            elif each.isfile():
                made.add(name, data.extractfile(each).read(), each.mode)
    made.add_folders_above("work/editlens.store")
    return made.data()


def image(built, deb):
    """The name of the archive of the image, and its bytes, of the bytes of the package for Debian."""
    files = {"oci-layout": b'{"imageLayoutVersion":"1.0.0"}'}

    def kept(kind, data, **more):
        """What names bytes that are in the archive."""
        digest = hashlib.sha256(data).hexdigest()
        files[f"blobs/sha256/{digest}"] = data
        return {"mediaType": kind, "digest": f"sha256:{digest}", "size": len(data), **more}

    content = layer(deb, built.programs.values())
    config = {
        "architecture": "amd64",
        "os": "linux",
        "config": {"Entrypoint": [f"/usr/{PROGRAMS['editlens']}"], "Cmd": [], "Env": ["PATH=/usr/bin"], "WorkingDir": "/work"},
        "rootfs": {"type": "layers", "diff_ids": [f"sha256:{hashlib.sha256(content).hexdigest()}"]},
    }
    manifest = {
        "schemaVersion": 2,
        "mediaType": MANIFEST,
        "config": kept(CONFIG, _json(config)),
        "layers": [kept(LAYER, zipped(content))],
    }
    name = {"org.opencontainers.image.ref.name": version()}
    index = {"schemaVersion": 2, "mediaType": INDEX, "manifests": [kept(MANIFEST, _json(manifest), annotations=name)]}
    files["index.json"] = _json(index)
    tar = Tar("", time_of_commit())
    for path, data in sorted(files.items()):
        tar.add(path, data)
    return f"editlens-{version()}.oci.tar", tar.data()


def _json(value):
    return json.dumps(value, sort_keys=True).encode()
