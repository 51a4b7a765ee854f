"""What packages are made of: a software bill of materials (CycloneDX 1.5), and SHA256SUMS."""

import datetime
import hashlib
import json
import os
import subprocess

from . import TOP, read_lines
from .manual import version
from .package import git, time_of_commit


def kit_libraries():
    """The libraries of the kit that the crates name, and std, which every crate has."""
    lines = [line.split("#")[0].partition(":") for line in read_lines(os.path.join(TOP, "crates.txt"))]
    named = {head.split()[0] for head, colon, _ in lines if colon and head.strip()}
    return sorted({"std", *(below for _, _, uses in lines for below in uses.split())} - named)


def kit_name():
    """The kit that proved or built the programs, or that it is unknown here."""
    try:
        return subprocess.run(["rt", "version"], stdout=subprocess.PIPE, text=True, check=True).stdout.strip()
    except (OSError, subprocess.CalledProcessError):
        return "unknown"


def bill(packages):
    """The bill of materials of packages, pairs of a name and bytes: the name of the file, and its bytes."""
    time = datetime.datetime.fromtimestamp(time_of_commit(), datetime.timezone.utc).strftime("%Y-%m-%dT%H:%M:%SZ")
    said = {"version": kit_name(), "description": "of the kit of Rattle, and linked into the programs and the library"}
    parts = [{"type": "library", "name": name, **said} for name in kit_libraries()]
    parts.append({"type": "library", "name": "glibc", "description": "the C library of the machine, to which the programs are linked when they start"})
    for name, data in packages:
        digest = hashlib.sha256(data).hexdigest()
        parts.append({"type": "file", "name": name, "version": version(), "hashes": [{"alg": "SHA-256", "content": digest}]})
    found = {
        "bomFormat": "CycloneDX",
        "specVersion": "1.5",
        "version": 1,
        "metadata": {
            "timestamp": time,
            "component": {
                "type": "application",
                "name": "editlens",
                "version": version(),
                "licenses": [{"license": {"id": "MIT"}}],
                "properties": [{"name": "commit", "value": git("rev-parse", "HEAD")}],
            },
        },
        "components": parts,
    }
    return f"editlens-{version()}.cdx.json", (json.dumps(found, indent=1) + "\n").encode()


def sums(packages):
    """The file SHA256SUMS of packages, as sha256sum reads it."""
    return "SHA256SUMS", "".join(f"{hashlib.sha256(data).hexdigest()}  {name}\n" for name, data in sorted(packages)).encode()
