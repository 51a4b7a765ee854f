"""Archives that are the same in every run for the same files: names in order, one time, one owner."""

import base64
import gzip
import hashlib
import io
import lzma
import tarfile
import time as clock
import zipfile

PRESET = 2
"""How hard xz tries: a program of 22 MB takes 2 s, and ten times as long for a tenth less."""


class Tar:
    """An archive of tar below a folder `root`, which may be empty."""

    def __init__(self, root, time):
        self.root, self.time, self.held = root, time, io.BytesIO()
        self.tar = tarfile.open(fileobj=self.held, mode="w", format=tarfile.GNU_FORMAT)
        self.folders = set()

    def _info(self, name, mode):
        info = tarfile.TarInfo(f"{self.root}/{name}" if self.root else name)
        info.mtime, info.mode, info.uname, info.gname = self.time, mode, "root", "root"
        return info

    def add(self, name, data=b"", mode=0o644, link=None):
        """Adds a file of these bytes, or a link."""
        info = self._info(name, mode)
        info.size = len(data)
        if link:
            info.type, info.linkname = tarfile.SYMTYPE, link
        self.tar.addfile(info, io.BytesIO(data))

    def add_folders_above(self, name):
        """Adds each folder above a file that is not there yet, as a package of Debian and a layer of an image have them."""
        parts = name.split("/")[:-1]
        for number, part in enumerate(parts):
            folder = "/".join(parts[: number + 1])
            if part not in ("", ".") and folder not in self.folders:
                self.folders.add(folder)
                info = self._info(folder, 0o755)
                info.type = tarfile.DIRTYPE
                self.tar.addfile(info)

    def data(self):
        """The bytes of the archive."""
        self.tar.close()
        return self.held.getvalue()

    def compressed(self):
        """The bytes of the archive, compressed by xz."""
        return lzma.compress(self.data(), preset=PRESET)


def zipped(data):
    """Bytes that are compressed by gzip, without a name and a time."""
    return gzip.compress(data, compresslevel=6, mtime=0)


def ar(time, members):
    """The bytes of an archive of ar: of pairs of a name and bytes."""
    found = b"!<arch>\n"
    for name, data in members:
        found += f"{name:<16}{time:<12}{0:<6}{0:<6}{'100644':<8}{len(data):<10}`\n".encode() + data + b"\n" * (len(data) % 2)
    return found


def members(data):
    """The bytes of each member of an archive of ar, by its name."""
    found, at = {}, len(b"!<arch>\n")
    while at < len(data):
        name, size = data[at : at + 16].decode().strip(), int(data[at + 48 : at + 58])
        found[name] = data[at + 60 : at + 60 + size]
        at += 60 + size + size % 2
    return found


def wheel_record(name, data):
    """A line of the file RECORD of a wheel."""
    digest = base64.urlsafe_b64encode(hashlib.sha256(data).digest()).rstrip(b"=").decode()
    return f"{name},sha256={digest},{len(data)}"


def zip_archive(time, files):
    """The bytes of a zip archive of triples: a name, bytes, and whether the file is to be run."""
    held = io.BytesIO()
    with zipfile.ZipFile(held, "w", zipfile.ZIP_DEFLATED) as archive:
        for name, data, is_run in files:
            info = zipfile.ZipInfo(name, clock.gmtime(time)[:6])
            info.compress_type, info.create_system = zipfile.ZIP_DEFLATED, 3
            info.external_attr = (0o100755 if is_run else 0o100644) << 16
            archive.writestr(info, data)
    return held.getvalue()
