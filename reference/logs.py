"""Logs and crashes: the file of docs/FORMATS.md, and what docs/MEANING.md says of a crash."""

from .stores import MARK


def log_of(data):
    """The payloads, or the fault."""
    if len(data) < 9 or data[:8] != MARK:
        return "not a log"
    payloads, at = [], 8
    while True:
        if at >= len(data):
            return f"record {len(payloads) + 1} of the log is bad"
        if data[at] != 1:
            return payloads
        size = int.from_bytes(data[at + 1 : at + 9], "little")
        if at + 9 + size >= len(data):
            return f"record {len(payloads) + 1} of the log is bad"
        payloads.append(bytes(data[at + 9 : at + 9 + size]))
        at += 9 + size


def put(data, at, new):
    """The bytes after a write."""
    data = data[:at] + b"\0" * (at - len(data[:at])) + new + data[at + len(new) :]
    return data


class Disk:
    """A disk whose calls from number `stop` on fail, and the writes and syncs that a crash has to do with."""

    def __init__(self, data, stop):
        self.start, self.stop, self.calls, self.changes = data, stop, 0, []

    def call(self, change):
        """Makes a call. Returns whether it succeeds."""
        fails = self.calls >= self.stop
        self.calls += 1
        if change == "sync":
            if not fails:
                self.changes.append("sync")
        else:
            self.changes.append((change[0], change[1], not fails))
        return not fails

    def after_crash(self, kept, fill):
        """What a crash leaves: of the writes that were not synced the first ones, and bytes of `fill` for the others."""
        image = content = self.start
        writes = 0
        for change in self.changes:
            if change == "sync":
                image, writes = content, 0
                continue
            at, new, done = change
            image = put(image, at, new if writes < kept else bytes([fill]) * len(new))
            content = put(content, at, new) if done else content
            writes += 1
        return image
