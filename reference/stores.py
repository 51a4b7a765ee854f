"""The bytes of a store and the lines of a journal, as docs/FORMATS.md has them."""

import json

MARK = b"EDLENS1\n"


def log(*payloads):
    """The bytes of a log of these payloads."""
    records = b"".join(b"\1" + len(it.encode()).to_bytes(8, "little") + it.encode() for it in payloads)
    return MARK + records + b"\0"


def program(text, version=2):
    """The first record of a store of a version."""
    return '{"program":%s,"version":2}' % json.dumps(text) if version == 2 else '{"program":%s}' % json.dumps(text)


def entry(side, word):
    """The record of an accepted entry."""
    return '{"entry":{"edit":%s,"side":"%s"}}' % (word, side)


def line(side, word):
    """The line of a journal."""
    return '{"side":"%s","edit":%s}\n' % (side, word)
