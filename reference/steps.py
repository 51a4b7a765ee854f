"""The form of the files that hold whole commands: steps, each a line of JSON and then the bytes of what is given and wanted."""

import json

PARTS = ("input", "output", "store_before", "store_after")


def write_step(words, status, given, wanted, number=0, stores=None, devices=None):
    """The bytes of a step: a case of its own where its number is 0. `stores` are the bytes of the store before and after it.

    `devices` are the members that say which calls of the devices fail.
    """
    parts = dict(zip(PARTS, (given, wanted, *(stores or ()))))
    head = {"words": words, "status": status, "step": number, **(devices or {}), **{name: len(part) for name, part in parts.items()}}
    spaces = (", ", ": ") if stores else (",", ":")
    return json.dumps(head, ensure_ascii=False, sort_keys=True, separators=spaces).encode() + b"\n" + b"".join(parts.values()) + b"\n"


def read_steps(held):
    """The steps of a file: the line of each, its parts by their names, and all its bytes."""
    at = 0
    while at < len(held):
        begin = held.index(b"\n", at) + 1
        line, parts, end = json.loads(held[at:begin]), {}, begin
        for name in PARTS:
            parts[name] = held[end : end + line.get(name, 0)]
            end += line.get(name, 0)
        yield line, parts, held[at : end + 1]
        at = end + 1
