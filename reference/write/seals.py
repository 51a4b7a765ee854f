"""Writes the cases of case_seals. reference/CASES.md says what a line means, and docs/MEANING.md how a record is sealed."""

import random

PAYLOADS = [
    b'{"program":"main {a ~ b: id int}","version":2}',
    b'{"entry":{"edit":[{"at":["a",[{"set":5}]]}],"side":"left"}}',
    b"",
    b'{"version":2}',
    b'{"version":2}',
]


def crc32c(data):
    """CRC-32C, bit by bit."""
    state = 0xFFFFFFFF
    for byte in data:
        state ^= byte
        for _ in range(8):
            state = state >> 1 ^ (0x82F63B78 if state & 1 else 0)
    return state ^ 0xFFFFFFFF


def sealed(before, number, payload):
    """The record with this number and payload, behind a record with the seal `before`, and its seal."""
    body = b'","number":%d,"record":%s}' % (number, payload)
    seal = crc32c(before.to_bytes(4, "little") + number.to_bytes(8, "little") + body)
    return b'{"seal":"%08x' % seal + body, seal


def stored():
    """The records of the payloads."""
    records, before = [], 0
    for number, payload in enumerate(PAYLOADS, 1):
        record, before = sealed(before, number, payload)
        records.append(record)
    return records


def unsealed(records):
    """How many payloads records have, and 0; or 0 and the number of the first one that is bad."""
    before = 0
    for number, record in enumerate(records, 1):
        head = len(b'{"seal":"12345678","number":%d,"record":' % number)
        again, before = sealed(before, number, record[head:-1])
        if again != record:
            return 0, number
    return len(records), 0


def lines():
    """The lines of the file."""
    chance = random.Random(20261202)
    for payload, text in enumerate(PAYLOADS, 1):
        for before in [0, 1, 0xFFFFFFFF, chance.getrandbits(32), chance.getrandbits(32)]:
            for number in [0, 1, 9, 10, 0xFFFFFFFF, 0x100000000, 2**64 - 1, chance.getrandbits(64)]:
                yield f"record {before} {number} {payload} = {sealed(before, number, text)[0].decode()}"
    records = stored()
    for number, record in enumerate(records, 1):
        for place, byte in enumerate(record):
            for other in sorted({byte, byte ^ 1, byte ^ 32, chance.randrange(256)}):
                changed = [*records]
                changed[number - 1] = record[:place] + bytes([other]) + record[place + 1 :]
                count, bad = unsealed(changed)
                assert bad in ([0] if other == byte else [number])
                yield f"change {number} {place} {other} = " + (f"bad {bad}" if bad else f"{count} payloads")
    orders = [list(range(1, n + 1)) for n in range(6)]
    orders += [[1, *rest] for rest in ([1], [1, 2, 3, 4, 5], [3, 4, 5], [2, 4, 5], [2, 3, 5], [2, 3, 4, 4], [2, 3, 5, 4], [2, 2, 3, 4, 5], [3, 2, 4, 5])]
    orders += [[chance.randrange(1, 6) for _ in range(chance.randrange(1, 7))] for _ in range(60)]
    for order in orders:
        count, bad = unsealed([records[number - 1] for number in order])
        answers = [f"bad {bad}", f"record {bad} of the log is bad"] if bad else [f"{count} payloads", f"{count} records"]
        yield " ".join(["records", *map(str, order)]) + f" = {', '.join(answers)}"
    for count in range(6):
        yield f"log {count} = {count} records true"


def files():
    """The path and the bytes of each file."""
    made = list(lines())
    yield "case_seals/stdin", ("\n".join(made) + "\n").encode()
    yield "case_seals/stdout", f"seals: {len(made)} cases, 0 differ\n".encode()
