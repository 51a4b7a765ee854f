"""Writes the questions of case_logs about logs, each with the answer that is wanted. reference/CASES.md says what a line means."""

import random

from ..logs import Disk, log_of
from ..stores import MARK

OLD = MARK + b"\x01" + (3).to_bytes(8, "little") + b"old" + b"\0" + b"\x01" * 14
RECORD = (4).to_bytes(8, "little") + b"new!" + b"\0"
GATE = 20
RIGHT = [(GATE + 1, RECORD), "sync", (GATE, b"\x01"), "sync"]
WAYS = [
    RIGHT,
    [RIGHT[0], RIGHT[2], "sync"],
    RIGHT[:3],
    [RIGHT[2], "sync", RIGHT[0], "sync"],
    [(GATE + 1, RECORD[:-1])] + RIGHT[1:],
    [(GATE, b"\x01" + RECORD), "sync"],
]


def held(image):
    """Which payloads the bytes of a disk have."""
    log = log_of(image)
    if isinstance(log, str):
        return "no log"
    return {(b"old",): "before", (b"old", b"new!"): "after"}.get(tuple(log), "neither")


def stopped(way, stop):
    """The disk after these calls, up to the first that fails, and whether all succeeded."""
    disk = Disk(OLD, stop)
    return disk, all(disk.call(change) for change in way)


def say(question, answer):
    """The line of a question with its answer."""
    return f"{question} = {answer}\n"


def ask_open(data):
    """What bytes open to."""
    log = log_of(data)
    answer = log if isinstance(log, str) else f"{len(log)} records {sum(map(len, log))} bytes"
    return say(" ".join(["open"] + [str(byte) for byte in data]), answer)


def records(*payloads):
    """The records of payloads behind the mark, without the closed gate."""
    return MARK + b"".join(b"\x01" + len(p).to_bytes(8, "little") + p for p in payloads)


def opens():
    """Logs that are cut and changed, and logs at random."""
    two = records(b"ab", b"") + b"\0"
    for count in range(1, len(two) + 1):
        yield ask_open(two[:count])
    for gate in (2, 127, 129, 255):
        yield ask_open(records(b"ab") + bytes([gate]) + two[9:])
        yield ask_open(MARK + bytes([gate]) + two[9:])
    for at in range(8):
        yield ask_open(MARK[:at] + bytes([MARK[at] ^ 1]) + two[at + 1 :])
    for size in (b"\0" * 7 + b"\2", b"\xff" * 8, b"\3" + b"\0" * 7, b"\2\1" + b"\0" * 6):
        yield ask_open(MARK + b"\x01" + size + b"ab\0")
    yield ask_open(records() + b"\0" + b"\x01" * 1000)
    rows = random.Random(38)
    for _ in range(200):
        bytes_ = bytearray(records(*[rows.randbytes(rows.randrange(5)) for _ in range(rows.randrange(4))]) + b"\0")
        bytes_[rows.randrange(8, len(bytes_))] = rows.choice((0, 1, 1, 2, 9))
        yield ask_open(bytes(bytes_) + rows.randbytes(rows.randrange(3)))


def crashes():
    """Crashes of an append, and of five wrong ways to store a record."""
    for stop in range(5):
        for kept in (0, 1):
            for fill in (0, 1, 255):
                disk, answered = stopped(RIGHT, stop)
                result = "ok sound true" if answered else "fault sound false"
                image = held(disk.after_crash(kept, fill))
                assert image in (["after"] if answered else ["before", "after"])
                yield say(f"append {stop} {kept} {fill}", f"{result} {image}")
    for number, way in enumerate(WAYS):
        wrong = 0
        for stop in range(5):
            for kept in range(3):
                for fill in (0, 1, 2, 255):
                    disk, answered = stopped(way, stop)
                    image = held(disk.after_crash(kept, fill))
                    wrong += image not in ("before", "after") or answered and image == "before"
                    yield say(f"way {number} {stop} {kept} {fill}", image)
        assert (wrong > 0) == (number > 0)


def stops():
    """Disks that fail from a call on."""
    for call, count, done in ((0, 3, "0 records"), (2, 4, "1 records"), (3, 3, "1 records")):
        for stop in range(count + 1):
            yield say(f"stop {call} {stop}", "the disk failed" if stop < count else done)
    yield say("stop 1 0", "the disk failed")
    yield say("stop 1 1", "the disk is not empty")


def ask_sizes(*pairs):
    """A log with so many payloads of each size."""
    count, size = sum(n for n, _ in pairs), sum(n * s for n, s in pairs)
    return say(" ".join(["sizes"] + [f"{n} {s}" for n, s in pairs]), f"{count} records {size} bytes true")


def sizes():
    """Payloads of many sizes."""
    yield ask_sizes()
    yield ask_sizes((2500, 0), (2500, 1), (2500, 9), (2500, 33))
    for size in range(12):
        yield ask_sizes((8000, size))
    for size in range(65500, 65550):
        yield ask_sizes((1, size), (2, 5), (1, 0))
    yield ask_sizes((1, 100000), (3, 7), (1, 200000), (2, 0), (1, 65536), (1, 65527), (1, 1))


def fars():
    """Logs near the end of the longest disk."""
    for left in (10, 11, 15, 100):
        for count in (0, 1, 5, 6, 90, 91):
            yield say(f"far 0 {count} {left}", "the log is full" if left < 10 + count else "ok")
    yield say("far 1 0 10", "out of memory")
    yield say("far 2 0 10", "record 1 of the log is bad")


def packs():
    """A snapshot that is stored near the end of the longest disk."""
    for left in (10, 17, 18, 26, 34, 35, 36, 100):
        yield say(f"pack {left}", "the log is full, 0 bytes written" if left < 9 + 8 + 10 + 8 else f"ok, {len('packed 0') + 1} bytes written")


def files():
    """The input of the program."""
    yield "case_logs/stdin", "".join([*opens(), *crashes(), *stops(), *sizes(), *fars(), *packs()]).encode()
