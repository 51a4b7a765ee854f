"""The file of a store, read and written, and what is said of one that is damaged."""

import json
import os
import subprocess
import tempfile

from editlens.checkup import Checkup, remove_left_over
from editlens.log import Log, kind_of, told, write_log
from editlens.lock import StoreBusy, StoreLock
from editlens.replacement import NotDone
from editlens.store import NAME, Store, StoreRefused
from editlens.upkeep import back, backup, history

from . import raised

PROGRAM = "main {a ~ b: id int}"
FIRST = b'{"program":"main {a ~ b: id int}","version":2}'
SET = b'{"entry":{"edit":[{"at":["a",[{"set":5}]]}],"side":"left"}}'
GROUP = b'{"group":[{"edit":[{"at":["b",[{"add":1}]]}],"side":"right"}]}'
SNAPSHOT = b'{"snapshot":{"complement":{"rec":[null]},"left":{"a":6},"right":{"b":6}}}'
GATES = (8, 63, 131, 202)
"""The places of the gates of a store of the first three: the payloads have 46, 59 and 62 bytes, and 9 stand before each."""


def placed(folder, payloads):
    """A store of these records, in place of another one."""
    path = os.path.join(folder, NAME)
    if os.path.exists(path):
        os.remove(path)
    write_log(path, payloads)
    return Store(folder)


def changed(store, at, *found):
    """Changes bytes of a store."""
    with open(store.file, "r+b") as file:
        file.seek(at)
        file.write(bytes(found))


def bytes_of(path):
    with open(path, "rb") as file:
        return file.read()


def payloads_of(path):
    with Log(path) as log:
        return list(log.payloads())


def test_the_bytes_of_the_page():
    """The logs that docs/FORMATS.md shows, byte by byte."""
    with tempfile.TemporaryDirectory() as folder:
        path = os.path.join(folder, "log")
        write_log(path, [b"ab"])
        shown = bytes.fromhex("45 44 4c 45 4e 53 31 0a  01  02 00 00 00 00 00 00 00  61 62  00")
        assert bytes_of(path) == shown
        for data, found, is_cut in ((shown, [b"ab"], False), (shown.replace(b"\x01", b"\x02"), [], False), (shown[:-1], [], True)):
            with open(path, "wb") as file:
                file.write(data)
            with Log(path) as log:
                assert (log.has_mark, list(log.payloads()), log.is_cut) == (True, found, is_cut)
        store = Store.init(folder, PROGRAM)
        assert os.path.getsize(store.file) == 64 and payloads_of(store.file) == [FIRST]


def test_records_of_each_kind():
    """The five payloads of docs/FORMATS.md, which begin at version 1. They have 34, 13, 59, 62 and 73 bytes."""
    with tempfile.TemporaryDirectory() as folder:
        payloads = [b'{"program":"main {a ~ b: id int}"}', b'{"version":2}', SET, GROUP, SNAPSHOT]
        store = placed(folder, payloads)
        assert store.verify() == 2 and [kind_of(it) for it in payloads] == ["program", "version", "entry", "group", "snapshot"]
        assert list(history(folder)) == [
            "1 program main {a ~ b: id int}",
            "2 version 2",
            '3 entry left [{"at":["a",[{"set":5}]]}]',
            '4 group right [{"at":["b",[{"add":1}]]}]',
            '5 snapshot {"complement":{"rec":[null]},"left":{"a":6},"right":{"b":6}}',
        ]
        assert Checkup(folder).lines == ["consistent: 2 changes in 5 records, 295 bytes"]
    assert kind_of(b'{"edit":[],"side":"left"}') is None and kind_of(b"[]") is None and kind_of(b"\xff") is None
    assert told(b'{"program":"main  id int"}', 20) == "program main  id int" and told(b'{"version":2,"x":1}', 19) == 'not a record: {"v..'


def test_a_stored_program_of_any_length():
    """`init` reads a program of 65,536 bytes at most, and a record may have a longer one: here by a comment, and by its definitions."""
    names = [f"t{number}" for number in range(4000)]
    longer = "".join(f"type {it} = int;\n" for it in names) + f"main {{a ~ b: id {names[-1]}}}"
    with tempfile.TemporaryDirectory() as folder:
        for text in (f"# {'x' * 200_000}\n{PROGRAM}", longer):
            assert len(text) > 65_536
            refused = subprocess.run([Store(folder).path, "init"], input=text, cwd=folder, capture_output=True, text=True, check=False)
            assert refused.stdout == "program refused: program-too-long\n", refused
            store = placed(folder, [json.dumps({"program": text, "version": 2}).encode(), SET])
            assert store.verify() == 1 and store.show()[:2] == ({"a": 5}, {"b": 5})
            os.remove(store.file)


def test_an_altered_length():
    """In bounds and out of them: the payload shows how long the record is, and nothing is lost."""
    for place, byte, said in ((64, 200, "200"), (64, 7, "7"), (66, 9, "589,883")):
        with tempfile.TemporaryDirectory() as folder:
            store = placed(folder, [FIRST, SET, GROUP])
            whole, state = bytes_of(store.file), store.show()
            changed(store, place, byte)
            refusal = f"store refused: {raised(StoreRefused, store.verify).reason}"
            assert Checkup(folder).lines == [
                refusal,
                f"record 2, at byte 63: its length says {said} bytes, and its payload has 59",
                "what can be read: 2 changes in 3 records",
                "to go on with that: tools/store back 3; this file is kept then",
            ]
            back(folder, 3)
            assert bytes_of(store.file) == whole and store.show() == state


def test_a_cut_record():
    with tempfile.TemporaryDirectory() as folder:
        store = placed(folder, [FIRST, SET, GROUP])
        os.truncate(store.file, GATES[3])
        cut = bytes_of(store.file)
        assert Checkup(folder).lines == [
            "store refused: bad-record 3",
            "record 3, at byte 131: its length says 62 bytes, and the file ends before the record does",
            '  it begins with {"group":[{"edit":[{"at":["b",[{"add":1}]]}],"side":"right"}',
            "what can be read: 1 change in 2 records",
            "to go on with that: tools/store back 2; this file is kept then",
        ]
        assert str(raised(NotDone, lambda: back(folder, 3))) == "the records 1 to 2 can be read, and there is no state after record 3"
        assert bytes_of(store.file) == cut
        back(folder, 2)
        assert payloads_of(store.file) == [FIRST, SET] and store.show()[1] == {"b": 5}
        (kept,) = (it for it in os.listdir(folder) if it.endswith(".old"))
        assert bytes_of(os.path.join(folder, kept)) == cut
        os.truncate(store.file, 70)
        assert Checkup(folder).lines[1] == "record 2, at byte 63: the file ends in its length"


def test_a_gate_that_is_changed():
    """The program takes the store for a shorter one, and says nothing. The records behind the gate can be taken in again."""
    with tempfile.TemporaryDirectory() as folder:
        store = placed(folder, [FIRST, SET, GROUP, SNAPSHOT])
        whole, state = bytes_of(store.file), store.show()
        changed(store, GATES[1], 3)
        assert store.verify() == 0
        assert Checkup(folder).lines == [
            "consistent: 0 changes in 1 record, 64 bytes",
            "the gate at byte 63 is the byte 3, so the store ends there; 3 complete records can be read behind it, and do not count",
            '  2 entry left [{"at":["a",[{"set":5}]]}]',
            '  3 group right [{"at":["b",[{"add":1}]]}]',
            '  4 snapshot {"complement":{"rec":[null]},"left":{"a":6},"right":{"b":6}}',
            "to take in what is behind the end: tools/store back 4",
        ]
        raised(NotDone, lambda: remove_left_over(folder))
        assert str(raised(NotDone, lambda: back(folder, 5))) == "the records 1 to 4 can be read, and there is no state after record 5"
        back(folder, 4)
        assert bytes_of(store.file) == whole and store.show() == state


def test_a_record_that_does_not_count_yet():
    """What a program leaves that is killed before it opens the gate."""
    with tempfile.TemporaryDirectory() as folder:
        store = placed(folder, [FIRST, SET, GROUP])
        changed(store, GATES[2], 0)
        assert store.verify() == 1
        assert Checkup(folder).lines == [
            "consistent: 1 change in 2 records, 132 bytes",
            "behind the end is one complete record that does not count: unless byte 131 was changed, it was not answered",
            '  3 group right [{"at":["b",[{"add":1}]]}]',
            "to take in what is behind the end: tools/store back 3",
        ]
        os.truncate(store.file, GATES[3] - 20)
        assert Checkup(folder).lines[1] == "behind the end are 50 bytes that mean nothing: a record that was not finished, or what was left of one"


def test_records_that_do_not_apply():
    wrong = b'{"entry":{"edit":[{"at":["z",[]]}],"side":"left"}}'
    differs = b'{"snapshot":{"complement":{"rec":[null]},"left":{"a":1},"right":{"b":2}}}'
    for payload, reason, why in (
        (wrong, "bad-record 3", "its edit does not apply to the state before it"),
        (differs, "not-consistent 3", "a snapshot that does not fit the lens, or whose parts are not consistent"),
        (b'{"version":2}', "bad-record 3", "such a record cannot stand there"),
        (FIRST, "bad-record 3", "its program is refused, or is not the first record"),
    ):
        with tempfile.TemporaryDirectory() as folder:
            placed(folder, [FIRST, SET, payload, GROUP])
            assert Checkup(folder).lines == [
                f"store refused: {reason}",
                f"record 3, at byte 131: {why}",
                "what can be read: 1 change in 2 records",
                "what is lost with it:",
                f"  3 {told(payload)}",
                '  4 group right [{"at":["b",[{"add":1}]]}]',
                "to go on with that: tools/store back 2; this file is kept then",
            ]


def test_the_first_record_at_fault_is_named():
    """The program names the record at which the log breaks off. An earlier one may be at fault already."""
    with tempfile.TemporaryDirectory() as folder:
        store = placed(folder, [FIRST, b'{"entry":{"edit":[{"add":1}],"side":"left"}}', SET, GROUP])
        os.truncate(store.file, os.path.getsize(store.file) - 1)
        assert raised(StoreRefused, store.verify).reason == "bad-record 4"
        assert Checkup(folder).lines[1] == "record 2, at byte 63: its edit does not apply to the state before it"
        back(folder, 1)
        assert payloads_of(store.file) == [FIRST]


def test_an_unreadable_payload_and_a_lost_mark():
    with tempfile.TemporaryDirectory() as folder:
        store = placed(folder, [FIRST, SET, GROUP])
        changed(store, GATES[1] + 9, 0)
        assert Checkup(folder).lines == [
            "store refused: bad-record 2",
            "record 2, at byte 63: its payload is not that of a record",
            "what can be read: 0 changes in 1 record",
            "what is lost with it:",
            "  2 cannot be read",
            '  3 group right [{"at":["b",[{"add":1}]]}]',
            "to go on with that: tools/store back 1; this file is kept then",
        ]
        store = placed(folder, [FIRST, SET, GROUP])
        whole = bytes_of(store.file)
        changed(store, 0, 0, 0)
        assert Checkup(folder).lines[:2] == ["store refused: not-a-log", "the file has 203 bytes, and does not begin with the mark of a store"]
        raised(StoreRefused, lambda: backup(folder, os.path.join(folder, "copy")))
        back(folder, 3)
        assert bytes_of(store.file) == whole


def test_what_a_killed_init_leaves():
    """Each beginning of what `init` writes with its gate closed, and a store without a change, can be removed; a store with one cannot."""
    with tempfile.TemporaryDirectory() as folder:
        store = placed(folder, [FIRST])
        whole = bytes_of(store.file)
        closed = whole[:8] + b"\x00" + whole[9:]
        for data in (b"", whole[:5], whole[:8], closed[:9], closed[:13], closed[:40], closed, whole, whole + SET[:20]):
            with open(store.file, "wb") as file:
                file.write(data)
            with StoreLock(folder):
                raised(StoreBusy, lambda: remove_left_over(folder))
            assert Checkup(folder).lines[-1] == "to begin again: tools/store check --remove", data
            remove_left_over(folder)
            assert os.listdir(folder) == []
        store = placed(folder, [FIRST, SET])
        changed(store, GATES[1], 0)
        assert Checkup(folder).lines == [
            "consistent: 0 changes in 1 record, 64 bytes",
            "behind the end is one complete record that does not count: unless byte 63 was changed, it was not answered",
            '  2 entry left [{"at":["a",[{"set":5}]]}]',
            "to take in what is behind the end: tools/store back 2",
            "no change is stored: if an import made this file, it was stopped before it answered, and the document is not in the store",
            "to begin again: tools/store check --remove",
        ]
        changed(store, GATES[1], 3)
        assert Checkup(folder).lines[-1] == "to take in what is behind the end: tools/store back 2"
        for data in (b"other", whole[:40], whole + b"\x00" * 40, closed + SET):
            with open(store.file, "wb") as file:
                file.write(data)
            raised(NotDone, lambda: remove_left_over(folder))
            assert bytes_of(store.file) == data
        placed(folder, [FIRST, SET])
        raised(NotDone, lambda: remove_left_over(folder))
        os.remove(store.file)
        assert "does not exist" in str(raised(NotDone, lambda: Checkup(folder)))


def test_what_the_program_leaves_when_it_is_stopped():
    """No file may have more than 1,024 bytes: `init` is stopped in its first record, and `import` in its second one."""
    wide = "main {" + ", ".join(f"field_{number} ~ name_{number}: id int" for number in range(60)) + "}\n"
    long = "main each id text\n---\n" + json.dumps(["x" * 2_000])
    for command, script, reason in (("init", wide, "bad-record 1"), ("import", long, None)):
        with tempfile.TemporaryDirectory() as folder:
            limited = ["bash", "-c", 'ulimit -f 1 && exec "$@"', "bash", os.environ["EDITLENS"], command]
            ran = subprocess.run(limited, cwd=folder, input=script.encode(), capture_output=True, check=False)
            assert ran.returncode not in (0, 1) and ran.stdout == b"", ran
            found = Checkup(folder)
            assert found.refusal == reason and found.lines[-1] == "to begin again: tools/store check --remove", found.lines
            remove_left_over(folder)
            assert os.listdir(folder) == []
