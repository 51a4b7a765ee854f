"""The calls that the program makes of the system, in their order, as strace shows them. A sync that does nothing is found here alone.

A run is compared with a list. The list has each call on the store, on its folder, on standard input or on standard output, and each call
that changes a file elsewhere. Its lines mean:

    lock               the folder is opened, and flock is called on it: exclusive, and without waiting
    lock the file      the same for the store
    look               what the name of the store leads to is asked for, without following a link where the command writes
    open to read       the store is opened for reading alone
    open to write      the store is opened for reading and writing, and is not made where there is none
    make               the store is made, where its name leads to nothing, and is opened so
    read               bytes of the store are read
    write 9 to 90      the bytes from place 9 to before place 90 are written to the store
    sync               the store is synced
    sync the folder    the folder is synced, so that the name of a new store lasts
    take               standard input is read, and gives bytes
    take the end       standard input is read, and has ended
    say ok 1           what goes to standard output by one call begins with these words

Behind a colon stands why a call failed. Reads, looks and locks that fail stand in one line where they come one after another. Any other call
(a rename, a truncation, a map of the file) stands in the list by its own name, and so the run differs from what is wanted. Closing, seeking,
and asking an open file for its length are left out.
"""

import functools
import os
import re
import shutil
import subprocess
import tempfile
from contextlib import contextmanager

from editlens.lock import StoreLock
from editlens.log import Log
from editlens.store import NAME, Store

from . import Skipped

PROGRAM = "main {count ~ number: id int, left note: text}\n"
ADD = '{"side":"left","edit":[{"at":["count",[{"add":1}]]}]}\n'
WRONG = '{"side":"left","edit":[{"at":["count",[{"set":"x"}]]}]}\n'
OPENING = ["lock", "look", "open to write", "lock the file", "look", "sync", "sync the folder", "read"]
"""What a command that writes does with a store that is there. It looks at the name again under the lock: the file may have been replaced.
It syncs before it reads, since an earlier run may have stopped before its sync."""
READING = ["look", "open to read", "sync", "sync the folder", "read"]
WRITING = (("init",), ("import",), ("apply",), ("pack",), ("undo", "1"))

LINE = re.compile(r"\d+ +(\w+)\((.*)\) += (-?\d+)(?: (E\w+))?.*")
DESCRIPTOR = re.compile(r"(\d+)<([^>]*)>")
PATH = re.compile(r'"([^"]*)", (?:\{flags=)?([A-Z_|]+)')
OPENED = {("O_RDONLY",): "open to read", ("O_RDWR",): "open to write", ("O_CREAT", "O_EXCL", "O_RDWR"): "make"}
REPEATED = {"read", "look", "look: ENOENT", "lock: EAGAIN", "lock the file: EAGAIN"}
LOOK = re.compile(rf'AT_FDCWD<[^>]*>, "{re.escape(NAME)}", [A-Z_|]*')
PLAIN = {"O_CLOEXEC", "O_NOCTTY", "O_LARGEFILE"}
QUIET = {"close", "lseek", "fstat", "statx", "newfstatat"}
SYNCS = {"fsync", "fdatasync"}
TWO_WORDS = {"ok", "refused", "undo", "store", "packed", "consistent"}
CHANGING = {
    "creat", "truncate", "rename", "renameat", "renameat2", "unlink", "unlinkat", "link", "linkat", "symlink", "symlinkat", "mkdir",
    "mkdirat", "rmdir", "mknod", "mknodat", "chmod", "fchmodat", "chown", "fchownat", "utime", "utimes", "utimensat", "sync", "syncfs",
}


class Trace:
    """The list of a run, made of the lines that strace writes."""

    def __init__(self, folder, lines):
        self.folder, self.place, self.steps = folder, 0, []
        for line in lines:
            self._add(line.rstrip("\n"))

    def _add(self, line):
        found = LINE.fullmatch(line)
        if not found:
            # A line of a signal or of the end has no call.
            assert "unfinished" not in line, line
            return
        call, arguments, result, why = found[1], found[2], int(found[3]), found[4]
        step = self._step(call, arguments, result)
        if step and result < 0:
            step = f"{step}: {why}"
        if step and not (step in REPEATED and self.steps[-1:] == [step]):
            self.steps.append(step)

    def _step(self, call, arguments, result):
        if call in CHANGING:
            return call
        if call in ("open", "openat", "openat2"):
            return self._opened(call, *PATH.search(arguments).groups())
        found = DESCRIPTOR.match(arguments)
        number, path = (found[1], found[2]) if found else ("", "")
        if number in ("0", "1"):
            return self._streamed(number + call, call, arguments, result)
        if path == os.path.join(self.folder, NAME):
            return self._stored(call, arguments, result)
        if path == self.folder:
            return self._foldered(call, arguments)
        if call == "statx" and LOOK.match(arguments):
            return "look"
        rest = re.sub(r"AT_FDCWD<[^>]*>", "", arguments)
        return call if self.folder in rest or f'"{NAME}"' in rest else None

    def _opened(self, call, path, flags):
        flags = tuple(sorted(set(flags.split("|")) - PLAIN))
        if path == NAME:
            return OPENED.get(flags, call)
        return None if flags in (("O_RDONLY",), ("O_DIRECTORY", "O_RDONLY")) else f"{call} {path}"

    def _streamed(self, known, call, arguments, result):
        if known == "0read":
            return "take" if result else "take the end"
        if known == "1write":
            words = re.search(r'"(.*?)(?:\\n|"|$)', arguments)[1].split(" ")
            return "say " + " ".join(words[: 2 if words[0] in TWO_WORDS else 1])
        return None if call in QUIET else call

    def _stored(self, call, arguments, result):
        if call == "lseek":
            self.place = result
        if call in QUIET:
            return None
        if call == "flock" and arguments.endswith(", LOCK_EX|LOCK_NB"):
            return "lock the file"
        if call != "write":
            return "sync" if call in SYNCS else call
        begin, self.place = self.place, self.place + max(result, 0)
        return f"write {begin} to {self.place}"

    def _foldered(self, call, arguments):
        if call == "flock" and arguments.endswith(", LOCK_EX|LOCK_NB"):
            return "lock"
        return "sync the folder" if call in SYNCS else None if call in QUIET else call


@functools.cache
def reason_to_skip():
    """Why no run can be traced here, or None."""
    if not shutil.which("strace"):
        return "strace is not installed"
    tried = subprocess.run(["strace", "-f", "-o", os.devnull, "true"], stderr=subprocess.DEVNULL, check=False)
    return "strace may trace no program here" if tried.returncode else None


@contextmanager
def empty_folder():
    """A folder without a store. Skips the test where no run can be traced."""
    if reason_to_skip():
        raise Skipped(reason_to_skip())
    with tempfile.TemporaryDirectory() as folder:
        yield os.path.realpath(folder)


@contextmanager
def new_store():
    """A store without changes."""
    with empty_folder() as folder:
        yield Store.init(folder, PROGRAM)


class Run:
    """A run of the program under strace in a folder. `fault` is a call that is to fail, as strace's `inject` wants it."""

    def __init__(self, folder, words, fault=None):
        self.folder, self.trace = folder, tempfile.NamedTemporaryFile(prefix="trace.")
        command = ["strace", "-f", "-y", "-s", "64", "-o", self.trace.name, *(["-e", f"inject={fault}"] if fault else []), os.environ["EDITLENS"]]
        self.child = subprocess.Popen([*command, *words], cwd=folder, stdin=subprocess.PIPE, stdout=subprocess.PIPE, bufsize=0)

    def answer(self, line):
        """Sends a line, and returns its answer."""
        self.child.stdin.write(line.encode())
        return self.child.stdout.readline().decode()

    def end(self, text=""):
        """Sends a last text, ends the input, and returns the status and the list."""
        self.child.communicate(text.encode())
        with self.trace, open(self.trace.name, encoding="utf-8", errors="replace") as lines:
            return self.child.returncode, Trace(self.folder, lines).steps


def traced(folder, *words, given="", fault=None):
    return Run(folder, words, fault).end(given)


def storing(folder):
    """For each record of a store, the lines that store it: the record behind its closed gate, a sync, the gate, a sync."""
    with Log(os.path.join(folder, NAME)) as log:
        return [["look", f"write {it.at + 1} to {it.end + 1}", "sync", "look", f"write {it.at} to {it.at + 1}", "sync"] for it in log.spans]


def test_how_a_trace_is_read():
    """Calls on other files that only read are left out. Whatever else is done to the store or to its folder stands in the list."""
    lines = """7 openat(AT_FDCWD</a b>, "/lib/x.so", O_RDONLY|O_CLOEXEC) = 3</lib/x.so>
7 read(3</lib/x.so>, "ELF", 832) = 832
7 openat(AT_FDCWD</a b>, ".", O_RDONLY|O_NOCTTY|O_CLOEXEC) = 3</a b>
7 flock(3</a b>, LOCK_EX|LOCK_NB) = -1 EAGAIN (Resource temporarily unavailable)
7 flock(3</a b>, LOCK_EX|LOCK_NB) = -1 EAGAIN (Resource temporarily unavailable)
7 statx(AT_FDCWD</a b>, "editlens.store", AT_STATX_SYNC_AS_STAT|AT_SYMLINK_NOFOLLOW, STATX_ALL, 0x7f00) = -1 ENOENT (No such file)
7 flock(4</a b/editlens.store>, LOCK_EX|LOCK_NB) = 0
7 flock(3</a b>, LOCK_SH) = 0
7 openat(AT_FDCWD</a b>, "editlens.store", O_RDWR|O_TRUNC) = 4</a b/editlens.store>
7 mmap(NULL, 4096, PROT_WRITE, MAP_SHARED, 4</a b/editlens.store>, 0) = 0x7f00
7 ftruncate(4</a b/editlens.store>, 9) = 0
7 lseek(4</a b/editlens.store>, 8, SEEK_SET) = 8
7 write(4</a b/editlens.store>, "\\1)", 2) = 2
7 write(4</a b/editlens.store>, "\\1", 1) = -1 ENOSPC (No space left on device)
7 fdatasync(4</a b/editlens.store>) = -1 EIO (Input/output error) (INJECTED)
7 openat(AT_FDCWD</a b>, "other", O_RDONLY) = 5</a b/other>
7 openat(AT_FDCWD</a b>, "other", O_RDWR|O_CREAT, 0666) = 6</a b/other>
7 newfstatat(AT_FDCWD</a b>, "editlens.store", {st_mode=S_IFREG|0644, st_size=9, ...}, 0) = 0
7 rename("/a", "/c") = 0
7 write(1<pipe:[1]>, "ok 1 right []\\n", 15) = 15
7 exit_group(0) = ?
7 +++ exited with 0 +++"""
    begin = ["lock: EAGAIN", "look: ENOENT", "lock the file", "flock", "openat", "mmap", "ftruncate", "write 8 to 10", "write 10 to 10: ENOSPC", "sync: EIO"]
    assert Trace("/a b", lines.splitlines()).steps == [*begin, "openat other", "newfstatat", "rename", "say ok 1"]


def test_a_new_store():
    """The mark is synced with the name of the file before the first record. A state or an answer is said when all is synced."""
    making = ["lock", "look: ENOENT", "take", "take the end", "look: ENOENT", "make", "lock the file", "look", "write 0 to 9", "sync", "sync the folder"]
    with empty_folder() as folder:
        found = traced(folder, "init", given=PROGRAM)
        (program,) = storing(folder)
        assert found == (0, [*making, *program, "say left"]), found
    with empty_folder() as folder:
        found = traced(folder, "import", given=PROGRAM + '---\n{"count":4,"note":""}\n')
        program, document = storing(folder)
        assert found == (0, [*making, *program, *document, "say ok 1"]), found


def test_each_change_is_synced_before_its_answer():
    """A client that waits for each answer. A refused line writes nothing."""
    with new_store() as store:
        run = Run(store.folder, ["apply"])
        said = [run.answer(line).split(" ")[:2] for line in (ADD, WRONG, ADD)]
        assert said == [["ok", "1"], ["refused", "2"], ["ok", "3"]], said
        found = run.end()
        _, first, second = storing(store.folder)
        lines = ["take", *first, "say ok 1", "take", "say refused 2", "take", *second, "say ok 3", "take the end", "say left"]
        assert found == (1, OPENING + lines), found


def test_each_change_of_many_is_synced_before_its_answer():
    """Lines that come at once: none of them is answered later than the next one is stored."""
    with new_store() as store:
        found = traced(store.folder, "apply", given=ADD + WRONG + ADD)
        _, first, second = storing(store.folder)
        lines = ["take", *first, "say ok 1", "say refused 2", *second, "say ok 3", "take the end", "say left"]
        assert found == (1, OPENING + lines), found


def test_snapshots_are_synced_before_they_are_said():
    with new_store() as store:
        store.apply([ADD, ADD])
        for words, said in ((["undo", "1"], "say undo left"), (["pack"], "say packed 2")):
            found = traced(store.folder, *words)
            assert found == (0, [*OPENING, *storing(store.folder)[-1], said]), (words, found)
        found = traced(store.folder, "undo", "1")
        assert found == (4, [*OPENING, "say store refused:"]), found


def test_show_and_verify_write_nothing():
    with new_store() as store:
        store.apply([ADD])
        for word, said in (("show", "say left"), ("verify", "say consistent 1")):
            found = traced(store.folder, word)
            assert found == (0, [*READING, said]), (word, found)
    with empty_folder() as folder:
        for word in ("show", "verify"):
            status, steps = traced(folder, word)
            assert status == 4 and set(steps[:-1]) == {"look: ENOENT"} and steps[-1] == "say store refused:", steps
            assert os.listdir(folder) == []


def test_commands_without_a_store_do_not_look_at_one():
    """A line of `run` is answered before the end of the input is awaited."""
    with new_store() as store:
        found = traced(store.folder, "run", given=PROGRAM + "---\n" + ADD)
        assert found == (0, ["take", "say ok 1", "take the end", "say left"]), found
        found = traced(store.folder, "check", given=PROGRAM)
        assert found == (0, ["take", "take the end", "say left"]), found
        status, steps = traced(store.folder, "gen", "3", "7")
        assert status == 0 and {it.split(" ")[0] for it in steps} == {"say"}, steps


def test_without_the_lock_nothing_is_read_or_written():
    """Another program holds the lock, or the file system has none."""
    with new_store() as store:
        for words in WRITING:
            with StoreLock(store.folder):
                assert traced(store.folder, *words, given=PROGRAM) == (7, ["lock: EAGAIN"]), words
            found = traced(store.folder, *words, given=PROGRAM, fault="flock:error=ENOLCK")
            assert found == (7, ["lock: ENOLCK"]), (words, found)


def test_after_a_sync_that_failed_nothing_is_said():
    """The first sync that fails is the last call of the run: no gate is opened behind it, and no answer is written."""
    for number in range(4):
        with new_store() as store:
            with Log(store.file) as log:
                end = log.end
            found = traced(store.folder, "apply", given=ADD, fault=f"fsync,fdatasync:error=EIO:when={number + 1}")
            assert store.verify() == (1 if number == 3 else 0)
            # Where no gate was opened, the record is there all the same, behind the end of the store.
            record, gate = f"write {end + 1} to {os.path.getsize(store.file)}", f"write {end} to {end + 1}"
            lines = [*OPENING, "take", "look", record, "sync", "look", gate, "sync"]
            syncs = [place for place, it in enumerate(lines) if it.startswith("sync")]
            wanted = [*lines[: syncs[number]], lines[syncs[number]] + ": EIO"]
            assert found == (7, wanted), (number, found)
