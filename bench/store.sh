#!/usr/bin/env bash
# Times `apply` on a real file: bash bench/store.sh [FOLDER], FOLDER being where the stores are made, the folder for temporary files if none
# is given. A line is for so many changes on a new store, or behind a store of so many records. It shows the changes a second, and those of
# a loop in Python that does the same two writes and two fdatasyncs for each change, on a file beside it (wanted: at least 0.8 of the loop,
# however long the store is). What opening the store takes is measured by an empty journal, and subtracted. It is run by hand, over the
# proved program.
set -eu

here=$(cd "$(dirname "${BASH_SOURCE[0]}")/.." && pwd)
[ -x "$here/crates/editlens/out/editlens" ] || { echo "run ./build first" >&2; exit 1; }

exec python3 - "$here/crates/editlens/out/editlens" "${1:-}" <<'PYTHON'
import os, subprocess, sys, tempfile, time

program, room = sys.argv[1], sys.argv[2] or None
SCRIPT = 'main {a ~ b: id int}\n'
MARK = b'EDLENS1\n'


def entry(number):
    return '{"edit":[{"at":["a",[{"set":%d}]]}],"side":"left"}' % number


def command(word, text, folder):
    started = time.monotonic()
    done = subprocess.run([program, word], input=text, capture_output=True, text=True, cwd=folder, check=False)
    taken = time.monotonic() - started
    if done.returncode != 0:
        sys.exit(f'{word}: status {done.returncode}, {done.stdout[-300:]}')
    return taken


def applied(folder, count):
    """The seconds that so many changes take, less those of an empty journal."""
    text = ''.join(entry(k) + '\n' for k in range(count))
    return command('apply', text, folder) - command('apply', '', folder)


def looped(folder, records):
    """The seconds that a loop takes which stores as many records: the record with the next gate, a sync, the gate before it, a sync."""
    path = os.path.join(folder, 'loop')
    with open(path, 'wb') as file:
        file.write(MARK + b'\0')
    file = os.open(path, os.O_WRONLY)
    end = len(MARK)
    started = time.monotonic()
    for payload in records:
        record = len(payload).to_bytes(8, 'little') + payload + b'\0'
        os.pwrite(file, record, end + 1)
        os.fdatasync(file)
        os.pwrite(file, b'\1', end)
        os.fdatasync(file)
        end += len(record)
    taken = time.monotonic() - started
    os.close(file)
    return taken


def line(folder, before, count):
    ours = applied(folder, count)
    loop = looped(folder, [('{"entry":%s}' % entry(k)).encode() for k in range(count)])
    print(f'{count} changes behind {before} records: {count / ours:.0f} a second, the loop {count / loop:.0f}, {loop / ours:.2f} of it (wanted: at least 0.8)')


with tempfile.TemporaryDirectory(dir=room) as folder:
    command('init', SCRIPT, folder)
    line(folder, 1, 1000)
    line(folder, 1001, 10000)
    # A long store is written at once, since storing so many changes takes minutes.
    with open(os.path.join(folder, 'editlens.store'), 'rb') as file:
        first = file.read()
    size = int.from_bytes(first[9:17], 'little')
    with open(os.path.join(folder, 'editlens.store'), 'wb') as file:
        file.write(first[:17 + size])
        for k in range(100000):
            payload = ('{"entry":%s}' % entry(k)).encode()
            file.write(b'\1' + len(payload).to_bytes(8, 'little') + payload)
        file.write(b'\0')
    line(folder, 100001, 1000)
    command('verify', '', folder)
PYTHON
