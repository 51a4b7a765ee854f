#!/usr/bin/env bash
# Measures a journal that comes through a pipe: bash bench/stream.sh [ENTRIES], ENTRIES being 5,000,000 where none is given.
# It prints the most memory that a run of so many entries holds (wanted: under 20 MB), the lines a second beside those of two Rust programs
# that only parse each line with serde_json and write its edit back (wanted: as many as the first), and the longest time from a line that
# is written into an open pipe to its answer (wanted: at most 10 ms). It is run by hand. The Rust programs are built with cargo. That in
# bench/floor/ parses a line as a tree, and that in bench/floor_typed/ into types that borrow from it. One that cannot be built is left out.
set -eu

here=$(cd "$(dirname "${BASH_SOURCE[0]}")/.." && pwd)
program=${EDITLENS:-$here/crates/editlens/out/editlens}
[ -x "$program" ] || { echo "run ./build first" >&2; exit 1; }

# The crates come from Debian's librust-serde-json-dev and librust-serde-derive-dev where these are installed, or else from cargo's registry.
floors=()
debian=/usr/share/cargo/registry
sources=()
if [ -d "$debian" ]; then
    sources=(--offline --config 'source.crates-io.replace-with="debian"' --config "source.debian.directory=\"$debian\"")
fi
if command -v cargo >/dev/null; then
    for floor in floor floor_typed; do
        target=${TMPDIR:-/tmp}/editlens-$floor
        mkdir -p "$target" && cp -r "$here/bench/$floor/." "$target"
        if (cd "$target" && cargo "${sources[@]}" build --quiet --release); then
            floors+=("$target/target/release/$floor")
        fi
    done
fi

exec python3 - "$program" "${1:-5000000}" "${floors[@]}" <<'PYTHON'
import os, statistics, subprocess, sys, threading, time

program, count, floors = sys.argv[1], int(sys.argv[2]), sys.argv[3:]
HEAD = b'main {a ~ b: id int}\n---\n'
AT_ONCE = 10000


def entry(k):
    side, field = ('right', 'b') if k % 4 == 3 else ('left', 'a')
    return '{"side":"%s","edit":[{"at":["%s",[{"set":%d}]]}]}\n' % (side, field, k)


def feed(pipe, head, block):
    """Writes the entries, block after block, and closes the pipe."""
    with pipe:
        pipe.write(head)
        for _ in range(count // AT_ONCE):
            pipe.write(block)


def measure(words, head, block):
    """The seconds, the most bytes held, and the lines written, where the input comes through a pipe."""
    started = time.monotonic()
    child = subprocess.Popen(words, stdin=subprocess.PIPE, stdout=subprocess.PIPE, bufsize=0)
    writer = threading.Thread(target=feed, args=(child.stdin, head, block))
    writer.start()
    lines = 0
    while True:
        piece = child.stdout.read(1 << 20)
        if not piece:
            break
        lines += piece.count(b'\n')
    writer.join()
    _, status, usage = os.wait4(child.pid, 0)
    child.returncode = os.waitstatus_to_exitcode(status)
    assert child.returncode == 0, child.returncode
    return time.monotonic() - started, usage.ru_maxrss * 1024, lines


def answer_times(entries):
    """The seconds from a line to its answer, where each line waits for the answer to the one before."""
    child = subprocess.Popen([program, 'run'], stdin=subprocess.PIPE, stdout=subprocess.PIPE, bufsize=0)
    child.stdin.write(HEAD)
    times = []
    answers = os.fdopen(child.stdout.fileno(), 'rb', closefd=False)
    for k in range(entries):
        started = time.monotonic()
        child.stdin.write(entry(k).encode())
        answer = answers.readline()
        times.append(time.monotonic() - started)
        assert answer.startswith(b'ok %d ' % (k + 1)), answer
    child.stdin.close()
    assert answers.read().count(b'\n') == 3
    assert child.wait() == 0
    return times


block = ''.join(entry(k) for k in range(AT_ONCE)).encode()
entries = count // AT_ONCE * AT_ONCE
taken, held, lines = measure([program, 'run'], HEAD, block)
assert lines == entries + 3, lines
print('%d entries, %d MB: %.1f s, %d lines a second, %.1f MB held' % (entries, len(block) * (count // AT_ONCE) / 1e6, taken, entries / taken, held / 1e6))
for floor in floors:
    least, _, lines = measure([floor], b'', block)
    assert lines == entries, lines
    how = 'into types that borrow' if floor.endswith('typed') else 'as a tree'
    print('serde_json alone, %s: %.1f s, %d lines a second; ratio %.2f' % (how, least, entries / least, least / taken))
times = answer_times(1000)
print('an answer: %.2f ms at most, %.2f ms in the middle' % (max(times) * 1e3, statistics.median(times) * 1e3))
PYTHON
