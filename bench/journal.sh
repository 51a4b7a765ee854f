#!/usr/bin/env bash
# Times the program on journals of N and of 2N entries of one line: bash bench/journal.sh [N], N being 100,000 where none is given.
# It prints the lines a second, the ratio of the two times (wanted: at most 2.3) and the most memory held against the size of the input
# (wanted: at most four times). It is run by hand.
set -eu

here=$(cd "$(dirname "${BASH_SOURCE[0]}")/.." && pwd)
[ -x "$here/crates/editlens/out/editlens" ] || { echo "run ./build first" >&2; exit 1; }

exec python3 - "$here/crates/editlens/out/editlens" "${1:-100000}" <<'PYTHON'
import os, subprocess, sys, tempfile, time

program, count = sys.argv[1], int(sys.argv[2])


def script(entries):
    # One entry in four is of the right side, and one in fifty does not apply.
    yield 'main {a ~ b: id int}\n---\n'
    for k in range(entries):
        side, field = ('right', 'b') if k % 4 == 3 else ('left', 'a')
        value = 'true' if k % 50 == 49 else str(k)
        yield '{"side":"%s","edit":[{"at":["%s",[{"set":%s}]]}]}\n' % (side, field, value)


def measure(entries):
    with tempfile.TemporaryFile('w+') as source, tempfile.TemporaryFile() as sink:
        source.writelines(script(entries))
        source.flush()
        size = os.fstat(source.fileno()).st_size
        best, held = None, 0
        for _ in range(3):
            source.seek(0)
            os.lseek(source.fileno(), 0, os.SEEK_SET)
            sink.seek(0)
            sink.truncate()
            started = time.monotonic()
            child = subprocess.Popen([program, 'run'], stdin=source, stdout=sink)
            _, status, usage = os.wait4(child.pid, 0)
            taken = time.monotonic() - started
            child.returncode = os.waitstatus_to_exitcode(status)
            assert child.returncode == 1, child.returncode
            best = taken if best is None else min(best, taken)
            held = max(held, usage.ru_maxrss * 1024)
        sink.seek(0)
        lines = sum(1 for _ in sink)
        assert lines == entries + 3, lines
        print('%d entries, %d bytes: %.2f s, %d lines a second, %.1f MB held, %.2f times the input'
              % (entries, size, best, entries / best, held / 1e6, held / size))
        return best


first = measure(count)
second = measure(2 * count)
print('ratio of the times: %.2f' % (second / first))
PYTHON
