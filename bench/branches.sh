#!/usr/bin/env bash
# Times what one edit of a field costs in a record of many paired rows, and one edit of an arm in alternatives of many arms:
# bash bench/branches.sh [ROWS] [ENTRIES], 1,000 and 10,000 where none are given. A line has a number of rows or arms, and the
# microseconds of an entry; the last lines have how many times longer an entry takes at ten times the rows (wanted: at most ten times).
# It is run by hand.
set -eu

here=$(cd "$(dirname "${BASH_SOURCE[0]}")/.." && pwd)
[ -x "$here/crates/editlens/out/editlens" ] || { echo "run ./build first" >&2; exit 1; }

PYTHONPATH=$here/bench exec python3 - "$here/crates/editlens/out/editlens" "${1:-1000}" "${2:-10000}" <<'PYTHON'
import json, sys

from entries import seconds

program, most, entries = sys.argv[1], int(sys.argv[2]), int(sys.argv[3])


def record(rows):
    lens = 'main {%s}' % ', '.join('f%d ~ g%d: id int' % (k, k) for k in range(rows))
    return lens, [('left', [{'at': ['f%d' % (k * 7 % rows), [{'set': k}]]}]) for k in range(entries)]


def alternatives(arms):
    inner = '{m ~ n: id int, left o: text}'
    lens = 'main <%s>' % ', '.join('a%d ~ b%d: %s' % (k, k, inner) for k in range(arms))
    words = []
    for k in range(entries):
        old, new = k * 7 % arms, (k + 1) * 7 % arms
        words.append(('left', [{'switch': ['a%d' % old, 'a%d' % new, [{'at': ['m', [{'set': k}]]}]]}]))
    return lens, words


def cost(lens, words):
    """Seconds of processor time of one entry. The first one is not counted, since the program part is checked before its answer."""
    lines = [json.dumps({'side': side, 'edit': word}, separators=(',', ':')) + '\n' for side, word in words]
    return seconds(program, lens, lines[:1], lines[1:]) / len(lines[1:])


for name, make, size in [('rows', record, most), ('arms', alternatives, most // 10)]:
    costs = []
    for count in (size // 10, size):
        costs.append(cost(*make(count)))
        print('%d %s: %.1f microseconds an entry' % (count, name, costs[-1] * 1e6))
    print('%s: %.1f times longer at ten times as many' % (name, costs[1] / costs[0]))
PYTHON
