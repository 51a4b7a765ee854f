#!/usr/bin/env bash
# Times one change in a list of records by four programs, in one run: bash bench/peers.sh [SMALL LARGE [ENTRIES]], 1,000 and 100,000 records
# and 2,000 timed entries of editlens where none are given. For jq the view is computed again from the changed document; augtool loads its own format (a hosts file), sets one name and
# saves; jsonpatch replaces one value of a document in memory; editlens answers one entry. A program that is missing is left out. Each line
# says what the program does not do. It is run by hand, and the least of five runs counts.
set -eu

here=$(cd "$(dirname "${BASH_SOURCE[0]}")/.." && pwd)
program=${EDITLENS:-$here/crates/editlens/out/editlens}
[ -x "$program" ] || { echo "run ./build first" >&2; exit 1; }

PYTHONDONTWRITEBYTECODE=1 PYTHONPATH=$here/bench exec python3 - "$program" "${1:-1000}" "${2:-100000}" "${3:-2000}" <<'PYTHON'
import json, os, resource, shutil, subprocess, sys, tempfile, time

import entries

program, counts, timed_entries, runs, most = sys.argv[1], [int(it) for it in sys.argv[2:4]], int(sys.argv[4]), 5, 300
LENS = 'main each {name ~ label: id text, left age: int, right note: text}'
VIEW = '[.[] | {label: .name, note: ""}]'


def records(count):
    return [{'age': k, 'name': 'n%d' % k} for k in range(count)]


def processor(words, **how):
    """Seconds of processor time of a command, the least of the runs, or None where it takes too long."""
    best = None
    for _ in range(runs):
        before = resource.getrusage(resource.RUSAGE_CHILDREN)
        try:
            subprocess.run(words, check=True, stdout=subprocess.DEVNULL, timeout=most, **how)
        except subprocess.TimeoutExpired:
            return None
        after = resource.getrusage(resource.RUSAGE_CHILDREN)
        taken = after.ru_utime + after.ru_stime - before.ru_utime - before.ru_stime
        best = taken if best is None else min(best, taken)
    return best


def by_jq(count, folder):
    path = os.path.join(folder, 'list.json')
    with open(path, 'w', encoding='utf-8') as file:
        json.dump(records(count), file)
    return processor(['jq', '-c', VIEW, path])


def by_augtool(count, folder):
    os.makedirs(os.path.join(folder, 'etc'), exist_ok=True)
    with open(os.path.join(folder, 'etc', 'hosts'), 'w', encoding='ascii') as file:
        file.writelines('10.%d.%d.%d n%d\n' % (k >> 16, k >> 8 & 255, k & 255, k) for k in range(count))
    change = 'set /files/etc/hosts/%d/canonical changed\nsave\n' % (count // 2)
    return processor(['augtool', '--noautoload', '--root', folder, '--transform', 'Hosts.lns incl /etc/hosts'], input=('load\n' + change).encode())


def by_jsonpatch(count, folder):
    import jsonpatch

    document, best = records(count), None
    patch = jsonpatch.JsonPatch([{'op': 'replace', 'path': '/%d/name' % (count // 2), 'value': 'changed'}])
    for _ in range(runs):
        start = time.process_time()
        for _ in range(1000):
            patch.apply(document, in_place=True)
        taken = (time.process_time() - start) / 1000
        best = taken if best is None else min(best, taken)
    return best


def by_editlens(count, folder):
    entry = '{"side":"left","edit":[%s]}\n'
    piece, built = 10000, []
    for begin in range(0, count, piece):
        some = min(piece, count - begin)
        built.append(entry % ('{"ins":%d}' % some))
    timed = [entry % ('{"mod":[%d,[{"at":["name",[{"set":"n%d"}]]}]]}' % (k * 7919 % count, k)) for k in range(timed_entries)]
    return entries.seconds(program, LENS, built, timed) / len(timed)


def has(name):
    if name == 'jsonpatch':
        try:
            import jsonpatch  # noqa: F401
        except ImportError:
            return False
        return True
    return name == 'editlens' or shutil.which(name) is not None


for name, measure, lacks in (
    ('jq', by_jq, 'It works one way alone, and makes the whole view each time.'),
    ('augtool', by_augtool, 'It has one file and its tree: the file is read and written as a whole, and no second file follows.'),
    ('jsonpatch', by_jsonpatch, 'It changes one document in memory: nothing is translated, and no type is checked.'),
    ('editlens', by_editlens, 'A run keeps nothing on disk, and computes no edit from two versions.'),
):
    if not has(name):
        print('%s: missing, not timed. %s' % (name, lacks))
        continue
    with tempfile.TemporaryDirectory() as folder:
        taken = [measure(count, folder) for count in counts]
    shown = ', '.join('%s at %d records' % ('more than %d s' % most if it is None else '%.0f microseconds' % (it * 1e6), n) for it, n in zip(taken, counts))
    print('%s: %s. %s' % (name, shown, lacks), flush=True)
PYTHON
