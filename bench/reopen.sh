#!/usr/bin/env bash
# Times the reopening of stored records: bash bench/reopen.sh [N], N being 100,000 where none is given. The first line is for N records of
# entries on a list of 1,000 records, beside `run` on the same journal (wanted: at most 1.5 times). The second is for one snapshot of an
# address book of N records, which is read, decided and opened (wanted: under 1.5 s). Each is the time of `case_stores` on one case, less
# that of a case with the same payloads whose first one is bad, so that reading the file of cases does not count. It is run by hand; both
# programs are built by `rt run` in their folders.
set -eu

here=$(cd "$(dirname "${BASH_SOURCE[0]}")/.." && pwd)
for program in editlens case_stores; do
    [ -x "$here/crates/$program/out/$program" ] || { echo "build $program first: rt run in crates/$program" >&2; exit 1; }
done

exec python3 - "$here/crates/editlens/out/editlens" "$here/crates/case_stores/out/case_stores" "${1:-100000}" <<'PYTHON'
import json, os, subprocess, sys, tempfile, time

program, reopener, count = sys.argv[1], sys.argv[2], int(sys.argv[3])
ROWS = 1000
LIST = 'main each {name ~ label: id text, left age: int, right note: text}'
BOOK = '''type person = {name: text, phone: text};
type firm = {name: text, vat: text};
lens contact = <person ~ person: {name ~ name: id text, phone ~ phone: id text, left birthday: text},
                firm ~ firm: {name ~ name: id text, vat ~ vat: id text}>;
main then(each contact, then(part <person: person, firm: firm>,
  {person ~ people: each {name ~ name: id text, phone ~ phone: id text, right note: text},
   firm ~ firms: each id firm}))'''


def compact(value):
    return json.dumps(value, separators=(',', ':'), sort_keys=True, ensure_ascii=False)


def timed(words, **how):
    best = None
    for _ in range(3):
        started = time.monotonic()
        done = subprocess.run(words, capture_output=True, text=True, **how)
        taken = time.monotonic() - started
        best = taken if best is None else min(best, taken)
    return best, done


def reopened(payloads, answer):
    """The time that reopening these payloads takes, if it gives this answer."""
    with tempfile.TemporaryDirectory() as folder:
        taken = []
        for rows, wanted in ((payloads, answer), (['{'] + payloads[1:], 'bad-record 1')):
            with open(os.path.join(folder, 'case.jsonl'), 'w') as case:
                case.write(compact({'payloads': rows, 'answer': wanted}) + '\n')
            seconds, done = timed([reopener, 'case.jsonl'], cwd=folder)
            if done.returncode != 0 or '0 differ' not in done.stdout:
                sys.exit(f'{wanted[:60]}: {done.stdout[:300]} {done.stderr[:300]}')
            taken.append(seconds)
    return taken[0] - taken[1]


entries = [{'edit': [{'ins': ROWS}], 'side': 'left'}]
for k in range(count - 1):
    field, value = ('age', k) if k % 4 == 0 else ('name', f'n{k}')
    entries.append({'edit': [{'mod': [k * 7919 % ROWS, [{'at': [field, [{'set': value}]]}]]}], 'side': 'left'})
script = LIST + '\n---\n' + ''.join(compact(entry) + '\n' for entry in entries)
ran, done = timed([program, 'run'], input=script)
left, right, complement = (line.split(' ', 1)[1] for line in done.stdout.rstrip('\n').split('\n')[-3:])
payloads = [compact({'program': LIST, 'version': 2})] + [compact({'entry': entry}) for entry in entries]
snapshot = '{"snapshot":{"complement":%s,"left":%s,"right":%s}}' % (complement, left, right)
again = reopened(payloads, f'stands {count} 2 {snapshot}')
print(f'{count} entries: run {ran:.2f} s, reopening {again:.2f} s, {again / ran:.2f} times (wanted: at most 1.5)')

people = [{'name': f'Ida {k}', 'phone': f'{k}'} for k in range(count)]
left = [{'person': {**person, 'birthday': '2 May'}} for person in people]
right = {'firms': [], 'people': [{**person, 'note': 'call'} for person in people]}
pair = {'rec': [None, None]}
complement = {'then': [{'list': [{'alt': ['person', pair]}] * count}, {'then': [{'tags': ['person'] * count}, {'rec': [{'list': [pair] * count}, {'list': []}]}]}]}
snapshot = compact({'snapshot': {'complement': complement, 'left': left, 'right': right}})
again = reopened([compact({'program': BOOK, 'version': 2}), snapshot], f'stands 0 2 {snapshot}')
print(f'a snapshot of {count} records: {again:.2f} s, with its text written again (wanted: under 1.5 s)')
PYTHON
