"""Writes rows of stores for case_commands. Each step is worked out by hand, and its stores are put together from their payloads."""

import json

from ..steps import write_step
from ..stores import MARK, entry, line, log, program

PLAIN = "main {a ~ b: id int}"
SPLIT = "main part <p: text, o: int>"
STATE = 'left {"a":%d}\nright {"b":%d}\ncomplement {"rec":[null]}\n'


SET = '[{"at":["a",[{"set":5}]]}]'
ADD = '[{"at":["b",[{"add":1}]]}]'
THREE = line("left", SET) + line("right", '[{"at":["b",[{"set":"x"}]]}]') + line("right", ADD) + line("left", "[]")
THREE_ANSWERS = (
    'ok 1 right [{"at":["b",[{"set":5}]]}]\n'
    "refused 2 no-apply 0 kind\n"
    'ok 3 left [{"at":["a",[{"add":1}]]}]\n'
    "ok 4 right []\n"
)
GROUP = '{"group":[{"edit":%s,"side":"left"},{"edit":%s,"side":"right"}]}' % (SET, ADD)
GROUP_ANSWER = 'ok 1 group [{"edit":[{"at":["b",[{"set":5}]]}],"side":"right"},{"edit":[{"at":["a",[{"add":1}]]}],"side":"left"}]\n'
SNAPSHOT = '{"snapshot":{"complement":{"rec":[null]},"left":{"a":6},"right":{"b":6}}}'
SWITCHES = (
    line("left", '[{"ins":3},{"mod":[1,[{"switch":["p","o",[]]}]]}]')
    + line("left", '[{"mod":[0,[{"switch":["p","p",[{"set":"x"}]]}]]}]')
    + line("left", '[{"del":2}]')
)
SWITCHES_ANSWERS = (
    'ok 1 right [{"at":["p",[{"ins":3}]]},{"at":["p",[{"move":[1,2]},{"del":1}]]},{"at":["o",[{"ins":1}]]}]\n'
    'ok 2 right [{"at":["p",[{"move":[0,1]},{"del":1}]]},{"at":["p",[{"ins":1},{"move":[1,0]},{"mod":[0,[{"set":"x"}]]}]]}]\n'
    'ok 3 right [{"at":["p",[{"del":1}]]},{"at":["o",[{"del":1}]]}]\n'
)
SWITCHES_STATE = 'left [{"p":"x"}]\nright {"o":[],"p":["x"]}\ncomplement {"tags":["p"]}\n'
BOOK = """type person = {name: text, phone: text};
type firm = {name: text, vat: text};
lens contact = <person ~ person: {name ~ name: id text, phone ~ phone: id text, left birthday: text},
                firm ~ firm: {name ~ name: id text, vat ~ vat: id text}>;
main then(each contact, then(part <person: person, firm: firm>,
  {person ~ people: each {name ~ name: id text, phone ~ phone: id text, right note: text},
   firm ~ firms: each id firm}))
"""
BOOK_WORDS = (
    ("left", '[{"ins":2},{"mod":[1,[{"switch":["person","firm",[{"at":["name",[{"set":"Acme"}]]}]]}]]}]'),
    ("right", '[{"at":["people",[{"mod":[0,[{"at":["name",[{"set":"Ida"}]]},{"at":["note",[{"set":"call"}]]}]]}]]}]'),
    ("left", '[{"mod":[0,[{"stay":["person",[{"at":["birthday",[{"set":"2 May"}]]}]]}]]}]'),
)
BOOK_ANSWERS = (
    'ok 1 right [{"at":["people",[{"ins":2}]]},{"at":["people",[{"del":1}]]},{"at":["firms",[{"ins":1},{"mod":[0,[{"at":["name",[{"set":"Acme"}]]}]]}]]}]\n'
    'ok 2 left [{"mod":[0,[{"stay":["person",[{"at":["name",[{"set":"Ida"}]]}]]}]]}]\n'
    "ok 3 right []\n"
)
BOOK_STATE = (
    'left [{"person":{"birthday":"2 May","name":"Ida","phone":""}},{"firm":{"name":"Acme","vat":""}}]\n'
    'right {"firms":[{"name":"Acme","vat":""}],"people":[{"name":"Ida","note":"call","phone":""}]}\n'
    'complement {"then":[{"list":[{"alt":["person",{"rec":[null,null]}]},{"alt":["firm",{"rec":[null,null]}]}]},'
    '{"then":[{"tags":["person","firm"]},{"rec":[{"list":[{"rec":[null,null]}]},{"list":[null]}]}]}]}\n'
)


USAGE = "usage: editlens run|check|init|apply|show|verify|pack|gen N SEED|hub|link|undo K|import\n"
BOOK_CANONICAL = (
    "type person = {name: text, phone: text};\n"
    "type firm = {name: text, vat: text};\n"
    "lens contact = <person ~ person: {name ~ name: id text, phone ~ phone: id text, left birthday: text}, "
    "firm ~ firm: {name ~ name: id text, vat ~ vat: id text}>;\n"
    "main then(each contact, then(part <person: person, firm: firm>, "
    "{person ~ people: each {name ~ name: id text, phone ~ phone: id text, right note: text}, firm ~ firms: each id firm}))"
)
BOOK_FIRST = 'left []\nright {"firms":[],"people":[]}\ncomplement {"then":[{"list":[]},{"then":[{"tags":[]},{"rec":[{"list":[]},{"list":[]}]}]}]}\n'
BOOK_LAST = (
    'left [{"person":{"birthday":"","name":"","phone":""}},{"person":{"birthday":"2 May","name":"Ida","phone":""}},{"firm":{"name":"Acme","vat":""}}]\n'
    'right {"firms":[{"name":"Acme","vat":""}],"people":[{"name":"","note":"","phone":""},{"name":"Ida","note":"call","phone":""}]}\n'
    'complement {"then":[{"list":[{"alt":["person",{"rec":[null,null]}]},{"alt":["person",{"rec":[null,null]}]},{"alt":["firm",{"rec":[null,null]}]}]},'
    '{"then":[{"tags":["person","person","firm"]},{"rec":[{"list":[{"rec":[null,null]},{"rec":[null,null]}]},{"list":[null]}]}]}]}\n'
)

HUB = """main {a ~ x: id int, left b: int}
+++
main {a ~ p: id int, b ~ q: id int}
---
{"at":0,"edit":[{"at":["x",[{"set":3}]]}]}
{"at":1,"edit":[{"at":["q",[{"add":2}]]}]}
{"at":2,"edit":[]}
"""
HUB_ANSWERS = """ok 1 [{"at":["a",[{"set":3}]]}] [[{"at":["x",[{"set":3}]]}],[{"at":["p",[{"set":3}]]}]]
ok 2 [{"at":["b",[{"add":2}]]}] [[],[{"at":["q",[{"add":2}]]}]]
refused 3 no-view
hub {"a":3,"b":2}
view 0 {"x":3}
complement 0 {"rec":[null]}
view 1 {"p":3,"q":2}
complement 1 {"rec":[null,null]}
"""
LINK = """{"edit":["left",[{"at":["a",[{"set":5}]]}]]}
{"seal":"left"}
{"send":"left"}
{"edit":["right",[]]}

{"deliver":0}
{"deliver":0}
{"restart":"right"}
"""
LINK_ANSWERS = """ok 1 draft
ok 2 batch 1 [{"at":["b",[{"set":5}]]}]
ok 3 packet 0
refused 4 not-turn 0
ok 5 taken 1
ok 6 stale 1
ok 7 restart
left {"a":5}
right {"b":5}
complement {"rec":[null]}
numbers 1 1
"""


def step(words, status, given, wanted, before=b"", after=None, number=0):
    """The bytes of a step: a case of its own where its number is 0."""
    return write_step(words, status, given.encode(), wanted.encode(), number, (before, before if after is None else after))


def runs():
    """Scripts and refused words, over no store."""
    yield step(["run"], 0, PLAIN + "\n---\n" + line("left", SET), 'ok 1 right [{"at":["b",[{"set":5}]]}]\n' + STATE % (5, 5))
    yield step(["run"], 1, PLAIN + "\n---\n" + THREE, THREE_ANSWERS + STATE % (6, 6))
    yield step(["run"], 0, SPLIT + "\n---\n" + SWITCHES, SWITCHES_ANSWERS + SWITCHES_STATE)
    yield step(["run"], 0, BOOK + "---\n" + "".join(line(*it) for it in BOOK_WORDS), BOOK_ANSWERS + BOOK_STATE)
    yield step(["run"], 0, PLAIN + "\n---\n" + GROUP + "\n", GROUP_ANSWER + STATE % (6, 6))
    yield step(["run"], 3, "main idd int\n---\n", "program refused: not-a-program 9\n")
    yield step(["check"], 3, "main bij[\"x\"=\"y\",\"z\"=\"y\"]", "program refused: repeated-member y\n")
    yield step(["check"], 0, PLAIN, "left {a: int}\nright {b: int}\n")
    yield step(["frob"], 2, "", USAGE)


def stores():
    """Each command over a store of either version."""
    begun = log(program(PLAIN))
    changed = log(program(PLAIN), entry("left", SET), entry("right", ADD), entry("left", "[]"))
    yield step(["init"], 0, PLAIN, STATE % (0, 0), b"", begun)
    yield step(["init"], 4, PLAIN, "store refused: log-exists\n", begun)
    yield step(["init"], 3, "main idd int", "program refused: not-a-program 9\n")
    yield step(["apply"], 0, "", STATE % (0, 0), begun)
    yield step(["apply"], 1, THREE, THREE_ANSWERS + STATE % (6, 6), begun, changed)
    yield step(["apply"], 0, GROUP, GROUP_ANSWER + STATE % (6, 6), begun, log(program(PLAIN), GROUP))
    first = log(program(PLAIN, 1))
    yield step(["apply"], 0, "", STATE % (0, 0), first, log(program(PLAIN, 1), '{"version":2}'))
    upgraded = log(program(PLAIN, 1), '{"version":2}', entry("left", SET), entry("right", ADD), entry("left", "[]"))
    yield step(["apply"], 1, THREE, THREE_ANSWERS + STATE % (6, 6), first, upgraded)
    yield step(["apply"], 4, THREE, "store refused: bad-record 1\n", begun[:-1])
    yield step(["show"], 0, "", STATE % (6, 6), changed)
    yield step(["verify"], 0, "", "consistent 3\n", changed)
    yield step(["verify"], 0, "", "consistent 3\n", upgraded)
    yield step(["verify"], 0, "", "consistent 1\n", log(program(PLAIN), GROUP))
    packed = log(program(PLAIN), GROUP, SNAPSHOT)
    yield step(["pack"], 0, "", "packed 1\n", log(program(PLAIN), GROUP), packed)
    old = (program(PLAIN, 1), entry("left", SET), entry("right", ADD))
    yield step(["pack"], 0, "", "packed 2\n", log(*old), log(*old, '{"version":2}', SNAPSHOT))
    yield step(["verify"], 0, "", "consistent 1\n", packed)
    canonical = BOOK_CANONICAL
    book = log(program(canonical))
    entries = [entry(*it) for it in BOOK_WORDS]
    yield step(["init"], 0, BOOK, BOOK_FIRST, b"", book)
    yield step(["apply"], 0, "".join(line(*it) for it in BOOK_WORDS), BOOK_ANSWERS + BOOK_STATE, book, log(program(canonical), *entries))
    yield step(["verify"], 0, "", "consistent 3\n", log(program(canonical), *entries))


def sequences():
    """Commands one after another: the store of each is that which the one before has left."""
    begun = log(program(PLAIN))
    assert len(begun) == 64 and begun[9:17] == bytes((0x2E, 0, 0, 0, 0, 0, 0, 0))
    yield step(["init"], 0, PLAIN, STATE % (0, 0), b"", begun)
    yield step(["init"], 4, PLAIN, "store refused: log-exists\n", begun, number=1)
    yield step(["verify"], 0, "", "consistent 0\n", begun, number=2)
    yield step(["verify"], 4, "", "store refused: bad-record 1\n", begun[:50])
    yield step(["verify"], 4, "", "store refused: not-a-log\n")
    for tags, status, wanted in (
        (["o", "p"], 4, "store refused: not-consistent 2\n"),
        (["p", "o"], 0, 'left [{"p":""},{"o":7}]\nright {"o":[7],"p":[""]}\ncomplement {"tags":["p","o"]}\n'),
    ):
        snapshot = '{"snapshot":{"complement":{"tags":%s},"left":[{"p":""},{"o":7}],"right":{"o":[7],"p":[""]}}}' % json.dumps(tags)
        yield step(["show"], status, "", wanted, log(program(SPLIT), snapshot))
    # One apply of three changes, and three of one change each, leave the same store.
    words = (("left", SET), ("right", ADD), ("left", "[]"))
    answers = ('ok %d right [{"at":["b",[{"set":5}]]}]\n', 'ok %d left [{"at":["a",[{"add":1}]]}]\n', "ok %d right []\n")
    values = ((5, 5), (6, 6), (6, 6))
    yield step(["init"], 0, PLAIN, STATE % (0, 0), b"", begun)
    for place, word in enumerate(words):
        held = [entry(*it) for it in words]
        before, after = log(program(PLAIN), *held[:place]), log(program(PLAIN), *held[: place + 1])
        yield step(["apply"], 0, line(*word), answers[place] % 1 + STATE % values[place], before, after, place + 1)
    whole = "".join(answers[place] % (place + 1) for place in range(3)) + STATE % (6, 6)
    yield step(["apply"], 0, "".join(line(*it) for it in words), whole, begun, log(program(PLAIN), *[entry(*it) for it in words]))
    # A store of version 1 gets its version record, and a group only behind it.
    first = log(program(PLAIN, 1))
    assert len(first) == 52
    version = log(program(PLAIN, 1), '{"version":2}')
    assert len(version) == 74
    yield step(["verify"], 0, "", "consistent 0\n", first)
    yield step(["apply"], 0, "", STATE % (0, 0), first, version, 1)
    yield step(["verify"], 0, "", "consistent 0\n", version, number=2)
    yield step(["verify"], 4, "", "store refused: bad-record 2\n", log(program(PLAIN, 1), '{"group":[]}'))


def address_book():
    """A session that is packed and goes on."""
    records = [program(BOOK_CANONICAL)] + [entry(*it) for it in BOOK_WORDS]
    yield step(["init"], 0, BOOK, BOOK_FIRST, b"", log(records[0]))
    yield step(["apply"], 0, "".join(line(*it) for it in BOOK_WORDS), BOOK_ANSWERS + BOOK_STATE, log(records[0]), log(*records), 1)
    left, right, complement = (it.split(" ", 1)[1] for it in BOOK_STATE.rstrip("\n").split("\n"))
    packed = records + ['{"snapshot":{"complement":%s,"left":%s,"right":%s}}' % (complement, left, right)]
    yield step(["pack"], 0, "", "packed 3\n", log(*records), log(*packed), 2)
    words = (("right", '[{"at":["people",[{"ins":1}]]}]'), ("left", '[{"move":[2,0]}]'))
    answers = 'ok 1 left [{"ins":1}]\nok 2 right [{"at":["people",[{"move":[1,0]}]]}]\n'
    after = packed + [entry(*it) for it in words]
    yield step(["apply"], 0, "".join(line(*it) for it in words), answers + BOOK_LAST, log(*packed), log(*after), 3)
    yield step(["verify"], 0, "", "consistent 5\n", log(*after), number=4)


def scripts():
    """A hub and a link, which no store belongs to."""
    yield step(["hub"], 1, HUB, HUB_ANSWERS)
    yield step(["hub"], 3, "main id int\n+++\nmain id text\n", "program refused: views-differ 1\n")
    yield step(["link"], 1, PLAIN + "\n---\n" + LINK, LINK_ANSWERS)
    yield step(["link"], 3, "main idd int\n---\n" + LINK, "program refused: not-a-program 9\n")


def forged():
    """Stores of one record that are cut, changed or followed by something else: of both versions."""
    for version in (1, 2):
        whole = log(program(PLAIN, version))
        for size in range(len(whole)):
            told = "not-a-log" if size < len(MARK) + 1 else "bad-record 1"
            yield step(["verify"], 4, "", "store refused: %s\n" % told, whole[:size])
        other_mark = b"EDLENS2\n" + whole[len(MARK) :]
        yield step(["verify"], 4, "", "store refused: not-a-log\n", other_mark)
        yield step(["verify"], 4, "", "store refused: bad-record 1\n", whole[:8] + b"\2" + whole[9:])
        yield step(["verify"], 4, "", "store refused: bad-record 1\n", whole[:9] + b"\xff" * 8 + whole[17:])
        yield step(["verify"], 0, "", "consistent 0\n", whole + b"\1" * 1000)
        yield step(["verify"], 4, "", "store refused: bad-record 1\n", log(program("main id t", version)))
        snapshot = '{"snapshot":{"complement":%s,"left":{"a":1},"right":{"b":%d}}}'
        for second, told in (
            (entry("left", '[{"at":["zz",[]]}]'), "bad-record 2"),
            (program("main id int", version), "bad-record 2"),
            (snapshot % ('{"rec":[null]}', 2), "not-consistent 2"),
            (snapshot % ("null", 1), "bad-record 2"),
            ('{"version":2}' if version == 2 else '{"group":[]}', "bad-record 2"),
        ):
            yield step(["verify"], 4, "", "store refused: %s\n" % told, log(program(PLAIN, version), second))


def files():
    """The file of cases."""
    yield "case_commands/data/store_rows.cases", b"".join([*runs(), *stores(), *sequences(), *address_book(), *forged()])
