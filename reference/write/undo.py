"""Writes rows of `undo` and `import` for case_commands. Each step is worked out by hand, and its stores are put together from their payloads."""

from ..stores import entry, line, log, program
from .stores import ADD, GROUP, PLAIN, SET, SPLIT, STATE, USAGE, step

NOTHING = "store refused: nothing-to-undo\n"
LEFT_TO = '[{"at":["a",[{"set":%d}]]}]'
RIGHT_TO = '[{"at":["b",[{"set":%d}]]}]'
BOTH_BACK = 'undo left [{"at":["a",[{"set":5}]]},{"at":["a",[{"set":0}]]}]\nundo right [{"at":["b",[{"set":5}]]},{"at":["b",[{"set":0}]]}]\n'
CHANGES = (entry("left", SET), entry("right", ADD), entry("left", "[]"))


def snapshot(value):
    """The record of a snapshot of PLAIN, where both documents have this value."""
    return '{"snapshot":{"complement":{"rec":[null]},"left":{"a":%d},"right":{"b":%d}}}' % (value, value)


def undone(left, right, value):
    """The lines of `undo` over a store of PLAIN, which end with the state of this value."""
    return "undo left %s\nundo right %s\n" % (left, right) + STATE % (value, value)


def counts():
    """One to three changes of three are undone, and no more."""
    held = (program(PLAIN),) + CHANGES
    for count, lines, value in (
        ("1", undone("[]", "[]", 6), 6),
        ("2", undone(LEFT_TO % 5, RIGHT_TO % 5, 5), 5),
        ("3", BOTH_BACK + STATE % (0, 0), 0),
        ("00000000000000000002", undone(LEFT_TO % 5, RIGHT_TO % 5, 5), 5),
    ):
        yield step(["undo", count], 0, "", lines, log(*held), log(*held, snapshot(value)))
    for count in ("4", "10000"):
        yield step(["undo", count], 4, "", NOTHING, log(*held))
    for words in (["undo"], ["undo", "0"], ["undo", "10001"], ["undo", "x"], ["undo", "1", "1"], ["import", "1"]):
        yield step(words, 2, "", USAGE)


def behind_records():
    """Only changes behind the last record of another kind are undone."""
    first, add = entry("left", SET), entry("right", ADD)
    packed = (program(PLAIN), first, snapshot(5), add)
    yield step(["undo", "1"], 0, "", undone(LEFT_TO % 5, RIGHT_TO % 5, 5), log(*packed), log(*packed, snapshot(5)))
    yield step(["undo", "2"], 4, "", NOTHING, log(*packed))
    old = (program(PLAIN, 1), first)
    upgraded = old + ('{"version":2}',)
    yield step(["undo", "1"], 0, "", undone(LEFT_TO % 0, RIGHT_TO % 0, 0), log(*old), log(*upgraded, snapshot(0)))
    yield step(["undo", "1"], 4, "", NOTHING, log(*upgraded))
    newer = (program(PLAIN, 1), '{"version":2}', first)
    yield step(["undo", "1"], 0, "", undone(LEFT_TO % 0, RIGHT_TO % 0, 0), log(*newer), log(*newer, snapshot(0)))
    yield step(["undo", "2"], 4, "", NOTHING, log(*newer))
    grouped = (program(PLAIN), GROUP)
    yield step(["undo", "1"], 0, "", BOTH_BACK + STATE % (0, 0), log(*grouped), log(*grouped, snapshot(0)))


def refused():
    """Stores that `undo` refuses as the other commands do."""
    whole = log(program(PLAIN), CHANGES[0])
    yield step(["undo", "1"], 4, "", "store refused: not-a-log\n")
    yield step(["undo", "1"], 4, "", "store refused: bad-record 2\n", whole[:-1])
    yield step(["undo", "1"], 4, "", "store refused: bad-record 2\n", log(program(PLAIN), entry("left", '[{"at":["zz",[]]}]')))
    uneven = '{"snapshot":{"complement":{"rec":[null]},"left":{"a":1},"right":{"b":2}}}'
    yield step(["undo", "1"], 4, "", "store refused: not-consistent 2\n", log(program(PLAIN), uneven, CHANGES[0]))
    yield step(["undo", "1"], 4, "", NOTHING, log(program(PLAIN)))


def sequences():
    """Commands one after another: the store of each is that which the one before has left."""
    held = [program(PLAIN)]
    yield step(["init"], 0, PLAIN, STATE % (0, 0), b"", log(*held))
    held.append(entry("left", SET))
    yield step(["apply"], 0, line("left", SET), 'ok 1 right [{"at":["b",[{"set":5}]]}]\n' + STATE % (5, 5), log(*held[:-1]), log(*held), 1)
    held.append(snapshot(0))
    yield step(["undo", "1"], 0, "", undone(LEFT_TO % 0, RIGHT_TO % 0, 0), log(*held[:-1]), log(*held), 2)
    yield step(["undo", "1"], 4, "", NOTHING, log(*held), number=3)
    yield step(["verify"], 0, "", "consistent 1\n", log(*held), number=4)
    held.append(entry("right", ADD))
    yield step(["apply"], 0, line("right", ADD), 'ok 1 left [{"at":["a",[{"add":1}]]}]\n' + STATE % (1, 1), log(*held[:-1]), log(*held), 5)
    held.append(snapshot(0))
    yield step(["undo", "1"], 0, "", undone(LEFT_TO % 0, RIGHT_TO % 0, 0), log(*held[:-1]), log(*held), 6)


def splits():
    """The complement is taken back, too: a content goes from one list of the right side to the other."""
    words = ('[{"ins":2}]', '[{"mod":[1,[{"switch":["p","o",[{"set":7}]]}]]}]')
    held = (program(SPLIT),) + tuple(entry("left", it) for it in words)
    switch_left = '{"mod":[1,[{"switch":["o","p",[]]}]]}'
    switch_right = '{"at":["o",[{"mod":[0,[{"set":0}]]},{"del":1}]]},{"at":["p",[{"ins":1}]]}'
    one = 'left [{"p":""},{"p":""}]\nright {"o":[],"p":["",""]}\ncomplement {"tags":["p","p"]}\n'
    two = 'left []\nright {"o":[],"p":[]}\ncomplement {"tags":[]}\n'
    record = '{"snapshot":{"complement":{"tags":%s},"left":%s,"right":{"o":[],"p":%s}}}'
    before_one = record % ('["p","p"]', '[{"p":""},{"p":""}]', '["",""]')
    before_two = record % ("[]", "[]", "[]")
    lines = "undo left [%s]\nundo right [%s]\n"
    yield step(["undo", "1"], 0, "", lines % (switch_left, switch_right) + one, log(*held), log(*held, before_one))
    yield step(["undo", "1"], 4, "", NOTHING, log(*held, before_one), number=1)
    both = lines % (switch_left + ',{"del":2}', switch_right + ',{"at":["p",[{"del":2}]]}')
    yield step(["undo", "2"], 0, "", both + two, log(*held), log(*held, before_two))


PERSON = "main {name ~ label: id text, left age: int, right note: text}"
ANN = '[{"at":["age",[{"set":41}]]},{"at":["name",[{"set":"Ann"}]]}]'
PERSON_STATE = 'left {"age":%d,"name":"%s"}\nright {"label":"%s","note":""}\ncomplement {"rec":[null]}\n'


def imports():
    """Documents that are imported, and what follows."""
    script = PERSON + "\n---\n"
    held = [program(PERSON), entry("left", ANN)]
    lines = 'ok 1 right [{"at":["label",[{"set":"Ann"}]]}]\n' + PERSON_STATE % (41, "Ann", "Ann")
    yield step(["import"], 0, script + '{"age":41,"name":"Ann"}\n', lines, b"", log(*held))
    yield step(["verify"], 0, "", "consistent 1\n", log(*held), number=1)
    yield step(["import"], 4, script + '{"age":41,"name":"Ann"}\n', "store refused: log-exists\n", log(*held), number=2)
    back = 'undo left [{"at":["name",[{"set":""}]]},{"at":["age",[{"set":0}]]}]\nundo right [{"at":["label",[{"set":""}]]}]\n'
    empty = '{"snapshot":{"complement":{"rec":[null]},"left":{"age":0,"name":""},"right":{"label":"","note":""}}}'
    yield step(["undo", "1"], 0, "", back + PERSON_STATE % (0, "", ""), log(*held), log(*held, empty), 3)
    yield step(["import"], 0, script + '\n  \n {"name":"Ann","age":41} \n\n', lines, b"", log(*held))
    first = [program(PERSON), entry("left", "[]")]
    yield step(["import"], 0, script + '{"age":0,"name":""}', "ok 1 right []\n" + PERSON_STATE % (0, "", ""), b"", log(*first))
    yield step(["verify"], 0, "", "consistent 1\n", log(*first), number=1)
    tags = [program(SPLIT), entry("left", '[{"ins":2},{"mod":[1,[{"switch":["p","o",[{"set":7}]]}]]}]')]
    answer = (
        'ok 1 right [{"at":["p",[{"ins":2}]]},{"at":["p",[{"del":1}]]},{"at":["o",[{"ins":1},{"mod":[0,[{"set":7}]]}]]}]\n'
        'left [{"p":""},{"o":7}]\nright {"o":[7],"p":[""]}\ncomplement {"tags":["p","o"]}\n'
    )
    yield step(["import"], 0, SPLIT + '\n---\n[{"p":""},{"o":7}]\n', answer, b"", log(*tags))


def refused_imports():
    """Each refusal leaves no store. Only the longest line is elsewhere: case_long_inputs makes it."""
    script = PERSON + "\n---\n"
    ann = '{"age":41,"name":"Ann"}\n'
    for given, reason in (
        ("", "no-document"),
        ("\n   \n", "no-document"),
        (ann + ann, "extra-line"),
        ("{\n" + ann, "extra-line"),
        ("{\n", "not-json"),
        ('{"age":41,"name":"Ann"}}\n', "not-json"),
        ('{"age":41}\n', "not-of-type"),
        ('{"age":"41","name":"Ann"}\n', "not-of-type"),
        ("null\n", "not-of-type"),
    ):
        yield step(["import"], 1, script + given, "import refused: %s\n" % reason)
    yield step(["import"], 1, PERSON, "import refused: no-document\n")
    yield step(["import"], 3, "main idd int\n---\n" + ann, "program refused: not-a-program 9\n")


def files():
    """The file of cases."""
    parts = (counts, behind_records, refused, sequences, splits, imports, refused_imports)
    yield "case_commands/data/undo_rows.cases", b"".join(row for part in parts for row in part())
