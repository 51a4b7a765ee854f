"""Writes commands of `edithub` over hubs that are kept, worked out by the rules of docs/FORMATS.md."""

import random
from collections import namedtuple

from editlens.json_text import write_json

from ..documents import INT, TEXT
from ..kept_hubs import KeptHub, state_lines
from ..lenses import text_of, type_on
from ..steps import write_step
from ..stores import entry, log, program
from .links import left_word, right_word

USAGE = "usage: edithub init|apply|show|verify|pack|undo K|add\n"
NOTHING = "store refused: nothing-to-undo\n"
FIRST = ("rec", [("a", "x", ("id", INT)), ("left", "b", INT)])
SECOND = ("rec", [("a", "p", ("id", INT)), ("b", "q", ("id", INT))])
THIRD = ("rec", [("b", "z", ("id", INT)), ("left", "a", INT), ("right", "own", TEXT)])
TAGS = [("o", INT), ("p", TEXT)]
LISTS = [("part", TAGS), ("each", ("alt", [("o", "number", ("id", INT)), ("p", "name", ("id", TEXT))]))]
FILL = {"o": lambda c: [{"add": c.randrange(10)}], "p": lambda c: [{"set": "t%d" % c.randrange(100)}]}


Other = namedtuple("Other", "line why")
"""A line of a journal that is no change, and why; there is no reason for a line that is blank."""


def step(words, status, given, wanted, before=b"", after=None, number=0):
    """The bytes of a step: a case of its own where its number is 0."""
    return write_step(words, status, given.encode(), wanted.encode(), number, (before, before if after is None else after))


def script(*lenses):
    """The program part of these lenses."""
    return "\n+++\n".join("main " + text_of(lens) for lens in lenses)


def line_of(change):
    """The line of a journal that is an edit, which is a pair; a group of edits, which is a list; or another line."""
    if isinstance(change, Other):
        return change.line + "\n"
    if isinstance(change, list):
        return write_json({"group": [{"at": at, "edit": word} for at, word in change]}) + "\n"
    return write_json(dict(zip(("at", "edit"), change))) + "\n"


class Case:
    """Commands one after another, which begin with `init`."""

    def __init__(self, *lenses):
        self.kept, self.steps = KeptHub(lenses), []
        self.store = b""
        self.take(["init"], 0, script(*lenses), state_lines(self.kept.hub))

    def take(self, words, status, given, wanted):
        """A step over the store of the one before, behind which the store is that of the payloads."""
        after = log(*self.kept.payloads)
        self.steps.append(step(words, status, given, wanted, self.store, after, len(self.steps)))
        self.store = after

    def apply(self, *changes):
        """A journal of these lines."""
        answers = []
        for change in changes:
            number = len(answers) + 1
            if isinstance(change, list):
                answers.append(self.kept.group(number, change))
            elif not isinstance(change, Other):
                answers.append(self.kept.edit(number, *change))
            elif change.why:
                answers.append("refused %d %s\n" % (number, change.why))
        is_refused = any(answer.startswith("refused") for answer in answers)
        given, wanted = "".join(map(line_of, changes)), "".join(answers) + state_lines(self.kept.hub)
        self.take(["apply"], int(is_refused), given, wanted)

    def undo(self, count):
        """The last changes taken back, if they can be."""
        said = self.kept.undo(count)
        self.take(["undo", str(count)], 4 if said is None else 0, "", NOTHING if said is None else said)

    def add(self, lens, rest=""):
        """A view more, with a journal part that is not looked at."""
        wanted = self.kept.add(lens)
        self.take(["add"], 0, script(lens) + rest, wanted)

    def refused_add(self, part, why):
        """A program part that gives no view."""
        self.take(["add"], 3, part, "program refused: %s\n" % why)

    def look(self):
        """The two commands that only read, and a second `init`."""
        self.take(["show"], 0, "", state_lines(self.kept.hub))
        self.take(["verify"], 0, "", "consistent %d\n" % self.kept.count())
        self.take(["init"], 4, script(*self.kept.hub.lenses), "store refused: log-exists\n")

    def pack(self):
        """A snapshot."""
        wanted = self.kept.pack()
        self.take(["pack"], 0, "", wanted)

    def rows(self):
        """The bytes of all steps."""
        return b"".join(self.steps)


X3 = (0, [{"at": ["x", [{"set": 3}]]}])
Q2 = (1, [{"at": ["q", [{"add": 2}]]}])
A4 = ("hub", [{"at": ["a", [{"set": 4}]]}])


def two_views():
    """Edits, groups, lines that are refused, a snapshot, a view more, and changes that are taken back."""
    case = Case(FIRST, SECOND)
    case.look()
    case.apply()
    case.apply(X3, [Q2, A4], [("hub", []), (2, [])], [A4, (0, [{"at": ["y", []]}])], (7, []), [])
    case.apply(
        Other("   ", ""),
        Other("{", "not-json"),
        Other('{"at":"hub"}', "not-an-entry"),
        Other('{"at":-1,"edit":[]}', "not-an-entry"),
        Other('{"side":"left","edit":[]}', "not-an-entry"),
        Other('{"group":[{"at":"hub","edit":[]},{"at":"hub"}]}', "not-an-entry"),
        Other('{"group":{}}', "not-an-entry"),
        Other('{"at":"hub","edit":{}}', "not-an-edit"),
        Other('{"group":[{"at":9,"edit":[]},{"at":"hub","edit":[{"sit":1}]}]}', "not-an-edit"),
        ("hub", [{"set": 1}]),
        (18446744073709551615, []),
    )
    case.undo(4)
    case.undo(2)
    case.look()
    case.undo(1)
    case.apply(A4, Q2)
    case.pack()
    case.undo(1)
    case.refused_add("main id int", "views-differ 2")
    case.refused_add("main idd int", "view 2 not-a-program 9")
    case.refused_add(script(FIRST, SECOND), "view 2 not-a-program %d" % len(script(FIRST) + "\n"))
    case.add(THIRD, "\n---\nnot looked at")
    case.undo(1)
    case.apply((2, [{"at": ["z", [{"set": 7}]]}, {"at": ["own", [{"set": "w"}]]}]), ("hub", [{"at": ["b", [{"add": 1}]]}]))
    case.undo(2)
    case.look()
    yield case.rows()


def each_command():
    """Each command once where it is done and once where it is refused."""
    case = Case(FIRST, SECOND)
    case.apply(X3, [Q2, A4], (7, []))
    case.look()
    case.undo(1)
    case.pack()
    case.add(THIRD, "\n---\n")
    case.refused_add("main id int", "views-differ 3")
    case.undo(1)
    case.apply((2, [{"at": ["z", [{"set": 7}]]}]))
    yield case.rows()


def most_views():
    """63 views, one more, and one more than there may be."""
    many = [("rec", [("a", "v%d" % view, ("id", INT)), ("right", "own", TEXT)]) for view in range(65)]
    case = Case(*many[:63])
    case.apply(("hub", [{"at": ["a", [{"set": 1}]]}]))
    case.add(many[63])
    case.refused_add("main " + text_of(many[64]), "too-many-views")
    case.apply((63, [{"at": ["v63", [{"add": 1}]]}]), (64, []))
    case.undo(1)
    yield case.rows()
    yield step(["init"], 3, script(*many), "program refused: too-many-views\n")


def by_chance():
    """Random changes of a list, of its parts by kinds, and of a view that comes later."""
    for seed in range(3):
        chance, case = random.Random(seed), Case(*LISTS)

        def edit():
            at = chance.choice(("hub", 0))
            hub = case.kept.hub
            return at, right_word(chance, hub.views[0], FILL) if at == 0 else left_word(chance, hub.doc, FILL)

        for number in range(13):
            kind = chance.choice(("edit", "edit", "group", "undo", "pack"))
            if kind == "edit":
                case.apply(*[edit()])
            elif kind == "group":
                case.apply([edit(), edit()])
            elif kind == "undo":
                case.undo(chance.randint(1, 3))
            else:
                case.pack()
            if number == 7:
                case.add(("id", type_on(0, LISTS[0])))
        case.look()
        yield case.rows()


def words():
    """Words that name no command, and stores that are none."""
    for some in ([], ["frob"], ["run"], ["undo"], ["undo", "0"], ["undo", "+1"], ["undo", "10001"], ["show", "x"]):
        yield step(some, 2, "main {}", USAGE)
    for some in (["apply"], ["show"], ["verify"], ["pack"], ["undo", "1"], ["undo", "001"], ["add"]):
        yield step(some, 4, "", "store refused: not-a-log\n")
        yield step(some, 4, "", "store refused: bad-record 1\n", log(program("main {a ~ b: id int}"), entry("left", "[]")))
    yield from refused_scripts()


def refused_scripts():
    """Scripts that make no store."""
    yield step(["init"], 3, "main id int\n+++\nmain id text\n", "program refused: views-differ 1\n")
    yield step(["init"], 3, "main id int\n+++\nmain idd text\n", "program refused: view 1 not-a-program 9\n")
    yield step(["init"], 3, "", "program refused: view 0 not-a-program 0\n")


def failing():
    """The source fails, or the sink at the first line: a change is then stored, a journal that was not read is not."""
    whole = script(FIRST, SECOND)
    first = KeptHub([FIRST, SECOND])
    changed, packed, undone, added = (KeptHub([FIRST, SECOND]) for _ in range(4))
    for kept in (changed, packed, undone, added):
        kept.edit(1, *X3)
    packed.pack()
    undone.undo(1)
    added.add(THIRD)
    begun, one = log(*first.payloads), log(*changed.payloads)
    for words, given, before, after in (
        (["init"], whole, b"", begun),
        (["apply"], line_of(X3) + line_of(Q2), begun, one),
        (["add"], script(THIRD), one, log(*added.payloads)),
    ):
        yield write_step(words, 5, given.encode(), b"", 0, (before, before), {"source_fails": [0]})
        yield write_step(words, 6, given.encode(), b"", 0, (before, after), {"sink_fails": [0]})
    for words, after in ((["show"], one), (["verify"], one), (["pack"], log(*packed.payloads)), (["undo", "1"], log(*undone.payloads)), (["frob"], one)):
        yield write_step(words, 6, b"", b"", 0, (one, after), {"sink_fails": [0]})


def forged():
    """Payloads that stand for no hub, and some that stand for one though the program writes others."""
    first = KeptHub([FIRST, SECOND]).payloads[0]
    zero = 'hub {"a":0,"b":0}\nview 0 {"x":0}\ncomplement 0 {"rec":[null]}\nview 1 {"p":0,"q":0}\ncomplement 1 {"rec":[null,null]}\n'
    views = '{"snapshot":{"hub":%s,"views":[%s]}}'
    one, two = '{"complement":{"rec":[null]},"view":{"x":%d}}', '{"complement":{"rec":[null,null]},"view":{"p":%d,"q":%d}}'
    hub = '{"a":%d,"b":%d}'
    for payloads, told in (
        ((), "bad-record 1"),
        (('{"hub":[],"version":1}',), "bad-record 1"),
        (('{"hub":["main id int"]}',), "bad-record 1"),
        (('{"hub":["main id int"],"version":2}',), "bad-record 1"),
        (('{"hub":["main id int"],"version":1.0}',), "bad-record 1"),
        (('{"hub":"main id int","version":1}',), "bad-record 1"),
        (('{"hub":["main id int",1],"version":1}',), "bad-record 1"),
        (('{"hub":["main id int","main id text"],"version":1}',), "bad-record 1"),
        (('{"hub":["main idd int"],"version":1}',), "bad-record 1"),
        ((write_json({"hub": ["main id int"] * 65, "version": 1}),), "bad-record 1"),
        (('{"add":"main id int"}',), "bad-record 1"),
        ((first, first), "bad-record 2"),
        ((first, "{"), "bad-record 2"),
        ((first, '{"at":2,"edit":[]}'), "bad-record 2"),
        ((first, '{"at":"hub","edit":[]}', '{"at":"hub","edit":[{"set":1}]}'), "bad-record 3"),
        ((first, '{"group":[{"at":"hub","edit":[]},{"at":2,"edit":[]}]}'), "bad-record 2"),
        ((first, '{"entry":{"edit":[],"side":"left"}}'), "bad-record 2"),
        ((first, '{"version":1}'), "bad-record 2"),
        ((first, '{"add":"main id int"}'), "bad-record 2"),
        ((first, '{"add":"main idd int"}'), "bad-record 2"),
        ((first, '{"add":1}'), "bad-record 2"),
        ((first, views % (hub % (1, 2), one % 1)), "bad-record 2"),
        ((first, views % (hub % (1, 2), one % 1 + "," + two % (1, 2) + "," + two % (1, 2))), "bad-record 2"),
        ((first, views % ('{"a":1}', one % 1 + "," + two % (1, 2))), "bad-record 2"),
        ((first, views % (hub % (1, 2), one % 1 + ',{"complement":null,"view":{"p":1,"q":2}}')), "bad-record 2"),
        ((first, views % (hub % (1, 2), one % 1 + ',{"complement":{"rec":[null,null]},"view":{"p":1}}')), "bad-record 2"),
        ((first, views % (hub % (1, 2), one % 1 + "," + two % (1, 3))), "not-consistent 2"),
        ((first, views % (hub % (1, 2), one % 2 + "," + two % (1, 2))), "not-consistent 2"),
    ):
        yield step(["verify"], 4, "", "store refused: %s\n" % told, log(*payloads))
        yield step(["undo", "1"], 4, "", "store refused: %s\n" % told, log(*payloads))
    loose = ' {"version" : 1,"hub":["main {left b: int, a~x: id int}","main {a ~ p: id int, b ~ q: id int}"]}\n'
    for payloads in ((first,), (loose,), (first, '{"group":[]}'), (first, views % (hub % (0, 0), one % 0 + "," + two % (0, 0)))):
        yield step(["show"], 0, "", zero, log(*payloads))
    whole = log(first, '{"group":[]}')
    for size in range(len(whole) - 20, len(whole)):
        yield step(["show"], 4, "", "store refused: bad-record 2\n", whole[:size])
    yield step(["show"], 0, "", zero, whole + b"\1" * 1000)
    yield step(["apply"], 0, "", zero, whole)


def files():
    """The file of cases, and that of the steps in which every call of a device fails."""
    parts = (two_views, most_views, by_chance, words, failing, forged)
    yield "case_hubs/data/kept_hubs.cases", b"".join(row for part in parts for row in part())
    yield "case_hub_faults/data/hub_faults.cases", b"".join(row for part in (each_command, refused_scripts) for row in part())
