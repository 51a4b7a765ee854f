"""YAML and TOML of users' files: what is read, what is refused, and what stays where a file is written again."""

import copy
import importlib
import random

from editlens.json_text import NotJson
from editlens.natural import Number, read_file, read_text_of, write_file, write_text_of
from editlens.natural.debian import module
from editlens.natural.text import is_same

from . import Skipped

NEEDS_PROGRAM = False
TEXTS = ["x", "two words", "", "no", "0644", "2026-12-01", "a: b", "#", "- x", "it's", 'say "so"', "one\ntwo\n", "a\n\n  b", " x ", "é €", "\t", "1", "null", "22:22"]
PLAIN = ["x", "shop/web:1.4.2", "two words", "é"]
NUMBERS = ["0", "-0", "1.50", "1e3", "-2E-3", "123456789012345678901234567890", "0.50"]
NAMES = ["a", "b", "c d", "e", "on", "8080", "x: y", "it's"]


def needed(name, package):
    try:
        module(name, package, name)
    except NotJson:
        raise Skipped(f"{package} is not installed") from None


def number(text):
    return int(text) if text.lstrip("-").isdigit() and text != "-0" else Number(text)


def some_value(depth, has_null=True):
    """A random tree."""
    kind = random.random()
    if depth and kind < 0.35:
        return {name: some_value(depth - 1, has_null) for name in random.sample(NAMES, random.randint(0, 4))}
    if depth and kind < 0.6:
        return [some_value(depth - 1, has_null) for _ in range(random.randint(0, 4))]
    choices = [random.choice(TEXTS), random.choice(TEXTS), number(random.choice(NUMBERS)), True, *([None] if has_null else [])]
    return random.choice(choices)


class Yaml:
    """Writes random trees as YAML in random ways: with comments, in blocks or in one line, with anchors that are named and merged later."""

    def __init__(self):
        self.count, self.lists, self.anchors = 0, random.choice([0, 2, 4]), {}

    def comment(self):
        self.count += 1
        return f"# c{self.count}"

    def text(self, tree):
        head = "\n".join(f"# h{it}" for it in range(random.randint(0, 2)))
        body = "\n".join(self.block(tree, 0))
        # A text in lines that ends the file without a line end is another one.
        return f"{head}\n{body}" + random.choice(["\n", "\n# end\n", *([] if body.endswith("two") else [""])])

    def block(self, tree, column):
        """The lines of a value in a block."""
        if not tree or not isinstance(tree, (dict, list)):
            return [" " * column + self.one(tree)]
        lines = []
        for name, value in tree.items() if isinstance(tree, dict) else enumerate(tree):
            if random.random() < 0.3:
                lines += [*([""] if random.random() < 0.5 else []), " " * column + self.comment()]
            key = " " * column + (self.one(name) + ":" if isinstance(tree, dict) else "-")
            lines += self.entry(key, value, column, isinstance(tree, list))
        return lines

    def entry(self, key, value, column, is_item):
        known = [name for name, it in self.anchors.items() if is_same(it, value)]
        if known and random.random() < 0.5:
            return [f"{key} *{known[-1]}"]
        anchor = ""
        if random.random() < 0.15:
            anchor = f" &n{self.count}"
            self.count += 1
        lines = self.entry_with(key + anchor, value, column, is_item)
        if anchor:
            self.anchors[anchor[2:]] = value
        return lines

    def entry_with(self, key, value, column, is_item):
        said = f"   {self.comment()}" if random.random() < 0.5 else ""
        if not isinstance(value, (dict, list)) and isinstance(value, str) and value.startswith("one\n") and random.random() < 0.7:
            return [key + " |" + said, *(" " * (column + 3) + it for it in value.rstrip("\n").split("\n"))]
        if value is None and random.random() < 0.5:
            return [key + said]
        if not isinstance(value, (dict, list)) or not value or random.random() < 0.2:
            return [key + " " + self.one(value) + said]
        inside = column + (self.lists if isinstance(value, list) and not is_item else random.choice([2, 2, 4]))
        below = self.block(value, inside)
        if is_item and not said and "#" not in key and below[0].strip() and not below[0].strip().startswith("#") and "&" not in key and inside == column + 2:
            return [key + " " + below[0].lstrip(), *below[1:]]
        return [key + said, *below]

    def one(self, value):
        """A value in one line."""
        if isinstance(value, dict):
            return "{" + ", ".join(f"{write_file(name)}: {self.one(it)}" for name, it in value.items()) + "}"
        if isinstance(value, list):
            return "[" + ", ".join(map(self.one, value)) + "]"
        if isinstance(value, str) and value in PLAIN and ":" not in value and random.random() < 0.6:
            return value
        if isinstance(value, str) and "\n" not in value and "\t" not in value and random.random() < 0.3:
            return "'" + value.replace("'", "''") + "'"
        return write_file(value)


def places_in(tree, path=()):
    yield path
    for step, it in tree.items() if isinstance(tree, dict) else enumerate(tree) if isinstance(tree, list) else ():
        yield from places_in(it, (*path, step))


def at(tree, path):
    for step in path:
        tree = tree[step]
    return tree


def changed(tree, has_null=True):
    """A tree with a random change: a value set, a member or an item added, taken out or moved."""
    tree = copy.deepcopy(tree)
    path = random.choice([it for it in places_in(tree) if it] or [()])
    if not path:
        return some_value(2, has_null) if has_null else {}
    around, last, what = at(tree, path[:-1]), path[-1], random.random()
    if what < 0.4:
        around[last] = some_value(random.choice([0, 0, 2]), has_null)
    elif what < 0.6:
        del around[last]
    elif isinstance(around, list) and what < 0.8:
        around.insert(random.randint(0, len(around)), around.pop(last))
    elif isinstance(around, list):
        around.insert(last, some_value(1, has_null))
    else:
        around[random.choice(NAMES)] = some_value(1, has_null)
    return tree


def tried_again(syntax, text, tree, count, has_null=True):
    """Changes a file some times, and returns how often the change could not be done in its place."""
    refused = 0
    for _ in range(count):
        wanted = changed(tree, has_null)
        try:
            text = write_text_of(wanted, syntax, text)
        except NotJson as why:
            assert str(why).startswith("this file cannot be changed in its place"), why
            refused += 1
            continue
        assert is_same(read_text_of(text, syntax), wanted), text
        tree = wanted
    return refused


def test_random_yaml():
    """Random files are read as they were meant. Each is changed some times, and shows each change."""
    needed("ruamel.yaml", "python3-ruamel.yaml")
    refused = 0
    for _ in range(150):
        tree = some_value(3)
        text = Yaml().text(tree)
        assert is_same(read_text_of(text, "yaml"), tree), text
        assert write_text_of(tree, "yaml", text) == text
        assert is_same(read_text_of(write_text_of(tree, "yaml"), "yaml"), tree)
        refused += tried_again("yaml", text, tree, 6)
    assert refused < 9, refused


def leaves(tree):
    return [it for it in places_in(tree) if it and not isinstance(at(tree, it), (dict, list))]


def test_one_value_changes_its_lines_alone():
    """Where one value of a random file changes, every comment stays, and no line but those of the value is another one."""
    needed("ruamel.yaml", "python3-ruamel.yaml")
    count = 0
    while count < 200:
        tree = some_value(3)
        text = Yaml().text(tree)
        if not leaves(tree) or "&n" in text:
            continue
        count += 1
        path = random.choice(leaves(tree))
        old, new = lines_after(putting(*path, value="changed"), text)
        was_in_lines = at(tree, path) == "one\ntwo\n"
        assert len(new) == 1 and (len(old) == 1 or was_in_lines and len(old) == 3), (text, path, old, new)
        assert "changed" in new[0] and old[0].count("# c") == new[0].count("# c"), (text, path, old, new)


def test_random_toml():
    needed("tomlkit", "python3-tomlkit")
    refused = 0
    for _ in range(80):
        tree = {name: some_value(2, has_null=False) for name in random.sample(NAMES, 3)}
        text = write_text_of(tree, "toml")
        assert is_same(read_text_of(text, "toml"), tree), text
        assert write_text_of(tree, "toml", text) == text
        refused += tried_again("toml", text, tree, 6, has_null=False)
    assert refused < 9, refused


COMPOSE = """\
# The shop. Ask before you change it.
x-common: &common   # for all
  restart: always
  logging: {driver: json-file, options: [a, b]}

services:
  # the web server
  web:
    <<: *common
    image: shop/web:1.4.2 # keep in step
    ports:
      # public
      - "8080:80"   # http

      # private
      - 9090:90
    cpus: 0.50
    motd: |
      Good
        morning

  # about db
  db:
    <<: *common
    command: ["serve", '-v']

# end
"""


def lines_after(change, text=COMPOSE, syntax="yaml"):
    """The lines that a change of the tree takes out of a file, and those that it puts in."""
    # Aliases share what they name, and a change is of one place.
    tree = read_file(write_file(read_text_of(text, syntax)))
    change(tree)
    old, new = text.split("\n"), write_text_of(tree, syntax, text).split("\n")
    while old and new and old[0] == new[0]:
        del old[0], new[0]
    while old and new and old[-1] == new[-1]:
        del old[-1], new[-1]
    return old, new


def putting(*path, value):
    """A change that puts a value at a path, or takes out what is there where the value is `del`."""

    def change(tree):
        around = at(tree, path[:-1])
        if value is del_:
            del around[path[-1]]
        else:
            around[path[-1]] = value

    return change


del_ = object()


def test_yaml_keeps_its_text():
    """What a change does not touch is as it was, to the byte."""
    needed("ruamel.yaml", "python3-ruamel.yaml")
    web = ("services", "web")
    assert lines_after(putting(*web, "image", value="shop/web:1.5")) == (
        ["    image: shop/web:1.4.2 # keep in step"],
        ["    image: shop/web:1.5 # keep in step"],
    )
    assert lines_after(putting(*web, "cpus", value=Number("0.750"))) == (["    cpus: 0.50"], ["    cpus: 0.750"])
    assert lines_after(putting(*web, "ports", 0, value="81:80")) == (['      - "8080:80"   # http'], ['      - "81:80"   # http'])
    assert lines_after(putting(*web, "ports", 0, value=del_)) == (["      # public", '      - "8080:80"   # http'], [])
    assert lines_after(putting(*web, "motd", value="a\n\nb\n")) == (["      Good", "        morning"], ["      a", "", "      b"])
    assert lines_after(putting("services", "db", value=del_)) == (
        ["  # about db", "  db:", "    <<: *common", """    command: ["serve", '-v']""", ""],
        [],
    )
    assert lines_after(putting("services", "db", "command", 1, value="it's")) == (
        ["""    command: ["serve", '-v']"""],
        ["""    command: ["serve", 'it''s']"""],
    )
    assert lines_after(lambda tree: at(tree, (*web, "ports")).reverse())[1] == [
        "",
        "      # private",
        "      - 9090:90",
        "      # public",
        '      - "8080:80"   # http',
    ]
    assert lines_after(putting("services", "cache", value={"image": "redis:7", "ports": ["6379", 22]})) == (
        [],
        ["  cache:", "    image: redis:7", "    ports:", '      - "6379"', "      - 22"],
    )


def test_yaml_anchors():
    """An alias stays while it shows what it should. Where it would not, the place gets a content of its own."""
    needed("ruamel.yaml", "python3-ruamel.yaml")
    tree = read_text_of(COMPOSE, "yaml")
    assert tree["services"]["db"]["restart"] == "always" and "<<" not in tree["services"]["db"]
    assert lines_after(putting("services", "db", "restart", value="no")) == ([], ['    restart: "no"'])

    def change_all(tree):
        for path in (("x-common",), ("services", "web"), ("services", "db")):
            at(tree, path)["restart"] = "never"

    assert lines_after(change_all) == (["  restart: always"], ["  restart: never"])
    assert lines_after(putting("x-common", "restart", value="never"))[1].count("    restart: always") == 2
    gone = "\n".join(lines_after(putting("services", "db", "restart", value=del_))[1])
    assert "<<" not in gone and "driver: json-file" in gone
    text = "a: &n [1, {b: 2}]\nb: *n\nc: *n\n"
    assert lines_after(putting("b", 0, value=5), text)[1] == ["b:", "  - 5", "  - b: 2"]
    assert write_text_of({"b": [1, {"b": 2}]}, "yaml", text) == "b:\n  - 1\n  - b: 2\n"


def test_toml_keeps_its_text():
    needed("tomlkit", "python3-tomlkit")
    text = '# head\ntitle = "x"   # said\nn = 0.50\n\n# the first\n[[rows]]\nports = [ 1, # one\n  2 ]\n[[rows]]\nname = \'b\'\n[deep.er]\nk = 1e3\n'
    assert write_file(read_text_of(text, "toml")) == '{"deep":{"er":{"k":1e3}},"n":0.50,"rows":[{"ports":[1,2]},{"name":"b"}],"title":"x"}'
    assert lines_after(putting("title", value="y"), text, "toml") == (['title = "x"   # said'], ['title = "y"   # said'])
    assert lines_after(putting("n", value=Number("1E-7")), text, "toml") == (["n = 0.50"], ["n = 1E-7"])
    assert lines_after(putting("rows", 0, "ports", 1, value=7), text, "toml") == (["  2 ]"], ["  7 ]"])
    assert lines_after(putting("deep", "er", "m", value=True), text, "toml") == ([], ["m = true"])
    assert lines_after(putting("rows", 1, value=del_), text, "toml") == (["[[rows]]", "name = 'b'"], [])


def refused(text, syntax):
    try:
        return write_file(read_text_of(text, syntax))
    except NotJson as why:
        return str(why)


REFUSED = {
    "yaml": {
        "a:\n  - 2026-12-01": '/a/0 (line 2): 2026-12-01 is a date to some programs, and JSON has none: write "2026-12-01" for a text',
        "a: 2026-12-01T10:00:00Z": "/a (line 1): 2026-12-01T10:00:00Z is a date to some programs",
        "restart: no": '/restart (line 1): no is false to some programs and a text to others: write false or "no"',
        "a: [On, off]": "/a/0 (line 1): On is true to some programs",
        "mode: 0644": '/mode (line 1): 0644 is a number to some programs, and JSON does not write it so: write it in decimal, or "0644" for a text',
        "ports: [22:22]": "/ports/0 (line 1): 22:22 is a number to some programs",
        "a: 0x1F\nb: +5\nc: .5\nd: 1_000\ne: .inf": "/a (line 1): 0x1F is a number to some programs",
        "a: 1\na: 2": '/a (line 2): the member "a" comes twice',
        '1: a\n"1": b': '/1 (line 2): the member "1" comes twice',
        "a: 1\n---\nb: 2": "line 2: a second document begins: give each document a file of its own",
        "a: !secret x": "/a (line 1): the tag !secret has no counterpart in JSON",
        "? [1]\n: 2": "(the document) (line 1): the key of a member is a text, without a tag or an anchor",
        "a: *b": "/a (line 1): no node above it, and not around it, is called &b",
        "a: &b [*b]": "/a/0 (line 1): no node above it, and not around it, is called &b",
        "a: [": "line 1: expected the node content",
        "": "the file is empty",
        "<<: [1]": "(the document) (line 1): << takes maps, and not 1",
        '"\\ud800"': "'utf-8' codec can't encode",
    },
    "toml": {
        "a = 2026-12-01": "/a: 2026-12-01: JSON has no dates: write a text",
        "a = [0x1F]": "/a/0: 0x1F: JSON does not write this number so: write it in decimal",
        "a = 1_000\nb = inf": "/a: 1_000: JSON does not write this number so",
        "a = 1\na = 2": 'Key "a" already exists.',
        "a = ": "at line 1",
    },
}
READ = {
    "a: yes it is\nb: 8080:80\nc: 1.2.3\nd: v1\non: push\n8080: x": '{"8080":"x","a":"yes it is","b":"8080:80","c":"1.2.3","d":"v1","on":"push"}',
    "a: 0.50\nb: 1e3\nc: -0\nd: 12345678901234567890": '{"a":0.50,"b":1e3,"c":-0,"d":12345678901234567890}',
    'a: "0644"\nb: \'no\'\nc: !!str 5': '{"a":"0644","b":"no","c":"5"}',
    "a: ~\nb:\nc: Null\nd: TRUE": '{"a":null,"b":null,"c":null,"d":true}',
    "%YAML 1.2\n---\na: >-\n  one\n  two\nb: |+\n  x\n\n...\n": '{"a":"one two","b":"x\\n\\n"}',
    "\ufeffa: {b: , c, 'd':1}\r\nx:\r\n- z\r\n": '{"a":{"b":null,"c":null,"d":1},"x":["z"]}',
    "a: &x {b: 1}\nc: {<<: *x, d: 2}\ne: [*x, *x]": '{"a":{"b":1},"c":{"b":1,"d":2},"e":[{"b":1},{"b":1}]}',
    "a: &x {k: 1}\nb: &y {k: 2, l: 3}\nc:\n  <<: [*x, *y]\n  m: 4": '{"a":{"k":1},"b":{"k":2,"l":3},"c":{"k":1,"l":3,"m":4}}',
}


def test_what_is_read():
    """Each text is read as it is meant, and refused with its place where programs differ or JSON has no such value."""
    needed("ruamel.yaml", "python3-ruamel.yaml")
    needed("tomlkit", "python3-tomlkit")
    for syntax, texts in REFUSED.items():
        for text, said in texts.items():
            assert said in refused(text, syntax), (text, refused(text, syntax))
    for text, file in READ.items():
        assert refused(text, "yaml") == file, (text, refused(text, "yaml"))
    assert refused("a: 1\nb: no\nc: 0644\n", "yaml").count("\n") == 1
    laughs = "a: &a [x, x]\n" + "".join(f"{it}: &{it} [*{chr(ord(it) - 1)}, *{chr(ord(it) - 1)}]\n" for it in "bcdefghijklmnopqrstuvwxyz")
    assert "with every alias expanded there are more than 1,048,576 values" in refused(laughs, "yaml")
    assert refused('{"a": [' * 3000, "yaml").startswith(("not YAML", "line"))


def test_line_ends_and_marks_stay():
    needed("ruamel.yaml", "python3-ruamel.yaml")
    text = "\ufeffa: 1\r\nb:\r\n  - x # c\r\n"
    assert write_text_of({"a": 1, "b": ["x", "z"]}, "yaml", text) == "\ufeffa: 1\r\nb:\r\n  - x # c\r\n  - z\r\n"
    assert write_text_of({"a": 1, "b": 2}, "yaml", "a: 1\nb: 3") == "a: 1\nb: 2"
    assert write_text_of({"a": 1, "b": "x\ny\n"}, "yaml", "a: 1") == "a: 1\nb: |\n  x\n  y\n"


def test_new_texts_are_read_alike():
    """Every text that is written without quotes is a text to a reader of YAML 1.1, too."""
    needed("yaml", "python3-yaml")
    yaml = importlib.import_module("yaml")
    needed("ruamel.yaml", "python3-ruamel.yaml")
    letters = "aeyNOonf0189.:-_/ ,+~xX'\"#&*!|>%@`{}[]?=\t\n\u00e9\u2028"
    for _ in range(1000):
        text = "".join(random.choice(letters) for _ in range(random.randint(0, 7)))
        said = write_text_of({"a": [text], text: [[]]}, "yaml")
        assert yaml.safe_load(said) == {"a": [text], text: [[]]}, (text, said)
        for plain in (text[1:], read_file("[1]")):
            assert yaml.safe_load(write_text_of({"k": plain}, "yaml")) == {"k": plain}
