"""Users' files through the clients: patches in and out, private data that is not lost, and places that are named by what they have."""

import tempfile

from editlens import Session, Store
from editlens.answers import Refused
from editlens.edits import act
from editlens.named import NotFound, with_places
from editlens.natural import FormFault, NoCounterpart, NotWritable, read_file, write_file
from editlens.private import PrivateLoss
from editlens.types import read_type

from . import raised
from .natural_patches import some_operation
from .patches import patched

LENS = """lens item = {t ~ t: id text, right p: text};
main {k ~ k: keyed item, l ~ l: each item, r ~ r: tree item, x ~ x: <a ~ a: item, b ~ b: item>, left z: list text}"""
FORM = {"/r": {"children": "c"}, "/x": {"kind": "kind"}}


def marked_session():
    """A session whose right side has a text of its own in every item, and the texts."""
    session = Session(LENS, forms={"left": FORM})
    items = [["l", [{"ins": 3}]], ["k", [{"put": "a"}, {"put": "b"}]], ["r", [{"graft": []}, {"graft": [0]}, {"graft": []}]]]
    session.left([{"at": it} for it in items])
    places = [("l", number) for number in range(3)] + [("k", "a"), ("k", "b")] + [("r", path) for path in ([], [0], [0, 0], [1])]
    for number, (field, place) in enumerate(places):
        session.right([{"at": [field, [{"mod": [place, [{"at": ["p", [{"set": f"mark {number}"}]]}]]}]]}])
    session.right([{"at": ["x", [{"stay": ["a", [{"at": ["p", [{"set": "mark x"}]]}]]}]]}])
    return session, {f"mark {number}" for number in range(len(places))} | {"mark x"}


def marks(tree):
    """The marks in a tree."""
    inside = tree.values() if isinstance(tree, dict) else tree if isinstance(tree, list) else ()
    return {tree} if isinstance(tree, str) and tree.startswith("mark") else set().union(*map(marks, inside))


def says_that_something_goes(op):
    """Whether an operation is a `remove`, or null in place of a value."""
    return op["op"] == "remove" or op["op"] in ("add", "replace") and op["value"] is None


def test_nothing_private_is_lost_silently():
    """A patch is accepted without a loss, says itself that something goes, or is refused. A refused one that is told to is accepted, and loses.

    It is refused for a place of the type, if any of its values is not the initial one. So it may lose nothing after earlier losses.
    """
    kept = lost = 0
    for _ in range(2):
        session, every = marked_session()
        with session:
            for _ in range(80):
                file, before = session.files["left"], marks(session.documents["right"])
                patch = read_file(write_file([some_operation(file, file)]))
                try:
                    session.files.patch("left", patch)
                except NoCounterpart:
                    continue
                except PrivateLoss as why:
                    assert marks(session.documents["right"]) == before and why.places
                    if lost < 8:
                        session.files.patch("left", patch, drop_private=True)
                        lost += marks(session.documents["right"]) < before
                    continue
                kept += 1
                assert marks(session.documents["right"]) == before or says_that_something_goes(*patch), patch
                if len(before) < 5:
                    break
    assert kept > 20 and lost, (kept, lost)


def test_what_would_be_lost_is_named():
    with Session("main {mails ~ emails: each {mail ~ address: id text, left verified: bool}, left n: int}") as session:
        session.left([{"at": ["mails", [{"ins": 1}, {"mod": [0, [{"at": ["mail", [{"set": "a@b"}]]}, {"at": ["verified", [{"set": True}]]}]]}]]}])
        new = [{"op": "replace", "path": "/emails", "value": [{"address": "a@b"}, {"address": "c@d"}]}]
        why = raised(PrivateLoss, lambda: session.files.patch("right", new))
        said = "operation 0: by this replace of /emails the left side would lose what it alone has at /mails/*/verified"
        assert str(why) == said and why.places == [("mails", "*", "verified")], why
        assert session.files.patch("right", [{"op": "add", "path": "/emails/-", "value": {"address": "c@d"}}]).patch[0]["path"] == "/mails/-"
        session.left([{"at": ["mails", [{"mod": [0, [{"at": ["verified", [{"set": False}]]}]]}]]}])
        assert session.files.patch("right", new).answer.number == 4, "what has its initial value is not lost"


def test_a_patch_that_makes_a_key_before_it_takes_something_away():
    """What is private is found out in a state in which the other side has that key too."""
    with Session("main {people ~ names: keyed id text, left kind: <a: unit, b: text>}") as session:
        patch = [{"op": "add", "path": "/people/ann", "value": "Ann"}, {"op": "replace", "path": "/kind", "value": {"b": "x"}}]
        session.files.patch("left", patch)
        assert session.documents == {"left": {"people": {"ann": "Ann"}, "kind": {"b": "x"}}, "right": {"names": {"ann": "Ann"}}}


def test_edits_name_items_and_nodes():
    ty = read_type('{l: list {"id": text, n: int}, t: tree <a: {"id": text}, b: {"id": text, n: int}>}')
    nodes = [{"a": {"id": "root"}}, {"b": {"id": "x", "n": 1}}, {"a": {"id": "y"}}, {"a": {"id": "z"}}]
    document = {"l": [{"id": "p", "n": 1}, {"id": "q", "n": 1}], "t": {"depths": [0, 1, 2, 1], "items": nodes}}
    for edit, wanted, places in (
        ([{"at": ["l", [{"mod": [{"where": {"id": "q"}}, [{"at": ["n", [{"add": 1}]]}]]}]]}], {"mod": [1, [{"at": ["n", [{"add": 1}]]}]]}, [1]),
        ([{"at": ["l", [{"move": [{"where": {"id": "q", "n": 1}}, 0]}]]}], {"move": [1, 0]}, [1]),
        ([{"at": ["t", [{"graft": {"where": {"id": "y"}}}]]}], {"graft": [0, 0]}, [[0, 0]]),
        ([{"at": ["t", [{"prune": {"where": {"id": "x"}}}]]}], {"prune": [0]}, [[0]]),
        ([{"at": ["t", [{"shift": [{"where": {"id": "root"}}, 1, 0]}]]}], {"shift": [[], 1, 0]}, [[]]),
        ([{"at": ["t", [{"hang": [{"where": {"id": "x"}}, {"where": {"id": "z"}}]}]]}], {"hang": [[0], [0]]}, [[0], [0]]),
    ):
        found, positions = with_places(ty, document, edit)
        assert (found[0]["at"][1], positions) == ([wanted], places), (edit, found, positions)
        assert act(ty, document, found)
    moved = [{"at": ["l", [{"move": [0, 1]}, {"mod": [{"where": {"id": "q"}}, []]}]]}]
    assert with_places(ty, document, moved)[1] == [0], "the first primitive has acted when the second is read"
    several = '2 places in /l have {"n":1}: [0,1]'
    for wrong, said in (({"id": "none"}, "no place in /l"), ({"n": 1}, several), ({"n": True}, "no place in /l"), ({}, "a place is named")):
        why = raised(NotFound, lambda: with_places(ty, document, [{"at": ["l", [{"mod": [{"where": wrong}, []]}]]}]))
        assert said in str(why), why


def test_patches_name_items_and_nodes():
    session, _ = marked_session()
    with session:
        session.left([{"at": ["r", [{"mod": [[0, 0], [{"at": ["t", [{"set": "deep"}]]}]]}, {"mod": [[1], [{"at": ["t", [{"set": "last"}]]}]]}]]}])
        session.right([{"at": ["r", [{"shift": [[], 1, 0]}]]}])
        done = session.files.patch("left", [{"op": "replace", "path": ["r", {"where": {"t": "deep"}}, "t"], "value": "found"}])
        assert done.sent[0]["path"] == "/r/c/1/c/0/t" and done.patch == [{"op": "replace", "path": "/r/items/3/t", "value": "found"}], done
        move = [{"op": "move", "from": ["r", {"where": {"t": "found"}}], "path": ["r", {"where": {"t": "last"}}, "c", 0]}]
        assert session.files.patch("left", move).answer.word == [{"at": ["r", [{"hang": [[1, 0], [0]]}]]}]
        assert marks(session.files["left"]) == set() and session.files["left"]["r"]["c"][0]["c"] == [{"c": [], "t": "found"}]
        for where, said in (({"t": "none"}, "no place in /r has"), ({"t": ""}, "2 places in /r have")):
            why = raised(NoCounterpart, lambda: session.files.patch("left", [{"op": "remove", "path": ["r", {"where": where}]}]))
            assert said in str(why), why
        answer = session.right([{"at": ["r", [{"mod": [{"where": {"t": "found"}}, [{"at": ["p", [{"set": "seen"}]]}]]}]]}])
        assert answer.places == ([0, 0],) and session.documents["right"]["r"]["items"][2]["p"] == "seen"


def test_a_name_is_read_without_what_moves():
    """The path of a move is read when the value is taken away: names that come behind it still lead to what they name."""
    with Session("main {l ~ l: each {t ~ t: id text}, r ~ r: tree {t ~ t: id text}}", forms={"left": {"/r": {"children": "c"}}}) as session:
        nodes = [{"t": name, "c": []} for name in ("one", "two", "three")]
        session.files.patch("left", [{"op": "replace", "path": "/r/c", "value": nodes}, {"op": "replace", "path": "/l", "value": [{"t": "a"}, {"t": "b"}]}])
        into = [{"op": "move", "from": ["r", {"where": {"t": "one"}}], "path": ["r", {"where": {"t": "two"}}, "c", "-"]}]
        done = session.files.patch("left", into)
        assert session.files["left"]["r"]["c"] == [{"t": "two", "c": [{"t": "one", "c": []}]}, {"t": "three", "c": []}]
        ends = [(op["from"], op["path"]) for op in done.sent]
        assert ends == [("/r/c/0", "/r/c/2"), ("/r/c/2", "/r/c/0/c/-")], ends
        into[0]["path"][1], into[0]["from"][1] = {"where": {"t": "three"}}, {"where": {"t": "two"}}
        session.files.patch("left", into)
        assert session.files["left"]["r"]["c"] == [{"t": "three", "c": [{"t": "two", "c": [{"t": "one", "c": []}]}]}]
        into[0]["path"][1], into[0]["from"][1] = {"where": {"t": "one"}}, {"where": {"t": "three"}}
        why = raised(NoCounterpart, lambda: session.files.patch("left", into))
        assert "moved into itself" in str(why), why
        session.files.patch("left", [{"op": "move", "from": ["l", {"where": {"t": "a"}}], "path": ["l", 1]}])
        assert session.files["left"]["l"] == [{"t": "b"}, {"t": "a"}]


def test_files_of_an_open_store():
    """Both users keep a file by the patches that they get, through a store that is closed and opened again."""
    forms = {"left": {"/users": {"key": "id", "order": "order"}, "/users/users/*/phone": {"missing": "none"}}, "right": {"/cost": "number"}}
    lens = """lens user = {name ~ called: id text, phone ~ phone: <none ~ none: id unit, some ~ some: id text>};
main {users ~ people: {users ~ people: keyed user, left order: list text}, price ~ cost: id text = "0"}"""
    with tempfile.TemporaryDirectory() as folder:
        Store.init(folder, lens)
        with Store.open(folder, forms=forms) as store:
            files = {side: store.files[side] for side in ("left", "right")}
            assert write_file(files["right"]) == '{"cost":0,"people":{"people":{}}}'
            for patch in (
                [{"op": "add", "path": "/users/-", "value": {"id": "b", "name": "Bo"}}, {"op": "replace", "path": "/price", "value": "1.50"}],
                [{"op": "add", "path": "/users/0", "value": {"id": "x", "name": "Xi", "phone": "11"}}],
                [{"op": "remove", "path": "/users/0/phone"}, {"op": "move", "from": "/users/1", "path": "/users/0"}],
            ):
                done = store.files.patch("left", patch)
                files = {"left": patched(files["left"], patch)[0], "right": patched(files["right"], done.patch)[0]}
        with Store.open(folder, forms=forms) as store:
            assert {side: write_file(store.files[side]) for side in files} == {side: write_file(it) for side, it in files.items()}
            people = '{"b":{"called":"Bo","phone":{"none":null}},"x":{"called":"Xi","phone":{"none":null}}}'
            assert write_file(files["right"]) == '{"cost":1.50,"people":{"people":' + people + "}}"
            before = store.documents
            left, right = store.files.patches(before, store.undo())
            assert {side: write_file(store.files[side]) for side in files} == {
                side: write_file(patched(files[side], patch)[0]) for side, patch in (("left", left), ("right", right))
            }
            left_file, stored = store.files["left"], store.stored
            why = raised(NotWritable, lambda: store.files.patch("left", [{"op": "replace", "path": "/price", "value": "much"}]))
            assert str(why) == 'the right file could not show what comes of it: /cost: "much" is not the text of a number', why
            assert write_file(store.files["left"]) == write_file(left_file) and store.stored == stored
        raised(FormFault, lambda: Store.open(folder, forms={"left": {"/users/none": "flat"}}))
        with Store.open(folder) as store:
            raised(Refused, lambda: store.left([{"at": ["price", [{"set": 5}]]}]))
