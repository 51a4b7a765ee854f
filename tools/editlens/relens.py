"""Stores made of documents that exist: of any JSON file, and of the documents of a store under another lens program."""

from __future__ import annotations

import os
from typing import Any, Iterable, Iterator, Sequence, cast

from .construct import set_steps, words_of
from .documents import misfits
from .json_text import pointer, read_json, shown, write_json
from .load import DoesNotFit, load_store
from .natural import plain, read_file_at, read_form_at, syntax_of, to_document
from .replacement import NotDone, Replacement
from .session import check
from .store import ImportRefused, Store
from .types import Ty, initial, write_name


def import_document(folder: str, program_text: str, document: Any, path: str | None = None, wait: float = 0.0) -> Any:
    """Makes a store that begins with a left document of any size. Raises DoesNotFit with every place that does not fit, and NotDone."""
    left, _ = check(program_text, path)
    _must_fit("left", left, document)
    os.makedirs(folder, exist_ok=True)
    with Replacement(folder, path, wait, Store) as made:
        if os.path.exists(made.old.file) and os.path.getsize(made.old.file):
            raise NotDone(f"{made.old.file} is there already: tools/store check says what it is")
        _begin(made.work, program_text, left, document, made.old.path)
        made.put()
        return made.old.show()


def _begin(folder, program_text, ty, document, path):
    try:
        Store.begin(folder, program_text, document, path)
    except ImportRefused as why:
        if why.reason != "line-too-long":
            raise
        lines = [write_json({"side": "left", "edit": word}) for word in words_of(set_steps(ty, document))]
        Store.init(folder, program_text, path).apply(lines)


def _must_fit(side, ty, document):
    wrong = list(misfits(ty, document))
    if wrong:
        raise DoesNotFit(side, wrong)


class Fitting:
    """A document made to fit a changed type: new fields of records begin with their initial values, and those that are gone are dropped.

    `renames` has the new names of fields that are gone, by the places of the old ones as a form file has them. What a field that is renamed
    had goes to the new one. `document` is what came of it. `new` and `gone` have the fields that came and went, by their places in the type,
    and `renamed` those that were renamed; `used` are the old names that were found. What does not fit in another way stays, so that it is
    refused.
    """

    def __init__(self, ty: Ty, document: Any, renames: Iterable[tuple[str, str]] = ()) -> None:
        self.new: dict[Any, list[Any]] = {}
        self.gone: dict[Any, list[Any]] = {}
        self.renamed: dict[Any, list[Any]] = {}
        self.used: set[str] = set()
        self._renames = dict(renames)
        self.document = self._fit(ty, document, (), ())

    def _fit(self, ty, tree, path, place):
        """What a value becomes. `path` is where it is in the document, and `place` where it is in the type, with the words of a person."""
        if ty.kind == "record" and isinstance(tree, dict):
            return self._record(ty, tree, path, place)
        if ty.kind == "alternatives" and isinstance(tree, dict):
            inside = {tag: (ty.field(tag), inner) for tag, inner in tree.items()}
            return {tag: self._fit(it, inner, (*path, tag), (*place, tag)) if it else inner for tag, (it, inner) in inside.items()}
        if ty.kind == "list" and isinstance(tree, list):
            return [self._fit(ty.inner, item, (*path, number), (*place, EVERY["list"])) for number, item in enumerate(tree)]
        if ty.kind == "keyed" and isinstance(tree, dict):
            return {key: self._fit(ty.inner, tree[key], (*path, key), (*place, EVERY["keyed"])) for key in tree}
        if ty.kind == "tree" and isinstance(tree, dict) and isinstance(tree.get("items"), list):
            inside = (*place, EVERY["tree"])
            return {**tree, "items": [self._fit(ty.inner, it, (*path, "items", number), inside) for number, it in enumerate(tree["items"])]}
        return tree

    def _record(self, ty, tree, path, place):
        left, made = dict(tree), {}
        for old in sorted(set(tree) - set(ty.names())):
            said, name = self._new_name((*place, old))
            if name in ty.names() and name not in left:
                left[name] = left.pop(old)
                self.used.add(said)
                self.renamed.setdefault((*place, old), []).append((*path, name))
        for name in sorted(set(left) - set(ty.names())):
            self.gone.setdefault((*place, name), []).append(((*path, name), left[name]))
        for name, inner in ty.fields:
            if name in left:
                made[name] = self._fit(inner, left[name], (*path, name), (*place, name))
            else:
                self.new.setdefault((*place, name), []).append((*path, name))
                made[name] = initial(inner)
        return made

    def _new_name(self, place):
        """By what a field that is gone is named, its place or else its name alone, and what it is called now. None where nothing is said."""
        for said in (pointer("*" if isinstance(it, _Every) else it for it in place), place[-1]):
            if said in self._renames:
                return said, self._renames[said]
        return None, None

    def new_paths(self) -> set[Any]:
        """The paths of all new fields."""
        return {path for paths in self.new.values() for path in paths}

    def lines(self, side: str, made: Any) -> Iterator[str]:
        """What was changed, in lines: one for each place of the type. `made` is the document that came of it in the end."""
        for place, found in self.gone.items():
            yield from _gone_lines(side, place, found)
        for place, paths in self.renamed.items():
            yield f"{side} {_said(place)} is now {paths[0][-1]}: {_values(paths)}"
        for place, paths in self.new.items():
            values = {shown(value_at(made, path)) for path in paths}
            if len(paths) == 1:
                yield f"{side} {pointer(paths[0])}: is new, and is {values.pop()}"
            else:
                what = values.pop() if len(values) == 1 else f"one of {len(values):,} values"
                yield f"{side} {_said(place)} is new, and is {what}: {_values(paths)}"


class _Every(str):
    """All contents of a container, as a step of a place."""


EVERY = {"list": _Every("every item"), "keyed": _Every("every key"), "tree": _Every("every node")}
MOST_SHOWN = 5


def _said(place):
    """A place of a type in words: `hours of every item of orders`."""
    return " of ".join(str(it) if isinstance(it, _Every) else write_name(it) for it in reversed(place))


def _values(some):
    return "1 value" if len(some) == 1 else f"{len(some):,} values"


def _gone_lines(side, place, found):
    if len(found) == 1:
        yield f"{side} {pointer(found[0][0])}: goes, and was {shown(found[0][1])}"
        return
    different = len({write_json(value) for _, value in found})
    yield f"{side} {_said(place)} goes: {_values(found)}, {different:,} different"
    yield from (f"  {pointer(path)}: was {shown(value)}" for path, value in found[:MOST_SHOWN])
    if len(found) > MOST_SHOWN:
        yield f"  and {len(found) - MOST_SHOWN:,} others"


def value_at(tree: Any, path: Iterable[Any]) -> Any:
    """What a document has at a path, or None where the path leads to nothing."""
    for step in path:
        try:
            tree = tree[step]
        except (KeyError, IndexError, TypeError):
            return None
    return tree


def change_lens(
    folder: str,
    program_text: str,
    documents: Sequence[Any] = (None, None),
    is_accepted: bool = False,
    path: str | None = None,
    wait: float = 0.0,
    renames: Iterable[tuple[str, str]] = (),
) -> list[str]:
    """Makes a store of the same documents under another program. The old one is kept. Returns what was done, in lines.

    `documents` are a left and a right document in place of those of the store. New fields begin with their initial values, and `renames` are
    pairs of a field that is gone, by its place or its name, and its new name. If anything of the documents goes and it is not accepted,
    NotDone is raised with the list, and so it is where a name is not found. DoesNotFit has the places that fit in no way.
    """
    with Replacement(folder, path, wait, Store) as made:
        types = check(program_text, made.old.path)
        held = made.old.show()[:2]
        fitted = [Fitting(ty, old if given is None else given, renames) for ty, old, given in zip(types, held, documents)]
        _must_be_used(renames, fitted)
        for side, ty, it in zip(("left", "right"), types, fitted):
            _must_fit(side, ty, it.document)
        left, right = (it.document for it in fitted)
        disagreements = load_store(made.work, program_text, left, right, made.old.path)
        state = made.new.show()
        if state[0] != left or not disagreements and state[1] != right:
            raise NotDone("the new store does not have these documents")
        replaced = list(_replaced(disagreements, fitted[1]))
        lines = [*fitted[0].lines("left", left), *fitted[1].lines("right", state[1]), *_first(replaced)]
        if (replaced or any(it.gone for it in fitted)) and not is_accepted:
            raise NotDone("\n".join([*lines, "nothing was changed: with --yes it is done so"]))
        kept = cast(str, made.put(state=state, keeps_old=True))
        count = made.old.verify()
        lines.append(f"the store has the new program and its documents; the history begins anew, with a count of {count}")
        return [*lines, f"the old store is {os.path.basename(kept)}, until compact --drop-old"]


def _must_be_used(renames, fitted):
    """Raises NotDone where a document has no field that is gone by an old name, and can have the new one."""
    used = {it for one in fitted for it in one.used}
    wrong = [f"no field {old} is gone that can be called {new}" for old, new in renames if old not in used]
    wrong += [f"{old} has two new names" for old in dict(renames) if [it for it, _ in renames].count(old) > 1]
    if wrong:
        raise NotDone("\n".join([*wrong, "nothing was changed"]))


def _first(lines):
    """The first lines of a list, and how many others there are."""
    return lines if len(lines) <= MOST_SHOWN else [*lines[:MOST_SHOWN], f"right: and {len(lines) - MOST_SHOWN:,} other places by the left document"]


def _replaced(disagreements, right):
    """The lines for what the right document had and the left one decides. A new field had nothing."""
    new = right.new_paths()
    for it in disagreements:
        if not any(it.path[:count] in new for count in range(len(it.path) + 1)):
            yield f"right {it.said('the left document')}"


def read_document(path: str) -> Any:
    """The tree of a JSON file, with a byte order mark or without. Raises NotJson."""
    with open(path, "rb") as file:
        return read_json(file.read().decode("utf-8-sig"))


def documents_at(program_text: str, paths: Iterable[str | None], forms: Iterable[str | None]) -> tuple[Any, ...]:
    """The documents of two files, or None for each that is not named. One with a form file, or in YAML or TOML, is a user's own, by the new types."""
    found = []
    for side, (path, form) in enumerate(zip(paths, forms)):
        if path and (form or syntax_of(path) != "json"):
            ty = check(program_text)[side]
            found.append(to_document(read_form_at(ty, form) if form else plain(ty), read_file_at(path)))
        elif form:
            raise ValueError(f"{form}: a form file says how to read a document, and none is named by {('--left', '--right')[side]}")
        else:
            found.append(read_document(path) if path else None)
    return tuple(found)
