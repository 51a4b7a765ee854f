"""TOML as a tree of JSON, and written again with its comments and its order. Debian's python3-tomlkit reads and writes it.

Dates, and numbers that JSON writes in another way, are refused with their places. TOML has no null.
"""

from __future__ import annotations

from typing import Any

from ..json_text import NotJson, place_name
from .aligned import aligned
from .debian import module
from .text import Number, is_same, number_text, read_number, write_file


def _tomlkit():
    return module("tomlkit", "python3-tomlkit", "TOML")


def read_toml(text: str) -> Any:
    """The tree of a text of TOML. Raises NotJson with every place that is refused."""
    return _tree_of(_parsed(text.removeprefix("\ufeff")))


def _parsed(text):
    kit = _tomlkit()
    try:
        return kit.parse(text)
    except (kit.exceptions.TOMLKitError, RecursionError) as why:
        raise NotJson(str(why)) from None


def _tree_of(parsed):
    faults = []
    tree = _read(parsed, (), faults)
    if faults:
        raise NotJson("\n".join(faults))
    try:
        write_file(tree).encode()
    except UnicodeEncodeError as why:
        raise NotJson(str(why)) from None
    return tree


def _read(it, path, faults):
    """What a value of TOML is as a tree. What JSON has not is added to the faults."""
    if isinstance(it, dict) or hasattr(it, "items"):
        return {str(name): _read(value, (*path, str(name)), faults) for name, value in it.items()}
    if isinstance(it, list):
        return [_read(value, (*path, number), faults) for number, value in enumerate(it)]
    if isinstance(it, str):
        return str(it)
    if isinstance(it, bool):
        return bool(it)
    text = it.as_string() if hasattr(it, "as_string") else str(it)
    number = read_number(text) if isinstance(it, (int, float)) else None
    if number is None:
        why = "JSON does not write this number so: write it in decimal" if isinstance(it, (int, float)) else "JSON has no dates: write a text"
        faults.append(f"{place_name(path)}: {text}: {why}")
    return number


def new_toml(tree: Any) -> str:
    """The text of a new file. Raises NotJson where TOML cannot say it."""
    return toml_like("", tree)


def toml_like(before: str, tree: Any) -> str:
    """The text of a file that was there before, changed so that it shows a tree. Raises NotJson."""
    if not isinstance(tree, dict):
        raise NotJson(f"a file of TOML is an object, and not {write_file(tree)[:60]}")
    _need_no_null(tree, ())
    mark = "\ufeff" if before.startswith("\ufeff") else ""
    text = before.removeprefix(mark)
    is_crlf = "\r\n" in text and text.count("\r\n") == text.count("\n")
    if is_crlf:
        text = text.replace("\r\n", "\n")
    for change in (_change, _change_members):
        made = _changed(text, tree, change)
        if made is not None:
            return mark + (made.replace("\n", "\r\n") if is_crlf else made)
    raise NotJson("this file cannot be changed in its place: python3-tomlkit does not write what is wanted")


def _need_no_null(tree, path):
    if tree is None:
        raise NotJson(f"{place_name(path)}: TOML has no null")
    for name, it in tree.items() if isinstance(tree, dict) else enumerate(tree) if isinstance(tree, list) else ():
        _need_no_null(it, (*path, name))


def _changed(text, tree, change):
    """The text after a change that is to make it show a tree, or None where it does not."""
    kit, parsed = _tomlkit(), _parsed(text)
    try:
        change(parsed, _tree_of(parsed), tree)
        made = parsed.as_string()
        return made if is_same(read_toml(made), tree) else None
    except (kit.exceptions.TOMLKitError, NotJson, LookupError, TypeError, ValueError, AttributeError):
        return None


def _change_members(table, old, new):
    """Writes every member anew that is not the same."""
    for name in old:
        if name not in new or not is_same(old[name], new[name]):
            table.remove(name)
    for name, value in new.items():
        if name not in old or not is_same(old[name], value):
            table.add(name, _item(value))


def _change(table, old, new):
    """Changes what is inside a table or an array where that can be done, and writes it anew where not."""
    for name in old:
        if name not in new:
            table.remove(name)
    for name, value in new.items():
        if name not in old:
            table[name] = _item(value, in_line=_is_in_line(table))
        elif not is_same(old[name], value) and not _change_inside(table[name], old[name], value):
            table[name] = _item(value, in_line=_is_in_line(table))


def _is_in_line(table):
    return isinstance(table, _tomlkit().items.InlineTable)


def _change_inside(there, old, new):
    """Changes a value inside. Returns whether that was done."""
    kit = _tomlkit()
    if isinstance(old, dict) and isinstance(new, dict) and new:
        _change(there, old, new)
        return True
    if not isinstance(old, list) or not isinstance(new, list) or not new or not old:
        return False
    is_tables = isinstance(there, kit.items.AoT)
    found = aligned(old, new)
    kept = [it for it in found if it is not None]
    if kept != sorted(kept) or is_tables and not all(isinstance(it, dict) for it in new):
        return False
    for number in reversed(range(len(old))):
        if number not in kept:
            del there[number]
    for place, number in enumerate(found):
        if number is None:
            there.insert(place, _item(new[place], in_line=not is_tables))
        elif not is_same(old[number], new[place]) and not _change_inside(there[place], old[number], new[place]):
            # An array of tables takes no new table in the place of another one.
            if is_tables:
                del there[place]
                there.insert(place, _item(new[place]))
            else:
                there[place] = _item(new[place], in_line=True)
    return True


def _item(value, in_line=False):
    """A new value of TOML. What is inside an array or an inline table is in one line."""
    kit = _tomlkit()
    if isinstance(value, dict):
        made = kit.inline_table() if in_line else kit.table()
        # A table that comes behind another one would take the members that follow it, so simple members come first.
        for name in sorted(value, key=lambda it: _is_deep(value[it])):
            made.append(name, _item(value[name], in_line))
        return made
    if isinstance(value, list) and _is_deep(value) and not in_line:
        made = kit.aot()
        for it in value:
            made.append(_item(it))
        return made
    if isinstance(value, list):
        made = kit.array()
        for it in value:
            made.append(_item(it, in_line=True))
        return made
    if isinstance(value, Number):
        sort = kit.items.Integer if value.text == "-0" or value.text.lstrip("-").isdigit() else kit.items.Float
        return sort(int(value.text) if sort is kit.items.Integer else float(value), kit.items.Trivia(), value.text)
    if isinstance(value, float):
        return kit.items.Float(value, kit.items.Trivia(), number_text(value))
    return kit.item(value)


def _is_deep(value):
    """Whether a value is written as a table of its own, or as several. tomlkit leaves out the head of one that has tables alone."""
    return isinstance(value, dict) or isinstance(value, list) and bool(value) and all(isinstance(it, dict) and _has_simple(it) for it in value)


def _has_simple(table):
    return any(not _is_deep(it) for it in table.values())
