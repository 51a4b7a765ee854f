"""YAML that is written again: what an edit did not change stays as it was, to the byte.

Every change is a cut in the old text. In the end the new text is read, and shows the tree that is wanted, or nothing is written.
"""

from __future__ import annotations

from typing import Any

from ..json_text import NotJson
from .aligned import aligned
from .text import is_same
from .yaml_emit import Layout, flow, scalar
from .yaml_nodes import behind_colon, dash_behind, is_merge, merged, read_nodes

GONE = object()
"""What a node with an anchor shows when it is there no more."""
ITEM = Layout(2, 2)


def new_yaml(tree: Any) -> str:
    """The text of a new file. Raises NotJson where YAML cannot say it so that every program reads the same."""
    text = "\n".join(Layout().lines(tree)) + "\n"
    _need(text, tree)
    return text


def yaml_like(before: str, tree: Any) -> str:
    """The text of a file that was there before, changed so that it shows a tree. Raises NotJson."""
    mark = "\ufeff" if before.startswith("\ufeff") else ""
    text = before.removeprefix(mark)
    is_crlf = "\r\n" in text and text.count("\r\n") == text.count("\n")
    if is_crlf:
        text = text.replace("\r\n", "\n")
    made = _Writer(text if text.endswith("\n") else text + "\n").text_for(tree)
    # A file without an end of its last line stays so, if that is no part of a text.
    if not text.endswith("\n") and _fault(made[:-1], tree) is None:
        made = made[:-1]
    _need(made, tree)
    return mark + (made.replace("\n", "\r\n") if is_crlf else made)


def _fault(text, tree):
    """Why a text does not show a tree, or None."""
    try:
        return None if is_same(read_nodes(text).tree, tree) else "it would show another content than it should"
    except NotJson as why:
        return str(why)


def _need(text, tree):
    fault = _fault(text, tree)
    if fault:
        raise NotJson(f"this file cannot be changed in its place: {fault}")


class _Writer:
    """The cuts that make a text show another tree: each a start, an end and what comes there.

    `now` has what nodes with an anchor show in the new text, by their numbers, where that is not what they showed.
    """

    def __init__(self, text):
        self.text, self.root, self.now = text, read_nodes(text), {}
        self.layout = Layout(*_columns(text, self.root))

    def text_for(self, tree):
        return self.cut(self.of_node(self.root, tree, None, 0, False), 0, len(self.text))

    def cut(self, cuts, start, end):
        """The text from a start to an end with some cuts."""
        parts = []
        for first, last, new in sorted(cuts, key=lambda it: it[:2]):
            parts += [self.text[start:first], new]
            start = last
        return "".join([*parts, self.text[start:end]])

    def line_end(self, place):
        """The place of the end of the line with a place."""
        found = self.text.find("\n", place)
        return len(self.text) if found < 0 else found

    def column(self, place):
        return place - self.text.rfind("\n", 0, place) - 1

    def of_node(self, node, wanted, slot, column, in_flow, layout=None):
        """The cuts by which a node shows what is wanted. It stands behind a slot: a colon or a dash, of an entry at a column."""
        if is_same(node.tree, wanted) and not node.has_alias:
            return []
        if node.sort == "alias" and self._shows(node.target) is not GONE and is_same(self._shows(node.target), wanted):
            return []
        self.now[id(node)] = wanted
        found = None
        if node.sort == "map" and isinstance(wanted, dict):
            found = self.of_map(node, wanted, in_flow)
        elif node.sort == "list" and isinstance(wanted, list):
            found = self.of_list(node, wanted, in_flow)
        return self.anew(node, wanted, slot, column, in_flow, layout or self.layout) if found is None else found

    def _shows(self, node):
        return self.now.get(id(node), node.tree)

    def _gone(self, node):
        """Notes that a node and all inside it are there no more."""
        self.now[id(node)] = GONE
        for it in node.children():
            self._gone(it)

    def anew(self, node, wanted, slot, column, in_flow, layout):
        """The cuts that write a node anew. A comment on its first line stays."""
        anchor = f"&{node.anchor} " if node.anchor and node.sort == "scalar" and not isinstance(wanted, (dict, list)) else ""
        if not anchor:
            self._gone(node)
        is_empty = node.start == node.end
        if in_flow:
            space = "" if not is_empty else " " if self.text[slot - 1] == ":" else ": "
            text = flow(wanted) if isinstance(wanted, (dict, list)) else scalar(wanted, node.style, True)
            return [(node.start, node.end, space + anchor + text)]
        if slot is None:
            lines = self.layout.lines(wanted)
            return [(node.start, node.last, ("\n" if self.column(node.start) and len(lines) > 1 else "") + "\n".join(lines))]
        here, below = layout.value(wanted, column, node.style)
        here, below = anchor + here, "".join(f"\n{line}" for line in below)
        if is_empty or node.start > self.line_end(slot):
            end = self.line_end(slot)
            return [*([(slot, slot, " " + here)] if here else []), (end, max(end, node.last), below)]
        if node.style in ("|", ">"):
            head = self.line_end(node.start)
            said = self.text.find(" #", node.start, head)
            stop = len(self.text[:said].rstrip(" ")) if said >= 0 else head
            return [(node.start, stop, here), (head, node.last, below)]
        end = self.line_end(node.last)
        return [(node.start if here else slot, node.last, here), *([(end, end, below)] if below else [])]

    def of_map(self, node, wanted, in_flow):
        """The cuts of a map, or None where it is written anew."""
        base, is_merged = self._base(node, wanted)
        own = {key.tree: value for key, value in node.entries if not is_merge(key)}
        keeps = [wanted.keys() >= {key.tree} if not is_merge(key) else is_merged for key, _ in node.entries]
        added = {name: it for name, it in wanted.items() if name not in own and not (name in base and is_same(base[name], it))}
        renamed = _renamed(node, keeps, added)
        if not any(keeps):
            return None
        for (_, value), is_kept in zip(node.entries, keeps):
            if not is_kept:
                self._gone(value)
        is_other = bool(added) or not all(keeps)
        if is_other and (node.is_flow or any(self._is_explicit(key) for key, _ in node.entries)):
            return None
        cuts = {}
        for number, (key, value) in enumerate(node.entries):
            if keeps[number] and not is_merge(key):
                name, slot = renamed.get(number, key.tree), behind_colon(self.text, key.end)
                cuts[number] = self.of_node(value, wanted[name], slot, self.column(key.start), in_flow or node.is_flow)
                if number in renamed:
                    cuts[number].append((key.start, key.end, scalar(name, key.style, in_flow or node.is_flow)))
        if not is_other:
            return [it for some in cuts.values() for it in some]
        places = [(key.start, max(value.last, behind_colon(self.text, key.end))) for key, value in node.entries]
        new = ["\n".join(self.layout.entry_lines(name, it, self.column(places[0][0]))) + "\n" for name, it in added.items()]
        return self.blocks(node, places, [it for it, is_kept in enumerate(keeps) if is_kept] + new, cuts)

    def _base(self, node, wanted):
        """What the merges of a map give now, and whether they stay: not where they give a member that is to go, or are there no more."""
        trees = [self._shows(it) for it in node.merges()]
        if GONE in trees:
            return {}, False
        base = merged(trees)
        return (base, True) if base.keys() <= wanted.keys() else ({}, False)

    def _is_explicit(self, key):
        """Whether a key has a ? before it."""
        start = self.text.rfind("\n", 0, key.start) + 1
        return "?" in self.text[start : key.start]

    def of_list(self, node, wanted, in_flow):
        """The cuts of a list, or None where it is written anew."""
        found = aligned([it.tree for it in node.items], wanted)
        kept = [it for it in found if it is not None]
        if not kept:
            return None
        is_other = found != list(range(len(node.items)))
        if is_other and node.is_flow:
            return None
        for number, it in enumerate(node.items):
            if number not in kept:
                self._gone(it)
        dashes, before = [], node.start
        for it in node.items if not node.is_flow else ():
            dashes.append(dash_behind(self.text, before))
            before = max(it.last, dashes[-1] + 1)
        cuts = {}
        for place, number in sorted(((place, it) for place, it in enumerate(found) if it is not None), key=lambda it: it[1]):
            slot, column = (None, 0) if node.is_flow else (dashes[number] + 1, self.column(dashes[number]))
            cuts[number] = self.of_node(node.items[number], wanted[place], slot, column, in_flow or node.is_flow, ITEM)
        if not is_other:
            return [it for some in cuts.values() for it in some]
        places = [(dash, max(it.last, dash + 1)) for dash, it in zip(dashes, node.items)]
        column = self.column(dashes[0])
        new = [it if it is not None else "\n".join(self.layout.item_lines(wanted[at], column)) + "\n" for at, it in enumerate(found)]
        return self.blocks(node, places, new, cuts)

    def blocks(self, node, places, wanted, cuts):
        """The cut that puts the entries or items of a block in another order: an old one by its number, a new one by its lines.

        Each has the text between it and the one before it: what stands directly above it goes and moves with it. Comments that an
        empty line sets apart stay.
        """
        column, texts, apart = self.column(places[0][0]), {}, ""
        is_inside = self.text[places[0][0] - column : places[0][0]].strip() != ""
        first = places[0][0] if is_inside else self._first_above(places[0][0], column, node is self.root)
        start = first
        for number, (place, last) in enumerate(places):
            end = self.line_end(last) + 1
            own = self._above(start, place, column)
            if number in wanted:
                texts[number] = apart + self.cut(cuts.get(number, []), start, end)
                apart = ""
            elif "#" in self.text[start:own]:
                apart += self.text[start:own]
            if number == 0 and is_inside and number in wanted:
                texts[number] = " " * column + texts[number]
            start = end
        parts = [texts[it] if isinstance(it, int) else it for it in wanted]
        made = "".join([*parts, apart])
        return [(first, start, made.lstrip(" \n") if is_inside else made)]

    def _above(self, start, place, column):
        """Where the lines of comments begin that stand directly above an entry, at its column, and not before a start."""
        line = place - self.column(place)
        while line > start:
            above = self.text.rfind("\n", 0, line - 1) + 1
            if above < start or not self.text[above:line].startswith(" " * column + "#"):
                break
            line = above
        return max(line, start)

    def _first_above(self, place, column, is_root):
        """Where the block of a first entry begins. What stands above the first entry of a file is about the file."""
        return place - column if is_root else self._above(0, place, column)


def _renamed(node, keeps, added):
    """The entries of a map whose content has another name now, by their numbers. They are kept, and are not added."""
    found = {}
    for number, (_, value) in enumerate(node.entries):
        name = next((it for it, new in added.items() if not keeps[number] and is_same(value.tree, new)), None)
        if name is not None:
            found[number], keeps[number] = name, True
            del added[name]
    return found


def _columns(text, root):
    """How many columns the first block map and the first block list of a file are deeper than the map around them."""

    def column(place):
        return place - text.rfind("\n", 0, place) - 1

    found, left = {}, [root]
    while left and len(found) < 2:
        node = left.pop()
        for key, value in [] if node.is_flow else node.entries:
            if value.sort in ("map", "list") and not value.is_flow and not is_merge(key):
                inside = value.entries[0][0].start if value.sort == "map" else dash_behind(text, value.start)
                found.setdefault(value.sort, column(inside) - column(key.start))
        left += reversed(node.children())
    return max(1, found.get("map", 2)), max(0, found.get("list", 2))
