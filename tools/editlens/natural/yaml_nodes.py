"""YAML as a tree of JSON: the nodes of a text with their places in it, and what each plain text means.

Debian's python3-ruamel.yaml parses. What YAML has and JSON has not is refused with its place, and so is what programs read in several ways.
"""

from __future__ import annotations

import re
from dataclasses import dataclass, field
from typing import Any

from ..json_text import NotJson, place_name
from .debian import module
from .text import read_file, shown, write_file

MOST_EXPANDED = 1 << 20
"""How many values a file may have, where each alias counts what it names."""
MERGE = "<<"
TEXT_TAGS = ("!", "tag:yaml.org,2002:str")

_NUMBER = re.compile(r"-?(0|[1-9][0-9]*)(\.[0-9]+)?([eE][+-]?[0-9]+)?\Z")
_SIMPLE: dict = {**dict.fromkeys(("", "~", "null", "Null", "NULL"))}
_SIMPLE |= {**dict.fromkeys(("true", "True", "TRUE"), True), **dict.fromkeys(("false", "False", "FALSE"), False)}
_WORDS = re.compile(r"(y|yes|on|n|no|off)\Z", re.IGNORECASE)
_OTHER_NUMBERS = re.compile(
    r"""([-+]?0b[01_]+ | [-+]?0o?[0-7_]+ | [-+]?0x[0-9a-fA-F_]+
    | [-+]?[0-9][0-9_]*(:[0-5]?[0-9])+(\.[0-9_]*)?
    | [-+]?(\.[0-9][0-9_]*|[0-9][0-9_]*(\.[0-9_]*)?)([eE][-+]?[0-9]+)?
    | [-+]?\.(inf|Inf|INF) | \.(nan|NaN|NAN))\Z""",
    re.VERBOSE,
)
_COLON = re.compile(r"\s*:")
_SPACE = re.compile(r"\s")
_DATE = re.compile(r"[0-9]{4}-[0-9]{1,2}-[0-9]{1,2}(([Tt]|[ \t]+)[0-9]{1,2}:[0-9]{2}:[0-9]{2}(\.[0-9]*)?[ \t]*(Z|[-+][0-9:]+)?)?\Z")


@dataclass
class Node:
    """A node of a text: a scalar, a map, a list or an alias, from `start` to `end`. `last` is where its last line has its end of content.

    `tree` is what it shows. `entries` are the keys and values of a map, the merges among them; `items` those of a list. `target` is what an
    alias names, and `merged` what the merges of a map give.
    """

    sort: str
    start: int
    end: int
    style: str | None = None
    is_flow: bool = False
    anchor: str | None = None
    tree: Any = None
    last: int = 0
    size: int = 1
    entries: list = field(default_factory=list)
    items: list = field(default_factory=list)
    target: Node | None = None
    has_alias: bool = False

    def children(self) -> list[Node]:
        """The nodes inside it."""
        return [value for _, value in self.entries] + self.items

    def merges(self) -> list[Node]:
        """The maps that are merged into a map, the first of which counts most."""
        found = [value for key, value in self.entries if is_merge(key)]
        return [_named(it) for one in found for it in (_named(one).items if _named(one).sort == "list" else [one])]


def _named(node):
    return node.target if node.sort == "alias" else node


def is_merge(key: Node) -> bool:
    """Whether the key of an entry says that other maps are merged."""
    return key.sort == "scalar" and key.tree == MERGE and key.style is None


def meaning(text: str) -> Any:
    """What a plain text means. Raises NotJson where programs differ, or JSON has no such value."""
    if text in _SIMPLE:
        return _SIMPLE[text]
    if _NUMBER.match(text):
        return read_file(text)
    if _WORDS.match(text):
        value = "true" if text.lower() in ("y", "yes", "on") else "false"
        raise NotJson(f'{text} is {value} to some programs and a text to others: write {value} or "{text}"')
    if _OTHER_NUMBERS.match(text):
        raise NotJson(f'{text} is a number to some programs, and JSON does not write it so: write it in decimal, or "{text}" for a text')
    if _DATE.match(text):
        raise NotJson(f'{text} is a date to some programs, and JSON has none: write "{text}" for a text')
    return text


def read_nodes(text: str) -> Node:
    """The root node of a text of YAML, with the trees of all nodes. Raises NotJson with every place that is refused."""
    yaml = module("ruamel.yaml", "python3-ruamel.yaml", "YAML")
    reader = _Reader(yaml, text)
    try:
        root = reader.document(yaml.YAML(typ="safe", pure=True).parse(text))
    except yaml.error.MarkedYAMLError as why:
        mark = why.problem_mark or why.context_mark
        raise NotJson(f"line {mark.line + 1}: {why.problem}" if mark else str(why)) from None
    except (yaml.error.YAMLError, RecursionError) as why:
        raise NotJson(f"not YAML: {why}") from None
    if reader.faults:
        raise NotJson("\n".join(reader.faults))
    try:
        write_file(root.tree).encode()
    except (UnicodeEncodeError, RecursionError) as why:
        raise NotJson(str(why)) from None
    return root


class _Reader:
    """Builds the nodes of the events of a text. What is refused is collected."""

    def __init__(self, yaml, text):
        self.events, self.text, self.faults, self.anchors, self.path = yaml.events, text, [], {}, []

    def at(self, mark, reason):
        """A reason with its place."""
        return f"{place_name(self.path)} (line {mark.line + 1}): {reason}"

    def wrong(self, mark, reason):
        self.faults.append(self.at(mark, reason))

    def document(self, stream):
        stream, root = iter(stream), None
        for event in stream:
            if isinstance(event, (self.events.StreamStartEvent, self.events.StreamEndEvent, self.events.DocumentEndEvent)):
                continue
            if isinstance(event, self.events.DocumentStartEvent):
                if root is not None:
                    raise NotJson(f"line {event.start_mark.line + 1}: a second document begins: give each document a file of its own")
                continue
            root = self.node(event, stream, 0)
        if root is None:
            raise NotJson("the file is empty")
        return root

    def node(self, event, stream, before):
        """The node that an event begins. The text before it ends at `before`."""
        if isinstance(event, self.events.AliasEvent):
            return self.alias(event)
        start, end = event.start_mark.index, event.end_mark.index
        if isinstance(event, self.events.ScalarEvent):
            made = self.scalar(event, Node("scalar", start, end, style=event.style, anchor=event.anchor), before)
        elif isinstance(event, self.events.MappingStartEvent):
            made = self.mapping(event, stream, Node("map", start, end, is_flow=event.flow_style, anchor=event.anchor))
        else:
            made = self.sequence(event, stream, Node("list", start, end, is_flow=event.flow_style, anchor=event.anchor))
        if event.tag and not (made.sort == "scalar" and event.tag in TEXT_TAGS):
            self.wrong(event.start_mark, f"the tag {event.tag} has no counterpart in JSON")
        if made.size > MOST_EXPANDED:
            raise NotJson(f"{place_name(self.path)}: with every alias expanded there are more than {MOST_EXPANDED:,} values")
        if event.anchor:
            self.anchors[event.anchor] = made
        made.has_alias = any(it.has_alias for it in made.children())
        return made

    def alias(self, event):
        target = self.anchors.get(event.anchor)
        if target is None:
            raise NotJson(self.at(event.start_mark, f"no node above it, and not around it, is called &{event.anchor}"))
        start, end = event.start_mark.index, event.end_mark.index
        return Node("alias", start, end, tree=target.tree, last=end, size=target.size, target=target, has_alias=True)

    def scalar(self, event, made, before):
        made.last, made.tree = made.end, event.value
        if made.start == made.end and event.style is None:
            made.start = made.end = made.last = before
        elif event.style in ("|", ">"):
            kept = self.text[made.start : made.end]
            header = kept.split("\n", 1)[0]
            made.last = made.end - 1 if "+" in header.split("#")[0] else made.start + len(kept.rstrip())
        if event.style is None and event.tag is None:
            try:
                made.tree = meaning(event.value)
            except NotJson as why:
                self.wrong(event.start_mark, why)
        return made

    def mapping(self, event, stream, made):
        found, before = {}, made.end
        for first in stream:
            if isinstance(first, self.events.MappingEndEvent):
                break
            key = self.key(first, before)
            self.path.append(key.tree)
            colon = behind_colon(self.text, key.end)
            value = self.node(next(stream), stream, colon)
            if key.tree in found and not is_merge(key):
                self.wrong(first.start_mark, f"the member {write_file(key.tree)} comes twice")
            elif not is_merge(key):
                found[key.tree] = value.tree
            made.entries.append((key, value))
            self.path.pop()
            before = max(value.last, colon)
        made.tree = {**self.merged(event, made), **found}
        return self.ended(made, first)

    def merged(self, event, made):
        wrong = [it for it in made.merges() if it.sort != "map"]
        if wrong:
            self.wrong(event.start_mark, f"{MERGE} takes maps, and not {shown(wrong[0].tree)}")
        return merged([it.tree for it in made.merges() if it.sort == "map"])

    def key(self, event, before):
        """The key of a member, which is its letters, also where they are those of a number."""
        if not isinstance(event, self.events.ScalarEvent) or event.start_mark.index == event.end_mark.index or event.tag or event.anchor:
            raise NotJson(self.at(event.start_mark, "the key of a member is a text, without a tag or an anchor"))
        start, end = event.start_mark.index, event.end_mark.index
        return Node("scalar", start, end, style=event.style, tree=event.value, last=end)

    def sequence(self, event, stream, made):
        before, number = made.end, 0
        for first in stream:
            if isinstance(first, self.events.SequenceEndEvent):
                break
            self.path.append(number)
            dash = before if made.is_flow else dash_behind(self.text, made.start if not number else before) + 1
            item = self.node(first, stream, dash)
            made.items.append(item)
            self.path.pop()
            before, number = max(item.last, dash), number + 1
        made.tree = [it.tree for it in made.items]
        return self.ended(made, first)

    def ended(self, made, event):
        """A collection with its end: that of the last node inside it, if it is no flow collection."""
        made.size = 1 + sum(it.size for it in made.children())
        if made.is_flow:
            made.end = event.end_mark.index
            made.last = made.end
        else:
            made.last = made.end = max([it.last for it in made.children()] + [behind_colon(self.text, key.end) for key, _ in made.entries])
        return made


def behind_colon(text: str, end: int) -> int:
    """The place behind the colon of a key that ends here. A key of a flow map may have none."""
    found = _COLON.match(text, end)
    return found.end() if found else end


def merged(trees: list[dict[str, Any]]) -> dict[str, Any]:
    """What maps give together that are merged: the first that has a member counts."""
    return {name: value for tree in reversed(trees) for name, value in tree.items()}


def dash_behind(text: str, start: int) -> int:
    """The place of the first dash of a block list behind a place. Between them are spaces, comments, and perhaps an anchor."""
    while True:
        if text[start] == "#":
            start = text.index("\n", start)
        elif text[start] == "&":
            space = _SPACE.search(text, start)
            start = space.start() if space else len(text)
        elif text[start] == "-":
            return start
        else:
            start += 1
