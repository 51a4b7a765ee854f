"""What an edit does to the shape of a list, a keyed map or an ordered tree, by the rules of docs/EDITS.md.

A list or a map is copied at once, since it may be long. Where nodes of a tree go or move, the new depths are planned, and for each of them
the old place that its content comes from.
"""

from __future__ import annotations

from typing import Any, Callable, Collection, Iterable, Sequence

from .types import write_name

MOST_DEPTH = 15
MOST_ITEMS = 65_536
MANY = 8


class NoPlan(Exception):
    """An edit that does not apply to a shape: the cause, and what would have been allowed."""

    def __init__(self, cause: str, allowed: str) -> None:
        super().__init__(f"{cause}; allowed: {allowed}")
        self.cause, self.allowed = cause, allowed


def listed(names: Sequence[str], write: Callable[[str], str] = write_name) -> str:
    """The first of some names, and how many more there are."""
    some = ", ".join(map(write, names[:MANY]))
    return some + (f" and {len(names) - MANY} more" if len(names) > MANY else "")


def quoted(name: str) -> str:
    """A key or a member between quotes."""
    return f'"{name}"'


def item_at(count: int, place: int) -> int:
    """The place of an item, which is below the number of items."""
    if place >= count:
        raise NoPlan("place", f"items from 0 to {count - 1}" if count else "no item: the list is empty")
    return place


def key_at(keys: Collection[str], key: str) -> str:
    """A key that a map has. `keys` are those of the map, in any order."""
    if key not in keys:
        raise NoPlan("place", f"the keys {listed(sorted(keys), quoted)}" if keys else "no key: the map is empty")
    return key


def node_at(depths: list[int], path: Iterable[int]) -> int | None:
    """The number of the node at a path in preorder, or None."""
    node = 0
    for child in path:
        children = children_of(depths, node)
        if child >= len(children):
            return None
        node = children[child]
    return node


def need_node(depths: list[int], path: Iterable[int]) -> int:
    """The number of the node at a path, which has to be there."""
    node = node_at(depths, path)
    if node is None:
        raise NoPlan("place", f"a path of child numbers from the root, which has {len(children_of(depths, 0))} children")
    return node


def end_of(depths: list[int], node: int) -> int:
    """The number behind the last node of a subtree."""
    if not node:
        return len(depths)
    end = node + 1
    while end < len(depths) and depths[end] > depths[node]:
        end += 1
    return end


def children_of(depths: list[int], node: int) -> list[int]:
    """The numbers of the children of a node."""
    wanted, first = depths[node] + 1, node + 1
    return [number for number, depth in enumerate(depths[first : end_of(depths, node)], first) if depth == wanted]


def subtree(tree: dict[str, Any], path: Iterable[int]) -> list[tuple[int, Any]]:
    """The node at a path and all below it in preorder, each with its depth below that node and its content."""
    depths, node = tree["depths"], need_node(tree["depths"], path)
    return [(depths[it] - depths[node], tree["items"][it]) for it in range(node, end_of(depths, node))]


def paths_of(depths: Iterable[int]) -> list[list[int]]:
    """The path of each node, in preorder."""
    paths: list[list[int]] = []
    children: list[int] = []
    for depth in depths:
        del children[depth + 1 :]
        if len(children) <= depth:
            children.append(0)
        else:
            children[depth] += 1
        paths.append(children[1 : depth + 1])
    return paths


def _insert(items, some, fresh):
    if not 1 <= some <= MOST_ITEMS:
        raise NoPlan("range", f"from 1 to {MOST_ITEMS} items")
    return items + [fresh() for _ in range(some)]


def _delete(items, some, fresh):
    count = len(items)
    if not 1 <= some <= min(count, MOST_ITEMS):
        raise NoPlan("range", f"from 1 to {count} items, which is all that it has" if count else "nothing: the list is empty")
    return items[: count - some]


def _move(items, places, fresh):
    old, new = (item_at(len(items), it) for it in places)
    changed = items.copy()
    changed.insert(new, changed.pop(old))
    return changed


def _reorder(items, order, fresh):
    if len(order) != len(items):
        raise NoPlan("length", f"{len(items)} numbers, one for each item")
    if sorted(order) != list(range(len(items))):
        raise NoPlan("range", f"each number below {len(items)} once")
    return [items[it] for it in order]


def _need_free(keys, key):
    if key in keys:
        raise NoPlan("present", f"a key that it does not have; it has {listed(sorted(keys), quoted)}")


def _put(held, key, fresh):
    _need_free(held, key)
    return {**held, key: fresh()}


def _drop(held, key, fresh):
    key_at(held, key)
    changed = held.copy()
    del changed[key]
    return changed


def _rename(held, names, fresh):
    old, new = names
    key_at(held, old)
    if new != old:
        _need_free(held, new)
    return {new if key == old else key: it for key, it in held.items()}


def _with_nodes(nodes):
    return [depth for depth, _ in nodes], [place for _, place in nodes]


def _numbered(depths):
    return [(depth, place) for place, depth in enumerate(depths)]


def _graft(tree, path, fresh):
    depths, items = tree["depths"], tree["items"]
    node = need_node(depths, path)
    if depths[node] == MOST_DEPTH:
        raise NoPlan("deep", f"at most {MOST_DEPTH + 1} levels")
    end = end_of(depths, node)
    return {"depths": [*depths[:end], depths[node] + 1, *depths[end:]], "items": [*items[:end], fresh(), *items[end:]]}


def _prune(depths, path):
    children, nodes = children_of(depths, need_node(depths, path)), _numbered(depths)
    if not children:
        raise NoPlan("range", "a node that has a child")
    del nodes[children[-1] : end_of(depths, children[-1])]
    return _with_nodes(nodes)


def _shift(depths, content):
    path, old, new = content
    node, nodes = need_node(depths, path), _numbered(depths)
    children = children_of(depths, node)
    if max(old, new) >= len(children):
        raise NoPlan("range", f"children from 0 to {len(children) - 1}" if children else "nothing: the node has no child")
    blocks = [nodes[it : end_of(depths, it)] for it in children]
    blocks.insert(new, blocks.pop(old))
    inside = [it for block in blocks for it in block]
    return _with_nodes(nodes[: node + 1] + inside + nodes[end_of(depths, node) :])


def _hang(depths, content):
    path, to = content
    node, nodes = need_node(depths, path), _numbered(depths)
    if not path:
        raise NoPlan("place", "any node but the root")
    block, rest = nodes[node : end_of(depths, node)], nodes[:node] + nodes[end_of(depths, node) :]
    left = [depth for depth, _ in rest]
    target = node_at(left, to)
    if target is None:
        raise NoPlan("place", "a path in the tree that remains when the subtree is taken off")
    rise = left[target] + 1 - depths[node]
    if any(depth + rise > MOST_DEPTH for depth, _ in block):
        raise NoPlan("deep", f"at most {MOST_DEPTH + 1} levels")
    end = end_of(left, target)
    return _with_nodes(rest[:end] + [(depth + rise, place) for depth, place in block] + rest[end:])


def _planned(plan):
    """What a plan of depths does to a tree."""

    def reshape(tree, content, _):
        depths, origins = plan(tree["depths"], content)
        return {"depths": depths, "items": [tree["items"][it] for it in origins]}

    return reshape


RESHAPINGS = {
    "list": {"ins": _insert, "del": _delete, "move": _move, "reorder": _reorder},
    "keyed": {"put": _put, "drop": _drop, "rename": _rename},
    "tree": {"graft": _graft, "prune": _planned(_prune), "shift": _planned(_shift), "hang": _planned(_hang)},
}
"""The edits of each kind of shape, by their names: a call that makes of a value and of what is behind the name the new value."""
