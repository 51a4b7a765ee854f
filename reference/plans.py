"""The shapes of lists, keyed maps and ordered trees, and what an edit does to them, by the rules of docs/EDITS.md.

A shape is its kind with a form: of a list the number of its items, of a keyed map its keys in byte order, of a tree the depths of its nodes
in preorder. A plan is the new form, and for each place of it the old place that it comes from, or None where it is fresh.
"""

from editlens.types import write_name

MOST_DEPTH = 15
MOST_ITEMS = 65_536
MANY = 8


class NoPlan(Exception):
    """An edit that does not apply to a shape: the cause, and what would have been allowed."""

    def __init__(self, cause, allowed):
        super().__init__(f"{cause}; allowed: {allowed}")
        self.cause, self.allowed = cause, allowed


def in_byte_order(names):
    """The names in the order of their bytes."""
    return sorted(names, key=str.encode)


def form_of(kind, value):
    """The form of a list, a keyed map or a tree."""
    return len(value) if kind == "list" else in_byte_order(value) if kind == "keyed" else value["depths"]


def contents(kind, value):
    """What is held at each place of a form, in order."""
    return list(value) if kind == "list" else [value[key] for key in in_byte_order(value)] if kind == "keyed" else list(value["items"])


def hold(kind, form, items):
    """The list, the keyed map or the tree of a form that holds these."""
    return items if kind == "list" else dict(zip(form, items)) if kind == "keyed" else {"depths": form, "items": items}


def listed(names, write=write_name):
    """The first of some names, and how many more there are."""
    some = ", ".join(map(write, names[:MANY]))
    return some + (f" and {len(names) - MANY} more" if len(names) > MANY else "")


def quoted(name):
    """A key or a member between quotes."""
    return f'"{name}"'


def item_at(count, place):
    """The place of an item, which is below the number of items."""
    if place >= count:
        raise NoPlan("place", f"items from 0 to {count - 1}" if count else "no item: the list is empty")
    return place


def key_at(keys, key):
    """A key that a map has. `keys` are those of the map, in any order."""
    if key not in keys:
        raise NoPlan("place", f"the keys {listed(sorted(keys), quoted)}" if keys else "no key: the map is empty")
    return key


def node_at(depths, path):
    """The number of the node at a path in preorder, or None."""
    node = 0
    for child in path:
        children = children_of(depths, node)
        if child >= len(children):
            return None
        node = children[child]
    return node


def need_node(depths, path):
    """The number of the node at a path, which has to be there."""
    node = node_at(depths, path)
    if node is None:
        raise NoPlan("place", f"a path of child numbers from the root, which has {len(children_of(depths, 0))} children")
    return node


def end_of(depths, node):
    """The number behind the last node of a subtree."""
    end = node + 1
    while end < len(depths) and depths[end] > depths[node]:
        end += 1
    return end


def children_of(depths, node):
    """The numbers of the children of a node."""
    inside = range(node + 1, end_of(depths, node))
    return [it for it in inside if depths[it] == depths[node] + 1]


def paths_of(depths):
    """The path of each node, in preorder."""
    paths, children = [], []
    for depth in depths:
        del children[depth + 1 :]
        if len(children) <= depth:
            children.append(0)
        else:
            children[depth] += 1
        paths.append(children[1 : depth + 1])
    return paths


def _insert(count, some):
    if not 1 <= some <= MOST_ITEMS:
        raise NoPlan("range", f"from 1 to {MOST_ITEMS} items")
    return count + some, [*range(count), *[None] * some]


def _delete(count, some):
    if not 1 <= some <= min(count, MOST_ITEMS):
        raise NoPlan("range", f"from 1 to {count} items, which is all that it has" if count else "nothing: the list is empty")
    return count - some, list(range(count - some))


def _move(count, places):
    old, new = (item_at(count, it) for it in places)
    origins = list(range(count))
    origins.insert(new, origins.pop(old))
    return count, origins


def _reorder(count, order):
    if len(order) != count:
        raise NoPlan("length", f"{count} numbers, one for each item")
    if sorted(order) != list(range(count)):
        raise NoPlan("range", f"each number below {count} once")
    return count, list(order)


def _with_keys(origin):
    keys = in_byte_order(origin)
    return keys, [origin[key] for key in keys]


def _need_free(keys, key):
    if key in keys:
        raise NoPlan("present", f"a key that it does not have; it has {listed(sorted(keys), quoted)}")


def _put(keys, key):
    _need_free(keys, key)
    return _with_keys({**{it: place for place, it in enumerate(keys)}, key: None})


def _drop(keys, key):
    key_at(keys, key)
    return _with_keys({it: place for place, it in enumerate(keys) if it != key})


def _rename(keys, names):
    old, new = names
    key_at(keys, old)
    if new != old:
        _need_free(keys, new)
    return _with_keys({new if it == old else it: place for place, it in enumerate(keys)})


def _with_nodes(nodes):
    return [depth for depth, _ in nodes], [place for _, place in nodes]


def _numbered(depths):
    return [(depth, place) for place, depth in enumerate(depths)]


def _graft(depths, path):
    node, nodes = need_node(depths, path), _numbered(depths)
    if depths[node] == MOST_DEPTH:
        raise NoPlan("deep", f"at most {MOST_DEPTH + 1} levels")
    nodes.insert(end_of(depths, node), (depths[node] + 1, None))
    return _with_nodes(nodes)


def _prune(depths, path):
    children, nodes = children_of(depths, need_node(depths, path)), _numbered(depths)
    if not children:
        raise NoPlan("range", "a node that has a child")
    del nodes[children[-1] : end_of(depths, children[-1])]
    return _with_nodes(nodes)


def _shift(depths, content):
    path, old, new = content
    node, nodes = need_node(depths, path), _numbered(depths)
    children = children_of(depths, node)
    if max(old, new) >= len(children):
        raise NoPlan("range", f"children from 0 to {len(children) - 1}" if children else "nothing: the node has no child")
    blocks = [nodes[it : end_of(depths, it)] for it in children]
    blocks.insert(new, blocks.pop(old))
    inside = [it for block in blocks for it in block]
    return _with_nodes(nodes[: node + 1] + inside + nodes[end_of(depths, node) :])


def _hang(depths, content):
    path, to = content
    node, nodes = need_node(depths, path), _numbered(depths)
    if not path:
        raise NoPlan("place", "any node but the root")
    block, rest = nodes[node : end_of(depths, node)], nodes[:node] + nodes[end_of(depths, node) :]
    left = [depth for depth, _ in rest]
    target = node_at(left, to)
    if target is None:
        raise NoPlan("place", "a path in the tree that remains when the subtree is taken off")
    rise = left[target] + 1 - depths[node]
    if any(depth + rise > MOST_DEPTH for depth, _ in block):
        raise NoPlan("deep", f"at most {MOST_DEPTH + 1} levels")
    end = end_of(left, target)
    return _with_nodes(rest[:end] + [(depth + rise, place) for depth, place in block] + rest[end:])


PLANS = {
    "list": {"ins": _insert, "del": _delete, "move": _move, "reorder": _reorder},
    "keyed": {"put": _put, "drop": _drop, "rename": _rename},
    "tree": {"graft": _graft, "prune": _prune, "shift": _shift, "hang": _hang},
}
"""The edits of each kind of shape, by their names."""


def plan(kind, form, name, content):
    """The new form, and the old place of each of its places. Raises NoPlan; the edit has to be one of its kind."""
    return PLANS[kind][name](form, content)
