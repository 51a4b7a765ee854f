"""The two kinds of stores: of a session, which `editlens` keeps, and of a hub, which `edithub` keeps."""

from __future__ import annotations

import os
from typing import Any

from .hub_store import HubState, HubStore, state_of_snapshot
from .json_text import read_json, write_json
from .log import kind_of
from .store import Store


KINDS = (Store, HubStore)


class TwoStores(Exception):
    """A folder has a store of each kind, and the kind that is meant was not said."""

    def __init__(self, folder: str) -> None:
        names = " or ".join(os.path.join(folder, kind.name) for kind in KINDS)
        super().__init__(f"there are two stores in {folder}: name one of them, {names}")


def folder_of(place: str) -> str:
    """The folder of a place: it is a folder, or the file of a store."""
    folder, name = os.path.split(place)
    return (folder or ".") if name in [kind.name for kind in KINDS] else place


def split(place: str) -> tuple[str, type[Store]]:
    """The folder of a place, and the kind of the store there."""
    folder = folder_of(place)
    if folder != place:
        return folder, next(kind for kind in KINDS if place.endswith(kind.name))
    held = [kind for kind in KINDS if os.path.lexists(os.path.join(place, kind.name))]
    if len(held) == 2:
        raise TwoStores(place)
    return place, (held or KINDS)[0]


def kind_of_first(payload: bytes) -> type[Store]:
    """The kind of the stores that begin with a payload."""
    return HubStore if kind_of(payload) == "programs" else Store


def state_in(snapshot: bytes) -> Any:
    """The state in the payload of a snapshot, as `show` of a store returns it."""
    tree = read_json(snapshot.decode())["snapshot"]
    return state_of_snapshot(tree) if "hub" in tree else (tree["left"], tree["right"], tree["complement"])


def state_lines(state: Any) -> list[str]:
    """The lines of a state, as the program writes them."""
    if not isinstance(state, HubState):
        return [f"{name} {write_json(it)}" for name, it in zip(("left", "right", "complement"), state)]
    lines = ["hub " + write_json(state.hub)]
    for number, (view, comp) in enumerate(state.views):
        lines += [f"view {number} {write_json(view)}", f"complement {number} {write_json(comp)}"]
    return lines
