"""An edit that was made for the near document, as one for the far document, with the bridge between both after it."""

from __future__ import annotations

from typing import Any, Callable, Dict, List, NamedTuple, Tuple

from ..plans import RESHAPINGS, NoPlan
from .bridges import SAME, Arm, Away, Bridge, Cells, Lost, Other, Parts, Places, Same, Then, then
from .causes import Cause, DoesNotAct, NotCarried
from .far_edits import Edit, far_edits, far_place
from .links import far_planned, near_planned, settled, with_inner
from .runs import near_spliced
from .shapes import name_of, number_of, planned


class Carried(NamedTuple):
    """A word for the far document, and the bridge between what both words make of their documents."""

    word: List[Any]
    bridge: Bridge


def carry(bridge: Bridge, word: Any, takes_back: bool = False) -> Carried:
    """The word for the far document that does there what this one does to the near document, for which it was made.

    `takes_back` says that the word takes an older change back. Then a `set` of a value that was changed since is refused.

    Raises NotCarried where the word has no place in the far document. Raises DoesNotAct where it does not act on the near one, as far as
    the bridge knows that. A carried word acts on the far document, unless a sum does not fit into 64 bits there.
    """
    made: List[Any] = []
    for number, primitive in enumerate(word):
        name, content = next(iter(primitive.items()))
        try:
            more, bridge = _CARRY[type(bridge)](bridge, name, content, takes_back)
        except NotCarried as why:
            why.at = number
            raise
        made += more
    return Carried(made, bridge)


Answer = Tuple[List[Any], Bridge]


def _inside(bridge: Bridge, word: Any, takes_back: bool, step: Any) -> Carried:
    """A word of the content at a place, which a refusal names."""
    try:
        return carry(bridge, word, takes_back)
    except NotCarried as why:
        why.path = (step, *why.path)
        raise


def _over_same(bridge: Same, name: str, content: Any, takes_back: bool) -> Answer:
    return [{name: content}], bridge


def _over_value(bridge: Bridge, name: str, content: Any, takes_back: bool) -> Answer:
    """A set comes last and wins, and sums add up."""
    if name == "set":
        if takes_back and bridge != Cells(()):
            raise NotCarried(Cause.CHANGED)
        return [{name: content}], SAME
    if isinstance(bridge, Other) and name == "add":
        return [{name: content}], bridge
    if isinstance(bridge, Lost) and name == "splice":
        raise NotCarried(Cause.GONE)
    if isinstance(bridge, Cells) and name == "splice":
        word, runs = near_spliced(bridge.runs, *content)
        return list(word), Cells(runs)
    raise DoesNotAct("kind")


def _over_record(bridge: Parts, name: str, content: Any, takes_back: bool) -> Answer:
    if name != "at":
        raise DoesNotAct("kind")
    field, inner = content
    word, after = _inside(bridge.fields.get(field, SAME), inner, takes_back, field)
    return [{"at": [field, word]}], Parts({**bridge.fields, field: after})


def _over_alternatives(bridge: Arm | Away, name: str, content: Any, takes_back: bool) -> Answer:
    if name not in ("stay", "switch"):
        raise DoesNotAct("kind")
    near, far = (bridge.tag, bridge.tag) if isinstance(bridge, Arm) else (bridge.near, bridge.far)
    if content[0] != near:
        raise DoesNotAct("tag")
    if name == "switch":
        return [{"switch": [far, *content[1:]]}], SAME
    if isinstance(bridge, Away):
        raise NotCarried(Cause.GONE)
    word, after = _inside(bridge.inner, content[1], takes_back, near)
    return [{"stay": [near, word]}], Arm(near, after)


def _over_places(bridge: Places, name: str, content: Any, takes_back: bool) -> Answer:
    if name == "mod":
        return _over_content(bridge, content[0], content[1], takes_back)
    if name not in RESHAPINGS[bridge.kind]:
        raise DoesNotAct("kind")
    try:
        near = planned(bridge.kind, bridge.near, [(name, content)])
    except NoPlan as why:
        raise DoesNotAct(why.cause) from None
    edits, put = far_edits(bridge, name, content)
    shape, origins = _far_plan(bridge, edits)
    fresh = [place for place, old in enumerate(origins) if old is None]
    both = near_planned(settled(far_planned(bridge, shape, origins), put), *near, fresh)
    return [{edit: places} for edit, places in edits], both


def _far_plan(bridge: Places, edits: List[Edit]) -> Tuple[Any, Any]:
    """One cause is left: a tree may be too deep now."""
    try:
        return planned(bridge.kind, bridge.far, edits)
    except NoPlan as why:
        assert why.cause == "deep", f"{edits} of {bridge.far}: {why}"
        raise NotCarried(Cause.DEEP) from None


def _over_content(bridge: Places, place: Any, word: Any, takes_back: bool) -> Answer:
    near = number_of(bridge.kind, bridge.near, place)
    if near is None:
        raise DoesNotAct("place")
    try:
        far = far_place(bridge, near)
        carried = carry(bridge.inner.get(near, SAME), word, takes_back)
    except NotCarried as why:
        why.path = (place, *why.path)
        raise
    return [{"mod": [name_of(bridge.kind, bridge.far, far), carried.word]}], with_inner(bridge, near, carried.bridge)


def _over_two(bridge: Then, name: str, content: Any, takes_back: bool) -> Answer:
    between, first = carry(bridge.first, [{name: content}], takes_back)
    word, second = carry(bridge.second, between, takes_back)
    return word, then(first, second)


_CARRY: Dict[type, Callable[..., Answer]] = {
    Same: _over_same,
    Other: _over_value,
    Lost: _over_value,
    Cells: _over_value,
    Parts: _over_record,
    Arm: _over_alternatives,
    Away: _over_alternatives,
    Places: _over_places,
    Then: _over_two,
}
