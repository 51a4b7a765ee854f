"""A lens program that is typed: whether it is accepted, and the documents of a session carried over to it."""

from __future__ import annotations

from typing import Any

from ..answers import ProgramRefused
from ..checked import OFFSETS, check, explain_program
from ..documents import fits, is_depth_list, misfits
from ..parts import program_of
from ..types import initial, token_at, write_type


def judged(program_text: str, path: str | None = None) -> dict[str, Any]:
    """What the program says of a text: both types, or why it is refused, with the place in characters where there is one."""
    try:
        left, right = check(program_of(program_text), path)
    except ProgramRefused as why:
        return {"accepted": False, "lines": explain_program(program_text, why.reason), **place_of_reason(program_text, why.reason)}
    return {"accepted": True, "left": write_type(left), "right": write_type(right)}


def place_of_reason(program_text: str, reason: str) -> dict[str, int | None]:
    """The place in a program, in characters, for which it is refused. Both ends are None where the reason names none."""
    words = reason.split(" ")
    if words[0] not in OFFSETS:
        return {"from": None, "to": None}
    data = program_text.encode()
    token = token_at(data, int(words[1]))
    begin = len(data[: token.at].decode(errors="replace"))
    return {"from": begin, "to": begin + max(1, len(token.text))}


def fitted(ty: Any, tree: Any) -> Any:
    """The document of a type that keeps what fits of a tree. Where something does not fit, there is the initial value."""
    if fits(ty, tree):
        return tree
    if ty.kind == "record" and isinstance(tree, dict):
        return {name: fitted(inner, tree[name]) if name in tree else initial(inner) for name, inner in ty.fields}
    if ty.kind == "alternatives" and isinstance(tree, dict) and len(tree) == 1 and ty.field(next(iter(tree))):
        tag = next(iter(tree))
        return {tag: fitted(ty.field(tag), tree[tag])}
    if ty.kind == "list" and isinstance(tree, list):
        return [fitted(ty.inner, it) for it in tree]
    if ty.kind == "keyed" and isinstance(tree, dict):
        return {key: fitted(ty.inner, inner) for key, inner in tree.items()}
    if ty.kind == "tree" and _has_nodes(tree):
        return {"depths": tree["depths"], "items": [fitted(ty.inner, it) for it in tree["items"]]}
    return initial(ty)


def _has_nodes(tree):
    is_pair = isinstance(tree, dict) and set(tree) == {"depths", "items"} and isinstance(tree["items"], list)
    return is_pair and is_depth_list(tree["depths"]) and len(tree["depths"]) == len(tree["items"])


def carried_over(keeper: Any, documents: dict[str, Any]) -> list[str]:
    """Gives a new session the documents of another one, and returns a line for each place that does not fit or that the sides disagree on."""
    lines, kept = [], {}
    for side, ty in keeper.types.items():
        lines += [f"{side} {it}" for it in misfits(ty, documents[side])]
        kept[side] = fitted(ty, documents[side])
    return lines + [f"right {it}" for it in keeper.begin(kept["left"], kept["right"])]
