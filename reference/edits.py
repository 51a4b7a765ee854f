"""Edits of shapes and journal lines, in the words of docs/EDITS.md and docs/FORMATS.md. A shape is {"list": 3}, {"keyed": [..]} or {"tree": [..]}."""

from editlens.edits import form_fault

from .plans import PLANS, NoPlan, node_at, plan


def plan_answer(shape, primitive):
    """What a primitive does to a shape: the new shape with the old place of each place, or the cause."""
    ((kind, form),), ((name, content),) = shape.items(), primitive.items()
    if name not in PLANS[kind]:
        return {"fault": "kind"}
    try:
        new, origins = plan(kind, form, name, content)
    except NoPlan as why:
        return {"fault": why.cause}
    return {"shape": {kind: new}, "from": origins}


def place_in(kind, form, at):
    """The place of an item, a key or a node in a form, or None."""
    if kind == "list":
        return at if type(at) is int and at < form else None
    if kind == "keyed":
        return form.index(at) if at in form else None
    return node_at(form, at) if isinstance(at, list) else None


def is_word(tree):
    """Whether a tree is an edit."""
    return form_fault(tree) is None


def entry_answer(tree):
    """What is said of a tree that is a line of a journal: the entry itself, or the fault."""
    if not isinstance(tree, dict) or set(tree) != {"side", "edit"} or tree["side"] not in ("left", "right"):
        return {"fault": "not-an-entry"}
    return {"ok": tree} if is_word(tree["edit"]) else {"fault": "not-an-edit"}
