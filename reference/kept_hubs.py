"""A hub that is kept in a store, in the words of docs/FORMATS.md: the payloads of its records and what each command writes."""

import copy
import json

from editlens.construct import construct
from editlens.edits import act
from editlens.json_text import write_json
from editlens.types import initial

from .hubs import Hub
from .inverses import inverse
from .lenses import missing, text_of, translate, type_on


def snapshot(hub):
    """The payload of a snapshot."""
    views = [{"complement": comp, "view": view} for comp, view in zip(hub.comps, hub.views)]
    return write_json({"snapshot": {"hub": hub.doc, "views": views}})


def state_lines(hub):
    """The lines of the document and of all views."""
    lines = ["hub " + write_json(hub.doc)]
    for number, (view, comp) in enumerate(zip(hub.views, hub.comps)):
        lines += ["view %d %s" % (number, write_json(view)), "complement %d %s" % (number, write_json(comp))]
    return "".join(it + "\n" for it in lines)


class KeptHub:
    """A hub, the payloads that stand for it, and of each payload the edits of its change: none, if it has no change."""

    def __init__(self, lenses):
        programs = ["main " + text_of(lens) for lens in lenses]
        self.hub = Hub(list(lenses))
        self.payloads, self.changes = ['{"hub":%s,"version":1}' % write_json(programs)], [None]

    def keep(self, payload, change=None):
        """Puts a payload behind the others."""
        self.payloads.append(payload)
        self.changes.append(change)

    def step(self, at, word):
        """Whether an edit is accepted, what is said of it, and the hub before it with the words that acted."""
        before = copy.deepcopy(self.hub)
        accepted, said = self.hub.step(at, word)
        if not accepted:
            self.hub = before
            return False, said, None
        central, words = (json.loads(it) for it in split_words(said))
        return True, said, (before, central, words)

    def edit(self, number, at, word):
        """The answer to a line that is an edit."""
        accepted, said, done = self.step(at, word)
        if accepted:
            self.keep(write_json({"at": at, "edit": word}), [done])
        return "%s %d %s\n" % ("ok" if accepted else "refused", number, said)

    def group(self, number, edits):
        """The answer to a line that is a group of edits."""
        before, acted = copy.deepcopy(self.hub), []
        for part, (at, word) in enumerate(edits):
            accepted, said, done = self.step(at, word)
            if not accepted:
                self.hub = before
                return "refused %d group %d %s\n" % (number, part, said)
            acted.append(done)
        self.keep(write_json({"group": [{"at": at, "edit": word} for at, word in edits]}), acted)
        told = [{"hub": central, "views": words} for _, central, words in acted]
        return "ok %d group %s\n" % (number, write_json(told))

    def pack(self):
        """What `pack` writes."""
        self.keep(snapshot(self.hub))
        return "packed %d\n" % self.count()

    def count(self):
        """How many records are changes."""
        return sum(change is not None for change in self.changes)

    def add(self, lens):
        """What `add` writes for a lens that may stand behind the others."""
        hub = self.hub
        word, comp = translate(lens, 0, missing(lens), construct(hub.type, hub.doc))
        right = type_on(1, lens)
        hub.lenses.append(lens)
        hub.comps.append(comp)
        hub.views.append(act(right, initial(right), word))
        self.keep(write_json({"add": "main " + text_of(lens)}))
        return state_lines(hub)

    def undo(self, count):
        """What `undo` writes for so many changes, or None if the last records are not so many changes."""
        last = self.changes[-count:]
        if count >= len(self.changes) or None in last:
            return None
        back = [[] for _ in range(1 + len(self.hub.lenses))]
        for before, central, words in [it for change in last for it in change]:
            types = [before.type] + [type_on(1, lens) for lens in before.lenses]
            docs = [before.doc] + before.views
            for place, (ty, doc, word) in enumerate(zip(types, docs, [central] + words)):
                back[place] = inverse(ty, word, doc) + back[place]
        first = next((change[0][0] for change in last if change), self.hub)
        self.hub = copy.deepcopy(first)
        self.keep(snapshot(self.hub))
        lines = ["undo hub " + write_json(back[0])] + ["undo view %d %s" % it for it in enumerate(map(write_json, back[1:]))]
        return "".join(it + "\n" for it in lines) + state_lines(self.hub)


def split_words(said):
    """The two texts of JSON in the answer to an edit."""
    _, end = json.JSONDecoder().raw_decode(said)
    return said[:end], said[end + 1 :]
