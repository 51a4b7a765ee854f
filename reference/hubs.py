"""A hub: one document and many views of it, in the words of docs/MEANING.md."""

from editlens.edits import NoApply, act
from editlens.json_text import write_json
from editlens.types import initial

from .lenses import missing, translate, type_on


class Hub:
    """A document, and the views of it by lenses that have its type on the left."""

    def __init__(self, lenses):
        self.lenses, self.type = lenses, type_on(0, lenses[0])
        self.doc = initial(self.type)
        self.comps = [missing(lens) for lens in lenses]
        self.views = [initial(type_on(1, lens)) for lens in lenses]

    def step(self, at, word):
        """Whether an edit of the document, or of the view with a number, is accepted, and what is said of it."""
        if at != "hub" and at >= len(self.lenses):
            return False, "no-view"
        ty, doc = (self.type, self.doc) if at == "hub" else (type_on(1, self.lenses[at]), self.views[at])
        try:
            edited = act(ty, doc, word)
        except NoApply as fault:
            return False, "no-apply %d %s" % (fault.at, fault.cause)
        words, central = [None] * len(self.lenses), word
        if at != "hub":
            central, self.comps[at] = translate(self.lenses[at], 1, self.comps[at], word)
            self.views[at], words[at] = edited, word
        self.doc = act(self.type, self.doc, central)
        for view, lens in enumerate(self.lenses):
            if view != at:
                words[view], self.comps[view] = translate(lens, 0, self.comps[view], central)
                self.views[view] = act(type_on(1, lens), self.views[view], words[view])
        return True, "%s %s" % (write_json(central), write_json(words))
