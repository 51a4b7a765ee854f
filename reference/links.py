"""Two sites that take turns over a link that loses, repeats and reorders, in the words of docs/MEANING.md."""

from editlens.edits import NoApply, act
from editlens.json_text import write_json
from editlens.types import initial

from .lenses import missing, translate, type_on

SIDES = ("left", "right")


class Site:
    """What both sites have: a number, a document, a draft and the last batch that was made."""

    def __init__(self, lens, side):
        self.lens, self.side, self.type = lens, side, type_on(side, lens)
        self.number, self.doc, self.draft, self.last = 0, initial(self.type), [], None
        self.comp = missing(lens) if side == 0 else None

    def has_turn(self):
        """Whether the number says that the site may change its document."""
        return self.number % 2 == self.side

    def after_draft(self):
        """The document with the draft."""
        return act(self.type, self.doc, self.draft)

    def edit(self, word):
        """A change of the draft."""
        if not self.has_turn():
            return False, "not-turn %d" % self.number
        try:
            act(self.type, self.after_draft(), word)
        except NoApply as fault:
            return False, "no-apply %d %s" % (fault.at, fault.cause)
        self.draft = self.draft + word
        return True, "draft"

    def seal(self):
        """The draft becomes a batch."""
        if not self.has_turn():
            return False, "not-turn %d" % self.number
        self.doc, word = self.after_draft(), self.draft
        if self.side == 0:
            word, self.comp = translate(self.lens, 0, self.comp, word)
        self.number, self.draft, self.last = self.number + 1, [], (self.number + 1, word)
        return True, "batch %d %s" % (self.number, write_json(word))

    def receive(self, number, word):
        """A batch of the other site comes."""
        if number <= self.number:
            return True, "stale %d" % number
        if self.side == 0:
            word, self.comp = translate(self.lens, 1, self.comp, word)
        self.doc, self.number = act(self.type, self.doc, word), number
        return True, "taken %d" % number


class Link:
    """Two sites, and the packets that were sent."""

    def __init__(self, lens):
        self.sites, self.packets = [Site(lens, side) for side in (0, 1)], []

    def step(self, event):
        """Whether an event is accepted, and what is said of it."""
        ((kind, what),) = event.items()
        if kind == "deliver":
            if what >= len(self.packets):
                return False, "no-packet %d" % len(self.packets)
            addressee, number, word = self.packets[what]
            return self.sites[addressee].receive(number, word)
        side = SIDES.index(what[0] if kind == "edit" else what)
        site = self.sites[side]
        if kind == "edit":
            return site.edit(what[1])
        if kind == "seal":
            return site.seal()
        if kind == "send":
            if site.last is None:
                return False, "no-batch"
            self.packets.append((1 - side,) + site.last)
            return True, "packet %d" % (len(self.packets) - 1)
        site.draft = []
        return True, "restart"
