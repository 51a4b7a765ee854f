"""Writes the cases of case_tags, worked out on plain lists of Python. reference/CASES.md says what a line means."""

import random


class Script:
    """The lines of the cases, and how many of them have an answer."""

    def __init__(self):
        self.lines, self.cases = [], 0

    def change(self, *words):
        """A line that changes the list."""
        self.lines.append(" ".join(map(str, words)))

    def case(self, *words):
        """A line that has an answer."""
        self.cases += 1
        self.change(*words)

    def every_place(self, tags, used):
        """Each of the three calls at every place of a list."""
        self.change("list", *tags)
        self.case("is", *tags)
        for at, tag in enumerate(tags):
            self.case("tag", at, tag)
        for tag in used:
            count = 0
            for upto in range(len(tags) + 1):
                self.case("rank", tag, upto, count)
                if upto < len(tags) and tags[upto] == tag:
                    self.case("place", tag, count, upto)
                    count += 1
            self.case("none", tag, count)
            self.case("none", tag, count + 1000)

    def questions(self, chance, used, tags, kept):
        """The list, the copy of it, and a question of each call."""
        self.case("is", *tags)
        self.case("kept", *kept)
        tag = chance.choice(used)
        upto = chance.randrange(len(tags) + 1)
        self.case("rank", tag, upto, tags[:upto].count(tag))
        number = chance.randrange(max(1, len(tags)))
        places = [at for at, other in enumerate(tags) if other == tag]
        self.case(*(("place", tag, number, places[number]) if number < len(places) else ("none", tag, number)))
        bound = chance.choice(used) + chance.choice([0, 1])
        self.case("below", bound, int(all(other < bound for other in tags)))

    def changes(self, chance, rounds, used, longest):
        """A random sequence of all changes, with questions after each of them."""
        tags = [chance.choice(used) for _ in range(chance.randrange(longest))]
        self.change("list", *tags)
        kept = list(tags)
        self.change("keep")
        for _ in range(rounds):
            kind = chance.choice(["push", "set", "cut", "move", "set", "move", "keep"])
            if kind == "keep":
                kept = list(tags)
                self.change("keep")
            elif tags or kind not in ("set", "move"):
                tags, numbers = changed(chance, kind, used, tags)
                self.change(kind, *numbers)
            self.questions(chance, used, tags, kept)


def changed(chance, kind, used, tags):
    """The list after a random change of a kind, and the numbers of its line."""
    if kind == "push":
        tag, count = chance.choice(used), chance.choice([0, 1, 1, 2, 3, 7, 20])
        return tags + [tag] * count, (tag, count)
    if kind == "set":
        at, tag = chance.randrange(len(tags)), chance.choice(used)
        return tags[:at] + [tag] + tags[at + 1 :], (at, tag)
    if kind == "cut":
        count = min(chance.choice([0, 1, 2, len(tags) // 3, len(tags)]), len(tags))
        return tags[: len(tags) - count], (count,)
    source, target = chance.randrange(len(tags)), chance.randrange(len(tags))
    rest = tags[:source] + tags[source + 1 :]
    return rest[:target] + [tags[source]] + rest[target:], (source, target)


def script():
    """All cases."""
    chance, found = random.Random(20), Script()
    found.every_place([chance.randrange(4) for _ in range(1000)], [0, 1, 2, 3])
    found.every_place([], [5])
    found.every_place([7] * 9, [7, 8])
    wide = [0, 1, 2**31, 2**32 - 2]
    for number in range(60):
        used = wide if number % 4 == 0 else list(range(1 + number % 7))
        found.changes(chance, 25, used, 2 + 2 * number)
    found.change("list")
    found.change("push", 3, 1_000_000)
    found.change("push", 4, 1)
    found.case("rank", 3, 1_000_001, 1_000_000)
    found.case("place", 3, 777_777, 777_777)
    found.case("place", 4, 0, 1_000_000)
    return found


def files():
    """The input of the program, and its output where no case differs."""
    found = script()
    yield "case_tags/stdin", ("\n".join(found.lines) + "\n").encode()
    yield "case_tags/stdout", f"tags: {found.cases} cases, 0 differ\n".encode()
