"""Writes cases of consistency for case_consistency, worked out by the rules of docs/MEANING.md and docs/FORMATS.md."""


from ..consistency import answer
from ..documents import CONTAINERS, alternatives, container
from ..lenses import KINDS, is_paired, text_of, type_on
from ..plans import contents, form_of, hold
from . import lines_of
from .chance import FIELDS, SIMPLE, Chance

LENSES = {kind: lens for lens, kind in KINDS.items()}


class Triples(Chance):
    """A source of lenses, and of documents and complements that belong together or nearly so."""

    def lens_on(self, side, ty, depth):
        """A lens with this type on a side."""
        if depth <= 0 or self.random() < 0.1:
            return "id", ty
        if self.random() < 0.35:
            return self.around(side, ty, depth)
        if ty.kind == "enum":
            others = self.sample(FIELDS, len(ty.members))
            return "bij", list(zip(ty.members, others) if side == 0 else zip(others, ty.members))
        if ty.kind == "record":
            return self.of_record(side, ty.fields, depth)
        if ty.kind == "alternatives":
            others = self.sample(FIELDS, len(ty.fields))
            return "alt", [self.pair(side, tag, other, inner, depth) for (tag, inner), other in zip(ty.fields, others)]
        if ty.kind in CONTAINERS:
            if side == 0 and ty.kind == "list" and ty.inner.kind == "alternatives" and self.random() < 0.7:
                return "part", list(ty.inner.fields)
            return LENSES[ty.kind], self.lens_on(side, ty.inner, depth - 1)
        return "id", ty

    def around(self, side, ty, depth):
        """An inverse, a composition or a disconnection with this type on a side."""
        kind = self.choice(["inv", "then", "then", "disc"])
        if kind == "disc":
            other = self.some_type(1)
            return (kind, ty, other) if side == 0 else (kind, other, ty)
        if kind == "inv":
            return kind, self.lens_on(1 - side, ty, depth - 1)
        near = self.lens_on(side, ty, depth - 1)
        far = self.lens_on(side, type_on(1 - side, near), depth - 1)
        return (kind, near, far) if side == 0 else (kind, far, near)

    def pair(self, side, name, other, ty, depth):
        """Two names with a lens that has this type on a side."""
        lens = self.lens_on(side, ty, depth - 1)
        return (name, other, lens) if side == 0 else (other, name, lens)

    def of_record(self, side, fields, depth):
        """A lens of records that has these fields on a side, or a partition."""
        if side == 1 and fields and all(ty.kind == "list" for _, ty in fields):
            return "part", [(name, ty.inner) for name, ty in self.sample(fields, len(fields))]
        rows, others = [], self.sample(FIELDS, len(FIELDS))
        for name, ty in fields:
            if self.random() < 0.25:
                rows.append((("left", "right")[side], name, ty))
            else:
                rows.append(self.pair(side, name, others.pop(), ty, depth))
        if self.random() < 0.4:
            rows.append((("right", "left")[side], others.pop(), self.some_type(1)))
        return "rec", self.sample(rows, len(rows))

    def far(self, lens, side, doc):
        """A complement and a document of the other side that are consistent with a document."""
        kind, what = lens[0], lens[1]
        if kind == "id":
            return None, doc
        if kind == "disc":
            return None, self.document(lens[2 - side])
        if kind == "bij":
            return None, next(pair[1 - side] for pair in what if pair[side] == doc)
        if kind == "inv":
            return self.far(what, 1 - side, doc)
        if kind == "then":
            lenses = [what, lens[2]]
            near, middle = self.far(lenses[side], side, doc)
            far, doc = self.far(lenses[1 - side], side, middle)
            return {"then": [near, far] if side == 0 else [far, near]}, doc
        if kind == "alt":
            arm = next(arm for arm in what if arm[side] in doc)
            part, content = self.far(arm[2], side, doc[arm[side]])
            return {"alt": [arm[0], part]}, {arm[1 - side]: content}
        if kind == "rec":
            return self.far_record(what, side, doc)
        if kind == "part":
            return self.far_parts(what, side, doc)
        kind = KINDS[kind]
        form = form_of(kind, doc)
        both = [self.far(what, side, item) for item in contents(kind, doc)]
        return {kind: hold(kind, form, [part for part, _ in both])}, hold(kind, form, [item for _, item in both])

    def far_record(self, rows, side, doc):
        """The complement and the other record of a record."""
        parts, fields = [], {}
        for row in rows:
            if is_paired(row):
                part, fields[row[1 - side]] = self.far(row[2], side, doc[row[side]])
                parts.append(part)
            elif row[0] == ("right", "left")[side]:
                fields[row[1]] = self.document(row[2])
        return {"rec": parts}, fields

    def far_parts(self, tags, side, doc):
        """The complement and the other document of a mixed list or of its parts."""
        if side == 0:
            found = [tag for item in doc for tag in item]
            return {"tags": found}, {name: [item[name] for item in doc if name in item] for name, _ in tags}
        found = [name for name, _ in tags for _ in doc[name]]
        self.shuffle(found)
        lists = {name: iter(doc[name]) for name, _ in tags}
        return {"tags": found}, [{tag: next(lists[tag])} for tag in found]

    def type_of_parts(self):
        """A type on which much can be built: a list of alternatives, mostly."""
        if self.random() < 0.5:
            return container("list", alternatives([(name, self.some_type(1)) for name in self.sample(FIELDS, 2)]))
        return self.some_type(3)

    def row(self):
        """A row: a lens, and a triple that is consistent or nearly so."""
        lens = self.lens_on(0, self.type_of_parts(), 5)
        left = self.document(type_on(0, lens))
        comp, right = self.far(lens, 0, left)
        assert answer(lens, left, comp, right) == "consistent", (lens, left, comp, right)
        change = self.random()
        if change < 0.4:
            right = self.varied(type_on(1, lens), right)
        elif change < 0.45:
            right = self.changed(right)
        elif change < 0.55:
            left = self.varied(type_on(0, lens), left)
        elif change < 0.6:
            left = self.changed(left)
        elif change < 0.75:
            comp = self.other_complement(comp)
        return {"program": "main " + text_of(lens), "left": left, "complement": comp, "right": right, "answer": answer(lens, left, comp, right)}

    def varied(self, ty, doc):
        """A document of the type that may differ at one spot."""
        if ty.kind in SIMPLE or ty.kind == "enum" or not doc or self.random() < 0.15:
            return self.document(ty)
        if ty.kind == "record":
            name, inner = self.choice(ty.fields)
            return {**doc, name: self.varied(inner, doc[name])}
        if ty.kind == "alternatives":
            ((name, content),) = doc.items()
            return {name: self.varied(ty.field(name), content)}
        items = contents(ty.kind, doc)
        place = self.randrange(len(items))
        items[place] = self.varied(ty.inner, items[place])
        return hold(ty.kind, form_of(ty.kind, doc), items)

    def other_complement(self, comp):
        """That of another left document, or one that differs at one spot."""
        if self.random() < 0.5:
            return self.changed(comp)
        return self.mixed(comp)

    def mixed(self, comp):
        """The complement with the tags of a partition in another order."""
        if type(comp) is list:
            return [self.mixed(part) for part in comp]
        if type(comp) is dict and set(comp) == {"tags"} and type(comp["tags"]) is list:
            return {"tags": comp["tags"][::-1]}
        return {name: self.mixed(part) for name, part in comp.items()} if type(comp) is dict else comp


def rows(chance, count):
    """Rows that differ, of at most 2,000 characters. One in ten may have an identity or a disconnection as its lens."""
    seen = set()
    while len(seen) < count:
        row = chance.row()
        line = lines_of([row]).decode().rstrip("\n")
        is_plain = row["program"].startswith(("main id ", "main disc "))
        if len(line) <= 2000 and line not in seen and (not is_plain or chance.random() < 0.1):
            seen.add(line)
            yield line


def files():
    """The file of cases."""
    lines = "".join(line + "\n" for line in rows(Triples(7), 700))
    yield "case_consistency/data/consistency_reference.jsonl", lines.encode()
