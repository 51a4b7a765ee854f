"""The type and the forms of a JSON Schema. What a type cannot say of it is a doubt."""

from dataclasses import replace

from ..natural.text import sort_of
from .guess import NONE, SORT_TAGS, Guess, anything, is_name, number, scalar, together

NOT_KEPT = (
    "minimum maximum exclusiveMinimum exclusiveMaximum multipleOf minLength maxLength pattern format minItems maxItems uniqueItems contains"
    " minProperties maxProperties patternProperties propertyNames dependencies dependentRequired dependentSchemas if then else not prefixItems"
).split()
SORTS = {"string": "string", "integer": "number", "number": "number", "boolean": "bool", "null": "null", "array": "array", "object": "object"}
IS_SCHEMA = "json-schema.org"


def is_schema(tree: object) -> bool:
    """Whether a tree says that it is a JSON Schema."""
    return isinstance(tree, dict) and IS_SCHEMA in str(tree.get("$schema", ""))


def guess_of_schema(schema: object, levels: int) -> Guess:
    """The guess of a place by its JSON Schema. Deeper levels are kept as any JSON."""
    return _Reader(schema).read(schema, levels, ())


class _Reader:
    def __init__(self, root):
        self.root = root

    def resolved(self, schema, seen=()):
        """A schema without references and `allOf`, and the references that led to it."""
        while isinstance(schema, dict) and "$ref" in schema:
            ref = schema["$ref"]
            if ref in seen or not ref.startswith("#"):
                return None, (*seen, ref)
            seen, found = (*seen, ref), self.root
            for step in ref[1:].split("/")[1:]:
                found = found.get(step.replace("~1", "/").replace("~0", "~")) if isinstance(found, dict) else None
            schema = found
        if isinstance(schema, dict) and "allOf" in schema:
            return self._merged(schema, seen)
        return schema, seen

    def _merged(self, schema, seen):
        made = {name: it for name, it in schema.items() if name != "allOf"}
        for part in schema["allOf"]:
            part, seen = self.resolved(part, seen)
            if not isinstance(part, dict):
                continue
            for name, it in part.items():
                if name == "properties":
                    made[name] = {**made.get(name, {}), **it}
                elif name == "required":
                    made[name] = [*made.get(name, ()), *it]
                else:
                    made.setdefault(name, it)
        return made, seen

    def read(self, schema, levels, seen):
        """The guess of a schema."""
        found, seen = self.resolved(schema, seen)
        if not isinstance(found, dict):
            return anything("the schema allows any value here" if found is True else "the schema leads back to itself or to nothing here")
        if levels <= 0:
            return anything("nests deeply: any JSON value is kept as one")
        choices = found.get("oneOf") or found.get("anyOf")
        made = self._choices(choices, levels, seen) if choices else self._plain(found, levels, seen)
        lost = [name for name in NOT_KEPT if name in found]
        return made.doubting(f"of the schema this is not kept: {', '.join(lost)}") if lost else made

    def _choices(self, choices, levels, seen):
        found = [self.resolved(it, seen) for it in choices]
        is_null = any(isinstance(it, dict) and (it.get("type") == "null" or it.get("const", 0) is None) for it, _ in found)
        others = [(it, way) for it, way in found if not (isinstance(it, dict) and (it.get("type") == "null" or it.get("const", 0) is None))]
        if not others:
            return scalar("unit")
        if all(isinstance(it, dict) and "const" in it for it, _ in others):
            return self._members([it["const"] for it, _ in others], is_null)
        if len(others) == 1:
            return together({"": self.read(others[0][0], levels, others[0][1])}, False, is_null)
        kinds = self._kinds(others, levels)
        if kinds:
            return together({"": kinds}, False, is_null)
        made = {}
        for it, way in others:
            guess = self.read(it, levels, way)
            sort = _sort_of(guess)
            if sort is None or SORT_TAGS[sort] in made:
                return anything("choices that nothing tells apart: any JSON value is kept")
            made[SORT_TAGS[sort]] = guess
        return together(made, False, is_null)

    def _kinds(self, choices, levels):
        """Alternatives by a member that each choice fixes to a text of its own, or None."""
        objects = [it for it, _ in choices if isinstance(it, dict) and isinstance(it.get("properties"), dict)]
        if len(objects) < len(choices):
            return None
        for name in objects[0]["properties"]:
            tags = [_constant(it["properties"].get(name)) for it in objects]
            if all(isinstance(it, str) and is_name(it) for it in tags) and len(set(tags)) == len(tags):
                made = {tag: self._record(it, levels - 1, way, name) for tag, (it, way) in zip(tags, choices)}
                if all(it.kind == "record" for it in made.values()):
                    return Guess("alternatives", inner=made, form={"kind": name})
        return None

    def _plain(self, found, levels, seen):
        if "const" in found or "enum" in found:
            values = found.get("enum", [found.get("const")])
            return self._members([it for it in values if it is not None], None in values)
        sorts = found.get("type")
        sorts = [sorts] if isinstance(sorts, str) else sorts or (["object"] if "properties" in found else ["array"] if "items" in found else [])
        is_null, others = "null" in sorts, list(dict.fromkeys(it for it in sorts if it != "null"))
        if "number" in others and "integer" in others:
            others.remove("integer")
        if not others:
            return scalar("unit") if is_null else anything("the schema allows any value here")
        made = {SORT_TAGS[SORTS[it]]: self._of_sort(it, found, levels, seen) for it in others if it in SORTS}
        return together(made, False, is_null) if made else anything("a type that JSON Schema does not have: any JSON value is kept")

    def _of_sort(self, sort, found, levels, seen):
        if sort == "string":
            return scalar("text")
        if sort == "boolean":
            return scalar("bool")
        if sort == "integer":
            return scalar("int").doubting("whole numbers within 64 bits")
        if sort == "number":
            return number()
        if sort == "array":
            return Guess("list", inner={"*": self.read(found.get("items", True), levels - 1, seen)})
        return self._object(found, levels, seen)

    def _members(self, values, is_null):
        """An enum, where each member is a text or a whole number, true or false."""
        if not values:
            return scalar("unit")
        if any(sort_of(it) not in ("string", "number", "bool") or isinstance(it, float) for it in values):
            return anything("values of an enum that are no simple ones: any JSON value is kept")
        texts = [it if isinstance(it, str) else str(it).lower() for it in values]
        if not all(map(is_name, texts)) or len(set(texts)) < len(texts):
            return together({"": anything("members that a program cannot write: any JSON value is kept")}, False, is_null)
        others = {text: it for text, it in zip(texts, values) if text is not it}
        made = Guess("enum", members=tuple(texts), start=texts[0], form={"members": others} if others else None)
        return together({"": made}, False, is_null)

    def _object(self, found, levels, seen):
        child = self._child_member(found, seen)
        if child:
            return self._tree(found, child, levels, seen)
        return self._record(found, levels, seen)

    def _record(self, found, levels, seen, without=None):
        properties, rest = found.get("properties", {}), found.get("additionalProperties", True)
        properties = {name: it for name, it in properties.items() if name != without}
        if not properties and rest is False:
            return Guess("record")
        if not properties and not without or not all(map(is_name, properties)):
            made = self.read(rest if not properties else True, levels - 1, seen)
            return Guess("keyed", inner={"*": made})
        made = {}
        for name, it in properties.items():
            if it is not False:
                made[name] = _optional(self.read(it, levels - 1, seen), name in found.get("required", ()))
        if "additionalProperties" in found and rest is not False:
            others = next(it for it in ("others", *(f"others{number}" for number in range(len(made)))) if it not in made)
            inside = replace(self.read(rest, levels - 1, seen), is_unknown=False)
            made[others] = Guess("keyed", inner={"*": inside}, form="flat", doubts=("the members that the schema does not name",))
            return Guess("record", inner=made)
        doubts = () if rest is False else ("the schema allows members that it does not name; here they do not fit",)
        return Guess("record", inner=made, doubts=doubts)

    def _child_member(self, found, seen):
        """The member that is a list of the same schema, or None."""
        for name, it in found.get("properties", {}).items():
            items = it.get("items") if isinstance(it, dict) else None
            ref = items.get("$ref") if isinstance(items, dict) else None
            if ref and is_name(name) and (ref == "#" and found is self.root or seen and ref == seen[-1]):
                return name
        return None

    def _tree(self, found, child, levels, seen):
        required = child in found.get("required", ())
        made = self._record(found, levels - 1, seen, child)
        if made.kind != "record":
            return anything("a tree whose members a program cannot write: any JSON value is kept")
        doubt = f"nodes nest by {child}, at most 16 levels" + ("" if required else f"; one without children has no {child}")
        return Guess("tree", inner={"*": made}, form={"children": child, **({} if required else {"leaf": "missing"})}, doubts=(doubt,))


def _optional(made, is_required):
    if is_required:
        return made
    if not made.roles():
        if made.form == "untagged":
            return together(made.contents(), True, False)
        return together({"": made}, True, False)
    inner = {NONE: Guess("unit"), "null": Guess("unit"), **made.contents()}
    return Guess("alternatives", inner=inner, form={"missing": NONE, "null": "null"}, doubts=made.doubts)


def _constant(schema):
    if not isinstance(schema, dict):
        return None
    values = schema.get("enum", [schema.get("const")])
    return values[0] if len(values) == 1 else None


def _sort_of(guess):
    """The sort of JSON of what is guessed, or None where it is not one alone."""
    if guess.is_any() or guess.form == "untagged" or guess.roles() or guess.kind == "unit":
        return None
    if guess.kind == "enum" and guess.form:
        return None
    if guess.form == "number":
        return "number"
    return {"text": "string", "enum": "string", "int": "number", "bool": "bool", "list": "array"}.get(guess.kind, "object")
