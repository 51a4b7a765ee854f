"""What a side of a program means for others: a JSON Schema of its documents or of a user's files, and types of TypeScript made of it.

A schema cannot say that keys differ from each other, how deeply a tree nests, that the depths of a tree are those of its nodes in preorder,
and that `1.0` is no whole number for editlens.
"""

from itertools import product

from .json_text import write_json
from .natural.forms import Shape
from .plans import MOST_DEPTH
from .types import LEAST_INT, MOST_INT

DRAFT = "https://json-schema.org/draft/2020-12/schema"
NUMBER = r"^-?(0|[1-9][0-9]*)(\.[0-9]+)?([eE][+-]?[0-9]+)?$"
WHOLE = {"type": "integer", "minimum": LEAST_INT, "maximum": MOST_INT}


def json_schema(shapes: dict) -> dict:
    """One schema with a definition for each side. A node of nested objects has a definition of its own."""
    definitions: dict = {}
    for side, shape in shapes.items():
        definitions[side] = {}
        definitions[side] = _Writer(side, definitions).of(shape)
    return {"$schema": DRAFT, "$defs": definitions}


class _Writer:
    def __init__(self, side, definitions):
        self.side, self.definitions, self.count = side, definitions, 0

    def of(self, shape: Shape) -> object:
        """The schema of what is written at a place. What may be missing is as it is if it is there."""
        kind, form = shape.kind, shape.form
        if shape.is_untagged():
            there = [{"type": "null"} if form.get("null") == tag else self.of(it) for tag, it in shape.inner.items() if form.get("missing") != tag]
            return there[0] if len(there) == 1 else {"anyOf": there}
        if kind == "one":
            return {"type": "array", "items": self.of(shape.inner["*"]), "minItems": 1, "maxItems": 1}
        if kind in ("unit", "bool", "int", "text", "enum"):
            return _simple(shape)
        if kind == "list":
            return {"type": "array", "items": self.of(shape.inner["*"])}
        if shape.is_key_list():
            key = {"type": "number" if "number" in form else "string"}
            items = _objects(self.joined(form, shape.content(), {}, set()))
            return {"type": "array", "items": _with_keys(items, shape.key_places, key)}
        if kind == "tree" and "children" in form:
            return self.node(shape)
        return _objects(self.variants(shape))

    def node(self, shape):
        """A reference to the definition of a node, which has further ones below it."""
        self.count += 1
        name, form = f"{self.side}_node_{self.count}", shape.form
        reference, self.definitions[name] = {"$ref": f"#/$defs/{name}"}, {}
        below = {"type": "array", "items": reference, **({"minItems": 1} if "leaf" in form else {})}
        needed = set() if "leaf" in form else {form["children"]}
        self.definitions[name] = _objects(self.joined(form, shape.inner["*"], {form["children"]: below}, needed))
        return reference

    def variants(self, shape):
        """What an object at a place may be: the schemas of its members, the members that it must have, and the schema of all others."""
        kind, form = shape.kind, shape.form
        if shape.is_untagged():
            return [it for inner in shape.inner.values() for it in self.variants(inner)]
        if kind == "unit":
            return [({}, set(), False)]
        if kind == "record":
            return self.fields(shape)
        if kind == "keyed":
            return [({}, set(), self.of(shape.inner["*"]))]
        if kind == "alternatives" and "kind" in form:
            return [
                it for tag, inner in shape.inner.items() for it in self.joined(form, inner, {form["kind"]: {"const": tag}}, {form["kind"]})
            ]
        if kind == "alternatives":
            return [({tag: self.of(inner)}, {tag}, False) for tag, inner in shape.inner.items()]
        if "children" in form:
            definition = self.definitions[self.node(shape)["$ref"].rsplit("/", 1)[1]]
            return [
                (it["properties"], set(it["required"]), it["additionalProperties"]) for it in definition.get("anyOf", [definition])
            ]
        depth = {"type": "integer", "minimum": 0, "maximum": MOST_DEPTH}
        depths = {"type": "array", "prefixItems": [{"const": 0}], "items": depth, "minItems": 1}
        items = {"type": "array", "items": self.of(shape.inner["*"]), "minItems": 1}
        return [({"depths": depths, "items": items}, {"depths", "items"}, False)]

    def joined(self, form, inner, own, needed):
        """The members that a form adds to a content, with those of the content."""
        if "content" in form:
            return [({**own, form["content"]: self.of(inner)}, {*needed, form["content"]}, False)]
        return [({**members, **own}, required | needed, rest) for members, required, rest in self.variants(inner)]

    def fields(self, shape):
        """A record: its own fields with each variant of those that are flat."""
        own, needed, flat = {}, set(), []
        for name, inner in shape.inner.items():
            if "flat" in inner.form:
                flat.append(self.variants(inner))
            else:
                own[name] = self.of(inner)
                needed |= set() if "missing" in inner.form else {name}
        found = []
        for some in product(*flat):
            members, required, rest = dict(own), set(needed), False
            for inner, must, others in some:
                members.update(inner)
                required |= must
                rest = others if others is not False else rest
            if rest is not False:
                # A member that only another variant has does not fall to the map of what is left.
                members.update({name: False for name in shape.other_names if name not in members})
            found.append((members, required, rest))
        return found


def _with_keys(schema, places, key):
    """The schema of an item, or of a part of it, with its key at some nested places."""
    if "anyOf" in schema:
        return {"anyOf": [_with_keys(it, places, key) for it in schema["anyOf"]]}
    if schema.get("type") == "array":
        return {**schema, "items": _with_keys(schema["items"], places["0"], key)}
    empty = {"type": "object", "properties": {}, "required": [], "additionalProperties": False}
    members = dict(schema["properties"])
    for name, below in places.items():
        members[name] = key if below is True else _with_keys(members.get(name, empty), below, key)
    return {**schema, "properties": members, "required": sorted({*schema["required"], *places})}


def _simple(shape):
    kind, form = shape.kind, shape.form
    if kind == "text":
        if "decimal" in form:
            return {"type": "string", "pattern": NUMBER}
        return {} if "json" in form else {"type": "number" if "number" in form else "string"}
    if kind == "enum":
        return {"enum": [form.get("members", {}).get(it, it) for it in shape.ty.members]}
    return {"unit": {"type": "null"}, "bool": {"type": "boolean"}, "int": dict(WHOLE)}[kind]


def _objects(variants):
    found = [
        {"type": "object", "properties": members, "required": sorted(required), "additionalProperties": rest}
        for members, required, rest in variants
    ]
    return found[0] if len(found) == 1 else {"anyOf": found}


def typescript(schema: dict) -> list:
    """The lines of the types of TypeScript that a schema of `json_schema` means."""
    lines = ["// Numbers above 2^53 and fractions lose digits in JavaScript where JSON.parse reads them."]
    for name, it in schema["$defs"].items():
        lines.append(f"export type {_type_name(name)} = {_typed(it)};")
    return lines


def _type_name(name):
    return "".join(it.capitalize() for it in name.split("_"))


def _typed(schema):
    if schema is False or schema == {}:
        return "never" if schema is False else "unknown"
    if "$ref" in schema:
        return _type_name(schema["$ref"].rsplit("/", 1)[1])
    if "anyOf" in schema:
        return " | ".join(dict.fromkeys(map(_typed, schema["anyOf"])))
    if "const" in schema or "enum" in schema:
        return " | ".join(map(write_json, schema.get("enum", [schema.get("const")])))
    if schema["type"] == "array":
        return f"Array<{_typed(schema['items'])}>"
    if schema["type"] == "object":
        return _typed_object(schema)
    return "number" if schema["type"] == "integer" else schema["type"]


def _typed_object(schema):
    rest, members = schema["additionalProperties"], schema["properties"]
    parts = [f"{write_json(name)}{'' if name in schema['required'] else '?'}: {_typed(it)}" for name, it in members.items()]
    if rest is not False:
        parts.append(f"[key: string]: {_typed(rest) if not members else 'unknown'}")
    return "{ " + "; ".join(parts) + " }" if parts else "Record<string, never>"
