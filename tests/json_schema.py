"""A check of a value by a JSON Schema, for the keywords that docs/report.schema.json has; a schema with another one is refused. Beyond
JSON Schema the keys of an object stand in the order of `properties`."""

import re

TYPES = {"object": dict, "array": list, "string": str, "integer": int, "boolean": bool, "null": type(None)}
# Keywords that say nothing of a value.
SILENT = {"$schema", "title", "description", "$defs"}


def is_one(value, others):
    """Whether a value is one of these; in Python 1 is equal to `True`."""
    return any(type(value) is type(other) and value == other for other in others)


def is_number(value):
    return type(value) is int


class Schema:
    """A schema, as it was read from its file."""

    def __init__(self, root):
        self.root = root
        self.keywords = {
            "type": lambda asked, it: type(it) in [TYPES[name] for name in ([asked] if isinstance(asked, str) else asked)],
            "const": lambda asked, it: is_one(it, [asked]),
            "enum": lambda asked, it: is_one(it, asked),
            "minimum": lambda asked, it: not is_number(it) or it >= asked,
            "maximum": lambda asked, it: not is_number(it) or it <= asked,
            "pattern": lambda asked, it: not isinstance(it, str) or re.search(asked, it) is not None,
            "minItems": lambda asked, it: not isinstance(it, list) or len(it) >= asked,
            "maxItems": lambda asked, it: not isinstance(it, list) or len(it) <= asked,
            "required": lambda asked, it: not isinstance(it, dict) or all(name in it for name in asked),
            "additionalProperties": lambda asked, it: asked is False,
            "items": lambda asked, it: not isinstance(it, list) or all(self.fits(one, asked) for one in it),
            "properties": self.has_properties,
            "oneOf": lambda asked, it: sum(self.fits(it, one) for one in asked) == 1,
            "$ref": lambda asked, it: self.fits(it, self.named(asked)),
        }
        for one in self.parts(root):
            if unknown := {*one} - {*self.keywords} - SILENT:
                raise ValueError(f"unknown keywords: {unknown}")
            if "properties" in one and one.get("additionalProperties") is not False:
                raise ValueError(f"an object that is open: {[*one['properties']]}")

    def named(self, reference):
        """The schema of a reference."""
        return self.root["$defs"][reference.removeprefix("#/$defs/")]

    def parts(self, schema):
        """A schema and all schemas in it."""
        yield schema
        inner = [*schema.get("oneOf", []), *schema.get("properties", {}).values(), *schema.get("$defs", {}).values()]
        for one in [*inner, *([schema["items"]] if "items" in schema else [])]:
            yield from self.parts(one)

    def has_properties(self, asked, value):
        """Whether an object has no other keys than these, in their order, with the values that are asked."""
        if not isinstance(value, dict):
            return True
        names = [name for name in asked if name in value]
        return [*value] == names and all(self.fits(value[name], asked[name]) for name in names)

    def fits(self, value, schema=None):
        """Whether a value is one of a schema, of the whole one if none is given."""
        schema = self.root if schema is None else schema
        return all(self.keywords[name](asked, value) for name, asked in schema.items() if name not in SILENT)

    def forms(self):
        """The forms of the whole schema, each with each of its codes."""
        for place, one in enumerate(self.root["oneOf"]):
            yield from ((place, code) for code in one["properties"].get("code", {"enum": [None]})["enum"])

    def form(self, value):
        """The form of a value that fits."""
        return next(place for place, one in enumerate(self.root["oneOf"]) if self.fits(value, one)), value.get("code")
