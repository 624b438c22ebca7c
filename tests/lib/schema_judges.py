"""Judges of values by a JSON Schema: `Schema`, which knows the few words that the schemas of docs/ use, and the library
`jsonschema` where python has it."""

import json
import re

try:
    import jsonschema
except ImportError:
    jsonschema = None

JSON_TYPES = {
    "null": lambda it: it is None,
    "boolean": lambda it: isinstance(it, bool),
    "string": lambda it: isinstance(it, str),
    "array": lambda it: isinstance(it, list),
    "object": lambda it: isinstance(it, dict),
    "integer": lambda it: is_number(it) and it == it // 1,
}


def is_number(value):
    return isinstance(value, (int, float)) and not isinstance(value, bool)


class Schema:
    """A schema, of the words that those of plans and of traces use; any other is an error."""

    def __init__(self, root):
        self.root = root

    def accepts(self, value, schema=None):
        schema = self.root if schema is None else schema
        return all(self.holds(word, what, value, schema) for word, what in schema.items())

    def holds(self, word, what, value, schema):
        """Whether a value is as one word of a schema says."""
        match word:
            case "$schema" | "$defs" | "title" | "description":
                return True
            case "$ref":
                return self.accepts(value, self.root["$defs"][what.removeprefix("#/$defs/")])
            case "anyOf":
                return any(self.accepts(value, one) for one in what)
            case "oneOf":
                return sum(self.accepts(value, one) for one in what) == 1
            case "type":
                return any(JSON_TYPES[it](value) for it in ([what] if isinstance(what, str) else what))
            case "not":
                return not self.accepts(value, what)
            case "enum":
                return any(self.holds("const", one, value, schema) for one in what)
            case "const":
                return value == what and isinstance(value, bool) == isinstance(what, bool)
            case "minimum":
                return not is_number(value) or value >= what
            case "maximum":
                return not is_number(value) or value <= what
            case "maxLength":
                return not isinstance(value, str) or len(value) <= what
            case "pattern":
                # In ECMA-262 $ stands for the end alone, in python for what is before a last line feed too.
                return not isinstance(value, str) or bool(re.search(what.replace("$", r"\Z"), value))
            case "minItems":
                return not isinstance(value, list) or len(value) >= what
            case "maxItems":
                return not isinstance(value, list) or len(value) <= what
            case "prefixItems":
                return not isinstance(value, list) or all(map(self.accepts, value, what))
            case "items":
                first = len(schema.get("prefixItems", []))
                return not isinstance(value, list) or all(self.accepts(it, what) for it in value[first:])
            case "required":
                return not isinstance(value, dict) or all(key in value for key in what)
            case "maxProperties":
                return not isinstance(value, dict) or len(value) <= what
            case "propertyNames":
                return not isinstance(value, dict) or all(self.accepts(key, what) for key in value)
            case "properties":
                members = value if isinstance(value, dict) else {}
                return all(self.accepts(members[key], what[key]) for key in what if key in members)
            case "additionalProperties":
                members = value if isinstance(value, dict) else {}
                others = [members[key] for key in members if key not in schema.get("properties", {})]
                return not others if what is False else all(self.accepts(it, what) for it in others)
        raise ValueError(f"a word that this test does not know: {word}")


def library(root):
    """The judge that python's library makes of a schema, which has to be one; $ is changed as in `Schema`."""
    jsonschema.Draft202012Validator.check_schema(root)
    text = json.dumps(root)
    return jsonschema.Draft202012Validator(json.loads(text.replace('*$"', '*\\\\Z"'))).is_valid
