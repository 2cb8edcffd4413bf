"""Whether a value is valid by a JSON schema of draft 7. It knows the keywords of docs/scenario.schema.json alone."""

import re

# What says nothing of a value.
REMARKS = {"$schema", "title", "description", "default", "definitions"}


def is_object(value):
    return isinstance(value, dict)


def is_array(value):
    return isinstance(value, list)


def is_text(value):
    return isinstance(value, str)


def is_number(value):
    """Whether it is a number, which `true` is not."""
    return isinstance(value, (int, float)) and not isinstance(value, bool)


def is_integer(value):
    """Whether it is an integer, however it is written: 3.0 is one."""
    return is_number(value) and (isinstance(value, int) or value.is_integer())


def is_flag(value):
    return isinstance(value, bool)


def is_any(value):
    return True


TYPES = {"object": is_object, "array": is_array, "string": is_text, "integer": is_integer, "boolean": is_flag}


def of_type(names, value):
    """Whether the value is of one of these types."""
    return any(TYPES[name](value) for name in ([names] if is_text(names) else names))


def all_differ(values):
    """Whether no value stands among them twice."""
    return all(value not in values[:place] for place, value in enumerate(values))


def matches(pattern, text):
    """Whether the pattern is somewhere in the text; its `$` is the end of the text alone."""
    return re.search(pattern.replace("$", r"\Z"), text) is not None


# Of which values each keyword speaks, and what it asks of one: by the word's argument, the value, the schema in which the
# word stands, and a function that tells whether a value is valid by a part of the schema.
KEYWORDS = {
    "type": (is_any, lambda names, value, schema, valid: of_type(names, value)),
    "enum": (is_any, lambda values, value, schema, valid: value in values),
    "const": (is_any, lambda other, value, schema, valid: value == other),
    "allOf": (is_any, lambda parts, value, schema, valid: all(valid(part, value) for part in parts)),
    "anyOf": (is_any, lambda parts, value, schema, valid: any(valid(part, value) for part in parts)),
    "not": (is_any, lambda part, value, schema, valid: not valid(part, value)),
    "if": (is_any, lambda part, value, schema, valid: valid(schema.get("then" if valid(part, value) else "else", True), value)),
    "then": (is_any, lambda part, value, schema, valid: "if" in schema),
    "else": (is_any, lambda part, value, schema, valid: "if" in schema),
    "required": (is_object, lambda keys, value, schema, valid: all(key in value for key in keys)),
    "dependencies": (
        is_object,
        lambda needs, value, schema, valid: all(other in value for key in needs if key in value for other in needs[key]),
    ),
    "properties": (is_object, lambda parts, value, schema, valid: all(valid(parts[key], value[key]) for key in parts if key in value)),
    "additionalProperties": (
        is_object,
        lambda part, value, schema, valid: all(valid(part, value[key]) for key in value if key not in schema["properties"]),
    ),
    "items": (is_array, lambda part, value, schema, valid: all(valid(part, item) for item in value)),
    "minItems": (is_array, lambda least, value, schema, valid: least <= len(value)),
    "maxItems": (is_array, lambda most, value, schema, valid: len(value) <= most),
    "uniqueItems": (is_array, lambda asked, value, schema, valid: not asked or all_differ(value)),
    "pattern": (is_text, lambda pattern, value, schema, valid: matches(pattern, value)),
    "minimum": (is_number, lambda least, value, schema, valid: least <= value),
    "maximum": (is_number, lambda most, value, schema, valid: value <= most),
}


def is_valid(schema, value, begin=None):
    """Whether the value is valid by the schema, or by a part of it. A word that is not known here is a fault of the schema."""

    def holds(word, argument, inner, part):
        speaks_of, asks = KEYWORDS[word]
        return not speaks_of(inner) or asks(argument, inner, part, valid)

    def valid(part, inner):
        if isinstance(part, bool):
            return part
        if "$ref" in part:
            (reference,) = part.values()
            return valid(schema["definitions"][reference.removeprefix("#/definitions/")], inner)
        return all(holds(word, argument, inner, part) for word, argument in part.items() if word not in REMARKS)

    return valid(schema if begin is None else begin, value)
