"""Whether a value is of a schema, in the words of JSON Schema that docs/formats.schema.json uses."""

import json
import pathlib
import re

TYPES = {"integer": int, "string": str, "array": list, "object": dict, "null": type(None), "number": (int, float), "boolean": bool}
KNOWN = {"$schema", "title", "description", "oneOf", "type", "const", "enum", "minimum", "maximum", "pattern", "items", "minItems",
         "maxItems", "properties", "required", "additionalProperties", "$defs", "$ref"}


def of_formats():
    """The schema of docs/formats.schema.json."""
    return json.loads((pathlib.Path(__file__).resolve().parent.parent / "docs/formats.schema.json").read_text())


def is_of(schema, value, top):
    """Whether a value is of a schema."""
    assert set(schema) <= KNOWN, f"the schema has {set(schema) - KNOWN}, which isn't known here"
    if "$ref" in schema:
        return is_of(top["$defs"][schema["$ref"][len("#/$defs/") :]], value, top)
    if "oneOf" in schema and sum(is_of(it, value, top) for it in schema["oneOf"]) != 1:
        return False
    kinds = [schema["type"]] if isinstance(schema.get("type"), str) else schema.get("type")
    if kinds and not any(isinstance(value, TYPES[it]) and (it == "boolean" or not isinstance(value, bool)) for it in kinds):
        return False
    if "const" in schema and value != schema["const"] or "enum" in schema and value not in schema["enum"]:
        return False
    if isinstance(value, (int, float)) and not schema.get("minimum", value) <= value <= schema.get("maximum", value):
        return False
    if isinstance(value, str) and "pattern" in schema and not re.search(schema["pattern"], value):
        return False
    if isinstance(value, list):
        fits = schema.get("minItems", 0) <= len(value) <= schema.get("maxItems", len(value))
        return fits and all(is_of(schema.get("items", {}), it, top) for it in value)
    if isinstance(value, dict):
        known = schema.get("properties", {})
        if not set(schema.get("required", [])) <= set(value):
            return False
        if not schema.get("additionalProperties", True) and not set(value) <= set(known):
            return False
        return all(is_of(known[name], it, top) for name, it in value.items() if name in known)
    return True
