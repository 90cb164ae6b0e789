"""What of a value of JSON isn't as a schema says."""

KINDS = {"object": dict, "array": list, "string": str, "integer": int, "number": (int, float)}


def invalid(value, schema, root, where="$"):
    """What of a value isn't as a schema says, by those words of JSON Schema that the schema uses."""
    if "$ref" in schema:
        yield from invalid(value, root["$defs"][schema["$ref"].rpartition("/")[2]], root, where)
    if "type" in schema and (not isinstance(value, KINDS[schema["type"]]) or isinstance(value, bool)):
        yield f"{where}: {value!r} is no {schema['type']}"
        return
    if "enum" in schema and value not in schema["enum"]:
        yield f"{where}: {value!r}"
    if "minimum" in schema and not schema["minimum"] <= value <= schema.get("maximum", value):
        yield f"{where}: {value!r} is out of its bounds"
    if isinstance(value, list):
        if len(value) < schema.get("minItems", 0):
            yield f"{where}: {len(value)} items"
        for k, it in enumerate(value):
            yield from invalid(it, schema.get("items", {}), root, f"{where}[{k}]")
    if isinstance(value, dict):
        yield from (f"{where}: no {it}" for it in schema.get("required", ()) if it not in value)
        for key, it in value.items():
            known = schema.get("properties", {})
            if key not in known and not schema.get("additionalProperties", True):
                yield f"{where}: {key} is not known"
            yield from invalid(it, known.get(key, {}), root, f"{where}.{key}")
