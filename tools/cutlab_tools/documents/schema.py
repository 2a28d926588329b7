"""Checks docs/plan.schema.json: docs/schema [PROGRAM]. The plans of the repository are of it, and its fields are those that the
program explains, with the same kinds and ranges, which `cutlab check` keeps. What differs is printed, and the status is then 1."""
import json
import re
from typing import Any, Callable, Iterator

from ..repository import Repository

SCHEMA, EXAMPLE = "docs/plan.schema.json", "examples/one_crash.json"
PLANS = ("examples/*.json", "bench/plans/*.json")
KINDS = {"integer": int, "string": str, "boolean": bool, "array": list, "object": dict}
# A part of the schema's language, as far as this schema uses it: each word with the test that its value stands for, of a
# value and of the schema that the word stands in.
TESTS: dict[str, Callable[[Any, Any, Any], Any]] = {
    "type": lambda kind, it, _: isinstance(it, KINDS[kind]) and (kind == "boolean" or not isinstance(it, bool)),
    "enum": lambda values, it, _: it in values,
    "const": lambda value, it, _: it == value,
    "minimum": lambda least, it, _: it >= least,
    "maximum": lambda most, it, _: it <= most,
    "pattern": lambda text, it, _: re.search(text, it) is not None,
    "minItems": lambda least, it, _: len(it) >= least,
    "uniqueItems": lambda _, it, __: len(set(it)) == len(it),
    "required": lambda names, it, _: all(name in it for name in names),
    "properties": lambda parts, it, _: all(is_of(part, it[name]) for name, part in parts.items() if name in it),
    "items": lambda part, its, _: all(is_of(part, it) for it in its),
    "additionalProperties": lambda may, it, schema: may or all(name in schema["properties"] for name in it),
    "if": lambda part, it, schema: is_of(schema["then" if is_of(part, it) else "else"], it),
}
NOTES = ("$schema", "title", "description", "then", "else")


def is_of(schema: Any, value: Any) -> bool:
    if isinstance(schema, bool):
        return schema
    return all(TESTS[word](said, value, schema) for word, said in schema.items() if word not in NOTES)


def explained(repository: Repository) -> dict[str, set[str]]:
    """What the program says that it expects in each field, by all versions."""
    found: dict[str, set[str]] = {}
    said = "".join(repository.read(f"$ cutlab explain < {it}") for it in ("{}", '{"version":1}', '{"version":2}'))
    for name, expected in re.findall(r"^(\w+): missing; expected (.*)$", said, re.M):
        found.setdefault(name, set()).add(expected)
    return found


def described(part: Any, nodes: int) -> str:
    """What a field of the schema takes, in the words of the program; with the most processes that a plan has."""
    items = part.get("items", part)
    if items["type"] == "boolean":
        return "true or false"
    if items["type"] == "string":
        digits = re.fullmatch(r"\^\[0-9A-Fa-f\]\{(\d+)\}\$", items.get("pattern", ""))
        texts = " or ".join(f'"{it}"' for it in items.get("enum", []))
        return f"a text of {digits[1]} hexadecimal digits" if digits else texts
    low, high = range_of(part)
    bounds = "below nodes" if items is not part and (low, high) == (0, nodes - 1) else f"from {low} to {high}"
    return f"a {'whole number' if items is part else 'strictly rising list of whole numbers'} {bounds}"


def range_of(part: Any) -> tuple[int, int]:
    """The range of a field that is a number or a list of numbers."""
    items = part.get("items", part)
    return (min(items["enum"]), max(items["enum"])) if "enum" in items else (items["minimum"], items["maximum"])


def out_of_range(repository: Repository, name: str, part: Any) -> Iterator[str]:
    """The ends of a field's range, as far as `cutlab check` does not take them, or takes what is beyond them."""
    low, high = range_of(part)
    plan = json.loads(repository.read(EXAMPLE)) | {"f": [0], "nodes": 2048}
    for value, is_beyond in ((low, False), (high, False), (low - 1, True), (high + 1, True)):
        text = json.dumps({**plan, name: [value] if "items" in part else value})
        fault = repository.read(f"$ cutlab check < {text}")
        if is_beyond != bool(re.match(rf"cutlab: fault (?:5 WrongKind|6 OutOfRange) {name}$", fault)):
            yield f"{name}: {value} is {'taken' if is_beyond else 'refused'} by cutlab check"


def differences(repository: Repository) -> Iterator[str]:
    schema, wanted = json.loads(repository.read(SCHEMA)), explained(repository)
    fields = schema["properties"]
    yield from (f"{name}: in one alone" for name in sorted(set(fields) ^ set(wanted)))
    for name in sorted(set(fields) & set(wanted)):
        said = described(fields[name], fields["nodes"]["maximum"])
        yield from (f"{name}: {said} in the schema, {it} by the program" for it in sorted(wanted[name] - {said}))
        if name in json.loads(repository.read(EXAMPLE)) and "whole number" in said and name != "version":
            yield from out_of_range(repository, name, fields[name])
    plans = repository.paths(*PLANS)
    yield from (f"{it} is not of the schema" for it in plans if not is_of(schema, json.loads(repository.read(it))))


def summary(repository: Repository) -> str:
    plans, fields = repository.paths(*PLANS), explained(repository)
    return f"{len(plans)} plans are of it, and {len(fields)} fields are as the program explains them"
