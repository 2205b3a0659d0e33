#!/usr/bin/env python3
"""Checks docs/policy.schema.json and docs/layout.schema.json against what itv reads.

At each place of a policy or a layout the schema must have just the members that the definitions of
crates/it_findings know there, and require none that these do not read. The policies and layouts
of the examples must be as the schemas say. A policy or a layout of a whole verification that is as
its schema says must read, but for what no schema can say: that names differ, that a date exists,
and how deep JSON is nested.
"""

import base64
import json
import re
import sys

import tree

sys.path.insert(0, str(tree.TOP / "conformance"))
from on_disk import bytes_of

DOCS = tree.TOP / "docs"
NAMES = tree.TOP / "crates" / "it_findings" / "specs" / "MemberNames.antt"
CASES = [tree.TOP / place / "data" / "cases" for place in ("conformance", "crates/itv_cases")]
# Where the schemas say what the definitions say of a place.
PLACES = {"Policy": ("policy", ""), "Expectation": ("policy", "expectation"),
          "Builder": ("policy", "builder"), "Layout": ("layout", ""), "Step": ("layout", "step"),
          "Inspection": ("layout", "inspection")}
# The kinds of JSON values that the schemas name.
KINDS = {"object": dict, "array": list, "string": str, "integer": int}
# The refusals of a policy and of a layout, with the parts that no schema can judge.
REFUSALS = {"policy": ("refused 10 ", ("json",)),
            "layout": ("refused 23 ", ("json", "expires", "duplicate"))}


def schema_of(name):
    """The schema of a kind of document."""
    return json.loads((DOCS / f"{name}.schema.json").read_text())


def names_in(definition):
    """The names of members that a definition has for each place."""
    text = re.search(rf"^abbrev pub {definition} :.*\n(?P<rows>(?:{definition}.*\n(?: .*\n)*)+)",
                     NAMES.read_text(), re.M)["rows"]
    rows = re.split(rf"^{definition} ", text, flags=re.M)[1:]
    return {re.search(r"\w+", row)[0]: set(re.findall(r'codes "(\w+)"', row)) for row in rows}


def faults_of_names():
    """Where the members of a schema are not those of the definitions."""
    read, known = names_in("read_names"), names_in("known_names")
    schemas = {name: schema_of(name) for name in REFUSALS}
    places = [(place, schemas[name]["$defs"][part] if part else schemas[name], name)
              for place, (name, part) in PLACES.items()]
    for name, schema in schemas.items():
        key = schema["$defs"]["key"]
        places += [("Key", key, name), ("KeyValue", key["properties"]["keyval"], name)]
    for place, part, name in places:
        if set(part["properties"]) != read[place] | known[place]:
            yield f"docs/{name}.schema.json: the members of {place} are not those of MemberNames"
        if not set(part["required"]) <= read[place]:
            yield f"docs/{name}.schema.json: {place} requires a member that is not read"


def is_sized(schema, value):
    """Whether a number, a text or a list has the size or the form that a schema wants."""
    if isinstance(value, str):
        return re.search(schema.get("pattern", ""), value) is not None
    if isinstance(value, int):
        return schema.get("minimum", value) <= value <= schema.get("maximum", value)
    size = len(value) if isinstance(value, (list, dict)) else 0
    least = schema.get("minItems", 0) if isinstance(value, list) else schema.get("minProperties", 0)
    return least <= size <= schema.get("maxItems", size)


def parts_fit(schema, value, top):
    """Whether the members of an object, or the items of a list, are as a schema says."""
    if isinstance(value, dict):
        known, others = schema.get("properties", {}), schema.get("additionalProperties", True)
        return all(name in value for name in schema.get("required", [])) and all(
            fits(known.get(name, others), part, top) for name, part in value.items())
    if isinstance(value, list):
        first = schema.get("prefixItems", [])
        return all(fits(first[place] if place < len(first) else schema.get("items", True), part, top)
                   for place, part in enumerate(value))
    return True


def fits(schema, value, top):
    """Whether a JSON value is as a schema says, by the words that the two schemas use."""
    if isinstance(schema, bool):
        return schema
    if "$ref" in schema:
        return fits(top["$defs"][schema["$ref"].split("/")[-1]], value, top)
    kind = schema.get("type")
    if kind and (not isinstance(value, KINDS[kind]) or isinstance(value, bool)):
        return False
    return (schema.get("const", value) == value and is_sized(schema, value)
            and parts_fit(schema, value, top)
            and ("anyOf" not in schema or any(fits(one, value, top) for one in schema["anyOf"])))


def faults_of_examples():
    """The documents of the examples that are not as their schema says."""
    for name, pattern in (("policy", "policy.json"), ("layout", "*layout.json")):
        schema = schema_of(name)
        for path in sorted((tree.TOP / "examples").glob(f"*/{pattern}")):
            if not fits(schema, json.loads(path.read_text()), schema):
                yield f"{tree.name_of(path)}: is not as docs/{name}.schema.json says"


def document_in(case, name):
    """The policy or the layout of a case as JSON, or None where it is none."""
    try:
        given = json.loads(bytes_of(case[name]))
        return given if name == "policy" else json.loads(base64.b64decode(given["payload"]))
    except (ValueError, KeyError, TypeError, RecursionError):
        return None


def faults_of_cases():
    """The cases in which a document does not read that is as its schema says."""
    schemas = {name: schema_of(name) for name in REFUSALS}
    for path in sorted(path for folder in CASES for path in folder.glob("*.jsonl")):
        for case in map(json.loads, path.read_bytes().splitlines()):
            report = bytes_of(case["report"]).decode(errors="replace")
            for name, (refusal, beyond) in REFUSALS.items():
                part = re.search(r"^part (\w+)", report, re.M)
                if (report.startswith(refusal) and part[1] not in beyond
                        and fits(schemas[name], document_in(case, name), schemas[name])):
                    yield f"{path.name}, {case['name']}: docs/{name}.schema.json takes its {name}"


def main():
    """Does what the arguments say."""
    tree.words_of(__doc__).parse_args()
    return tree.report([*faults_of_names(), *faults_of_examples(), *faults_of_cases()])


if __name__ == "__main__":
    sys.exit(main())
