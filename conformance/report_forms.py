"""Both forms of a report, in lines and as JSON, written from docs/formats.md alone.

A verdict is an object with the member `verdict`. Of an accepted one `steps` and `files` say more;
of a refused one `at`, `fault` and the members of the fault, where a part or an item is given by its
kind, and by its number or its name where it has one.
"""

import re

# The number of each fault, and the members of its details.
FAULTS = {
    "BadPolicy": (10, ["part"]), "BadSums": (12, ["list", "line"]), "BadMoment": (13, []),
    "NoFiles": (14, []), "BadEnvelope": (20, []), "WrongPayloadType": (21, []),
    "OwnerMissing": (22, ["key"]), "BadLayout": (23, ["part"]), "Expired": (30, []),
    "TwoPayloads": (31, ["step", "key"]), "TooDeep": (32, []),
    "Threshold": (33, ["step", "found", "needed"]), "Disagree": (34, ["step", "key"]),
    "InspectionInSublayout": (35, []), "RuleFailed": (40, ["item", "side", "rule", "path"]),
    "RecordMissing": (50, ["inspection"]), "BadRecord": (51, ["inspection"]),
    "NoExpectation": (60, ["path"]), "NoProvenance": (61, ["path", "best"]),
}
# The members that are numbers, and the parts that are given by one.
COUNTED = ("line", "found", "needed", "rule", "best")
NUMBERED = ("expectation", "step", "inspect")


def details(verdict):
    """The members of a fault with what is said about each; a best level only where there is one."""
    for member in FAULTS[verdict["fault"]][1]:
        if member in ("part", "item"):
            yield member, [verdict[name] for name in (member, "index", "name") if name in verdict]
        elif member in verdict:
            yield member, [verdict[member]]


def json_text(text):
    """A text as JSON: control characters as numbers, quotation marks and backslashes escaped."""
    escaped = re.sub(r'["\\]', lambda found: "\\" + found[0], text)
    return '"' + re.sub("[\0-\x1f]", lambda found: f"\\u{ord(found[0]):04x}", escaped) + '"'


def json_of(value):
    """A text, a number, or a list of objects, each a list of members, as JSON."""
    if isinstance(value, list):
        return "[" + ",".join(json_object(one.items()) for one in value) + "]"
    return json_text(value) if isinstance(value, str) else str(value)


def json_object(members):
    """An object of these members, in their order."""
    return "{" + ",".join(f"{json_text(name)}:{json_of(value)}" for name, value in members) + "}"


def json_report(verdict):
    """The report of a verdict as JSON."""
    if verdict["verdict"] == "accepted":
        files = ",".join(json_text(path) for path in verdict["files"])
        steps = json_of(verdict["steps"])
        return f'{{"verdict":"accepted","steps":{steps},"files":[{files}]}}\n'
    further = [(member, said[0] if len(said) == 1 else " ".join(str(one) for one in said))
               for member, said in details(verdict)]
    return json_object([("verdict", "refused"), ("number", FAULTS[verdict["fault"]][0]),
                        ("name", verdict["fault"]), ("at", verdict["at"]), *further]) + "\n"


def name_text(name, more=""):
    """A name in lines: printable ASCII as it is, except backslashes and what is in `more`."""
    plain = [chr(byte) if 0x20 < byte < 0x7f and chr(byte) not in "\\" + more else f"\\x{byte:02x}"
             for byte in name.encode()]
    return "".join(plain) or "\\e"


def places_text(places):
    """Where a refusal lies: the steps and keys of the sublayouts, or a hyphen."""
    parts = [name_text(part, "/") for place in places for part in (place["step"], place["key"])]
    return "/".join(parts) or "-"


def report_in_lines(verdict):
    """The report of a verdict in lines."""
    if verdict["verdict"] == "accepted":
        steps = [f"step {name_text(one['name'])} {one['keys']}" for one in verdict["steps"]]
        files = [f"file {name_text(path)}" for path in verdict["files"]]
        return "\n".join(["accepted", *steps, *files, ""])
    further = [" ".join(["name" if member == "inspection" else member,
                         *(name_text(one) if isinstance(one, str) else str(one) for one in said)])
               for member, said in details(verdict)]
    return "\n".join([f"refused {refusal(verdict)}", f"at {places_text(verdict['at'])}",
                      *further, ""])


def refusal(verdict):
    """The number and the name of a refusal."""
    return f"{FAULTS[verdict['fault']][0]} {verdict['fault']}"


def name_in(text):
    """The name that a text in lines stands for."""
    if text == "\\e":
        return ""
    plain = re.sub(rb"\\x([0-9a-f]{2})", lambda found: bytes.fromhex(found[1].decode()),
                   text.encode())
    return plain.decode()


def places_in(text):
    """The sublayouts that the second line of a refusal names."""
    parts = [name_in(part) for part in text.split("/")] if text != "-" else []
    return [{"step": step, "key": key} for step, key in zip(parts[::2], parts[1::2])]


def members_in(line):
    """The members of a fault that one of its lines gives."""
    word, _, rest = line.partition(" ")
    if word in ("part", "item"):
        kind, *more = rest.split(" ")
        named = "index" if more and more[0].isdigit() and kind in NUMBERED else "name"
        said = [int(one) if named == "index" else name_in(one) for one in more]
        return {word: kind, **{named: one for one in said}}
    if word in COUNTED:
        return {word: int(rest)}
    return {"inspection" if word == "name" else word: rest if word == "side" else name_in(rest)}


def verdict_in(text):
    """The verdict that a report in lines gives."""
    first, *further = text.removesuffix("\n").split("\n")
    if first == "accepted":
        steps = [line.split(" ")[1:] for line in further if line.startswith("step ")]
        return {"verdict": "accepted",
                "steps": [{"name": name_in(name), "keys": int(keys)} for name, keys in steps],
                "files": [name_in(line[5:]) for line in further if line.startswith("file ")]}
    verdict = {"verdict": "refused", "at": places_in(further[0].removeprefix("at ")),
               "fault": first.split(" ")[2]}
    for line in further[1:]:
        verdict.update(members_in(line))
    return verdict


def json_of_lines(text):
    """The report as JSON that says the same as one in lines.

    A report that is not written as docs/formats.md says is a ValueError.
    """
    verdict = verdict_in(text)
    if report_in_lines(verdict) != text:
        raise ValueError(f"{text!r} is no report")
    return json_report(verdict)
