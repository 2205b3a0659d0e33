"""The forms of JSON documents and of their members, by docs/formats.md and docs/sigstore.md.

What is not of its form raises Unfit. A member that is missing or null is None.
"""

import base64
import datetime
import json
import math
import re

MOST_LEVELS = 127
GREATEST = 2**53 - 1
KINDS = {str: "text", dict: "object", list: "list"}
TIME = re.compile(r"([0-9]{4})-([0-9]{2})-([0-9]{2})T([0-9]{2}):([0-9]{2}):([0-9]{2})"
                  r"(?:\.([0-9]{1,9}))?Z")


class Unfit(Exception):
    """Something is not as a page says; the text says what."""


def need(holds, said):
    """Raises Unfit with this text where something does not hold."""
    if not holds:
        raise Unfit(said)


def saying(said, read, *given):
    """What a function reads of what is given; where that is not as a page says, this is said."""
    try:
        return read(*given)
    except Unfit:
        raise Unfit(said) from None


def levels(text):
    """How many levels a JSON text nests."""
    level = most = 0
    for mark in re.findall(r'"(?:[^"\\]|\\.)*"|[\[{\]}]', text, re.DOTALL):
        level += {"[": 1, "{": 1, "]": -1, "}": -1}.get(mark, 0)
        most = max(most, level)
    return most


def number_in(digits):
    """A number of a document, which is in the range of a double."""
    need(math.isfinite(float(digits)), "a number past the range of a double")
    return float(digits) if re.search("[.eE]", digits) else int(digits)


def no_number(name):
    """Refuses what Python takes for a number and JSON does not."""
    raise Unfit(f"{name} is no number")


def document(content):
    """The document that bytes are."""
    try:
        text = content.decode("utf-8")
        need(levels(text) <= MOST_LEVELS, "nested too deep")
        found = json.loads(text, parse_int=number_in, parse_float=number_in,
                           parse_constant=no_number)
        json.dumps(found, ensure_ascii=False).encode("utf-8")  # fails at a lone surrogate
    except ValueError as fault:
        raise Unfit(f"no document: {fault}") from None
    return found


def member(value, name):
    """The member of an object, or None where it is missing or null, or the value is no object."""
    return value.get(name) if isinstance(value, dict) else None


def of_type(value, kind, name):
    """The value, which must be of a type."""
    need(isinstance(value, kind), f"{name} is no {KINDS[kind]}")
    return value


def text_at(value, name):
    """A member that is a text."""
    return of_type(member(value, name), str, name)


def object_at(value, name):
    """A member that is an object."""
    return of_type(member(value, name), dict, name)


def list_at(value, name):
    """A member that is a list."""
    return of_type(member(value, name), list, name)


def list_or_empty(value, name):
    """A member that is a list, or the empty list where it is missing."""
    return [] if member(value, name) is None else list_at(value, name)


def bytes_in(text):
    """The bytes of a base64 text with padding, in one of the two alphabets."""
    marks = "-_" if re.search("[-_]", text) else "+/"
    need(re.fullmatch(f"[A-Za-z0-9{re.escape(marks)}]*={{0,2}}", text) and len(text) % 4 == 0,
         "no base64")
    found = base64.b64decode(text, marks)
    need(base64.b64encode(found, marks.encode()).decode() == text, "bits left over in base64")
    return found


def standard_bytes_in(text):
    """The bytes of a base64 text with padding in the standard alphabet."""
    need(not re.search("[-_]", text), "base64 of the other alphabet")
    return bytes_in(text)


def bytes_at(value, name):
    """The bytes of a member that is a base64 text."""
    return bytes_in(text_at(value, name))


def number_at(value, name, missing=None):
    """A member that is a number: a text of decimal digits. `missing` stands for a missing one."""
    if missing is not None and member(value, name) is None:
        return missing
    text = text_at(value, name)
    need(re.fullmatch("0|[1-9][0-9]*", text) and len(text) <= 16, f"{name} is no number")
    need(int(text) <= GREATEST, f"{name} is too great")
    return int(text)


def utf8(content):
    """The text that bytes are."""
    try:
        return content.decode("utf-8")
    except UnicodeDecodeError:
        raise Unfit("no UTF-8") from None


def seconds_of(year, *parts):
    """The seconds since 1970 of a date and a time, whose year may be 0."""
    # The calendar is the same after 400 years, which have 146,097 days.
    later = 400 if year == 0 else 0
    try:
        moment = datetime.datetime(year + later, *parts)
    except ValueError:
        raise Unfit("no such time") from None
    since = moment - datetime.datetime(1970, 1, 1)
    return (since.days - 146097 * later // 400) * 86400 + since.seconds


def nanoseconds_at(value, name):
    """The nanoseconds since 1970 of a member that is a time."""
    found = TIME.fullmatch(text_at(value, name))
    need(found, f"{name} is no time")
    *parts, fraction = found.groups()
    return seconds_of(*map(int, parts)) * 10**9 + int((fraction or "0").ljust(9, "0"))
