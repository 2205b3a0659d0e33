"""The documents of a case as they read by the formats, and canonical JSON.

What cannot be said in the forms of another verifier is `Inexpressible`, with the reason.
"""

import base64
import json
import math


class Inexpressible(Exception):
    """Why a case is not one of another verifier."""


def number(text):
    """A number with a point or an exponent, which must be in the range of a double."""
    if math.isinf(float(text)):
        raise ValueError(text)
    return float(text)


def no_number(text):
    """A word such as NaN, which is no JSON."""
    raise ValueError(text)


def depth_of(document):
    """How deep the lists and objects of a document lie in one another."""
    inner = document.values() if isinstance(document, dict) else document
    return 1 + max(map(depth_of, inner), default=0) if isinstance(document, (dict, list)) else 0


def document_of(content):
    """The document that bytes are, in a list, which is empty where they are none."""
    try:
        made = json.loads(content.decode(), parse_float=number, parse_constant=no_number)
        json.dumps(made, ensure_ascii=False).encode()
    except (ValueError, RecursionError):
        return []
    return [made] if depth_of(made) < 128 else []


def base64_bytes(text):
    """The bytes of a base64 text in one of its two alphabets."""
    if not isinstance(text, str) or {"-", "_"} & {*text} and {"+", "/"} & {*text}:
        raise ValueError(text)
    plain = text.translate(str.maketrans("-_", "+/"))
    made = base64.b64decode(plain, validate=True)
    if base64.b64encode(made).decode() != plain:
        raise ValueError(text)
    return made


def envelope_of(content):
    """The payload, its type and the pairs of a hint and a signature of an envelope, or None."""
    for document in document_of(content):
        try:
            pairs = [(one.get("keyid") or "", base64_bytes(one["sig"]))
                     for one in document["signatures"]]
            payload, kind = base64_bytes(document["payload"]), document["payloadType"]
        except (ValueError, TypeError, KeyError, AttributeError):
            return None
        if isinstance(kind, str) and all(isinstance(hint, str) for hint, _ in pairs):
            return payload, kind, pairs
    return None


def compact(document):
    """The bytes of a document as JSON without spaces."""
    return json.dumps(document, separators=(",", ":"), ensure_ascii=False).encode()


def canonical(document):
    """The text of a document in canonical JSON, where only quotation marks and backslashes are
    escaped, and numbers are whole."""
    if isinstance(document, str):
        return '"' + document.replace("\\", "\\\\").replace('"', '\\"') + '"'
    if isinstance(document, list):
        return "[" + ",".join(map(canonical, document)) + "]"
    if isinstance(document, dict):
        pairs = (f"{canonical(name)}:{canonical(document[name])}" for name in sorted(document))
        return "{" + ",".join(pairs) + "}"
    if isinstance(document, float):
        raise Inexpressible("a number that canonical JSON does not have")
    return json.dumps(document)
