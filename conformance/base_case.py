"""A small delivery that is accepted: one step, one functionary, one file.

Letters in its documents are abbreviations: K is a key object, "A" the SHA-256 of `abc` and "B" that
of no bytes. Everybody's secret is their own id, except that of `bobz`, which is `bob` with a zero
byte at its end. Envelopes are written as `itv sign` writes them.
"""

import hashlib
import hmac
import json

from byte_forms import base64_text, pae
from cases import folder

IN_TOTO = "application/vnd.in-toto+json"
# The SHA-256 and the SHA-512 of `abc` (FIPS 180-4, NIST's examples).
DIGITS = "ba7816bf8f01cfea414140de5dae2223b00361a396177a9cb410ff61f20015ad"
DIGITS_512 = ("ddaf35a193617abacc417349ae20413112e6fa4e89a97ea20a9eeee64b55d39a"
              "2192992a274fc1a836ba3c23a3feebbd454d4423643ce80e2a9ac94fa54ca49f")
LETTERS = [
    (":K", ':{"keytype":"hmac","scheme":"hmac-sha256","keyval":{"public":""}}'),
    ('"A"', f'"{DIGITS}"'),
    ('"B"', '"e3b0c44298fc1c149afbf4c8996fb92427ae41e4649b934ca495991b7852b855"'),
]

RING = """[{"id":"owner","secret":"6f776e6572"},{"id":"alice","secret":"616c696365"},
    {"id":"bob","secret":"626f62"},{"id":"bobz","secret":"626f6200"},
    {"id":"carol","secret":"6361726f6c"},{"id":"builder","secret":"6275696c646572"}]"""

LAYOUT = """{"_type":"layout","expires":"2030-01-01T00:00:00Z","readme":"",
    "keys":{"alice":K,"bob":K,"bobz":K,"carol":K},
    "steps":[{"_type":"step","name":"build","threshold":1,"pubkeys":["alice"],
        "expected_materials":[["ALLOW","src/*"],["DISALLOW","*"]],
        "expected_products":[["CREATE","app"],["DISALLOW","*"]],
        "expected_command":[]}],
    "inspect":[]}"""

# A layout with one step, without rules, for one functionary.
SUBLAYOUT = (
    """{"_type":"layout","expires":"2030-01-01T00:00:00Z",\
"keys":{"alice":K,"bob":K,"bobz":K,"carol":K},
        "steps":[{"name":"STEP","threshold":1,"pubkeys":["ID"]}],"inspect":[]}""")

LINK = """{"_type":"link","name":"build","materials":{"src/a":{"sha256":"B"}},
    "products":{"app":{"sha256":"A"}},"command":[],"byproducts":{},"environment":{}}"""

POLICY = """{"owners":{"owner":K},
    "deliver":[["MATCH","*","WITH","PRODUCTS","FROM","build"],["DISALLOW","*"]],
    "expectations":[{"files":"*",
        "builders":[{"id":"https://ci.example/1","keys":{"builder":K}}],
        "buildType":"https://ci.example/make","parameters":{"ref":"v1"},"ignore":["note"]}]}"""

STATEMENT = (
    '{"_type":"https://in-toto.io/Statement/v1",'
    '"subject":[{"name":"app","digest":{"sha256":"A"}}],'
    '"predicateType":"https://slsa.dev/provenance/v1",'
    '"predicate":{"buildDefinition":{"buildType":"https://ci.example/make",'
    '"externalParameters":{"ref":"v1"}},"runDetails":{"builder":{"id":"https://ci.example/1"}}}}')

SUMS = f"{DIGITS}  app\n"
MOMENT = "2029-12-31T00:00:00Z"
ACCEPTED = "accepted\nstep build 1\nfile app\n"


def filled(text, *changes):
    """A text with these changes made in turn, and then its letters written out."""
    for old, new in [*changes, *LETTERS]:
        text = text.replace(old, new)
    return text


def secret(who):
    """Somebody's secret."""
    return b"bob\0" if who == "bobz" else who.encode()


def signed(who, body, kind=IN_TOTO):
    """The text of the envelope of a body of this type, signed by somebody."""
    payload = body.encode()
    code = hmac.new(secret(who), pae(kind, payload), hashlib.sha256).digest()
    given = {"keyid": who, "sig": base64_text(code)}
    return json.dumps({"payload": base64_text(payload), "payloadType": kind,
                       "signatures": [given]}, separators=(",", ":"))


def with_changed_code(envelope):
    """An envelope with the first character of its signature changed."""
    front, code = envelope.split('"sig":"')
    return f'{front}"sig":"{"B" if code[0] == "A" else "A"}{code[1:]}'


def unsigned(envelope):
    """An envelope without its signatures."""
    return envelope.split('"signatures":')[0] + '"signatures":[]}'


def link(who, *changes):
    """The envelope of the link with these changes, signed by somebody."""
    return signed(who, filled(LINK, *changes))


def layout(*changes):
    """The envelope of the layout with these changes, signed by its owner."""
    return signed("owner", filled(LAYOUT, *changes))


def sublayout(step, who):
    """The body of a layout with one step, without rules, for one functionary."""
    return filled(SUBLAYOUT, ("STEP", step), ("ID", who))


def base(**changed):
    """The inputs of the base case, with these in place of its own."""
    inputs = {"policy": filled(POLICY), "layout": layout(),
              "links": folder([("build.alice.link", link("alice"))]),
              "provenance": signed("builder", filled(STATEMENT)) + "\n",
              "sums": SUMS, "at": MOMENT, "depth": 4, "records": []}
    return {**inputs, **changed}
