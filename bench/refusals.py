"""Deliveries that are refused, a kind each, beside the same delivery where it is accepted.

Each is a chain with one thing wrong, which the last step of the verification that looks at it finds.
Used by bench/run.
"""

import base64
import json
import os

from deliveries import chain, compact, link, signed


def document(delivery, name):
    """A document of a delivery, parsed."""
    with open(delivery.path(name), encoding="utf-8") as file:
        return json.load(file)


def body_of(delivery):
    """The body of the layout of a chain, parsed."""
    return json.loads(base64.b64decode(document(delivery, "layout")["payload"]))


def other_owner(delivery, *_):
    """Another owner is asked for."""
    policy = document(delivery, "policy")
    policy["owners"] = {"person-000": policy["owners"]["owner"]}
    delivery.write("policy", compact(policy))


def expired(delivery, *_):
    """The layout has expired."""
    delivery.write("layout", signed({**body_of(delivery), "expires": "2001-01-01T00:00:00Z"},
                                    "owner"))


def two_bodies(delivery, steps, files):
    """A second body counts for the key of the last step."""
    name, before = f"step-{steps - 1}", [f"{steps - 2}/file-{m}" for m in range(files)]
    delivery.write(f"links/{name}.more.link", signed(link(name, before, []), "person-000"))


def few_keys(delivery, steps, _):
    """The file of the last step is missing."""
    os.remove(delivery.path(f"links/step-{steps - 1}.person-000.link"))


def forbidden(delivery, steps, files):
    """The last step made files that a rule of it forbids."""
    body = body_of(delivery)
    body["steps"][-1]["expected_products"] = [["DISALLOW", "*"]]
    delivery.write("layout", signed(body, "owner"))


def not_delivered(delivery, *_):
    """The policy forbids what is delivered."""
    policy = document(delivery, "policy")
    policy["deliver"] = [["DISALLOW", "*"]]
    delivery.write("policy", compact(policy))


def no_record(delivery, *_):
    """An inspection has no record."""
    inspection = {"_type": "inspection", "name": "look", "expected_materials": [],
                  "expected_products": [], "run": []}
    delivery.write("layout", signed({**body_of(delivery), "inspect": [inspection]}, "owner"))


def not_expected(delivery, *_):
    """No expectation speaks of the files."""
    policy = document(delivery, "policy")
    policy["expectations"][0]["files"] = "other"
    delivery.write("policy", compact(policy))


def no_provenance(delivery, *_):
    """The provenance is of another build type."""
    policy = document(delivery, "policy")
    policy["expectations"][0]["buildType"] = "other"
    delivery.write("policy", compact(policy))


# What is wrong, with the first lines of the report.
KINDS = [(other_owner, "22 OwnerMissing"), (expired, "30 Expired"), (two_bodies, "31 TwoPayloads"),
         (few_keys, "33 Threshold"), (forbidden, "40 RuleFailed"), (not_delivered, "40 RuleFailed"),
         (no_record, "50 RecordMissing"), (not_expected, "60 NoExpectation"),
         (no_provenance, "61 NoProvenance")]


def refused(folder, spoil, steps, files):
    """A chain with one thing wrong."""
    delivery = chain(folder, steps, 1, files)
    spoil(delivery, steps, files)
    return delivery
