"""Mistakes in policy and layout: none passes `--strict`, and what is written names each."""

import json

from deliveries import identity
from mistake import Mistake
from release_made import moment, rules, taken

OPEN = "open-rules"


def policy(change, status, *says, name):
    """A mistake in the policy."""
    return Mistake(name, lambda release: release.policy(change), status, says)


def layout(change, status, *says, name):
    """A mistake in the layout, which its owners sign."""
    return Mistake(name, lambda release: release.layout(change), status, says)


def text(change, *says, name):
    """A mistake in the policy's text, which so does not read."""
    def changed(release):
        release.write("policy.json", change(release.text("policy.json")))
    return Mistake(name, changed, 1, ("refused 10 BadPolicy", *says))


def checked(change, *says, name):
    """A mistake in the layout that `itv check` finds."""
    def changed(release):
        release.layout(change)
        return ["itv", "check", "--policy", "policy.json", "--layout", "layout.json"]
    return Mistake(name, changed, 1, says)


def put(*path):
    """The change that puts the last of these where the others lead."""
    *way, last, value = path

    def change(document):
        for part in way:
            document = document[part]
        document[last] = value
    return change


def renamed(to, *path):
    """The change that renames a member."""
    *way, last = path

    def change(document):
        for part in way:
            document = document[part]
        document[to] = document.pop(last)
    return change


def removed(*path):
    """The change that removes a member."""
    *way, last = path

    def change(document):
        for part in way:
            document = document[part]
        del document[last]
    return change


def null_owner(release):
    """An owner is null, and one owner alone signed."""
    release.policy(lambda policy: policy["owners"].update(
        secruity=policy["owners"].pop("security") and None))
    release.layout(lambda document: None, by=["owner"])


def tampered(release):
    """The file is another one, and the builder says so."""
    release.write("hello.tar", "another file")
    release.write("sums", release.digests("hello.tar"))
    digest = release.text("sums")[:64]
    release.statement(lambda statement: statement["subject"][0]["digest"].update(sha256=digest))


def tampered_under(change):
    """The same, under another policy."""
    def changed(release):
        tampered(release)
        release.policy(change)
    return changed


def twice(document, member):
    """A text in which a member comes again at the end, with another value."""
    return document.rstrip()[:-1] + f', "{member}": [["ALLOW", "*"]]}}'


def deliver_twice(release):
    """The policy has the member `deliver` twice."""
    release.write("policy.json", twice(release.text("policy.json"), "deliver"))


def threshold_twice(release):
    """A step of the layout has two thresholds."""
    body = release.text("layout.json").replace('"threshold": 2', '"threshold": 2, "threshold": 1')
    release.write("layout.envelope.json", release.signed(body, "owner", "security"))


def twin(release):
    """One key under the names of two owners."""
    release.policy(lambda policy: policy["owners"].update(security=policy["owners"]["owner"]))
    release.write("layout.envelope.json", json.dumps(unnamed(release)))


def unnamed(release):
    """The layout's envelope, signed by one owner, with a signature that names no key."""
    envelope = json.loads(release.signed(release.text("layout.json"), "owner"))
    envelope["signatures"][0]["keyid"] = ""
    return envelope


def owner_by_identity(release):
    """An owner is an identity, which signs lines of the provenance alone."""
    release.policy(put("owners", "security", identity("https://ci.example/release",
                                                      "https://issuer.example")))
    return ["itv", "check", "--policy", "policy.json"]


def two_builders(document):
    """One key as a builder of level 2 and as another of level 3."""
    builders = document["expectations"][0]["builders"]
    builders.append({**builders[0], "id": "https://ci.example/hardened", "level": 3})


def stricter_behind(document):
    """A stricter expectation for one file behind that of all files."""
    expectations = document["expectations"]
    expectations.append({**expectations[0], "files": "hello.tar", "ignore": []})


def swapped(release):
    """Policy and layout in each other's place."""
    return release.verify(policy="layout.json", layout="policy.json")


def one_owner(release):
    """One of two owners signed."""
    release.layout(lambda document: None, by=["owner"])


def other_type(release):
    """The layout is signed under another type."""
    release.write("layout.envelope.json", release.signed(
        release.text("layout.json"), "owner", "security", kind="application/json"))


def other_keyid(release):
    """The layout's signatures name the key by another id."""
    envelope = release.document("layout.envelope.json")
    envelope["signatures"][0]["keyid"] = "243bb4e7c890"
    release.write("layout.envelope.json", envelope)


def silent_policies():
    """Policies by which the release would be accepted without `--strict`."""
    return [
        Mistake("an owner is null", null_owner, 2, ("null-owner", "secruity")),
        Mistake("no deliver, another file", tampered_under(removed("deliver")), 2,
                ("no-rules", "what is delivered")),
        Mistake("deliver is null, another file", tampered_under(put("deliver", None)), 2,
                ("no-rules", "what is delivered")),
        Mistake("deliver without DISALLOW, another file",
                tampered_under(put("deliver", [taken("*", "package")])), 2,
                (OPEN, "what is delivered")),
        policy(put("deliver", rules(["CREATE", "*"])), 2, "untied-file", "hello.tar",
               name="deliver takes what nobody made"),
        policy(put("deliver", [taken("*", "pakage")]), 2, "unknown-item", "pakage",
               name="deliver takes from a misspelt step, without DISALLOW"),
        policy(renamed("delivers", "deliver"), 2, '"delivers"', '"deliver"',
               name="delivers for deliver"),
        policy(renamed("levels", "expectations", 0, "level"), 2, '"levels"', '"level"',
               name="levels for level"),
        policy(removed("expectations", 0, "level"), 2, "no-level", name="no level"),
        policy(put("expectations", 0, "level", None), 2, "no-level", name="level is null"),
        policy(stricter_behind, 2, "unused-expectation", "/expectations/1",
               name="a stricter expectation behind one of all files"),
    ]


def silent_steps():
    """Steps, keys and doubled members with which it would be accepted without `--strict`."""
    return [
        layout(renamed("treshold", "steps", 1, "threshold"), 2, '"treshold"', '"threshold"',
               name="treshold for threshold"),
        layout(renamed("expected_product", "steps", 1, "expected_products"), 2,
               '"expected_product"', '"expected_products"', name="expected_product"),
        layout(renamed("inspects", "inspect"), 2, '"inspects"', '"inspect"',
               name="inspects for inspect"),
        layout(removed("steps", 1, "threshold"), 2, "no-threshold", name="no threshold"),
        layout(put("steps", 1, "threshold", None), 2, "no-threshold", name="threshold is null"),
        layout(put("steps", 1, "expected_products", [["CREATE", "bin/hello"]]), 2, OPEN, '"build"',
               name="a step's DISALLOW is missing"),
        layout(put("steps", 1, "expected_products", None), 2, "no-rules", '"build"',
               name="the rules of a step are null"),
        layout(put("steps", 0, "expected_products", rules(["CREATE", "src/*"], ["ALLOW", "{lib}"])),
               2, "parameter", name="a parameter of in-toto in a rule"),
        Mistake("deliver comes twice", deliver_twice, 2, ("deliver", "more than once")),
        Mistake("a threshold comes twice", threshold_twice, 2, ("threshold", "more than once")),
        Mistake("one key is two owners", twin, 2, ("owner", "security", "same key")),
        policy(two_builders, 2, "https://ci.example/hardened", "same key",
               name="one key is two builders"),
        policy(put("expectations", 0, "builders", 0, "keys", "release",
                   identity("https://ci.example/release", "")), 2, "incomplete-identity",
               "release", name="an identity without its issuer"),
        policy(put("owners", "owner", "keyval", "private", "a secret"), 2, "private",
               name="a private key in the policy"),
    ]


def refused_thresholds():
    """Thresholds and names of steps that are refused."""
    return [
        layout(put("steps", 1, "threshold", 0), 1, "threshold", "at least 1",
               name="a threshold of 0"),
        layout(put("steps", 1, "threshold", "2"), 1, "threshold", "whole number",
               name="a threshold that is a text"),
        checked(put("steps", 1, "threshold", 3), "high-threshold", "build",
                name="a threshold above the number of keys"),
        layout(put("steps", 1, "expected_materials", rules(taken("src/*", "fecth"))), 1, "fecth",
               "no step or inspection has that name", name="a misspelt step in the layout"),
        policy(put("deliver", rules(taken("*", "pakage"))), 1, "pakage",
               "no step or inspection has that name", name="a misspelt step in deliver"),
    ]


def refused_rules():
    """Rules on what is delivered that are refused."""
    late = [taken("*", "package"), ["REQUIRE", "hello.tar"]]
    return [
        policy(put("deliver", [["DISALLOW", "*"], taken("*", "package")]), 1, "rule 0",
               "DISALLOW *", name="DISALLOW comes first"),
        policy(put("deliver", rules(taken("goodbye.tar", "package"))), 1, "hello.tar",
               "no MATCH before it matches hello.tar", name="a pattern that matches nothing"),
        policy(put("deliver", rules(*late)), 1, "REQUIRE hello.tar", "rule 0",
               name="REQUIRE of what a rule before it took"),
        policy(put("deliver", ["DISALLOW *"]), 1, "rule 0 of deliver", name="a rule as one text"),
        policy(put("deliver", [["DISALOW", "*"]]), 1, "DISALOW", name="a misspelt rule"),
        policy(put("deliver", [["MATCH", "*", "WITH", "PRODUCTS"]]), 1, "MATCH", "deliver",
               name="MATCH without FROM"),
    ]


def refused_policies():
    """Owners and expectations of policies that are refused."""
    return [
        policy(renamed("owner", "owners"), 1, '"owner"', 'did you mean "owners"', "missing",
               name="owner for owners"),
        policy(put("owners", "owner", "a text"), 1, "owners", name="an owner that is a text"),
        Mistake("an owner is an identity", owner_by_identity, 1, ("identity-key", "security")),
        policy(put("expectations", 0, "files", "dist/*"), 1, "60 NoExpectation", "dist/*",
               name="expectations of other files"),
        policy(put("expectations", 0, "buildType", "https://ci.example/make/"), 1,
               "https://ci.example/make/", '"https://ci.example/make"',
               name="a build type with a slash at its end"),
        policy(put("expectations", 0, "parameters", "ref", "v1.1"), 1, "ref", "v1.0", "v1.1",
               name="another value of a parameter"),
        policy(put("expectations", 0, "builders", 0, "level", 1), 1, "level 1", "level 2",
               name="a builder of too low a level"),
    ]


def refused_texts():
    """Texts of policies that are refused."""
    return [
        text(lambda policy: "owners:\n  owner: keys/owner.pub\n", "line 1, column 1",
             name="a policy in YAML"),
        text(lambda policy: policy[:1] + "\n" + policy[1:-1] + ",\n}", "line 3, column 1",
             name="a comma before the last brace"),
        text(lambda policy: "{ // ours\n" + policy[1:], "line 1, column 3",
             name="a comment in the policy"),
        text(lambda policy: "\ufeff" + policy, "byte order mark", name="a byte order mark"),
        text(lambda policy: policy.encode("utf-16"), "UTF-16", name="a policy in UTF-16"),
        Mistake("policy and layout are swapped", swapped, 1, ("owners", "missing")),
    ]


def refused_layouts():
    """Layouts, signatures of layouts and keys in them that are refused."""
    return [
        layout(put("expires", "2030-01-01"), 1, "expires", "T00:00:00Z",
               name="expires is a date"),
        layout(put("expires", moment(-86400)), 1, "30 Expired", moment(-86400)[:10],
               name="the layout has expired"),
        Mistake("one of two owners signed", one_owner, 1,
                ("owner security did not sign", "owner owner signed")),
        Mistake("the layout is not signed", lambda release: release.verify(layout="layout.json"), 1,
                ("20 BadEnvelope", "layout", "no envelope")),
        Mistake("the layout is signed under another type", other_type, 1,
                ("21 WrongPayloadType", "application/json")),
        Mistake("a signature of the layout names another id", other_keyid, 1,
                ("22 OwnerMissing", "243bb4e7c890")),
        layout(put("keys", "bob", "scheme", "ecdsa-sha2-nistp521"), 1, "bob",
               "ecdsa-sha2-nistp521", name="a key of another curve in the layout"),
        layout(put("keys", "bob", "scheme", "ecdsa-sha2-nistp384"), 1, "bob", "P-384",
               name="a key under the scheme of another curve in the layout"),
    ]


MISTAKES = [*silent_policies(), *silent_steps(), *refused_thresholds(), *refused_rules(),
            *refused_policies(), *refused_texts(), *refused_layouts()]
