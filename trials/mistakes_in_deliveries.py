"""Mistakes of those who make a release, or hand it over: each is refused, and what is written names it."""

import json

from mistake import Mistake


def listed(change, *says, name, status=1):
    """A mistake in the digest list."""
    def changed(release):
        release.write("sums", change(release.text("sums")))
    return Mistake(name, changed, status, says)


def listed_512(change, *says, name, status=1, **words):
    """A mistake in a digest list by SHA-512, which is made of the list by SHA-512 and of `sums`."""
    def changed(release):
        by_512 = release.made("itv", "digest", "--sha512", "hello.tar").decode()
        release.write("sums512", change(by_512, release.text("sums")))
        return release.verify(sums512="sums512", **words)
    return Mistake(name, changed, status, says)


def link(change, *says, name, step="build", by="bob", signer=None, to=None):
    """A mistake in the link of a step, which somebody else may sign, in another file."""
    return Mistake(name, lambda release: release.link(step, by, change, signer, to), 1, says)


def statement(change, *says, name):
    """A mistake in the provenance, which the builder signs."""
    return Mistake(name, lambda release: release.statement(change), 1, says)


def moved(source, target, *says, name):
    """A file of the delivery under another name."""
    def changed(release):
        release.path(source).rename(release.path(target))
    return Mistake(name, changed, 1, says)


def same(document):
    """No change."""


def tampered(release):
    """The delivered file is another one."""
    release.write("hello.tar", "another file")
    release.write("sums", release.digests("hello.tar"))


def bundle(release):
    """A Sigstore bundle with the envelope of the provenance."""
    envelope = json.loads(release.text("provenance.jsonl"))
    return {"mediaType": "application/vnd.dev.sigstore.bundle.v0.3+json",
            "verificationMaterial": {}, "dsseEnvelope": envelope}


def written(name, make):
    """The change that writes a file anew."""
    return lambda release: release.write(name, make(release))


def wrong_signature(release):
    """A link whose signature is another's, under the id of bob."""
    envelope = release.document("links/build.bob.link")
    envelope["signatures"][0]["sig"] = release.document("links/build.alice.link")[
        "signatures"][0]["sig"]
    release.write("links/build.bob.link", envelope)


def other_type(release):
    """A link that is signed under another type."""
    body = release.made("itv", "payload", "links/build.bob.link")
    release.write("links/build.bob.link", release.signed(body, "bob", kind="text/plain"))


def other_keyid(release):
    """The provenance names its key by another id."""
    envelope = release.document("provenance.jsonl")
    envelope["signatures"][0]["keyid"] = "SHA256:caEJ"
    release.write("provenance.jsonl", envelope)


def older(kind):
    """The change that makes the Statement, or its predicate, one of an older version."""
    def change(document):
        if kind == "statement":
            document["_type"] = "https://in-toto.io/Statement/v0.1"
        else:
            document["predicateType"] = "https://slsa.dev/provenance/v0.2"
    return change


def enclosed(release):
    """The record of the inspection in an envelope."""
    body = release.text("records/unpack.link")
    release.write("records/unpack.link", release.signed(body, "owner"))


def another_digest(document):
    """A link that says of the product that it is another file."""
    document["products"]["bin/hello"]["sha256"] = "0" * 64


def given(release):
    """What the builder was given."""
    return release["predicate"]["buildDefinition"]["externalParameters"]


def without_ref(document):
    """Provenance without a parameter."""
    del given(document)["ref"]


def folder_for_file(release):
    """The policy is a folder."""
    return release.verify(policy="links")


def large(release):
    """A link that is too large."""
    release.write("links/build.bob.link", " " * 8388609)


def leads_nowhere(release):
    """A link file that is a symbolic link to nothing."""
    release.path("links/build.bob.link").unlink()
    release.path("links/build.bob.link").symlink_to("nothing")


def decomposed(release):
    """The file's name in another normal form than the link's."""
    release.link("package", "carol", lambda body: body.update(
        products={"h\u00e9llo.tar": body["products"]["hello.tar"]}))
    release.layout(lambda body: body["steps"][2].update(
        expected_products=[["CREATE", "h*"], ["DISALLOW", "*"]]))
    release.layout(lambda body: body.update(inspect=[]))
    release.write("sums", release.text("sums").replace("hello.tar", "he\u0301llo.tar"))


def of_steps():
    """Mistakes in links."""
    return [
        link(same, "33 Threshold", "build.bob.link", "signed by no key", signer="stranger",
             name="a link signed by one who is not listed"),
        Mistake("a wrong signature under the right id", wrong_signature, 1,
                ("33 Threshold", "build.bob.link", "bob")),
        Mistake("a link of another type", other_type, 1, ("build.bob.link", "text/plain")),
        moved("links/build.bob.link", "links/build.link", "build.bob.link", "no such file",
              name="a link without an id in its name"),
        moved("links/build.bob.link", "links/build-bob.link", "build.bob.link", "no such file",
              name="a link with a hyphen in its name"),
        moved("links/build.bob.link", "links/build.bob.json", "build.bob.link", "no such file",
              name="a link with another ending"),
        Mistake("the folder above that of the links", lambda release: release.verify(links="."), 1,
                ("fetch.alice.link", "no such file")),
        link(same, "33 Threshold", "build.bob.link", step="fetch", by="alice", signer="bob",
             to="links/build.bob.link", name="a link of another step"),
        link(another_digest, "34 Disagree", "products", "bin/hello",
             name="links of two runs that differ"),
        link(lambda body: body["materials"].update({"src/evil.sh": {"sha256": "0" * 64}}),
             "src/evil.sh", name="a step that took something else", step="package", by="carol"),
        Mistake("a bundle as a link", written("links/build.bob.link", bundle), 1,
                ("build.bob.link", "dsseEnvelope")),
        Mistake("a link that is too large", large, 2, ("build.bob.link", "8388608")),
        Mistake("a link file that leads nowhere", leads_nowhere, 2,
                ("build.bob.link", "leads nowhere")),
        Mistake("a folder in place of the policy", folder_for_file, 2, ("links", "directory")),
    ]


def of_files():
    """Mistakes in the digest list, and in what is delivered."""
    return [
        Mistake("another file", tampered, 1,
                ("40 RuleFailed", "package recorded sha256", "here it has sha256")),
        listed(lambda sums: sums.replace("\n", "\r\n"), "carriage return", name="lines of DOS"),
        listed(lambda sums: sums.replace("  ", "  ./"), "./hello.tar", "the nearest is hello.tar",
               name="a path that begins with ./"),
        listed(lambda sums: sums.replace("  ", "  dist/"), "dist/hello.tar",
               "the nearest is hello.tar", name="a path in another folder"),
        listed(lambda sums: sums.replace("  ", "  /release/"), "/release/hello.tar",
               "the nearest is hello.tar", name="an absolute path"),
        listed(lambda sums: sums.replace("hello", "Hello"), "Hello.tar", "the nearest is hello.tar",
               name="a path in another case"),
        listed(lambda sums: "", "14 NoFiles", name="an empty list"),
        listed(lambda sums: "\ufeff" + sums, "12 BadSums", "byte order mark",
               name="a list with a byte order mark"),
        listed(lambda sums: "0" * 63 + sums[64:], "12 BadSums", "line 1",
               name="a digit that is missing"),
        listed(lambda sums: sums.replace("  ", " "), "12 BadSums", "space", name="one space"),
        listed(lambda sums: "0" * 128 + sums[64:], "12 BadSums", "line 1",
               name="a list of sha512sum"),
        listed(lambda sums: "# files\n" + sums, "12 BadSums", "line 1", name="a comment"),
        Mistake("a name in another normal form", decomposed, 1, ("40 RuleFailed", "package")),
    ]


def of_lists():
    """Mistakes in the digest list by SHA-512, and in giving it."""
    bad = "12 BadSums", "list sha512", "digest list by SHA-512: line 1"
    return [
        listed_512(lambda sums512, sums: sums, *bad, "begins with 64 in place of 128",
                   name="a list of sha256sum for --sums512"),
        listed_512(lambda sums512, sums: sums, *bad, "begins with 64 in place of 128",
                   name="a list of sha256sum for --sums512 alone", sums=None),
        listed_512(lambda sums512, sums: sums512, "12 BadSums", "digest list: line 1",
                   "begins with 128 in place of 64", name="the two lists the other way round",
                   sums="sums512"),
        listed_512(lambda sums512, sums: sums512[1:], *bad, "begins with 127 in place of 128",
                   name="a digit of SHA-512 that is missing"),
        listed_512(lambda sums512, sums: sums512 * 2, "12 BadSums", "list sha512",
                   "digest list by SHA-512: line 2", "which line 1 has too",
                   name="a list by SHA-512 that was appended to"),
        listed_512(lambda sums512, sums: sums512.replace("\n", "\r\n"), "40 RuleFailed",
                   "hello.tar\\x0d", "digest list by SHA-512: line 1 ends with a carriage return",
                   name="lines of DOS in a list by SHA-512"),
        listed_512(lambda sums512, sums: sums512, "40 RuleFailed",
                   "no algorithm is in both, of package: sha256, and here: sha512",
                   name="SHA-512 alone, where the links have SHA-256", sums=None),
        listed_512(lambda sums512, sums: sums512[:100], *bad, "begins with 100 in place of 128",
                   name="a list by SHA-512 that is cut off"),
        Mistake("no digest list", lambda release: release.verify(sums=None), 2,
                ("--sums", "--sums512")),
    ]


def of_provenance():
    """Mistakes in the provenance and in records."""
    return [
        Mistake("no provenance", lambda release: release.verify(provenance=None), 1,
                ("61 NoProvenance", "no provenance")),
        Mistake("empty provenance", written("provenance.jsonl", lambda release: ""), 1,
                ("61 NoProvenance", "no provenance")),
        Mistake("a bundle as provenance", written("provenance.jsonl", bundle), 1,
                ("line 1", "dsseEnvelope")),
        Mistake("provenance over several lines",
                written("provenance.jsonl", lambda release: json.dumps(
                    release.document("provenance.jsonl"), indent=2)), 1, ("several lines",)),
        Mistake("provenance of a stranger", lambda release: release.statement(same, by="stranger"),
                1, ("line 1", "none of the expected builders")),
        Mistake("provenance under another key id", other_keyid, 1, ("61", "SHA256:caEJ")),
        statement(older("statement"), "Statement/v0.1", name="a Statement of an older version"),
        statement(older("predicate"), "provenance/v0.2", name="provenance of an older version"),
        statement(lambda body: body["predicate"]["runDetails"]["builder"].update(id="https://o"),
                  "https://o", "https://ci.example/runners", name="provenance of another builder"),
        statement(lambda body: given(body).update(ref="v1.1"), "ref", "v1.0", "v1.1",
                  name="another parameter"),
        statement(without_ref, "ref", "missing", name="a parameter that is missing"),
        statement(lambda body: given(body).update(debug=True), "debug",
                  name="a parameter that is not expected"),
        Mistake("no records", lambda release: release.verify(records=None), 1,
                ("50 RecordMissing", "unpack", "--records")),
        moved("records/unpack.link", "records/unpack.json", "50 RecordMissing", "unpack.link",
              name="a record with another ending"),
        Mistake("a record in an envelope", enclosed, 1, ("51 BadRecord", "unpack", "envelope")),
    ]


MISTAKES = [*of_steps(), *of_files(), *of_lists(), *of_provenance()]
