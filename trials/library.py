"""Tries the Python package on the delivery of examples/public and on calls that it must refuse.

`trials/library` runs it at the top of the repository. What is wanted is written here by hand.
"""

import concurrent.futures
import datetime
import hashlib
import json
import os
import pathlib
import tempfile

import itv

EXAMPLE = pathlib.Path("examples/public")
SIGSTORE = pathlib.Path("examples/sigstore")
AT = datetime.datetime(2026, 1, 1, tzinfo=datetime.timezone.utc)
# SHA-256 of no bytes (FIPS 180-4).
EMPTY = "e3b0c44298fc1c149afbf4c8996fb92427ae41e4649b934ca495991b7852b855"
# SHA-512 of no bytes (FIPS 180-4).
EMPTY_512 = ("cf83e1357eefb8bdf1542850d66d8007d620e4050b5715dc83f4a921d36ce9ce"
             "47d0d13c5d85f2b0ff8318d2877eec2f63b931bd47417a81a538327af927da3e")
# The public key of RFC 8410, section 10.1, in PEM and as its bytes.
PEM = b"""-----BEGIN PUBLIC KEY-----
MCowBQYDK2VwAyEAGb9ECWmEzf6FQbrBZ9w7lshQhqowtrbLDFw4rXAxZuE=
-----END PUBLIC KEY-----
"""
PUBLIC = "19bf44096984cdfe8541bac167dc3b96c85086aa30b6b6cb0c5c38ad703166e1"
# How many threads verify at once, and how many deliveries each.
THREADS, TIMES = 8, 1000


def given(**other):
    """The delivery of the example, with other parts."""
    parts = {"policy": EXAMPLE / "policy.json", "layout": EXAMPLE / "layout.envelope.json",
             "links": EXAMPLE / "links", "provenance": EXAMPLE / "provenance.jsonl",
             "sums": itv.digest(of={"hello.tar": (EXAMPLE / "hello.tar").read_bytes()}),
             "public_keys": True, "at": AT}
    return {**parts, **other}


def sha256(name):
    """The SHA-256 of a file of the example, in hexadecimal."""
    return hashlib.sha256((EXAMPLE / name).read_bytes()).hexdigest()


def wanted_evidence():
    """What stands behind the delivery of the example."""
    steps = [itv.StepEvidence(step, [itv.CountedKey(who, [f"{step}.{who}.link"], [1])])
             for step, who in [("build", "alice"), ("pack", "carol")]]
    file = itv.FileEvidence("hello.tar", {"sha256": sha256("hello.tar")}, 1,
                            "https://ci.example/pack", 2)
    return itv.Evidence(AT.strftime("%Y-%m-%dT%H:%M:%SZ"), sha256("policy.json"),
                        sha256("layout.envelope.json"), "2030-01-01T00:00:00Z", steps, [file])


def raises(kind, call, *words, **parts):
    """What a call raises, which must be of a kind."""
    try:
        call(*words, **parts)
    except kind as error:
        return error
    raise AssertionError(f"{call.__name__} raises no {kind.__name__}")


def verifications():
    """Verdicts, as values."""
    verdict = itv.verify(**given())
    assert verdict.accepted and verdict.refusal is None and verdict.notes == []
    assert verdict.findings == [] and verdict.notes_complete
    assert verdict.evidence == wanted_evidence(), verdict.evidence
    loose = json.loads((EXAMPLE / "policy.json").read_text())
    del loose["expectations"][0]["level"]
    found = itv.verify(**given(policy=json.dumps(loose).encode()))
    assert found.accepted and [str(one) for one in found.findings] == [
        "policy no-level /expectations/0/level: expectation 0 asks for level 0, which every builder "
        "reaches"], found.findings
    assert verdict.raise_for_refusal() is verdict
    assert verdict.report["verdict"] == "accepted" and verdict.report["files"] == ["hello.tar"]
    late = itv.verify(**given(at=datetime.datetime(2126, 1, 1, tzinfo=datetime.timezone.utc)))
    assert not late.accepted and (late.refusal.number, late.refusal.name) == (30, "Expired")
    assert late.evidence is None
    assert raises(itv.Refused, late.raise_for_refusal).verdict is late
    other = itv.verify(**given(sums=itv.digest(of={"hello.tar": b""})))
    assert other.refusal.number == 40 and other.refusal.details["path"] == "hello.tar"
    zone = datetime.timezone(datetime.timedelta(hours=2))
    assert itv.verify(**given(at=AT.astimezone(zone))).accepted
    early = datetime.datetime(1, 1, 1, tzinfo=datetime.timezone.utc)
    assert itv.verify(**given(at=early)).accepted
    deep = itv.verify(**given(depth=0))
    assert deep.refusal.name == "TooDeep", deep.refusal
    assert deep.refusal.at == [{"step": "pack", "key": "carol"}], deep.refusal.at
    told = raises(itv.Stopped, itv.verify, **given(most_checks=1))
    assert str(told).startswith("more than 1 signatures would have to be checked"), told


def lists():
    """Digest lists by SHA-512, beside one by SHA-256 and alone."""
    tar = (EXAMPLE / "hello.tar").read_bytes()
    sums, sums512 = (itv.digest(of={"hello.tar": tar}, sha512=longer) for longer in (False, True))
    assert sums512 == f"{hashlib.sha512(tar).hexdigest()}  hello.tar\n".encode()
    verdict = itv.verify(**given(sums512=sums512))
    assert verdict.evidence.files[0].digests == {
        "sha256": sha256("hello.tar"), "sha512": hashlib.sha512(tar).hexdigest()}
    # The links of the example have SHA-256 alone.
    assert itv.verify(**given(sums=None, sums512=sums512)).refusal.name == "RuleFailed"
    assert itv.verify(**given(sums=None, sums512=b"")).refusal.name == "NoFiles"
    bad = itv.verify(**given(sums512=sums)).refusal
    assert (bad.number, bad.details) == (12, {"list": "sha512", "line": 1}), bad
    told = raises(itv.Stopped, itv.verify, **given(sums=None))
    assert "--sums512" in str(told), told


def strictly():
    """A strict verification, of a delivery whose file is tied to no step."""
    assert itv.verify(**given(strict=True)).accepted
    policy = json.loads((EXAMPLE / "policy.json").read_bytes())
    policy["deliver"] = [["ALLOW", "hello.tar"], ["DISALLOW", "*"]]
    untied = given(policy=json.dumps(policy).encode())
    assert itv.verify(**untied).accepted
    told = raises(itv.Found, itv.verify, **untied, strict=True)
    untied_file = itv.Finding("policy", [], "untied-file", "/deliver",
                              'no MATCH rule WITH PRODUCTS FROM a step takes "hello.tar"')
    assert told.findings == [untied_file] and told.notes == [], told.findings


def signers():
    """Who signed the provenance, by a bundle in it."""
    bundle, root = SIGSTORE / "provenance.jsonl", SIGSTORE / "trusted_root.json"
    verdict = itv.verify(policy=SIGSTORE / "policy.json", layout=SIGSTORE / "layout.envelope.json",
                         links=SIGSTORE / "links", provenance=bundle, trusted_root=root,
                         sums=itv.digest(of={"hello.sh": (SIGSTORE / "hello.sh").read_bytes()}),
                         public_keys=True, at=AT.replace(year=2027))
    (entry,) = json.loads(bundle.read_bytes())["verificationMaterial"]["tlogEntries"]
    (expected,) = json.loads((SIGSTORE / "policy.json").read_bytes())["expectations"]
    who = expected["builders"][0]["keys"]["release"]["keyval"]
    signer = itv.Signer(who["identity"], who["issuer"], int(entry["integratedTime"]))
    assert verdict.evidence.files[0].signer == signer, verdict.evidence


def folders():
    """Folders of links as dictionaries, with folders in them."""
    links = {path.name: path for path in (EXAMPLE / "links").glob("*.link")}
    inner = EXAMPLE / "links" / "pack.carol"
    links["pack.carol"] = {path.name: path.read_bytes() for path in inner.glob("*.link")}
    assert itv.verify(**given(links=links)).accepted
    assert itv.verify(**given(links={})).refusal.number == 33
    raises(ValueError, itv.verify, **given(links={"a/b.link": b""}))
    raises(TypeError, itv.verify, **given(links="links"))
    with tempfile.TemporaryDirectory() as name:
        folder = pathlib.Path(name)
        assert itv.verify(**given(links=folder)).refusal.number == 33
        # Symbolic links to the true links, one that leads back, and a pipe.
        for one in (EXAMPLE / "links").resolve().iterdir():
            (folder / one.name).symlink_to(one)
        (folder / "loop.x").symlink_to(folder)
        os.mkfifo(folder / "pipe.link")
        assert itv.verify(**given(links=folder)).accepted
        (folder / "gone.link").symlink_to("nowhere")
        raises(FileNotFoundError, itv.verify, **given(links=folder))


def misuse():
    """What is no verification."""
    raises(TypeError, itv.verify, **{name: one for name, one in given().items() if name != "at"})
    raises(ValueError, itv.verify, **given(at=datetime.datetime(2026, 1, 1)))
    raises(TypeError, itv.verify, **given(policy="policy.json"))
    told = raises(itv.Stopped, itv.verify, **given(public_keys=False))
    assert "--ring" in str(told), told
    told = raises(itv.Stopped, itv.run, ["pae", "--type=t", "gone"], {"body": b""})
    assert str(told) == "cannot read gone: No such file or directory", told
    told = raises(itv.Stopped, itv.run, ["pae", "--type=t", "a"], {"a": b"", "a/b": b""})
    assert str(told) == "cannot read a: it is a file, and another lies below it", told
    told = raises(itv.Stopped, itv.run, ["pae", "--type=t", "a"], {"a//b": b""})
    assert str(told) == "cannot read a//b: a part of this path is empty", told
    raises(ValueError, itv.run, ["pae", "--type=t", "a\0b"], {})
    told = raises(itv.Stopped, itv.run, ["pae", "--type=t", "\udcff"], {})
    assert str(told) == "word 3 after the program's name is not UTF-8", told


def commands():
    """The other commands."""
    assert itv.version() == "itv " + json.loads(
        pathlib.Path("docs/commands.json").read_text(encoding="utf-8"))["version"]
    assert itv.match("dist/*", "dist/app.tar") and not itv.match("dist/*", "src/app.tar")
    assert itv.pae(b"hello", type="text/plain") == b"DSSEv1 10 text/plain 5 hello"
    assert itv.digest(of={"a": b""}) == f"{EMPTY}  a\n".encode()
    assert itv.digest(of={"a": b""}, sha512=True) == f"{EMPTY_512}  a\n".encode()
    with tempfile.TemporaryDirectory() as name:
        path = pathlib.Path(name, "empty")
        path.write_bytes(b"")
        assert itv.digest(path) == f"{EMPTY}  {path}\n".encode()
        assert itv.digest(path, sha512=True) == f"{EMPTY_512}  {path}\n".encode()
        for odd in ("line\nfeed", "\udcff"):
            other = pathlib.Path(name, odd)
            other.write_bytes(b"")
            raises(ValueError, itv.digest, other)
    ring = b'[{"id": "k", "secret": "00"}]'
    envelope = itv.sign(b"{}", key="k", type="t", ring=ring)
    assert itv.signed(envelope, ring=ring) == ["k"] and itv.payload(envelope) == b"{}"
    assert itv.signed(envelope, ring=b'[{"id": "k", "secret": "01"}]') == []
    assert itv.payload(b"nothing") is None
    raises(TypeError, itv.signed, envelope)
    raises(TypeError, itv.signed, envelope, ring=ring, trusted_root=b"{}")
    bundle, root = (SIGSTORE / name for name in ("provenance.jsonl", "trusted_root.json"))
    (expected,) = json.loads((SIGSTORE / "policy.json").read_bytes())["expectations"]
    keys = json.dumps(expected["builders"][0]["keys"]).encode()
    assert itv.signed(bundle, keys=keys, trusted_root=root) == ["release"]
    assert itv.signed(bundle, keys=keys) == []
    made = json.loads(itv.link("build", products=itv.digest(of={"a": b""})))
    assert made["products"] == {"a": {"sha256": EMPTY}} and made["materials"] == {}
    stated = json.loads(itv.statement(sums=itv.digest(of={"a": b""}), builder="b", build_type="t"))
    assert stated["subject"] == [{"name": "a", "digest": {"sha256": EMPTY}}]
    assert itv.key(PEM, name="alice")["alice"]["keyval"] == {"public": PUBLIC}
    assert [one["keyval"]["public"] for one in itv.key(PEM).values()] == [PUBLIC]
    told = raises(itv.Stopped, itv.key, EXAMPLE / "keys" / "alice.pem")
    assert "it is a private key" in str(told), told
    of_anna = {"identity": "anna@example.org", "issuer": "https://accounts.example.org"}
    identity = {"keytype": "sigstore-oidc", "keyval": of_anna, "scheme": "Fulcio"}
    assert itv.key(**of_anna, name="anna") == {"anna": identity}
    assert list(itv.key(**of_anna).values()) == [identity]
    assert "without '--issuer <S>'" in str(raises(itv.Stopped, itv.key, identity="i"))
    assert itv.check(policy=EXAMPLE / "policy.json").notes == []


def answer_of(parts):
    """One word for what comes of a delivery."""
    try:
        verdict = itv.verify(**parts)
    except itv.Found:
        return "findings"
    return "accepted" if verdict.accepted else verdict.refusal.name


def at_once():
    """Deliveries verified in several threads, each of which must get what it does alone."""
    policy = json.loads((EXAMPLE / "policy.json").read_bytes())
    policy["deliver"] = [["ALLOW", "hello.tar"], ["DISALLOW", "*"]]
    late = datetime.datetime(2126, 1, 1, tzinfo=datetime.timezone.utc)
    cases = [(given(), "accepted"), (given(at=late), "Expired"),
             (given(sums=f"{EMPTY}  hello.tar\n".encode()), "RuleFailed"),
             (given(policy=json.dumps(policy).encode(), strict=True), "findings")]

    def verified(thread):
        """How many answers a thread got that it should not."""
        chosen = (cases[(thread + time) % len(cases)] for time in range(TIMES))
        return sum(answer_of(parts) != wanted for parts, wanted in chosen)

    with concurrent.futures.ThreadPoolExecutor(THREADS) as pool:
        assert sum(pool.map(verified, range(THREADS))) == 0
    print(f"Python: {THREADS} threads verify {TIMES:,} deliveries each, and no answer differs")


if __name__ == "__main__":
    for trial in (verifications, lists, strictly, signers, folders, misuse, commands):
        trial()
    print("Python: verdicts, folders, misuse and commands give what they should")
    at_once()
