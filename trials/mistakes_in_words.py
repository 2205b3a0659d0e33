"""Mistakes in words, keys and signatures: the program stops, and what is written names each."""

import base64

from mistake import Mistake
from release_made import IN_TOTO

BODY = "a body"


def words(name, *given, status=2, says):
    """A command line that is wrong."""
    return Mistake(name, lambda release: list(given), status, says)


def at(value, *says, name):
    """A moment that is none."""
    return Mistake(name, lambda release: release.verify(at=value), 1, ("13 BadMoment", *says))


def key(name, make, *says, status=2):
    """A file that holds no public key that is taken."""
    def changed(release):
        release.write("given", make(release))
        return ["itv", "key", "given"]
    return Mistake(name, changed, status, says)


def signature(name, who, make, *says, kind=IN_TOTO):
    """What is no signature of a body."""
    def changed(release):
        message = release.pae(BODY)
        release.write("signature", make(release, message))
        return ["itv", "sign", "body", "--signature", "signature", "--keys", "keys.json", "--key",
                who, "--type", kind]
    return Mistake(name, changed, 2, says)


def openssl(*given):
    """What openssl makes."""
    return lambda release: release.made("openssl", *given)


def curve(name):
    """A public key of another curve."""
    def make(release):
        release.made("openssl", "genpkey", "-algorithm", "EC", "-pkeyopt",
                     f"ec_paramgen_curve:{name}", "-out", "other.pem")
        return release.made("openssl", "pkey", "-in", "other.pem", "-pubout")
    return make


def halves(release, message):
    """The two numbers of a P-256 signature, without their encoding."""
    made = release.signature(message, "bob")
    first = made[4:4 + made[3]]
    second = made[6 + made[3]:]
    return b"".join(one.lstrip(b"\0").rjust(32, b"\0") for one in (first, second))


def empty_list(release):
    """A Statement for no file."""
    release.write("none", "")
    return ["itv", "statement", "--sums", "none", "--builder", "b", "--build-type", "t"]


def large_body(release):
    """A body whose envelope nothing reads."""
    release.write("body", "x" * 7000000)
    release.write("pae", release.made("itv", "pae", "body", "--type", IN_TOTO))
    release.write("signature", release.made("openssl", "pkeyutl", "-sign", "-rawin", "-in", "pae",
                                            "-inkey", "keys/alice.pem"))
    return ["sh", "-c", "itv sign body --signature signature --keys keys.json --key alice "
            f"--type {IN_TOTO} > large"]


def below(release):
    """The files below the folder itself."""
    return ["sh", "-c", "cd src && itv digest --recursive ."]


def of_words():
    """Mistakes in the words."""
    return [
        Mistake("--public-keys is forgotten",
                lambda release: [word for word in release.verify() if word != "--public-keys"], 2,
                ("--ring", "--public-keys", "--trusted-root")),
        Mistake("--public-keys with a file", lambda release: release.verify("keys.json"), 2,
                ("keys.json", "policy and layout")),
        Mistake("a ring that is a PEM", lambda release: release.verify("--ring", "keys/bob.pub"), 2,
                ("keys/bob.pub", "no ring of secrets")),
        words("a misspelt command", "itv", "verfy", says=("verify",)),
        words("a misspelt option", "itv", "check", "--polcy", "policy.json",
              says=("--polcy", "--policy")),
        Mistake("--at is forgotten", lambda release: release.verify(at=None), 2, ("--at",)),
        Mistake("- for standard input", lambda release: release.verify(sums="-"), 2,
                ("cannot read -",)),
        at("2026-11-27", "2026-11-27", "T00:00:00Z", name="a date"),
        at("2026-11-27T00:00:00+00:00", "offset", name="a moment with an offset"),
        at("2026-11-27T00:00:00.000Z", "fraction", name="a moment with a fraction"),
        at("2026-11-27 00:00:00Z", "T00:00:00Z", name="a moment with a space"),
        at("now", "T00:00:00Z", name="a word for a moment"),
        at("1700000000", "T00:00:00Z", name="seconds since 1970"),
        Mistake("a Statement for no file", empty_list, 2, ("no file",)),
        Mistake("an envelope that is too large", large_body, 0, ("8388608",)),
        Mistake("the files below .", below, 0, ("  hello.sh\n",)),
    ]


def of_keys():
    """Mistakes in keys."""
    return [
        key("a private key", lambda release: release.text("keys/bob.pem"), "private key"),
        key("a key of P-521", curve("P-521"), "P-521"),
        key("a key of secp256k1", curve("secp256k1"), "secp256k1"),
        key("a key of OpenSSH", lambda release: "ssh-ed25519 AAAAC3NzaC1lZDI1NTE5AAAA me@here\n",
            "OpenSSH"),
        key("a JWK", lambda release: '{"kty": "OKP", "crv": "Ed25519", "x": "AA"}', "JWK"),
        key("two keys in a file",
            lambda release: release.text("keys/bob.pub") + release.text("keys/alice.pub"),
            "more than one"),
        key("a text before the key", lambda release: "# bob\n" + release.text("keys/bob.pub"),
            "before"),
        key("an empty file", lambda release: "", "empty"),
        key("a key in DER", openssl("pkey", "-pubin", "-in", "keys/bob.pub", "-outform", "DER"),
            "DER"),
        key("a certificate", openssl("req", "-x509", "-key", "keys/bob.pem", "-subj", "/CN=bob"),
            "certificate"),
    ]


def of_signatures():
    """Mistakes in signatures that are handed in."""
    pkcs1 = ["-digest", "sha256", "-pkeyopt", "rsa_padding_mode:pkcs1"]
    salted = ["-digest", "sha256", "-pkeyopt", "rsa_padding_mode:pss", "-pkeyopt",
              "rsa_pss_saltlen:max"]
    return [
        signature("another's key", "bob", lambda release, pae: release.signature(pae, "builder"),
                  "not a signature of the body by bob"),
        signature("base64", "alice", lambda release, pae: base64.b64encode(
            release.signature(pae, "alice")), "base64"),
        signature("hexadecimal", "alice", lambda release, pae: release.signature(
            pae, "alice").hex(), "hexadecimal"),
        signature("PKCS #1", "carol", lambda release, pae: release.signature(pae, "carol", *pkcs1),
                  "PKCS #1"),
        signature("another salt", "carol", lambda release, pae: release.signature(
            pae, "carol", *salted), "salt"),
        signature("two numbers", "bob", halves, "DER"),
        signature("the body", "alice", lambda release, pae: release.signature(BODY, "alice"),
                  "itv pae"),
        signature("another type", "alice", lambda release, pae: release.signature(
            release.pae(BODY, "text/plain"), "alice"), "type"),
    ]


MISTAKES = [*of_words(), *of_keys(), *of_signatures()]
