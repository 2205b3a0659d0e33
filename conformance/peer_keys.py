"""The keys of a case as key pairs: those of its secrets are made from them, as Ed25519 keys.

The private parts of the public keys of cases are known, since the scripts make those keys from
names. Needs the package `cryptography`.
"""

import functools
import hashlib
import hmac
import json

from cryptography.exceptions import InvalidSignature
from cryptography.hazmat.primitives import hashes
from cryptography.hazmat.primitives.asymmetric import ec, padding

import by_keys
from on_disk import bytes_of
from peer_documents import Inexpressible, canonical, document_of
from signing_keys import Ed25519Key, P256Key, P384Key, RsaKey

# Whose public keys of each kind the cases have.
MANY = ["owner", "builder", "worker", "other"]
HOLDERS = {by_keys.ed25519: [*MANY, "alice", "bob", "dave"], by_keys.p256: [*MANY, "bob", "inner"],
           by_keys.p384: [*MANY, "erin"], by_keys.rsa: [*MANY, "carol"]}
ALGORITHMS = ["sha256", "sha512"]

ed25519 = functools.cache(Ed25519Key)


@functools.cache
def known_keys():
    """The keys of all holders, by the public part of their objects."""
    made = [kind(who) for kind, holders in HOLDERS.items() for who in holders]
    return {by_keys.public_text(key): key for key in [*made, RsaKey("carol", 3)]}


def known_key(thing):
    """The key of a key object, if it is one of the holders', or None."""
    try:
        public = thing["keyval"]["public"]
        public = public.lower() if len(public) == 64 else public.strip()
    except (TypeError, KeyError, AttributeError):
        return None
    key = known_keys().get(public)
    return key if key and by_keys.key(key)["scheme"] == thing.get("scheme") else None


def has_signed(key, sig, message):
    """Whether a signature of a message is one by a key."""
    try:
        if isinstance(key, Ed25519Key):
            key.private.public_key().verify(sig, message)
        elif isinstance(key, P256Key):
            key.public.verify(sig, message, ec.ECDSA(hashes.SHA256()))
        elif isinstance(key, P384Key):
            key.public.verify(sig, message, ec.ECDSA(hashes.SHA384()))
        else:
            form = padding.PSS(padding.MGF1(hashes.SHA256()), 32)
            key.public.verify(sig, message, form, hashes.SHA256())
    except InvalidSignature:
        return False
    return True


def digits_of(key):
    """The id of a key: the SHA-256 of the canonical JSON of its object."""
    text = canonical({"keyid_hash_algorithms": ALGORITHMS, **by_keys.key(key)})
    return hashlib.sha256(text.encode()).hexdigest()


def secrets_of(rings):
    """The number of the ring and the secret of each id: those of the first ring that has the id."""
    found = {}
    for number, ring in reversed(list(enumerate(rings))):
        for entry in json.loads(bytes_of(ring)):
            secret = bytes.fromhex(entry["secret"])
            secret = hashlib.sha256(secret).digest() if len(secret) > 64 else secret
            found[entry["id"]] = number, secret.ljust(64, b"\0")
    return found


def owners_of(case):
    """The owners of a policy, each with the key object."""
    for document in document_of(bytes_of(case["policy"])):
        return document["owners"]
    raise Inexpressible("a policy that does not read")


class Keys:
    """The keys of a case, by the names under which it lists them."""

    def __init__(self, case):
        self.secrets = secrets_of(case["rings"])
        self.public = bool(case.get("public_keys"))
        self.names, self.taken = {}, {}
        self.objects = {}

    def meet(self, name, thing=None):
        """Notes that a case has this name, and a key object under it."""
        self.names.setdefault(name)
        if thing is not None:
            self.objects.setdefault(name, thing)

    def by_secret(self, name):
        """The key that is made from the secret of a name, or one whose secret nobody has."""
        if name not in self.secrets:
            return ed25519(f"no secret of {name}")
        number, secret = self.secrets[name]
        return ed25519(f"secret {number} {secret.hex()}")

    def key_of(self, name):
        """The key of a name: that of the object under it, or that of its secret."""
        thing = self.objects.get(name)
        if isinstance(thing, dict) and thing.get("scheme") != "hmac-sha256" and self.public:
            return known_key(thing)
        return self.by_secret(name)

    def id_of(self, name):
        """The id of a name: that of its key, or one made of the name if another name has that."""
        if self.names.get(name) is None:
            key = self.key_of(name)
            made = name if key is None and len(name) == 64 else key and digits_of(key)
            if self.taken.get(made, name) != name or made is None:
                made = hashlib.sha256(name.encode()).hexdigest()
            self.names[name] = made
            self.taken[made] = name
        return self.names[name]

    def object_of(self, name, thing):
        """The object of a key under a name, with the members that other verifiers want."""
        if not isinstance(thing, dict):
            return thing
        who = thing.get("keyid")
        ours = {"keyid": self.id_of(who if who and isinstance(who, str) else name),
                "keyid_hash_algorithms": ALGORITHMS}
        if thing.get("scheme") != "hmac-sha256":
            return {**thing, **ours}
        made = by_keys.key(self.by_secret(name))
        value = thing.get("keyval")
        value = {**(value if isinstance(value, dict) else {}), **made["keyval"]}
        return {**thing, **ours, **made, "keyval": value}

    def signer_of(self, hint, sig, message):
        """The key that made a signature of a message: first that of the hint, or None."""
        names = [hint] * (hint in self.secrets) + [*self.secrets]
        for name in names:
            if hmac.compare_digest(hmac.digest(self.secrets[name][1], message, "sha256"), sig):
                return self.by_secret(name)
        found = [key for key in known_keys().values() if has_signed(key, sig, message)] \
            if self.public else []
        return found[0] if found else None

    def is_valid(self, hint, signer):
        """Whether a signer's signature counts for the hint."""
        return signer is not None and signer is self.key_of(hint)

    def owners(self, case):
        """The keys of the owners. One that is null counts as missing."""
        made = []
        for name, thing in owners_of(case).items():
            if thing is None:
                continue
            scheme = thing.get("scheme")
            key = known_key(thing) if self.public else None
            key = self.by_secret(name) if scheme == "hmac-sha256" else key
            if key is None:
                raise Inexpressible("an owner's key that no key file has")
            made.append(key)
        if len({*map(digits_of, made)}) < len(made):
            raise Inexpressible("two owners with one key")
        return made
