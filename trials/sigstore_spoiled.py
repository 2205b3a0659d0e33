"""Changes of Sigstore bundles and of trusted roots at random."""

import base64
import copy

from deliveries import signature
from signing_keys import order_less

# Parts that two bundles may exchange.
PARTS = [("mediaType",), ("dsseEnvelope",), ("dsseEnvelope", "payload"),
         ("dsseEnvelope", "payloadType"), ("dsseEnvelope", "signatures"),
         ("verificationMaterial",), ("verificationMaterial", "certificate"),
         ("verificationMaterial", "x509CertificateChain"), ("verificationMaterial", "tlogEntries"),
         *(("verificationMaterial", "tlogEntries", 0, name)
           for name in ("canonicalizedBody", "inclusionPromise", "inclusionProof",
                        "integratedTime", "logIndex", "logId", "kindVersion"))]
TIMES = ["0000-02-29T00:00:00Z", "1969-12-31T23:59:59.999999999Z", "2010-01-01T00:00:00Z",
         "2100-01-01T00:00:00.5Z", "9999-12-31T23:59:59Z", "2100-02-29T00:00:00Z",
         "2010-01-01T00:00:00+00:00", None]


def paths(value, front=()):
    """The paths of all members and elements of a document."""
    held = value.items() if isinstance(value, dict) else \
        enumerate(value) if isinstance(value, list) else ()
    for name, inside in held:
        yield (*front, name)
        yield from paths(inside, (*front, name))


def at(value, path):
    """What is at a path."""
    for name in path:
        value = value[name]
    return value


def put(value, path, new):
    """Puts something at a path."""
    at(value, path[:-1])[path[-1]] = new


class Spoiler:
    """Changes bundles at random."""

    def __init__(self, dice):
        self.dice = dice

    def changed(self, bundle, other):
        """A bundle with one change, for which a part of another may be taken."""
        bundle = copy.deepcopy(bundle)
        how = self.dice.choice([self.exchange, self.exchange, self.flip, self.flip, self.replace,
                                self.join_entries, self.sign_again, self.hint])
        try:
            how(bundle, other)
        except (KeyError, IndexError, TypeError, ValueError):
            return bundle  # the other has no such part, or this one not of such a form
        return bundle

    def changed_root(self, root):
        """A trusted root with one change."""
        root = copy.deepcopy(root)
        try:
            self.dice.choice([self.flip, self.replace, self.move])(root, None)
        except ValueError:
            return root  # what was to be flipped is not in base64
        return root

    def move(self, root, _):
        """Puts another start or end in place of that of a window."""
        windows = [path for path in paths(root) if path[-1] == "validFor"]
        at(root, self.dice.choice(windows))[self.dice.choice(["start", "end"])] = \
            self.dice.choice(TIMES)

    def exchange(self, bundle, other):
        """Takes a part of the other."""
        path = self.dice.choice(PARTS)
        put(bundle, path, copy.deepcopy(at(other, path)))

    def flip(self, bundle, _):
        """Flips a bit of something in base64."""
        path = self.dice.choice([one for one in paths(bundle) if isinstance(at(bundle, one), str)])
        content = bytearray(base64.b64decode(at(bundle, path), validate=True))
        content[self.dice.randrange(len(content))] ^= 1 << self.dice.randrange(8)
        put(bundle, path, base64.b64encode(content).decode())

    def replace(self, bundle, _):
        """Puts something else in place of any member or element."""
        path = self.dice.choice(list(paths(bundle)))
        put(bundle, path, self.dice.choice([None, "", "*", "0", 1, [], {}, True]))

    def join_entries(self, bundle, other):
        """Puts the entries of the other beside those of the bundle."""
        material = bundle["verificationMaterial"]
        joined = material["tlogEntries"] + other["verificationMaterial"]["tlogEntries"]
        self.dice.shuffle(joined)
        material["tlogEntries"] = joined

    def sign_again(self, bundle, _):
        """Adds a signature, or puts the other form of the one in its place."""
        envelope = bundle["dsseEnvelope"]
        (one,) = envelope["signatures"]
        form = order_less(base64.b64decode(one["sig"], validate=True))
        second = {"sig": base64.b64encode(form).decode()}
        secret = signature("builder", base64.b64decode(envelope["payload"]))
        envelope["signatures"] = self.dice.choice([[second], [one, second], [one, secret],
                                                   [secret] * 64 + [one]])

    def hint(self, bundle, _):
        """Changes the hint of the first signature."""
        bundle["dsseEnvelope"]["signatures"][0]["keyid"] = self.dice.choice(["", "release", "a"])
