"""Random deliveries, whose keys are of every kind and whose signatures are partly wrong.

Most of each is right, so that deliveries get far before something fails.
"""

import base64
import functools
import hashlib
import hmac
import json
import pathlib
import sys

sys.path[:0] = [str(pathlib.Path(__file__).resolve().parent.parent / name)
                for name in ("bench", "conformance")]
from curve_points import P256_ORDER, P384_ORDER
from deliveries import MOMENT, TYPE, compact, link, statement, step
from digest_lists import LISTS, digests
from signing_keys import Ed25519Key, P256Key, P384Key, RsaKey, order_less, pem

SCHEMES = ["hmac-sha256", "ed25519", "ecdsa-sha2-nistp256", "rsassa-pss-sha256",
           "ecdsa-sha2-nistp384"]
ORDERS = {SCHEMES[2]: P256_ORDER, SCHEMES[4]: P384_ORDER}
SECRETS = {"h0": b"h0", "h1": b"one secret", "h2": b"one secret\0"}
# The algorithms by which the links of a delivery have digests.
ALGORITHMS = [["sha256"]] * 4 + [["sha512"]] * 2 + [["sha256", "sha512"]] * 3 + [["sha384", "sha512"]]
IDS = ["a", "b", "c", "d", "h0", "h1", "h2", "longer-than-eight", "longer-than-seven"]


class Bundle:
    """A folder of links: texts of files by their names, and folders by theirs."""

    def __init__(self):
        self.files, self.folders = {}, {}


class Secret:
    """A key of the ring."""

    scheme = SCHEMES[0]

    def __init__(self, name):
        self.name = name

    def text(self, _dice):
        """The public part of its key object."""
        return ""

    def sign(self, message):
        """Its signature of a message."""
        return hmac.digest(SECRETS[self.name], message, hashlib.sha256)


class InDigits:
    """A key of Ed25519."""

    scheme = SCHEMES[1]

    def __init__(self, made):
        self.made, self.sign = made, functools.cache(made.sign)

    def text(self, dice):
        """The public part of its key object, in digits of lower or upper case."""
        return dice.choice([self.made.digits, self.made.digits, self.made.digits.upper()])


class InPem:
    """A key whose public part is a PEM text."""

    def __init__(self, made, scheme):
        self.made, self.scheme, self.sign = made, scheme, functools.cache(made.sign)

    def text(self, dice):
        """The public part of its key object, with lines of one of several lengths and endings."""
        lines = pem(self.made).split("\n")
        joined, width = "".join(lines[1:-2]), dice.choice([64, 64, 64, 76, 40])
        inner = [joined[at:at + width] for at in range(0, len(joined), width)]
        text = dice.choice(["\n", "\n", "\r\n"]).join([lines[0], *inner, lines[-2]])
        return text + dice.choice(["", "", "\n"])


@functools.cache
def holders():
    """All who may sign: three of a ring, two of whom share a key, and three of each other kind."""
    digits = [InDigits(Ed25519Key(who)) for who in ("e0", "e1", "e2")]
    ecdsa = [InPem(P256Key(who), SCHEMES[2]) for who in ("p0", "p1", "p2")]
    pss = [InPem(RsaKey(*of), SCHEMES[3]) for of in [("r0",), ("r0", 3), ("r1",)]]
    longer = [InPem(P384Key(who), SCHEMES[4]) for who in ("q0", "q1", "q2")]
    return [*map(Secret, SECRETS), *digits, *ecdsa, *pss, *longer]


def damaged(dice, made):
    """A key object with another scheme, another text or other damage."""
    text = made["keyval"]["public"]
    return {**made, **dice.choice([
        {"scheme": dice.choice(SCHEMES + ["ecdsa-sha2-nistp521"])}, {"keytype": "unknown"},
        {"keyval": {"public": text[:-1]}}, {"keyval": {"public": text + " "}},
        {"keyval": {}}, {"keyval": {"public": "01" + "00" * 31}},
        {"keyval": {"public": text.replace("A", "B", 1)}}, {"keyid": "a"}])}


class Faulty:
    """What is made at random, and in which something goes wrong as often as was thrown.

    Some deliveries are right or nearly so, others have faults all over.
    """

    def __init__(self, dice, how_often):
        self.dice, self.wrong = dice, dice.choice(how_often)

    def is_wrong(self, times=1):
        """Whether something goes wrong here."""
        return self.dice.random() < self.wrong * times


class Dice(Faulty):
    """The random choices for one delivery."""

    def __init__(self, dice):
        super().__init__(dice, [0, 0.01, 0.03, 0.1])
        self.algorithms = dice.choice(ALGORITHMS)

    def keys(self, count):
        """Key objects by their ids, and who holds each."""
        objects, who = {}, {}
        for name in self.dice.sample(IDS, count):
            ring = [one for one in holders() if isinstance(one, Secret) and one.name == name]
            others = [one for one in holders() if not isinstance(one, Secret)]
            holder = self.dice.choice(ring * 6 + others)
            made = {"keytype": "", "scheme": holder.scheme,
                    "keyval": {"public": holder.text(self.dice)}}
            objects[name] = damaged(self.dice, made) if self.is_wrong() else made
            who[name] = holder
        return objects, who

    def signature(self, holder, name, message):
        """A signature with a hint."""
        if self.is_wrong():
            holder = self.dice.choice(holders())
        sig = holder.sign(message)
        if holder.scheme in ORDERS and self.dice.random() < 0.3:
            sig = order_less(sig, ORDERS[holder.scheme])
        if self.is_wrong():
            place = self.dice.randrange(len(sig))
            flipped = bytes([sig[place] ^ 1 << self.dice.randrange(8)])
            flipped = sig[:place] + flipped + sig[place + 1:]
            sig = self.dice.choice([flipped, sig[:-1], sig + b"\0", b""])
        hint = self.dice.choice(IDS) if self.is_wrong() else self.dice.choice([name, name, ""])
        return {"keyid": hint, "sig": base64.b64encode(sig).decode()}

    def envelope(self, body, signers):
        """The text of an envelope of a body, signed by these pairs of an id and a holder."""
        kind = "text/plain" if self.is_wrong(0.5) else TYPE
        message = f"DSSEv1 {len(kind)} {kind} {len(body)} ".encode() + body
        signatures = [self.signature(holder, name, message) for name, holder in signers]
        if self.is_wrong():
            junk = {"sig": base64.b64encode(bytes(64)).decode()}
            signatures = [junk] * self.dice.choice([1, 64 - len(signatures), 64]) + signatures
        return json.dumps({"payload": base64.b64encode(body).decode(), "payloadType": kind,
                           "signatures": signatures})

    def body(self, name):
        """The body of a link of a step, now and then with something changed."""
        made = {**link(name, [], []), "products": {"app": self.digest_set()}}
        if self.is_wrong():
            made["byproducts"] = {"noise": 1}
        if self.is_wrong():
            made["name"] = "another"
        return compact(made)

    def digest_set(self):
        """The digests of the file, of which now and then some are another file's."""
        found = digests("app", *self.algorithms)
        wrong = [name for name in found if self.is_wrong()]
        return {**found, **(digests("another app", *wrong) if wrong else {})}

    def attested(self):
        """What the builder states of the file, by the algorithms of the links or by others."""
        if self.dice.random() < 0.1:
            self.algorithms = self.dice.choice(ALGORITHMS)
        made = statement(["app"])
        made["subject"][0]["digest"] = self.digest_set()
        return compact(made)

    def lists(self, algorithms):
        """The digest lists, by the members that give them: one or both by these algorithms, or now
        and then by others."""
        names = [name for name, (of, _) in LISTS.items() if of in algorithms]
        if self.is_wrong(3) or not names:
            names = self.dice.choice([["sums"], ["sums512"], ["sums", "sums512"]])
        return {name: self.listed(name) for name in names}

    def listed(self, name):
        """A digest list: the file's line, or now and then what is wrong."""
        lines = {one: f"{digests('app', of)[of]}  app\n" for one, (of, _) in LISTS.items()}
        other = f"{digests('another app', LISTS[name][0])[LISTS[name][0]]}  app\n"
        if self.is_wrong():
            return self.dice.choice([*lines.values(), "", other, lines[name] * 2,
                                     lines[name].upper(), lines[name] + "\n"])
        return lines[name]

    def layout(self, depth):
        """A layout, and the files below it."""
        objects, who = self.keys(self.dice.randint(2, 5))
        bundle, steps = Bundle(), []
        names = ["first", "second"][:self.dice.randint(0, 2)] + ["build"]
        for name in names:
            ids = self.dice.sample(list(objects), self.dice.randint(1, len(objects)))
            self.add_files(bundle, name, {one: who[one] for one in ids}, depth)
            ids += ["nobody"] * self.is_wrong()
            most = len(ids) if self.is_wrong() else max(1, len(ids) - 1)
            steps.append(step(name, ids, threshold=self.dice.randint(1, min(most, 3))))
        expires = "2029-01-01T00:00:00Z" if self.is_wrong(0.3) else "2030-01-01T00:00:00Z"
        return {"_type": "layout", "expires": expires, "keys": objects, "steps": steps,
                "inspect": []}, bundle

    def add_files(self, bundle, name, who, depth):
        """Adds the files of a step that these sign."""
        body = self.body(name)
        for number, one in enumerate(who):
            if self.is_wrong():
                continue
            signers = [(one, who[one])]
            if depth > 0 and self.dice.random() < 0.2:
                made, below = self.layout(depth - 1)
                made["inspect"] = [{"_type": "inspection", "name": "look", "run": [],
                                    "expected_materials": [], "expected_products": []}
                                   ] * self.is_wrong(0.3)
                bundle.folders[f"{name}.{one[:8]}"] = below
                own = compact(made)
            else:
                own = self.body(name) if self.is_wrong() else body
                signers = [(two, who[two]) for two in who if two == one or self.dice.random() < 0.1]
            bundle.files[f"{name}.{number}.link"] = self.envelope(own, signers)
        if self.is_wrong():
            bundle.files[f"{name}.junk.link"] = "no envelope"


class Delivery:
    """A delivery, each part of which is a text."""

    moment = MOMENT

    def __init__(self, dice):
        thrown = Dice(dice)
        owners, held = thrown.keys(dice.randint(1, 2))
        builders, builder = thrown.keys(dice.randint(1, 2))
        expectation = {"files": "*", "builders": [{"id": "ci", "keys": builders}],
                       "buildType": "make", "parameters": {}, "ignore": []}
        deliver = [["MATCH", "*", "WITH", "PRODUCTS", "FROM", "build"], ["DISALLOW", "*"]]
        self.policy = compact({"owners": owners, "deliver": deliver,
                               "expectations": [expectation]}).decode()
        body, self.bundle = thrown.layout(2)
        self.layout = thrown.envelope(compact(body), held.items())
        algorithms = thrown.algorithms
        attested = thrown.attested()
        self.provenance = "".join(thrown.envelope(attested, [one]) + "\n"
                                  for one in builder.items())
        given = thrown.lists(algorithms)
        self.sums, self.sums512 = given.get("sums"), given.get("sums512")
        self.depth = dice.choice([4, 4, 2, 1, 0] if thrown.wrong else [4, 2])
        self.public_keys = dice.random() < 0.95
        ring = [{"id": name, "secret": SECRETS[name].hex()} for name in sorted(SECRETS)]
        self.ring = json.dumps(ring) if not self.public_keys or dice.random() < 0.9 else None


def delivery(dice):
    """A delivery from this source of random numbers."""
    return Delivery(dice)
