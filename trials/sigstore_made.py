"""Random deliveries whose provenance has Sigstore bundles: good ones, and bad ones of every kind.

Most of each delivery is right, so that deliveries get far before something fails.
"""

import copy
import json
import random

import by_keys
import private_sigstore as private
from bundle_runs import named
from deliveries import MOMENT, compact, envelope, key_object, layout, signature, signed, step
from keys_made import Bundle, Faulty
from sigstore_cases import line_of
from sigstore_parts import (BUILD_TYPE, BUILDER, FILES, WORKFLOW, Plain, digests, of_case, of_made)
from sigstore_spoiled import Spoiler

# The cases of the private Sigstore in a mixed order, and how many each delivery has.
CASES = random.Random("cases").sample(list(private.CASES), len(private.CASES))
EACH = 3
# The shortest and the longest name of an identity, and the one that is too long.
LENGTHS = [1, 512, 513]
# The algorithms of the digest lists, and those by which links have digests.
BY = [["sha256"]] * 3 + [["sha512"]] * 2 + [["sha256", "sha512"]] * 3
LISTS = ["tlogs", "certificateAuthorities", "ctlogs"]
SCHEMES = ["fulcio", "Fulcio ", "hmac-sha256", "ecdsa-sha2-nistp256", "", None]


def merged(roots):
    """A trusted root with the logs and the authorities of several."""
    whole = copy.deepcopy(roots[0])
    for root in roots[1:]:
        for name in LISTS:
            whole[name] = whole[name] + root[name]
    return whole


class Delivery(Faulty):
    """A delivery, each part of which is a text, or bytes, or None."""

    moment, depth = MOMENT, 4

    def __init__(self, dice, number):
        super().__init__(dice, [0, 0.05, 0.2, 0.5])
        self.home = private.Made(dice, artifact=FILES["app"])
        cases = [CASES[place % len(CASES)] for place in range(EACH * number, EACH * (number + 1))]
        self.parts = [of_made(self.home), *(of_case(dice, name) for name in cases),
                      *(self.part() for _ in range(dice.choice([0, 0, 1, 2])))]
        self.spoil()
        # The lines of bundles of layouts and links, and the folder of links.
        self.others, self.bundle = [], Bundle()
        names, algorithms = self.names(), dice.choice(BY)
        self.sums, self.sums512 = (self.listed(names, one) if one in algorithms else None
                                   for one in ("sha256", "sha512"))
        body = self.laid_out()
        self.policy = compact(self.believing()).decode()
        self.layout = self.signed_layout(body)
        self.provenance = b"".join(line + b"\n" for line in self.lines())
        self.public_keys = dice.random() < 0.7
        self.ring = self.ring_text() if not self.public_keys or dice.random() < 0.9 else None
        self.root = self.trusted_root()

    def names(self):
        """The names of the delivered files."""
        return ["app", "lib"] if self.dice.random() < 0.3 else ["app"]

    def listed(self, names, algorithm):
        """A digest list of files, of which now and then one is left out."""
        kept = [name for name in names if not self.is_wrong(0.2)]
        return "".join(f"{digests(FILES[name], algorithm)[algorithm]}  {name}\n" for name in kept)

    # Bundles.

    def part(self):
        """A further bundle by the authority and the logs of the first one, or by its identity."""
        options = {"artifact": self.dice.choice(list(FILES.values()))}
        if self.dice.random() < 0.5:
            options |= {"names": self.home.names, "identity": self.home.identity,
                        "issuer": self.home.issuer}
        elif self.dice.random() < 0.3:
            options[self.dice.choice(["identity", "issuer"])] = "x" * self.dice.choice(LENGTHS)
        return of_made(self.made_at_home(**options))

    def made_at_home(self, **options):
        """A bundle by the authority and the logs of the first one."""
        return private.Made(self.dice, self.home.sigstore, begin=self.home.begin, **options)

    def spoil(self):
        """Changes some of the bundles that miss no condition yet."""
        plain = [part for part in self.parts if part.is_plain() and part.condition is None]
        spoiler, originals = Spoiler(self.dice), [part.bundle for part in plain]
        for part in plain:
            if self.is_wrong(1.5):
                part.bundle = spoiler.changed(part.bundle, self.dice.choice(originals))

    def trusted_root(self):
        """The trusted root of all bundles, or that of one of them, or none."""
        if self.dice.random() < 0.05:
            return None
        roots = [part.root for part in self.parts
                 if part.condition != "root" or self.dice.random() < 0.5]
        if self.is_wrong(0.1):
            return line_of(self.dice.choice(roots))
        plain = [root for root in roots if isinstance(root, dict)
                 and all(isinstance(root.get(name), list) for name in LISTS)]
        self.dice.shuffle(plain)
        whole, spoiler = merged(plain), Spoiler(self.dice)
        if self.is_wrong(0.2):
            whole = spoiler.changed_root(whole)
        return line_of(whole)

    # Keys and signatures.

    def keys(self):
        """Key objects of bundles, of the ring and of public keys under their ids."""
        found = {f"release-{place}": part.key for place, part in enumerate(self.parts)}
        found["release"] = self.parts[0].key
        found["builder"] = key_object()
        found["registry"] = by_keys.key(by_keys.p256("registry"))
        found["leaf"] = {"keytype": "ecdsa", "scheme": "ecdsa-sha2-nistp256", "keyval": {
            "public": private.pem(self.home.leaf_key.info, "PUBLIC KEY")}}
        return {name: self.damaged(key) if self.is_wrong(0.5) else key
                for name, key in found.items()}

    def damaged(self, key):
        """A key object with something changed."""
        key = copy.deepcopy(key)
        held = key.get("keyval", {})
        name = self.dice.choice(["identity", "issuer", "public", "scheme"])
        if name == "scheme" or not isinstance(held.get(name), str):
            key["scheme"] = self.dice.choice(SCHEMES)
        else:
            text = held[name]
            held[name] = self.dice.choice([text + " ", text[:-1], text.upper(), "", text * 20])
        return key

    def ring_text(self):
        """The ring, whose secrets are the names of who has them."""
        return json.dumps([{"id": who, "secret": who.encode().hex()}
                           for who in ("owner", "builder", "alice")])

    # Documents.

    def believing(self):
        """The policy: who owns the layout, and whose provenance counts."""
        rules = [["MATCH", "*", "WITH", "PRODUCTS", "FROM", "build"]] if self.bundle.files else \
            [["ALLOW", name] for name in FILES]
        expectations = [self.expectation("*")]
        if self.dice.random() < 0.3:
            expectations.insert(0, self.expectation("lib"))
        return {"owners": {"owner": self.owner()}, "deliver": [*rules, ["DISALLOW", "*"]],
                "expectations": expectations}

    def expectation(self, files):
        """What is expected of the provenance of files."""
        keys = self.keys()
        builders = [{"id": "ci" if self.is_wrong(0.5) else BUILDER,
                     "keys": {name: keys[name] for name in
                              self.dice.sample(sorted(keys), self.dice.randint(1, len(keys)))},
                     **self.level(3)} for _ in range(self.dice.randint(1, 3))]
        made = {"files": files, "builders": builders, "buildType": BUILD_TYPE,
                "parameters": {"workflow": WORKFLOW}, **self.level(2)}
        if self.is_wrong(0.3):
            made |= self.dice.choice([{"buildType": "make"}, {"parameters": {}},
                                      {"parameters": {}, "ignore": ["workflow"]}])
        return made

    def level(self, usual):
        """The member `level`, or none."""
        return {} if self.dice.random() < 0.2 else \
            {"level": self.dice.randint(0, 3) if self.is_wrong(2) else usual}

    def owner(self):
        """The key object of the owner, of one of three kinds."""
        self.owned = self.dice.choice(["ring", "ring", "key", "identity"])
        if self.owned == "key":
            return by_keys.key(by_keys.p256("owner"))
        return key_object() if self.owned == "ring" else self.parts[0].key

    def signed_layout(self, body):
        """The envelope of the layout, by the owner."""
        if self.owned == "ring":
            return signed(body, "nobody" if self.is_wrong(0.2) else "owner")
        if self.owned == "key":
            return by_keys.signed_by(body, ("owner", by_keys.p256("owner")))
        return self.by_identity(compact(body), self.home.names, self.home.identity,
                                self.home.issuer)

    def by_identity(self, body, names, identity, issuer):
        """The envelope of a body by an identity, whose bundle becomes a line in most cases."""
        made = self.made_at_home(payload=body, names=names, identity=identity, issuer=issuer)
        if not self.is_wrong():
            self.others.append(line_of(made.bundle))
        return line_of(made.bundle["dsseEnvelope"]).decode()

    def laid_out(self):
        """The layout, with no step or with one, whose links are made."""
        if self.dice.random() < 0.6:
            return layout([], [])
        record = {"_type": "link", "name": "build", "materials": {}, "products": {
            name: digests(FILES[name], *self.dice.choice(BY)) for name in FILES
            if not self.is_wrong(0.2)}}
        body = compact(record)
        keys = {"alice": key_object(), "bob": by_keys.key(by_keys.p256("bob")),
                **{who: named(f"{who}@e.test", self.home.issuer) for who in ("dev", "dove")}}
        if self.is_wrong():
            keys["dove"] = keys["dev"]
        links = {"alice": signed(record, "alice"),
                 "bob": by_keys.signed_by(record, ("bob", by_keys.p256("bob")))}
        for who in ("dev", "dove"):
            links[who] = self.by_identity(body, "email", f"{who}@e.test", self.home.issuer)
        for who, text in links.items():
            if not self.is_wrong(0.5):
                self.bundle.files[f"build.{who}.link"] = text
        people = self.dice.sample(sorted(keys), self.dice.randint(1, 4))
        most = len(people) if self.is_wrong() else max(1, len(people) - 2)
        made = step("build", people, threshold=self.dice.randint(1, most))
        return {**layout([], [made]), "keys": keys}

    # Lines.

    def lines(self):
        """The lines of the provenance, in any order, and some of them twice."""
        found = [line_of(part.bundle) for part in self.parts] + self.others
        found += [self.envelope() for _ in range(self.dice.choice([0, 0, 1, 2]))]
        found += self.dice.sample([b"", b"no", b"{}", b"[]", b"\xff"], self.dice.randint(0, 2))
        found += self.dice.choices(found, k=self.dice.choice([0, 0, 1, 3]))
        self.dice.shuffle(found)
        return [line + b"\r" if self.dice.random() < 0.05 else line for line in found]

    def envelope(self):
        """An envelope: of a bundle without the bundle, or by a secret or a public key."""
        plain = [part.bundle for part in self.parts if part.is_plain()]
        if plain and self.dice.random() < 0.5:
            held = copy.deepcopy(self.dice.choice(plain)["dsseEnvelope"])
            for one in held["signatures"] if isinstance(held.get("signatures"), list) else []:
                if isinstance(one, dict) and self.dice.random() < 0.5:
                    one.pop("keyid", None)
            return line_of(held)
        artifact = self.dice.choice(list(FILES.values()))
        body = private.statement(self.dice, artifact)
        if self.dice.random() < 0.5:
            return envelope(body, [signature("builder", body)]).encode()
        return by_keys.signed_by(json.loads(body), ("registry", by_keys.p256("registry"))).encode()


def by_each(made):
    """The provenance of a delivery, by the key object of each of its bundles alone."""
    for part in made.parts:
        yield Plain(made.root, made.provenance, part.key, digests(part.artifact, "sha256"),
                    buildType=BUILD_TYPE, ignore=["workflow"])


def delivery(dice, number):
    """A delivery from this source of random numbers, with the cases of this number."""
    return Delivery(dice, number)
