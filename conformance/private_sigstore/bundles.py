"""Bundles of a private Sigstore at random, any part of which can be wrong."""

from byte_forms import base64_text, pae

from . import entries, leaves
from .authority import Sigstore, raw
from .keys import Key
from .statements import ARTIFACT, statement

TYPE = "application/vnd.in-toto+json"
# The media types of the versions.
OLDER = "application/vnd.dev.sigstore.bundle+json;version=0."
V3 = "application/vnd.dev.sigstore.bundle.v0.3+json"
MEDIA_TYPES = {1: [OLDER + "1"], 2: [OLDER + "2"], 3: [V3, OLDER + "3"]}
ISSUERS = ["https://token.actions.githubusercontent.com", "https://oidc.example.test"]


def identities(dice):
    """An identity of each kind of name."""
    repository = f"{dice.choice(['acme', 'octo', 'name'])}/{dice.choice(['tool', 'lib', 'app'])}"
    kind = dice.choice(["uri", "uri", "email", "other"])
    workflow = f"https://github.com/{repository}/.github/workflows/release.yml@refs/heads/main"
    return kind, {"uri": workflow, "email": f"dev{dice.randrange(100)}@example.test",
                  "other": f"user{dice.randrange(100)}!example.test"}


class Made:
    """A bundle, and what it is made of: each part is as an option says, or a good one at random.

    `moment` is the time of its entry, and `begin` the first second of its leaf.
    """

    def __init__(self, dice, sigstore=None, **options):
        self.dice, self.options = dice, options
        self.begin = options.get("begin", dice.randrange(1_680_000_000, 1_750_000_000))
        self.sigstore = sigstore or Sigstore(dice, self.begin, **options.get("authority", {}))
        self.moment = options.get("moment", self.begin + dice.randrange(leaves.LIFE + 1))
        self.version = options.get("version", dice.choice([1, 2, 3]))
        self.kind = options.get("kind", dice.choice(["dsse", "intoto"]))
        kind, identity_by_kind = identities(dice)
        self.names = options.get("names", kind)
        self.identity = options.get("identity", identity_by_kind[self.names])
        self.issuer = options.get("issuer", dice.choice(ISSUERS))
        self.leaf_key = options.get("leaf_key") or Key(dice)
        self.make()

    def make(self):
        """Makes the parts, in the order in which they depend on one another."""
        options = self.options
        self.artifact = options.get("artifact", ARTIFACT)
        self.payload_type = options.get("payload_type", TYPE)
        self.payload = options.get("payload") or statement(self.dice, self.artifact)
        self.message = pae(self.payload_type, self.payload)
        self.leaf = options.get("leaf") or leaves.leaf(self)
        signer = options.get("envelope_signer", self.leaf_key)
        self.signature = options.get("sign_envelope", lambda made: signer.sign(made.message))(self)
        self.entries = options.get("entries", lambda made: [made.make_entry()])(self)
        self.bundle = self.make_bundle()
        options.get("edit", lambda bundle, made: None)(self.bundle, self)

    def timestamp(self, bare, **options):
        """A timestamp of the certificate log for the leaf without timestamps."""
        return leaves.timestamp(self, bare, **options)

    def make_body(self, **said):
        """The body of an entry about this bundle, and its kind and version."""
        return entries.body(self, **said)

    def make_entry(self, **options):
        """An entry about this bundle."""
        return entries.entry(self, **options)

    def make_material(self):
        """The leaf and the entries, as the bundle has them."""
        dice, material = self.dice, {}
        form = self.options.get("form", "certificate" if self.version == 3 else
                                dice.choice(["chain", "chain", "certificate"]))
        if form in ("certificate", "both"):
            material["certificate"] = raw(self.leaf)
        if form in ("chain", "both"):
            rest = dice.choice([[], [], self.sigstore.chain[:-1], [self.leaf]])
            material["x509CertificateChain"] = {"certificates": [raw(self.leaf), *map(raw, rest)]}
        material["tlogEntries"] = self.entries
        if dice.random() < 0.3:
            material["timestampVerificationData"] = dice.choice([None, {"rfc3161Timestamps": []}])
        return material

    def make_bundle(self):
        """The bundle."""
        material = self.make_material()
        hint = {} if self.dice.random() < 0.5 else {"keyid": ""}
        media_type = self.dice.choice(MEDIA_TYPES[self.version])
        return {"mediaType": self.options.get("media_type", media_type),
                "verificationMaterial": material,
                "dsseEnvelope": {"payload": base64_text(self.payload),
                                 "payloadType": self.payload_type,
                                 "signatures": [{"sig": base64_text(self.signature), **hint}]}}

    def case(self, asked=None, **root):
        """What a case of this bundle is made of: with its trusted root, the identity that is asked
        for, and its issuer."""
        identity, issuer = asked or (self.identity, self.issuer)
        return self.bundle, self.sigstore.trusted_root(**root), identity, issuer
