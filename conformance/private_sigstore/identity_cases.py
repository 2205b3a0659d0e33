"""Cases of identities that a bundle does not vouch for, and of key objects of identities."""

from .bundles import ISSUERS, Made
from .registry import case, put, simple

RELEASE = "https://github.com/acme/tool/.github/workflows/release.yml@refs/heads/main"
ACTIONS, OIDC = ISSUERS


def add():
    """Adds the cases of identities that differ from the bundle's."""
    def asked(name, identity, issuer=ACTIONS):
        simple(name, "identity", names="uri", identity=RELEASE, issuer=ACTIONS,
               asked=lambda made: (identity, issuer))

    asked("identity-other", RELEASE.replace("acme", "evil"))
    asked("identity-prefix", RELEASE[:-1])
    asked("identity-longer", RELEASE + "x")
    asked("identity-other-ref", RELEASE.replace("heads/main", "tags/v1"))
    asked("identity-other-case", RELEASE.replace("acme", "Acme"))
    asked("identity-pattern", "https://github.com/acme/tool/*")
    asked("identity-slash-after", RELEASE + "/")
    asked("issuer-other", RELEASE, OIDC)
    asked("issuer-slash-after", RELEASE, ACTIONS + "/")
    asked("issuer-prefix", RELEASE, ACTIONS[:-4])
    asked("issuer-and-identity-exchanged", ACTIONS, RELEASE)


def key_object(name, condition, changing):
    """Adds the case of a key object of the bundle's identity with a change."""
    def build(dice):
        made = Made(dice)
        asked = {"keytype": "sigstore-oidc", "scheme": "Fulcio",
                 "keyval": {"identity": made.identity, "issuer": made.issuer}}
        changing(asked)
        return *made.case(), asked
    case(name, condition, build)


def add_edges():
    """Adds the cases of key objects, good ones and such as are of no identity."""
    def in_value(changing):
        return lambda asked: changing(asked["keyval"])

    key_object("good-object", None, put())
    key_object("good-object-without-keytype", None, put(keytype=None))
    key_object("good-object-of-another-keytype", None, put(keytype="x"))
    key_object("good-object-with-more-members", None, lambda asked: (
        asked.update(keyid="abc"), asked["keyval"].update(public="x", more=1)))
    key_object("object-of-another-scheme", "identity", put(scheme="fulcio"))
    key_object("object-without-scheme", "identity", put(scheme=None))
    key_object("object-without-identity", "identity", in_value(put(identity=None)))
    key_object("object-without-issuer", "identity", in_value(put(issuer=None)))
    key_object("object-with-issuer-no-text", "identity",
               in_value(lambda value: value.update(issuer=[value["issuer"]])))
    key_object("object-without-keyval", "identity", put(keyval=None))
    key_object("object-with-identity-outside-keyval", "identity",
               lambda asked: asked.update(asked.pop("keyval")))
