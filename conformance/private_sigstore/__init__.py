"""A private Sigstore: an authority (root and intermediate of P-384, leaves of P-256), a certificate
log, a transparency log with signed entry timestamps, Merkle trees and checkpoints; and bundles of
it around Statements with provenance of SLSA: good ones, and bad ones, each in one named way. The
same source of random numbers gives the same bytes.

A case is a bundle, a trusted root, an identity and an issuer, and whether the bundle is to vouch
for them by docs/sigstore.md: the name of the condition that it does not meet, or None. Bytes are
written by hand here, and signatures made by the package `cryptography` and by arithmetic, so that
each byte can be wrong.
"""

from .authority import Sigstore
from .bundles import Made
from .cases import CASES
from .keys import Key, pem
from .values import distinguished_name, signature_value
from .statements import BUILD_TYPE, BUILDER, WORKFLOW, statement
