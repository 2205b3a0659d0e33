"""Writes the part of docs/peers.md on Sigstore bundles, from what other verifiers answered."""

from typing import NamedTuple

import peer_page
import sigstore_cases
from sigstore_rules import STRICTER, WIDER

BEGIN = """\
What was run is the verification program of [sigstore-go](https://github.com/sigstore/sigstore-go) \
of Debian's {sigstore-go}, which asks for one entry of a transparency log, one timestamp of a \
certificate log and one time, and `cosign verify-blob-attestation --new-bundle-format \
--trusted-root` of Debian's {cosign}, which verifies bundles by sigstore-go. This part was written \
by one run of

    conformance/sigstore_peers --write FOLDER

The cases are [bundles of a private Sigstore](../conformance/README.md#bundles-that-vouch), each \
with a trusted root and an identity: from each of the seeds {seeds} all that have names, and \
{many} good ones at random. Left out are those that are about key objects, which these programs do \
not have. What is expected is that a bundle is accepted where it vouches for the identity by \
[sigstore.md](sigstore.md#what-a-bundle-vouches-for). Compared was only whether the program \
accepts, and the run fails where an answer differs and none of the rules below has it so."""
COLUMNS = "| Rule | Here | There | Why | {} |"


class Outcome(NamedTuple):
    """What a peer answers to a case of a seed: whether it accepts, and what it says last."""

    peer: str
    seed: int
    name: str
    condition: str
    accepts: bool
    said: str

    def is_good(self):
        """Whether the bundle is to be accepted."""
        return self.condition is None

    def agrees(self):
        """Whether the answer is the one that is expected."""
        return self.accepts == self.is_good()


def in_words(numbers):
    """Numbers as a list in words."""
    *front, last = map(str, numbers)
    return f"{', '.join(front)} and {last}" if front else last


def totals(peers, outcomes):
    """The table of how many answers of each peer agree, and how the others differ."""
    lines = ["| Verifier | Cases | Agree | Accepts instead | Refuses instead |",
             "|---|---:|---:|---:|---:|"]
    for peer in peers:
        given = [one for one in outcomes if one.peer == peer]
        odd = [one.accepts for one in given if not one.agrees()]
        numbers = len(given), len(given) - len(odd), sum(odd), len(odd) - sum(odd)
        lines.append(f"| {peer} | " + " | ".join(str(number or "") for number in numbers) + " |")
    return "\n".join(lines)


def count_of(rule, peer, outcomes):
    """How many answers of a peer differ by a rule; nothing where no case shows it."""
    odd = (one for one in outcomes if one.peer == peer and not one.agrees())
    return str(sum(one.name in rule.cases for one in odd) or "")


def table(rules, peers, outcomes):
    """The table of some rules, with how many answers of each peer differ by each."""
    lines = [COLUMNS.format(" | ".join(peers)), "|---" * 4 + "|---:" * len(peers) + "|"]
    for rule in rules:
        cells = [rule.title, rule.here, rule.there, rule.why,
                 *(count_of(rule, peer, outcomes) for peer in peers)]
        lines.append(f"| {' | '.join(cells)} |")
    return "\n".join(lines)


def write(versions, seeds, outcomes):
    """Puts the part into the page; the peers are those whose versions are given."""
    begin = BEGIN.format(**versions, seeds=in_words(seeds), many=sigstore_cases.MANY)
    told = "Where a row has no number, no case shows its rule."
    peer_page.put("Sigstore bundles", "\n\n".join([
        begin, totals(versions, outcomes),
        "### Where bundles are refused that others take", told, table(STRICTER, versions, outcomes),
        "### Where bundles are taken that others refuse", table(WIDER, versions, outcomes)]))
