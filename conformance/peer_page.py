"""Writes the part of docs/peers.md on a verifier of layouts, from the outcomes of its cases."""

import collections
import re

from lines import TOP

PAGE = TOP / "docs" / "peers.md"
BEGIN = """\
# Other verifiers on the same cases

Cases of [conformance](../conformance/README.md), given to other verifiers: where they accept and \
refuse as the cases expect, and where not. `conformance/peers` fetches the programs from Debian. \
The answers that are expected are those of the cases; `itv` was not run. The whole verifications \
were given to two verifiers of in-toto layouts, and [bundles](#sigstore-bundles) to two of \
Sigstore's. Each part on the former was written by one run of

    conformance/run --peer NAME --write PROGRAM

over all cases that can be files of a disk.

**What was done.** Each case was written anew in the forms of the other verifier, and signed anew.

- Each secret of a ring became an Ed25519 key that is made from the secret, and key objects of \
secrets became those of such keys. Where a signature was valid, there is one by that key over the \
new body; where it was not, one by a key that nobody has. Public keys stayed what they are.
- A key's id is the one that these programs make of it; a further name of the same key has an id \
that is made from the name. The file of a link is named `STEP.ID.link`, with the first 8 \
characters of the id of the key that signed it, and the folder of a sublayout `STEP.ID`.
- Members that these programs want, and that a case leaves out, were added with nothing in them: \
`readme`, `inspect`, `expected_command`, `byproducts`, `command`, `environment` and others.
- What these programs do not have was left out: the policy but for its owners, the digest list, \
the provenance, and the depth of sublayouts; and so were inspections and their records.
- These programs take the moment from the clock. A layout's `expires` is in 2001 where it was \
before the moment of the case, and else in 2201, so the border between the two is not tried.

**What was compared.** Only whether the program accepts, by its status: 0, or anything else. \
Where both refuse, they may do so for different reasons. A case that rests on what was left out, \
or that cannot be said in the forms of the program, was not tried, and is counted with the \
reason. In the tables, "accepts instead" counts cases that are expected to be refused, and \
"refuses instead" those that are expected to be accepted. Differences are sorted by what the \
program says, or else by what is odd in the delivery, and of each kind the smallest case is \
named.

**How to read it.** in-toto 1.0 leaves much open, and the cases follow [what this profile \
chose](formats.md): what a pattern is, which members are ignored, which digests agree, which \
links are compared. Where another verifier differs, it may have chosen otherwise, and need not be \
wrong.
"""
# The headings of the parts, in their order.
PARTS = ["in-toto-golang", "in-toto", "Sigstore bundles"]
# The rule that each fault is about.
RULES = {
    10: "the policy reads", 12: "the digest list reads", 13: "the moment reads",
    14: "the digest list is not empty", 20: "the layout is an envelope",
    21: "the layout has the payload type of in-toto", 22: "every owner signed the layout",
    23: "the layout reads", 30: "the layout has not expired",
    31: "there is one body for each step and key", 32: "sublayouts do not lie too deep",
    33: "enough different keys signed for each step", 34: "the links of a step agree",
    35: "sublayouts have no inspections", 40: "the artifact rules hold",
    50: "each inspection has a record", 51: "each record is a link of its inspection",
    60: "an expectation applies to each file", 61: "provenance meets it"}


def title(fault):
    """A fault with its number, its name and its rule."""
    return f"{fault[0]} {fault[1]} | {RULES[fault[0]]}" if fault else "accepted | all of it holds"


def is_tried(one):
    """Whether a case was tried."""
    return not one.left


def agrees(one):
    """Whether the answer to a case is the one that is expected."""
    return is_tried(one) and one.accepts == (one.fault is None)


def row(words, outcomes):
    """The row of a table on some cases: how many, how many tried, agreeing, accepted, refused."""
    tried = [one for one in outcomes if is_tried(one)]
    odd = [one.accepts for one in tried if not agrees(one)]
    numbers = len(outcomes), len(tried), len(tried) - len(odd), sum(odd), len(odd) - sum(odd)
    return f"| {words} | " + " | ".join(str(number or "") for number in numbers) + " |"


def table(heads, outcomes, key, words):
    """A table of cases, with a row for each value of a key, in their order, and one for all."""
    groups = collections.defaultdict(list)
    for one in outcomes:
        groups[key(one)].append(one)
    columns = [*heads, "Cases", "Tried", "Agree", "Accepts instead", "Refuses instead"]
    lines = [f"| {' | '.join(columns)} |", "|---" * len(heads) + "|---:" * 5 + "|"]
    lines += [row(words(value), groups[value]) for value in sorted(groups)]
    return "\n".join([*lines, row("all" + " |" * (len(heads) - 1), outcomes)])


def left_out(outcomes):
    """The list of why cases were not tried."""
    reasons = collections.Counter(one.left for one in outcomes if one.left)
    return "\n".join(f"- {count}: {reason}." for reason, count in reasons.most_common())


def code(text):
    """A text as code on one line, cut where it is long."""
    text = " ".join(text.split())
    text = text if len(text) <= 240 else text[:240] + ".."
    return f"`` {text} ``" if "`" in text else f"`{text}`"


def kinds(outcomes):
    """The list of kinds of some differences, the most frequent first, with their smallest cases."""
    groups = collections.defaultdict(list)
    for one in outcomes:
        groups[one.kind].append(one)
    for kind, group in sorted(groups.items(), key=lambda pair: (-len(pair[1]), pair[0])):
        least = min(group, key=lambda one: (one.size, one.file, one.name))
        fault = f", {least.fault[0]} {least.fault[1]}" if least.fault else ""
        said = f" It says {code(least.said)}." if least.said else ""
        yield (f"- {kind} {len(group)} {'case' if len(group) == 1 else 'cases'}; the smallest is "
               f"{code(least.name)} of `{least.file}`{fault}.{said}")


def differences(outcomes, accepts):
    """The list of differences in one direction, or that there are none."""
    some = [one for one in outcomes if is_tried(one) and not agrees(one) and one.accepts == accepts]
    return "\n".join(kinds(some)) or "Nowhere."


def part(peer, versions, outcomes):
    """The part of the page on a peer, with the versions of its packages."""
    tried = [one for one in outcomes if is_tried(one)]
    by_fault = table(["Expected", "The rule"], outcomes, lambda one: one.fault or (), title)
    by_file = table(["File"], outcomes, lambda one: one.file, lambda file: f"`{file}`")
    return "\n\n".join([
        f"What was run is `{peer.command}`, of Debian's {versions}, which reads {peer.form}.\n\n"
        f"Of {len(outcomes)} cases {len(tried)} were tried, and {sum(map(agrees, tried))} agree. "
        f"Of {sum(one.fault is None for one in tried)} that are expected to be accepted it accepts "
        f"{sum(one.fault is None and one.accepts for one in tried)}.",
        by_fault, by_file,
        f"### Where {peer.name} accepts what the definitions refuse", differences(outcomes, True),
        f"### Where {peer.name} refuses what the definitions accept", differences(outcomes, False),
        f"### What was not tried with {peer.name}", left_out(outcomes)]) + "\n"


def put(heading, text):
    """Puts the part with a heading into the page, beside the others."""
    old = PAGE.read_text(encoding="utf-8") if PAGE.exists() else ""
    parts = dict(part.split("\n", 1) for part in re.split(r"^## ", old, flags=re.M)[1:])
    parts[heading] = text
    texts = [f"## {name}\n\n{parts[name].strip()}\n" for name in PARTS if name in parts]
    PAGE.write_text("\n".join([BEGIN, *texts]), encoding="utf-8")


def write(peer, versions, outcomes):
    """Puts the part on a peer into the page."""
    put(peer.name, part(peer, versions, outcomes))
