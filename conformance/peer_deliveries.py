"""Cases as deliveries for other verifiers of in-toto layouts.

What such a verifier does not have is left out: the policy but for its owners, the digest list, the
provenance, inspections and their records, and the depth. The moment is not given to it either, so
a layout expires long ago where its `expires` is before the moment of the case, and else in a far
year.
"""

import collections
import datetime
import re

from byte_forms import pae
from on_disk import bytes_of
from peer_documents import Inexpressible, document_of, envelope_of
from peer_keys import Keys, ed25519, owners_of

TYPE = "application/vnd.in-toto+json"
MOMENT = re.compile(r"\d{4}-\d\d-\d\dT\d\d:\d\d:\d\dZ", re.ASCII)
LONG_AGO, FAR = "2001-01-01T00:00:00Z", "2201-01-01T00:00:00Z"
# What a layout, a step and a link have where a case leaves it out.
OF_LAYOUT = {"readme": "", "keys": {}, "steps": []}
OF_STEP = {"_type": "step", "pubkeys": [], "threshold": 1, "expected_materials": [],
           "expected_products": [], "expected_command": []}
OF_LINK = {"materials": {}, "products": {}, "byproducts": {}, "command": [], "environment": {}}
# The faults that rest on what is left out, with the reason.
ON_PROVENANCE = "the verdict rests on the provenance"
ON_RECORDS = "the verdict rests on inspections"
LEFT_OUT = {10: "the policy does not read", 12: "the digest list does not read",
            13: "the moment does not read", 14: "the digest list is empty",
            20: "the layout does not read as an envelope",
            31: "the verdict rests on two bodies of one step and key",
            32: "the verdict rests on the depth of sublayouts",
            35: ON_RECORDS, 50: ON_RECORDS, 51: ON_RECORDS, 60: ON_PROVENANCE, 61: ON_PROVENANCE}

Delivery = collections.namedtuple("Delivery", "owners layout folder")


def report_of(case):
    """The lines of the report that a case expects."""
    return bytes_of(case["report"]).decode().splitlines()


def fault_of(case):
    """The number and the name of the fault that a case expects, or None where it is accepted."""
    words = report_of(case)[0].split()
    return (int(words[1]), words[2]) if words[0] == "refused" else None


def check_fault(case):
    """Fails where the verdict rests on what is left out."""
    fault, lines = fault_of(case), report_of(case)
    if fault is None:
        return
    if fault[0] in LEFT_OUT:
        raise Inexpressible(LEFT_OUT[fault[0]])
    if "item deliver" in lines:
        raise Inexpressible("the verdict rests on the policy's rules on delivery")
    if any(line.startswith(("item inspection ", "part inspect")) for line in lines):
        raise Inexpressible(ON_RECORDS)


def names_of(things):
    """The names of steps or inspections."""
    return [thing["name"] for thing in things or []]


def check_inspections(layout):
    """Fails where a layout does not read since its inspections do not, but for their rules."""
    try:
        inspections, steps = names_of(layout.get("inspect")), names_of(layout.get("steps"))
    except (TypeError, KeyError, AttributeError):
        raise Inexpressible(ON_RECORDS) from None
    if len({*steps, *inspections}) < len({*steps}) + len(inspections):
        raise Inexpressible(ON_RECORDS)


def filled(thing, defaults):
    """An object in which missing and null members have their defaults."""
    return {**thing, **{name: value for name, value in defaults.items() if thing.get(name) is None}}


def is_moment(text):
    """Whether a text is a moment."""
    if not isinstance(text, str) or not MOMENT.fullmatch(text):
        return False
    try:
        datetime.datetime.strptime(text.replace("0000", "0004", 1), "%Y-%m-%dT%H:%M:%SZ")
    except ValueError:
        return False
    return text[17:19] < "60"


def check_digests(artifacts):
    """Fails where a digest set has another algorithm than SHA-256."""
    sets = artifacts.values() if isinstance(artifacts, dict) else []
    if any(isinstance(one, dict) and {*one} - {"sha256"} for one in sets):
        raise Inexpressible("digests by other algorithms than SHA-256")


class Writer:
    """Writes the documents of a case in the forms of another verifier."""

    def __init__(self, case, peer):
        self.case, self.peer, self.keys = case, peer, Keys(case)
        parts = [line for line in report_of(case) if line.startswith("part ")]
        self.reads_up_to_names = all(line.startswith("part duplicate ") for line in parts)

    def meet(self, content):
        """Meets the names of an envelope's signatures, and those of a layout in it."""
        read = envelope_of(content)
        for hint, _ in read[2] if read else []:
            self.keys.meet(hint)
        for layout in document_of(read[0]) if read else []:
            if isinstance(layout, dict) and layout.get("_type") == "layout":
                self.meet_layout(layout)

    def meet_layout(self, layout):
        """Meets the names of a layout."""
        things, steps = layout.get("keys"), layout.get("steps")
        for name, thing in things.items() if isinstance(things, dict) else []:
            self.keys.meet(name, thing)
        for step in steps if isinstance(steps, list) else []:
            listed = step.get("pubkeys") if isinstance(step, dict) else None
            for name in listed if isinstance(listed, list) else []:
                if isinstance(name, str):
                    self.keys.meet(name)

    def meet_all(self, links):
        """Meets the names of all envelopes of a folder."""
        for _, content in links.get("files", []):
            self.meet(bytes_of(content))
        for _, inner in links.get("folders", []):
            self.meet_all(inner)

    def step(self, step):
        """A step of a layout."""
        if not isinstance(step, dict):
            return step
        made = filled(step, OF_STEP)
        if isinstance(made["pubkeys"], list):
            made["pubkeys"] = [self.keys.id_of(name) if isinstance(name, str) else name
                               for name in made["pubkeys"]]
        return made

    def layout(self, layout):
        """The body of a layout, without inspections."""
        if self.reads_up_to_names and layout.get("inspect"):
            check_inspections(layout)
        made = {**filled(layout, OF_LAYOUT), "inspect": []}
        if isinstance(made["keys"], dict):
            made["keys"] = {self.keys.id_of(name): self.keys.object_of(name, thing)
                            for name, thing in made["keys"].items()}
        if isinstance(made["steps"], list):
            made["steps"] = [self.step(step) for step in made["steps"]]
        if is_moment(made.get("expires")):
            made["expires"] = LONG_AGO if made["expires"] < self.case["at"] else FAR
        return made

    def body(self, payload):
        """The body that is signed in place of a payload: a document, or bytes that are none."""
        for document in document_of(payload):
            kind = document.get("_type") if isinstance(document, dict) else None
            if kind == "layout":
                return self.layout(document)
            if kind == "link":
                check_digests(document.get("materials"))
                check_digests(document.get("products"))
                return filled(document, OF_LINK)
            return document
        return payload

    def sealed(self, read):
        """The bytes of an envelope in the other form, and the names for which it counts."""
        payload, kind, pairs = read
        body, signatures, valid = self.body(payload), [], []
        old, message = pae(kind, payload), self.peer.message(kind, body)
        for hint, sig in pairs:
            if not hint:
                raise Inexpressible("a signature without a hint")
            signer = self.keys.signer_of(hint, sig, old)
            valid += [hint] * self.keys.is_valid(hint, signer)
            made = (signer or ed25519(f"nobody {sig.hex()}")).sign(message)
            signatures.append((self.keys.id_of(hint), made))
        return self.peer.envelope(kind, body, signatures), valid

    def names_like(self, short):
        """The names whose first 8 characters these are."""
        return [name for name in self.keys.names if name[:8] == short]

    def file(self, name, content):
        """The files that are written in place of a file: each a name and its bytes."""
        step, dot, who = name.removesuffix(".link").rpartition(".")
        read = envelope_of(content)
        if not name.endswith(".link") or not dot or not who:
            return [(name, content)]
        if read is None:
            if self.names_like(who[:8]):
                raise Inexpressible("a link that does not read as an envelope")
            return [(name, content)]
        made, valid = self.sealed(read)
        names = valid or [hint for hint, _ in read[2]] or self.names_like(who[:8])
        return [(f"{step}.{self.keys.id_of(one)[:8]}.link", made)
                for one in dict.fromkeys(names)] or [(name, made)]

    def folder(self, links):
        """A folder of links: the bytes of files, and folders, by their names."""
        made = {}
        for name, content in links.get("files", []):
            for new, written in self.file(name, bytes_of(content)):
                if made.setdefault(new, written) != written:
                    raise Inexpressible("two files of one step and one key")
        for name, inner in links.get("folders", []):
            step, _, who = name.rpartition(".")
            names = [f"{step}.{self.keys.id_of(one)[:8]}" for one in self.names_like(who)]
            for new in names or [name]:
                made[new] = self.folder(inner)
        if any(len(name.encode()) > 255 for name in made):
            raise Inexpressible("a step whose name is too long for the name of a file")
        return made

    def delivery(self):
        """The delivery of the case."""
        for name, thing in owners_of(self.case).items():
            self.keys.meet(name, thing)
        self.meet(bytes_of(self.case["layout"]))
        self.meet_all(self.case["links"])
        owners = self.keys.owners(self.case)
        for name in self.keys.names:
            self.keys.id_of(name)
        layout, _ = self.sealed(envelope_of(bytes_of(self.case["layout"])))
        return Delivery(owners, layout, self.folder(self.case["links"]))


def delivery_of(case, peer):
    """A case as a delivery for another verifier."""
    check_fault(case)
    return Writer(case, peer).delivery()
