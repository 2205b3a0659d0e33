"""The kinds in which a peer's answers differ from what cases expect, each in a sentence.

Where a peer refuses, the kind is that of what it says. Where it accepts it says nothing, and the
kind is that of what is odd in the delivery.
"""

import collections
import re

import by_keys
from on_disk import bytes_of
from peer_documents import document_of, envelope_of
from peer_keys import known_key, known_keys, owners_of, secrets_of
from signing_keys import P384Key

DIGITS = re.compile("[0-9a-fA-F]{64}")
# The members of layouts and of steps by in-toto 1.0.
OF_LAYOUTS = {"_type", "expires", "readme", "keys", "steps", "inspect"}
OF_STEPS = {"_type", "name", "threshold", "pubkeys", "expected_materials", "expected_products",
            "expected_command"}
# What a peer says where it refuses, and what that tells; the first that is found counts.
SAID = [
    (r"unknown field", "It takes no document with a member that it does not know."),
    (r"Layout\.readme of type string|Invalid readme", "It reads `readme`, which must be a text."),
    (r"json: cannot unmarshal", "It reads a member that plays no part, and wants it to be of its "
     "type."),
]


def bodies_in(links):
    """The bodies of the envelopes of a folder, each with the step of its file."""
    for name, content in links.get("files", []):
        read = envelope_of(bytes_of(content))
        for body in document_of(read[0]) if read else []:
            yield name.removesuffix(".link").rpartition(".")[0], body
    for _, inner in links.get("folders", []):
        yield from bodies_in(inner)


def of_type(kind, case):
    """The links or layouts of a case, each with the step of its file."""
    read = envelope_of(bytes_of(case["layout"]))
    top = [(None, body) for body in document_of(read[0])]
    return [(step, body) for step, body in [*top, *bodies_in(case["links"])]
            if isinstance(body, dict) and body.get("_type") == kind]


def steps_of(case):
    """The steps of the layouts of a case, each with the key objects of its layout."""
    return [(step, layout.get("keys") or {}) for _, layout in of_type("layout", case)
            for step in layout.get("steps") or [] if isinstance(step, dict)]


def listed(step, keys):
    """The ids of a step that have a key object, each once with it."""
    return [(who, keys[who]) for who in dict.fromkeys(step.get("pubkeys") or [])
            if isinstance(keys.get(who), dict)]


def objects_of(case):
    """The key objects that the steps of a case list."""
    return [thing for step, keys in steps_of(case) for _, thing in listed(step, keys)]


def has_other_name(case):
    """Whether a link bears another name than that of the step of its file."""
    return any(link.get("name") != step for step, link in of_type("link", case))


def has_bad_digest(case):
    """Whether a link has something else than a SHA-256 in 64 hexadecimal digits."""
    sets = [one for _, link in of_type("link", case) for side in ("materials", "products")
            for one in (link.get(side) or {}).values()]
    return any(not isinstance(one, dict) or not DIGITS.fullmatch(str(one.get("sha256")))
               for one in sets)


def has_one_key_twice(case):
    """Whether a step lists two ids with one key."""
    secrets = secrets_of(case["rings"])

    def key(who, thing):
        text = thing["keyval"]["public"]
        public = known_key({**thing, "keyval": {"public": text.replace("\r", "")}})
        return secrets.get(who) or (public and by_keys.public_text(public)) or who

    lists = [[key(*pair) for pair in listed(step, keys)] for step, keys in steps_of(case)]
    return any(len({*one}) < len(one) for one in lists)


def has_mixed_object(case):
    """Whether a key object has the `keytype` of one kind of key and the `scheme` of another."""
    return any((one.get("keytype"), one.get("scheme")) not in by_keys.KINDS.values()
               for one in objects_of(case) if one.get("scheme") != "hmac-sha256")


def has_other_curve(case):
    """Whether a key object has the scheme of one curve and a key of another."""
    keys = [(known_keys().get(one["keyval"]["public"].strip()), one.get("scheme"))
            for one in objects_of(case)]
    return any(key and by_keys.key(key)["scheme"] != scheme for key, scheme in keys)


def has_odd_pem(case):
    """Whether the PEM text of a key has more around it, or another label."""
    texts = [one["keyval"]["public"] for one in objects_of(case)]
    return any("-----" in text and (not text.startswith("-----BEGIN PUBLIC KEY") or
                                    text.endswith("\n\n")) for text in texts)


def has_bad_threshold(case):
    """Whether a step has a threshold of nobody."""
    return any(step.get("threshold") == 0 for step, _ in steps_of(case))


def has_one_name_twice(case):
    """Whether two steps of a layout have one name."""
    lists = [[step["name"] for step in layout["steps"]] for _, layout in of_type("layout", case)]
    return any(len({*names}) < len(names) for names in lists)


def has_other_keyid(case):
    """Whether a key object has a `keyid` that is not the id under which it is listed."""
    return any(thing.get("keyid", who) != who for _, keys in steps_of(case)
               for who, thing in keys.items() if isinstance(thing, dict))


def has_null_key(case):
    """Whether null stands in place of a key object."""
    return any(thing is None for _, keys in steps_of(case) for thing in keys.values())


def has_owner_by_p384(case):
    """Whether an owner has a key of P-384."""
    return any(isinstance(known_key(thing), P384Key) for thing in owners_of(case).values())


def has_slash_behind(case):
    """Whether a path of a link ends in a slash."""
    return any(path.endswith("/") for _, link in of_type("link", case)
               for side in ("materials", "products") for path in link.get(side) or {})


def has_caret(case):
    """Whether a pattern has a set that begins with `^`."""
    return any("[^" in word for step, _ in steps_of(case)
               for side in ("expected_materials", "expected_products")
               for rule in step.get(side) or [] for word in rule[1:2])


def has_private_key(case):
    """Whether a key object has a private key."""
    return any((thing.get("keyval") or {}).get("private") for thing in objects_of(case))


def has_other_member(case):
    """Whether a layout or a step has a member that in-toto 1.0 does not list."""
    layouts = [layout for _, layout in of_type("layout", case)]
    return any({*thing} - members for things, members in
               ((layouts, OF_LAYOUTS), ([step for step, _ in steps_of(case)], OF_STEPS))
               for thing in things)


def has_links_apart(case):
    """Whether links of a step with the threshold 1 have different artifacts."""
    found = collections.defaultdict(list)
    for name, link in of_type("link", case):
        found[name].append((link.get("materials") or {}, link.get("products") or {}))
    return any(one != found[step["name"]][0] for step, _ in steps_of(case)
               if step.get("threshold", 1) == 1 for one in found[step["name"]])


MIXED = ("A key object has the `keytype` of one kind of key and the `scheme` of another, or of "
         "none; the definitions go by the `scheme`.")
# What may be odd in a delivery, in a sentence, with the fault that it leads to by the definitions.
ODD = [
    (23, has_bad_threshold, "A step has the threshold 0."),
    (23, has_one_name_twice, "Two steps have one name."),
    (33, has_other_name, "The name in a link is not that of the step."),
    (33, has_bad_digest, "A link has a digest that is not 64 hexadecimal digits, or something else "
     "than a digest set."),
    (33, has_odd_pem, "The PEM text of a key has a line before it, an empty line behind it or "
     "another label."),
    (33, has_mixed_object, MIXED),
    (33, has_other_curve, "A key object has the scheme of one curve and a key of another."),
    (33, has_one_key_twice, "Two ids of a step have one key, and count as two."),
    (34, has_links_apart, "Links of a step differ whose threshold is 1; the definitions compare "
     "all that count."),
    (None, has_mixed_object, MIXED),
    (None, has_private_key, "A key object has a private key, which the definitions ignore."),
    (None, has_other_member, "A layout or a step has a member that in-toto 1.0 does not list; it "
     "is signed with the others, and the definitions ignore it."),
    (None, has_other_keyid, "A key object has a `keyid` that is not the id under which the layout "
     "lists it; the definitions go by the latter."),
    (None, has_null_key, "A key object is null, which the definitions take as missing."),
    (None, has_owner_by_p384, "An owner has a key of P-384, whose PEM text the command takes as one "
     "of P-256, which has another id."),
    (None, has_slash_behind, "A path ends in `/`, and what is said names it without."),
    (None, has_caret, "A pattern has a set that begins with `^`, in which the definitions take it "
     "as a character like others."),
]


def applies(is_odd, case):
    """Whether something is odd in a case; not where its documents lack what would tell."""
    try:
        return is_odd(case)
    except (KeyError, TypeError, AttributeError):
        return False


def kind_of(fault, case, said):
    """The kind of the difference between an answer and the fault, or None, that is expected."""
    told = [sentence for pattern, sentence in SAID if re.search(pattern, said)][:1]
    number = fault and fault[0]
    odd = [sentence for of, is_odd, sentence in ODD if of == number and applies(is_odd, case)]
    return " ".join(told or odd) or "What is odd here is not told apart."
