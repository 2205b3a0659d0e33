"""Artifact rules run by a queue (in-toto 1.0, section 4.3.3): each rule takes paths out of it.

What a rule consumes depends on what became of a path between the materials and the products. Shares
nothing with rules_by_definition.py; patterns are those of Python's fnmatch, which reads them the
same way where no set has a range.
"""

from fnmatch import fnmatchcase

CHANGES = {"CREATE": "created", "DELETE": "deleted", "MODIFY": "modified"}


def comparison(one, other):
    """How two digest sets compare: `differ`, `agree` or `apart`."""
    equal = [one[name] == other[name] for name in one if name in other]
    if not equal:
        return "apart"
    return "agree" if all(equal) else "differ"


def change_of(item, path):
    """What became of a path."""
    stands = path in item["MATERIALS"], path in item["PRODUCTS"]
    if stands == (True, True):
        compared = comparison(item["MATERIALS"][path], item["PRODUCTS"][path])
        return "modified" if compared == "differ" else "kept"
    return {(False, True): "created", (True, False): "deleted"}[stands]


def below(prefix, path):
    """What follows a prefix, which means a folder, in a path; `None` where it does not begin it."""
    if not path.startswith(prefix):
        return None
    rest = path[len(prefix):]
    if prefix == "" or prefix[-1] == "/":
        return rest
    return rest[1:] if rest.startswith("/") else None


def put_below(prefix, rest):
    """The path with a prefix, which means a folder, put before it."""
    between = "" if prefix == "" or prefix[-1] == "/" else "/"
    return prefix + between + rest


def matched(rule, queue, item_side, links):
    """The paths of the queue that a MATCH rule consumes."""
    _, pattern, source, side, target, name = rule
    recorded = links.get(name, {}).get(side, {})
    found = set()
    for path in queue:
        rest = below(source, path)
        if rest is None or not fnmatchcase(rest, pattern):
            continue
        there = recorded.get(put_below(target, rest))
        if there is not None and comparison(item_side[path], there) == "agree":
            found.add(path)
    return found


def consumed(rule, queue, side, item, links):
    """The paths of the queue that a rule consumes."""
    keyword, pattern = rule[:2]
    if keyword == "MATCH":
        return matched(rule, queue, item[side], links)
    if keyword in ("DISALLOW", "REQUIRE"):
        return set()
    found = {path for path in queue if fnmatchcase(path, pattern)}
    if keyword == "ALLOW":
        return found
    return {path for path in found if change_of(item, path) == CHANGES[keyword]}


def first_fault(side, rules, item, links):
    """The index of the first rule that fails, and its path; `None` where none does."""
    queue = set(item[side])
    for index, rule in enumerate(rules):
        if rule[0] == "REQUIRE" and rule[1] not in queue:
            return index, rule[1]
        if rule[0] == "DISALLOW":
            forbidden = sorted(path.encode() for path in queue if fnmatchcase(path, rule[1]))
            if forbidden:
                return index, forbidden[0].decode()
        queue -= consumed(rule, queue, side, item, links)
    return None
