"""Artifact rules by their definitions in docs/formats.md: each path is judged on its own.

Nothing is kept from one rule to the next. Shares nothing with rules_by_queue.py.
"""


def items_of(pattern):
    """The items of a pattern: a star, or the test that one character passes."""
    items = []
    while pattern:
        end = pattern.find("]", 3 if pattern.startswith("[!") else 2)
        if pattern[0] == "[" and end > 0:
            items.append(set_of(pattern[1:end]))
            pattern = pattern[end + 1:]
            continue
        items.append({"*": "*", "?": lambda character: True}.get(pattern[0], pattern[0].__eq__))
        pattern = pattern[1:]
    return items


def set_of(body):
    """The test of a set with this body, which may begin with a negation."""
    if body.startswith("!"):
        inner = set_of(body[1:])
        return lambda character: not inner(character)
    ranges = []
    while body:
        if len(body) >= 3 and body[1] == "-":
            ranges.append((body[0], body[2]))
            body = body[3:]
        else:
            ranges.append((body[0], body[0]))
            body = body[1:]
    return lambda character: any(first <= character <= last for first, last in ranges)


def is_run(items, text):
    """Whether the items match a whole text."""
    if not items:
        return not text
    first, rest = items[0], items[1:]
    if first == "*":
        return any(is_run(rest, text[at:]) for at in range(len(text) + 1))
    return bool(text) and first(text[0]) and is_run(rest, text[1:])


def is_match(pattern, path):
    """Whether a pattern matches a whole path."""
    return is_run(items_of(pattern), path)


def common(one, other):
    """The algorithms that two digest sets have in common."""
    return set(one) & set(other)


def differ(one, other):
    """Whether two sets have an algorithm in common with unequal values."""
    return any(one[name] != other[name] for name in common(one, other))


def agree(one, other):
    """Whether two sets have an algorithm in common, and none with unequal values."""
    return bool(common(one, other)) and not differ(one, other)


def folder_prefix(prefix):
    """A prefix with a slash at its end, where it is not empty."""
    return prefix if prefix == "" or prefix.endswith("/") else prefix + "/"


def match_claims(rule, digests, links, path):
    """Whether a MATCH rule claims a path with these digests."""
    _, pattern, source, side, target, name = rule
    source, target = folder_prefix(source), folder_prefix(target)
    return name in links and any(
        agree(digests, there) for linked, there in links[name][side].items()
        if path.startswith(source) and linked == target + path[len(source):]
        and is_match(pattern, path[len(source):]))


def claims(rule, side, item, links, path):
    """Whether a rule claims a path of a side."""
    before, after = item["MATERIALS"].get(path), item["PRODUCTS"].get(path)
    keyword, pattern = rule[:2]
    if keyword == "MATCH":
        return match_claims(rule, item[side][path], links, path)
    holds = {"CREATE": before is None and after is not None,
             "DELETE": before is not None and after is None,
             "MODIFY": before is not None and after is not None and differ(before, after),
             "ALLOW": True}.get(keyword, False)
    return holds and is_match(pattern, path)


def is_free(earlier, side, item, links, path):
    """Whether a path is on the side and no earlier rule claims it."""
    return path in item[side] and not any(claims(rule, side, item, links, path)
                                          for rule in earlier)


def failing_path(rule, earlier, side, item, links):
    """The path with which a rule fails, or `None` where it holds."""
    keyword, text = rule[:2]
    if keyword == "REQUIRE":
        return None if is_free(earlier, side, item, links, text) else text
    if keyword == "DISALLOW":
        free = [path for path in item[side]
                if is_match(text, path) and is_free(earlier, side, item, links, path)]
        return min(free, key=str.encode, default=None)
    return None


def first_fault(side, rules, item, links):
    """The least index of a rule that does not hold, and its path; `None` where all hold."""
    for index, rule in enumerate(rules):
        path = failing_path(rule, rules[:index], side, item, links)
        if path is not None:
            return index, path
    return None
