"""Merkle trees (RFC 6962, section 2.1), over the hashes of their leaves."""

import hashlib


def node(left, right):
    """The hash of two subtrees together."""
    return hashlib.sha256(b"\x01" + left + right).digest()


def split(count):
    """How many of some leaves are in the left subtree."""
    return 1 << (count - 1).bit_length() - 1


def top(leaves):
    """The root hash of a tree."""
    if len(leaves) == 1:
        return leaves[0]
    left = split(len(leaves))
    return node(top(leaves[:left]), top(leaves[left:]))


def path(place, leaves):
    """The hashes that lead from a leaf to the root hash."""
    if len(leaves) == 1:
        return []
    left = split(len(leaves))
    if place < left:
        return path(place, leaves[:left]) + [top(leaves[left:])]
    return path(place - left, leaves[left:]) + [top(leaves[:left])]
