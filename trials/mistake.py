"""A mistake that a user makes, and what has to be written for it."""

from collections import namedtuple

# name: of the mistake, in few words. change: makes it in a release, and gives the words that are
# run then, or None where they are those that verify the release. status: with which they end.
# says: what stands in all that is written, on whichever output; so that it names the mistake.
Mistake = namedtuple("Mistake", "name change status says")
