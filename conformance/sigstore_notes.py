"""What `itv verify` notes of a line of provenance that is a case of private_sigstore, by the
condition that it misses."""

import json

import bundle_runs

LINE = "provenance line 1: "
# How the notes on bundles that vouch for nobody begin, and those on lines that are no bundles.
FRONT, NO_ENVELOPE = f"{LINE}a bundle that vouches for nobody: ", f"{LINE}no envelope"
# How the note on a line goes on that is no bundle, since it misses one of these conditions.
SHAPES = {"json": ", and no JSON on one line",
          "media-type": ", but a bundle with one (`dsseEnvelope`)",
          "envelope": ", but a bundle with one (`dsseEnvelope`)",
          "message-signature": "", "other": ""}


def notes(name, condition, line):
    """The notes of these two kinds on the line of a case, if the trusted root is one."""
    if not line:
        return []  # nothing is said of an empty line
    if condition in SHAPES:
        shape = ", but a JSON array" if name == "line-a-list" else SHAPES[condition]
        return [NO_ENVELOPE + shape]
    if condition is None:
        return []
    said = bundle_runs.misses(name, condition, json.loads(line))
    return [FRONT + said] if said else []
