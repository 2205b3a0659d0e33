"""Verifies the delivery of examples/public by the Python package: `verify.py FOLDER`."""

import datetime
import pathlib
import sys

import itv


def main(folder):
    """Writes the verdict, and returns the status."""
    delivered = folder / "hello.tar"
    verdict = itv.verify(
        policy=folder / "policy.json", layout=folder / "layout.envelope.json",
        links=folder / "links", provenance=folder / "provenance.jsonl", public_keys=True,
        sums=itv.digest(of={delivered.name: delivered.read_bytes()}),
        at=datetime.datetime(2026, 1, 1, tzinfo=datetime.timezone.utc))
    print("accepted" if verdict.accepted else f"refused {verdict.refusal}")
    for note in verdict.notes:
        print(note, file=sys.stderr)
    return 0 if verdict.accepted else 1


if __name__ == "__main__":
    sys.exit(main(pathlib.Path(sys.argv[1])))
