"""Each bundle of the private Sigstore alone: whether it vouches, and what `itv` says of it.

The delivery has one file, which the bundle's Statement is about, and the policy lists the identity
that is asked for.
"""

import pathlib
import tempfile

import answered
import sigstore_notes
import sigstore_verdict
from sigstore_forms import Unfit
from sigstore_logs import Root
from sigstore_model import identity_of, read_line, vouched
from sigstore_parts import BUILD_TYPE, FILES, Plain, digests

NO_ROOT = "itv: the trusted root root does not read: "


def delivery(case):
    """The delivery of a case."""
    return Plain(case.root, case.bundle + b"\n", case.asked(), digests(FILES["app"], "sha256"),
                 buildType=BUILD_TYPE, ignore=["workflow"])


def judged(case):
    """Whom the bundle vouches for, by the model, or the notes that it vouches for nobody."""
    _, bundle = read_line(case.bundle)
    if bundle is None:
        return None, []
    try:
        return vouched(bundle, Root(case.root)), []
    except Unfit as fault:
        return None, [f"{sigstore_notes.FRONT}{fault}"]


def noted(said):
    """The notes on bundles and on lines that are none, in what stands on standard error."""
    fronts = sigstore_notes.FRONT, sigstore_notes.NO_ENVELOPE
    return [line for line in said.splitlines() if line.startswith(fronts)]


def faults(case):
    """What of a case is not as its condition has it."""
    made, is_root = delivery(case), case.condition != "root"
    found, missed = judged(case) if is_root else (None, [])
    if (found == identity_of(case.asked()) and found is not None) != (case.condition is None):
        yield "the model has another answer"
    with tempfile.TemporaryDirectory() as name:
        folder = pathlib.Path(name)
        words = answered.words_of(made, folder)
        *given, said = answered.told(words, folder)
        as_json = answered.answer([*words, "--json"], folder)
    wanted = sigstore_verdict.answers(made)
    if [tuple(given), as_json] != wanted:
        yield f"{[tuple(given), as_json]} in place of {wanted}"
    notes = sigstore_notes.notes(case.name, case.condition, case.bundle) if is_root else []
    if missed != [note for note in notes if note.startswith(sigstore_notes.FRONT)]:
        yield f"the model misses {missed} in place of {notes}"
    if noted(said) != notes:
        yield f"the notes {noted(said)} in place of {notes}"
    if not is_root and not said.startswith(NO_ROOT):
        yield f"{said!r} of no trusted root"
