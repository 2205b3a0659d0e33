#!/usr/bin/env python3
"""Fails where a document of a verification is read in another place than those listed here.

A verification reads each file once, and hands on what it read. What else reads one is a command
of its own, or says more after a refusal of what nothing was kept of; each such place stands in the
tables below, with how many calls it has. The crates of tests are left out, and so is the crate
that defines the reading.
"""

import re
import sys

import tree

TESTS = {"it_tables", "it_values", "it_sigstore_values", "it_rows", "itv_cases", "itv_runs",
         "it_vectors", "it_leaf_vectors", "it_bundle_vectors"}
# A definition, or a comment, is no call.
NO_CALL = re.compile(r"\s*(//|(pub(\([a-z]+\))? )?fn )")

# What a call looks like, the crate that defines the reading, and the files that have such calls.
ENVELOPES = (re.compile(r"\benvelope_in\(|\bfrom_bytes::<Envelope>\("), "it_dsse", {
    # a verification: each link, the layout, each line of the provenance
    "crates/it_chain/src/held_file.rt": 1,
    "crates/it_verify/src/documents.rt": 1,
    "crates/it_prov/src/provenance_lines.rt": 1,
    # what has so many braces that its signatures are counted
    "crates/it_limits/src/signatures.rt": 1,
    # notes on the record of an inspection
    "crates/it_notes/src/inspections.rt": 1,
    # notes on a provenance none of whose lines is an envelope: all of it as one
    "crates/it_prov_notes/src/laid_out.rt": 1,
    # other commands
    "crates/it_check/src/documents.rt": 1,
    "crates/it_check/src/part_notes.rt": 1,
    "crates/it_commands/src/payload_output.rt": 1,
    "crates/it_commands/src/sign_onto_output.rt": 1,
    "crates/it_commands/src/signed_output.rt": 1,
    "crates/it_key_commands/src/sign_made_onto_output.rt": 1,
    "crates/it_key_commands/src/signed_by_keys_output.rt": 1,
    "crates/it_signers/src/file_envelope.rt": 1,
    "crates/it_signers/src/signers_output.rt": 1,
})
POLICIES = (re.compile(r"\bread_policy\(|\bpolicy_in\(|\b(from_bytes|value)::<Policy>\("), "it_docs", {
    # a verification, by a function of its own
    "crates/it_verify/src/documents.rt": 2,
    # another command
    "crates/it_check/src/documents.rt": 1,
})
LAYOUTS = (re.compile(r"\bread_layout\(|\blayout_in\(|\b(from_bytes|value)::<Layout>\("), "it_docs", {
    # a verification: the layout, by a function of its own, and each sublayout
    "crates/it_verify/src/documents.rt": 2,
    "crates/it_chain/src/body.rt": 1,
    # the sublayouts of an accepted delivery, for what is found in them
    "crates/it_sublayouts/src/layout_files.rt": 1,
    "crates/it_sublayouts/src/signed_layout.rt": 1,
    # notes on a step
    "crates/it_rule_notes/src/counting_file.rt": 1,
    "crates/it_step_notes/src/finding.rt": 1,
    "crates/it_step_notes/src/signed_layout.rt": 1,
    # another command
    "crates/it_check/src/documents.rt": 1,
})
# Trees of policies and layouts, and of what may be a link or a layout.
TREES = (re.compile(r"\bDocumentText::read\("), "it_docs", {
    # a verification, for its verdict and what is found beside it: the policy
    "crates/it_verify/src/opened.rt": 1,
    # a verification: what a key of a step signed
    "crates/it_chain/src/body.rt": 1,
    # what is found in the layout and the sublayouts of an accepted delivery
    "crates/it_strict/src/counting.rt": 1,
    # notes on members: those of a layout
    "crates/it_notes/src/layout_notes.rt": 1,
    # notes on what does not read: the policy and a layout, an envelope, a link
    "crates/it_notes/src/bad_parts.rt": 2,
    "crates/it_part_notes/src/envelope_part_note.rt": 1,
    "crates/it_part_notes/src/link_part_note.rt": 1,
    # another command: the policy, a layout, and notes on one that does not read
    "crates/it_check/src/documents.rt": 2,
    "crates/it_check/src/part_notes.rt": 2,
})


def calls_in(path, form):
    """How many calls of a form a file has."""
    lines = [line for line in path.read_text().splitlines() if not NO_CALL.match(line)]
    return sum(len(form.findall(line)) for line in lines)


def faults_of(form, defining, places):
    """Where there are more calls of a form than there should be, or fewer."""
    for crate in tree.crate_names():
        if crate == defining or crate in TESTS:
            continue
        for path in tree.folder_files(crate, "src", ".rt"):
            name = tree.name_of(path)
            found, wanted = calls_in(path, form), places.get(name, 0)
            if found != wanted:
                yield f"{name}: {found} readings ({form.pattern}), where {wanted} are listed"


def main():
    """Checks each kind of document."""
    tree.words_of(__doc__).parse_args()
    faults = []
    for form, defining, places in (ENVELOPES, POLICIES, LAYOUTS, TREES):
        faults += faults_of(form, defining, places)
    return tree.report(faults)


if __name__ == "__main__":
    sys.exit(main())
