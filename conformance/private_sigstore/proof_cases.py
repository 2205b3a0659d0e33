"""Cases of proofs that an entry is in a tree of the log, and of checkpoints of such trees."""

from byte_forms import base64_text

from .entries import MARK, note_of
from .registry import checkpoint, over, proof, simple


def add():
    """Adds the cases that are not at edges."""
    of_forms()
    of_roots()
    of_said_roots()
    of_notes()
    of_signatures()


def add_edges():
    """Adds the cases at edges."""
    of_edges_of_forms()
    of_edges_of_notes()


def of_forms():
    """Proofs that are missing or of another form."""
    missing, form = "proof-missing", "proof-form"
    simple("proof-missing-0.2", missing, version=2, **over(inclusionProof=None))
    simple("proof-missing-0.3", missing, version=3, **over(inclusionProof=None))
    simple("proof-root-missing", form, **proof(over={"rootHash": None}))
    simple("proof-root-of-31", form, **proof(over={"rootHash": base64_text(bytes(31))}))
    simple("proof-size-missing", form, **proof(size=9, over={"treeSize": None}))
    simple("proof-size-as-number", form, **proof(size=9, over={"treeSize": 9}))
    simple("proof-hash-of-31", form,
           **proof(size=9, at=4, hashes=lambda hashes: hashes[:-1] + [hashes[-1][:31]]))
    simple("proof-64-hashes", form,
           **proof(size=9, hashes=lambda hashes: hashes + [bytes(32)] * 64))
    simple("proof-without-checkpoint", form, **proof(over={"checkpoint": None}))
    simple("proof-without-checkpoint-0.1", form, version=1,
           entry={"keep_proof": True, "proof": {"over": {"checkpoint": None}}})


def of_roots():
    """Proofs that do not lead to their root."""
    def leads(name, **options):
        simple(name, "proof-root", **proof(**options))

    leads("proof-index-is-size", size=8, at=7, said_at=8)
    leads("proof-size-0", size=1, tree_size=0)
    leads("proof-other-index", size=8, at=3, said_at=4)
    leads("proof-hash-missing", size=9, at=4, hashes=lambda hashes: hashes[1:])
    leads("proof-hash-more", size=9, at=4, hashes=lambda hashes: hashes + [bytes(32)])
    leads("proof-hashes-exchanged", size=9, at=4, hashes=lambda hashes: hashes[::-1])
    leads("proof-tree-of-one-with-hash", size=1, hashes=lambda hashes: [bytes(32)])
    leads("proof-leaf-as-node", size=9, prefix=b"\x01")
    leads("proof-leaf-without-prefix", size=9, prefix=b"")
    leads("proof-other-root", size=9, root=b"\x05" * 32)
    leads("proof-other-size", size=9, at=8, tree_size=10)


def of_said_roots():
    """Checkpoints of another tree than the proof."""
    condition = "checkpoint-root"
    simple("checkpoint-other-root", condition, **proof(said_root=b"\x05" * 32))
    simple("checkpoint-other-size", condition, **proof(size=9, at=4, said_size=10))
    simple("checkpoint-root-in-url-base64", condition,
           **checkpoint(root_text="_" * 43 + "="))


def note(name, **options):
    """Adds the case of a checkpoint that does not read."""
    simple(name, "checkpoint-form", **checkpoint(**options))


def of_notes():
    """Checkpoints that do not read."""
    note("checkpoint-empty", whole=lambda text, marks: "x")
    note("checkpoint-without-signature", whole=lambda text, marks: text + "\n")
    note("checkpoint-without-empty-line", whole=lambda text, marks: text + "".join(marks))
    note("checkpoint-with-two-lines",
         whole=lambda text, marks: note_of("\n".join(text.split("\n")[:2]) + "\n", marks))
    note("checkpoint-with-carriage-returns",
         whole=lambda text, marks: note_of(text, marks).replace("\n", "\r\n"))
    note("checkpoint-without-last-line-feed",
         whole=lambda text, marks: note_of(text, marks)[:-1])
    note("checkpoint-with-hyphen", marks=lambda mark: [mark.replace("\u2014", "-")])
    note("checkpoint-with-line-after", marks=lambda mark: [mark, "\n"])
    note("checkpoint-nine-signatures", marks=lambda mark: [mark] * 9)
    note("checkpoint-size-with-leading-zero", size_text="09")


def of_signatures():
    """Checkpoints that the log did not sign."""
    condition = "checkpoint-signature"

    def by_other(made, **options):
        signed = {"key": made.sigstore.other, **options}
        return [made.make_entry(proof={"checkpoint": signed})]

    simple("checkpoint-of-other-key", condition, entries=by_other)
    simple("checkpoint-of-other-key-and-hint", condition,
           entries=lambda made: by_other(made, hint=made.sigstore.other.id[:4]))
    simple("checkpoint-other-hint", condition, **checkpoint(hint=b"\x00\x01\x02\x03"))
    simple("checkpoint-signed-without-last-line-feed", condition,
           **checkpoint(signed=lambda text: text[:-1]))
    simple("checkpoint-signed-with-empty-line", condition,
           **checkpoint(signed=lambda text: text + "\n"))
    simple("checkpoint-origin-changed", condition,
           **checkpoint(whole=lambda text, marks: note_of("x" + text, marks)))
    simple("checkpoint-extension-dropped", condition, **checkpoint(
        more=["one"], whole=lambda text, marks: note_of(text.replace("one\n", ""), marks)))


def of_edges_of_forms():
    """Proofs whose members are of another kind, and numbers of hashes at the limit."""
    form = "proof-form"
    simple("proof-no-object", form, version=3, **over(inclusionProof=[]))
    simple("proof-hashes-no-list", form, **proof(over={"hashes": "AAAA"}))
    simple("proof-63-hashes", "proof-root",
           **proof(size=1, hashes=lambda hashes: [bytes(32)] * 63))
    simple("proof-64-hashes-exactly", form,
           **proof(size=1, hashes=lambda hashes: [bytes(32)] * 64))
    simple("proof-size-2^53", form, **proof(over={"treeSize": str(2**53)}))


def of_edges_of_notes():
    """Checkpoints that nearly read, and some that do."""
    note("checkpoint-name-empty",
         marks=lambda mark: [mark.replace("log.example.test", "")])
    note("checkpoint-name-with-space",
         marks=lambda mark: [mark.replace("log.example", "log example")])
    note("checkpoint-signature-of-4-bytes", marks=lambda mark: [MARK + "AAAAAA==\n"])
    simple("good-checkpoint-signature-of-5-bytes-besides", None,
           **checkpoint(marks=lambda mark: ["\u2014 w AAAAAAA=\n", mark]))
    note("checkpoint-signature-not-base64", marks=lambda mark: [mark[:-2] + "*\n"])
    note("checkpoint-signature-in-url-alphabet",
         marks=lambda mark: [MARK + "-_-_" * 20 + "\n"])
    note("checkpoint-signature-not-ascii", marks=lambda mark: [mark[:-2] + "\u00e9\n"])
    simple("good-checkpoint-eight-signatures", None, **checkpoint(marks=lambda mark: [mark] * 8))
    note("checkpoint-origin-empty", origin="")
    note("checkpoint-two-empty-lines", whole=lambda text, marks: note_of(text + "\n", marks))
    simple("good-checkpoint-origin-with-dash", None, **checkpoint(origin="\u2014 x y"))
