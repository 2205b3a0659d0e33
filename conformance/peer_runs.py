"""The cases tried with another verifier: whether it accepts and refuses as they expect."""

import collections
import concurrent.futures
import functools
import pathlib
import tempfile

import machine
import peer_page
from on_disk import Program, new_folder, opened
from peer_deliveries import delivery_of, fault_of
from peer_documents import Inexpressible
from peer_kinds import kind_of
from peer_programs import PEERS, versions_of

# What came of a case: `left` says why it is not one for the peer, or is empty; `accepts` is whether
# the peer accepts, `said` what it says if not, `kind` the kind of a difference, and `size` how many
# bytes the delivery has.
Outcome = collections.namedtuple("Outcome", "file name fault left accepts said kind size")


def write_folder(folder, contents):
    """Writes out a folder: files, and folders in it."""
    folder.mkdir()
    for name, content in contents.items():
        if isinstance(content, dict):
            write_folder(folder / name, content)
        else:
            (folder / name).write_bytes(content)


def size_of(contents):
    """How many bytes the files of a folder have."""
    return sum(size_of(content) if isinstance(content, dict) else len(content)
               for content in contents.values())


def outcome(program, name, trial):
    """Has a peer verify a case."""
    case, peer, fault = trial.document, PEERS[name], fault_of(trial.document)
    about = trial.file, trial.name, fault
    try:
        made = delivery_of(case, peer)
    except Inexpressible as reason:
        return Outcome(*about, str(reason), False, "", "", 0)
    with new_folder() as room:
        folder = pathlib.Path(opened(room))
        (folder / "layout").write_bytes(made.layout)
        write_folder(folder / "links", made.folder)
        given = program.run(peer.words(made.owners, folder), folder)
    accepts = given.status == 0
    said = "" if accepts else peer.said(given)
    kind = kind_of(fault, case, said) if accepts != (fault is None) else ""
    return Outcome(*about, "", accepts, said, kind, len(made.layout) + size_of(made.folder))


def show(outcomes):
    """Writes the cases that differ, why others were not tried, and how many agree."""
    for one in outcomes:
        if peer_page.is_tried(one) and not peer_page.agrees(one):
            expected = "accepted" if one.fault is None else "refused {} {}".format(*one.fault)
            given = f"refuses: {one.said}" if one.said else "accepts"
            print(f"{one.file}: {one.name}\n    expected: {expected}\n    it {given}")
    for reason, count in collections.Counter(one.left for one in outcomes if one.left).items():
        print(f"{count} not tried: {reason}")
    print(f"{len(outcomes)} cases, {sum(map(peer_page.is_tried, outcomes))} tried, "
          f"{sum(map(peer_page.agrees, outcomes))} agree")


def main(name, path, trials, write):
    """Tries cases with the peer of this name, and returns the exit status."""
    if name not in PEERS:
        print(f"the peers are {' and '.join(PEERS)}")
        return 2
    versions = versions_of(PEERS[name], path) if write else ""
    with tempfile.TemporaryDirectory(prefix="itv-peer-") as room:
        program = Program(path, room)
        with concurrent.futures.ProcessPoolExecutor(machine.side_by_side()) as pool:
            given = functools.partial(outcome, program, name)
            outcomes = list(pool.map(given, trials, chunksize=8))
    show(outcomes)
    if write:
        peer_page.write(PEERS[name], versions, outcomes)
    return 0
