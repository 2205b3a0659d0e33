"""Documents and folders, as files in memory."""

import pathlib
import stat
from typing import Dict, Mapping, Union

Document = Union[bytes, pathlib.Path]
Folder = Union[pathlib.Path, Mapping[str, Union[bytes, pathlib.Path, Mapping]]]


def bytes_of(document: Document, what: str) -> bytes:
    """The bytes of a document, or of the file at a path."""
    if isinstance(document, pathlib.Path):
        return document.read_bytes()
    if isinstance(document, (bytes, bytearray, memoryview)):
        return bytes(document)
    raise TypeError(f"{what} is bytes or a pathlib.Path, not {type(document).__name__}")


def _from_disk(folder, at, depth):
    """The links and records of a folder, and of the folders in it that may have some, down to a
    depth, as the program reads them: what is neither a file nor a folder, as a pipe, is skipped and
    not opened, and a symbolic link that leads nowhere is an error."""
    for entry in sorted(folder.iterdir()):
        is_link = entry.name.endswith(".link")
        if not is_link and (depth == 0 or "." not in entry.name):
            continue
        mode = entry.stat().st_mode
        if stat.S_ISDIR(mode) and depth > 0:
            yield from _from_disk(entry, f"{at}/{entry.name}", depth - 1)
        elif stat.S_ISREG(mode) and is_link:
            yield f"{at}/{entry.name}", entry.read_bytes()


def _from_mapping(folder, at, what):
    """The files of a dictionary from names to documents and to such dictionaries."""
    for name, document in folder.items():
        if not isinstance(name, str) or not name or "/" in name:
            raise ValueError(f"{what}: {name!r} is no name of a file or of a folder")
        if isinstance(document, Mapping):
            yield from _from_mapping(document, f"{at}/{name}", what)
        else:
            yield f"{at}/{name}", bytes_of(document, what)


def files_of(folder: Folder, what: str, depth: int) -> Dict[str, bytes]:
    """The files of a folder, under its name, of a path those down to a depth. A folder without
    files gets one that no command reads, so that it is there."""
    if isinstance(folder, pathlib.Path):
        found = _from_disk(folder, what, depth)
    elif isinstance(folder, Mapping):
        found = _from_mapping(folder, what, what)
    else:
        raise TypeError(f"{what} is a pathlib.Path or a dictionary, not {type(folder).__name__}")
    return dict(found) or {f"{what}/.itv": b""}
