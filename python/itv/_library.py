"""The shared library: a command, run over files in memory."""

import ctypes
import dataclasses
import os
import pathlib
from typing import List, Mapping, Sequence

from ._errors import Found, ItvError, NoMemory, Stopped

# Its name on systems where it is installed. The environment variable ITV_LIBRARY names another.
SONAME = "libitv.so.1"
# How many bytes of room the texts of a run get at first. The output gets as many more as the files
# have, which are seldom too few: what is written of a file is in them too.
ROOM = 65536
GOOD, REFUSED, STOPPED, NO_MEMORY = range(4)
# Why a strict verification stops that found something.
FOUND = "findings stand against the delivery, which would be accepted without --strict"


@dataclasses.dataclass(frozen=True)
class Run:
    """What a command gave: 0 or 1 as status, its output, and the notes beside it as lines."""

    status: int
    output: bytes
    notes: List[str]


class _Lengths(ctypes.Structure):
    _fields_ = [("output", ctypes.c_size_t), ("notes", ctypes.c_size_t)]


def _place():
    """Where the library is."""
    beside = pathlib.Path(__file__).with_name(SONAME)
    return os.environ.get("ITV_LIBRARY") or (str(beside) if beside.exists() else SONAME)


def _opened():
    """The library, with the types of its functions."""
    try:
        library = ctypes.CDLL(_place())
    except OSError as error:
        raise ImportError(f"the shared library of itv cannot be loaded: {error}") from error
    size, text, room = ctypes.c_size_t, ctypes.c_char_p, ctypes.c_void_p
    library.itv_run.restype = ctypes.c_uint8
    library.itv_run.argtypes = [text, size, text, size, ctypes.POINTER(size), size, text, size,
                                room, size, room, size, ctypes.POINTER(_Lengths)]
    library.itv_version.restype = size
    library.itv_version.argtypes = [room, size]
    return library


_library = _opened()


def version() -> str:
    """The name and the version of the library, as in "itv 1.1.0"."""
    room = ctypes.create_string_buffer(64)
    length = _library.itv_version(room, len(room))
    return room.raw[:length].decode()


def _ended(texts, what):
    """Texts as bytes, each ended by a zero byte."""
    for text in texts:
        if "\0" in text:
            raise ValueError(f"a {what} has a zero character: {text!r}")
    return b"".join(text.encode(errors="surrogateescape") + b"\0" for text in texts)


def lines_of(text: str) -> List[str]:
    """The lines of a text, each of which ends with a line feed. Other characters end no line."""
    return text.removesuffix("\n").split("\n") if text else []


def _called(words, files):
    """The status, the output and the notes of a command."""
    paths, contents = _ended(files, "path"), b"".join(files.values())
    sizes = (ctypes.c_size_t * max(len(files), 1))(*map(len, files.values()))
    words, room = _ended(words, "word"), (ROOM + len(contents), ROOM)
    while True:
        output, notes = map(ctypes.create_string_buffer, room)
        lengths = _Lengths()
        status = _library.itv_run(words, len(words), paths, len(paths), sizes, len(files),
                                  contents, len(contents), output, room[0], notes, room[1],
                                  ctypes.byref(lengths))
        if lengths.output <= room[0] and lengths.notes <= room[1]:
            return (status, ctypes.string_at(output, lengths.output),
                    ctypes.string_at(notes, lengths.notes))
        room = max(lengths.output, 1), max(lengths.notes, 1)


def run(words: Sequence[str], files: Mapping[str, bytes]) -> Run:
    """Runs a command by its words, over files: a mapping from paths to bytes.

    Raises `Stopped`, or `NoMemory`, where the program would end with status 2 or 3; `Found` where a
    strict verification found something.
    """
    status, output, notes = _called(words, files)
    lines = lines_of(notes.decode(errors="backslashreplace"))
    if status in (GOOD, REFUSED):
        return Run(status, output, lines)
    if status not in (STOPPED, NO_MEMORY):
        raise ItvError(f"the library returned the status {status}")
    begin = max((at for at, line in enumerate(lines) if line.startswith("itv: ")),
                default=len(lines))
    sentence = "\n".join(lines[begin:]).partition("itv: ")[2] or "no memory"
    kind = NoMemory if status == NO_MEMORY else Found if sentence == FOUND else Stopped
    raise kind(sentence, lines[:begin], output)
