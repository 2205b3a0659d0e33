"""Cases and runs as files of a folder, and runs of the built program in that folder.

A root user runs the program as nobody, so that the permissions of files hold.
"""

import dataclasses
import os
import resource
import shutil
import subprocess
import tempfile

NOBODY = {"user": 65534, "group": 65534, "extra_groups": []}
# How many seconds a run may take.
LIMIT = 60


def bytes_of(part):
    """The bytes given by a text, or by an object with hexadecimal digits."""
    return bytes.fromhex(part["hex"]) if isinstance(part, dict) else part.encode()


def is_name(name):
    """Whether bytes can be the name of a file."""
    return name not in (b"", b".", b"..") and not {0, 0x2f} & {*name} and len(name) < 256


def opened(folder):
    """The folder, which everybody may read."""
    os.chmod(folder, 0o755)
    return folder


@dataclasses.dataclass
class Answer:
    """What a run gave: its status, or None if it did not begin or end in time, and what it wrote."""

    status: int
    out: bytes
    err: bytes

    def notes(self):
        """What stands on standard error before the sentence on why the program stopped."""
        return self.err.rpartition(b"itv: ")[0] if self.has_stopped() else self.err

    def fault(self):
        """Why the program stopped, or no bytes if it gave a verdict."""
        return self.err.rpartition(b"itv: ")[2].removesuffix(b"\n") if self.has_stopped() else b""

    def has_stopped(self):
        """Whether the program stopped and gave no answer."""
        return self.status not in (0, 1)


class Program:
    """The built program, as a copy that everybody may run."""

    def __init__(self, path, room):
        self.path = os.path.join(opened(room), "itv")
        shutil.copyfile(path, self.path)
        os.chmod(self.path, 0o755)

    def run(self, words, folder, **how):
        """Runs a command, whose first word is the name of the program, in a folder."""
        whose = NOBODY if os.geteuid() == 0 else {}
        how = {"stdout": subprocess.PIPE, **whose, **how}
        try:
            done = subprocess.run(words, executable=self.path, cwd=folder, timeout=LIMIT, check=False,
                                  stdin=subprocess.DEVNULL, stderr=subprocess.PIPE, **how)
        except (OSError, subprocess.TimeoutExpired) as error:
            return Answer(None, b"", f"{error}\n".encode())
        return Answer(done.returncode, done.stdout or b"", done.stderr)

    def run_to_full_disk(self, words, folder):
        """Runs a command whose output the system does not take."""
        with open("/dev/full", "wb") as full:
            return self.run(words, folder, stdout=full)

    def run_into(self, room, words, folder):
        """Runs a command whose output goes to a file that has room for this many bytes."""
        def limit():
            resource.setrlimit(resource.RLIMIT_FSIZE, (room, room))

        with tempfile.TemporaryFile() as file:
            # Python ignores the signal for what exceeds the room, and so does what it starts.
            given = self.run(words, folder, stdout=file, preexec_fn=limit, restore_signals=False)
            file.seek(0)
            return dataclasses.replace(given, out=file.read())


def new_folder():
    """A folder for the files of one case, which is removed at the end of its `with`."""
    return tempfile.TemporaryDirectory(prefix="itv-run-")


def cut(content, most=300):
    """The beginning of bytes, as text."""
    text = content[:most].decode(errors="backslashreplace")
    return text + (f" .. ({len(content)} bytes)" if len(content) > most else "")


def shown(path):
    """What is at a path."""
    if path.is_symlink():
        return f"-> {os.readlink(path)}"
    if not path.is_file():
        return "neither a file nor a folder"
    with open(path, "rb") as file:
        content = file.read(1000)
    return cut(content) + (f" .. ({path.stat().st_size} bytes)" if len(content) == 1000 else "")


def files_shown(folder, most=12):
    """The files of a folder, the first of them with the beginnings of what they hold."""
    paths = sorted(path for path in folder.rglob("*") if path.is_symlink() or not path.is_dir())
    lines = [f"{os.fsencode(path.relative_to(folder)).decode(errors='backslashreplace')}: "
             f"{shown(path)}" for path in paths[:most]]
    return lines + [f"and {len(paths) - most} more files"] * (len(paths) > most)
