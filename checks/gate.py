#!/usr/bin/env python3
"""Runs `rt ci`, then tries the program that it built on cases and rows, and sums up.

    gate.py [--anew]     the gate
    gate.py NAME..       `rt ci` on these crates alone, which builds no program to try

What the commands write to standard output is passed on line by line, except their last lines, which
count what passed; instead, each is followed by a line with the minutes of wall time and of
processor time that it took, with all that it started, and by what it counted. The last line is the
sum, `N passed, M failed`, or for crates alone the last line of `rt ci`. The status is 0 if every
command's is. Signals that ask this script to end are passed on to the command that is running, and
no further one is started.
"""

import re
import resource
import signal
import subprocess
import sys
import time

import tree

PROGRAM = tree.TOP / "crates" / "itv" / "out" / "itv"
COUNTED = re.compile(rb"(\d+) passed, (\d+) failed")


class Command:
    """A command that counts what passed on its last line."""

    # The number of the signal that asked this script to end.
    ended_by = None

    def __init__(self, *words):
        begun, used = time.monotonic(), processor_time()
        self.process = subprocess.Popen(words, stdout=subprocess.PIPE, cwd=tree.TOP)
        for number in (signal.SIGTERM, signal.SIGHUP, signal.SIGINT):
            signal.signal(number, self.hand_on)
        self.last = copy_but_last(self.process.stdout, sys.stdout.buffer)
        self.status = self.process.wait()
        self.took = time.monotonic() - begun, processor_time() - used
        counted = COUNTED.match(self.last)
        self.passed, self.failed = map(int, counted.groups()) if counted else (0, 1)
        if not counted:
            sys.stdout.buffer.write(self.last)
            self.last = b""
        self.words = words

    def hand_on(self, number, _):
        """Passes a signal that asks for an end on to the command."""
        Command.ended_by = number
        self.process.send_signal(number)

    def tell(self):
        """Says how long the command took, and what it counted."""
        wall, used = (seconds / 60 for seconds in self.took)
        print(f"{' '.join(map(str, self.words))} took {wall:.1f} minutes of wall, {used:.1f} "
              f"processor minutes: {self.passed} passed, {self.failed} failed", flush=True)


def copy_but_last(lines, out):
    """Copies the lines as they come, except the last, which it returns."""
    last = b""
    for line in lines:
        out.write(last)
        out.flush()
        last = line
    return last


def processor_time():
    """The processor seconds of the commands that this process has waited for."""
    used = resource.getrusage(resource.RUSAGE_CHILDREN)
    return used.ru_utime + used.ru_stime


def main():
    """Runs the commands, and returns the exit status."""
    words, done = sys.argv[1:], []
    commands = [("rt", "ci", *words)]
    if all(word.startswith("-") for word in words):
        commands.append(("conformance/run", str(PROGRAM.relative_to(tree.TOP))))
    for command in commands:
        if Command.ended_by:
            break
        try:
            done.append(Command(*command))
        except OSError as error:
            print(f"{command[0]} cannot be started: {error.strerror}", file=sys.stderr)
            return 127
        done[-1].tell()
    if len(commands) > 1:
        print(f"{sum(one.passed for one in done)} passed, {sum(one.failed for one in done)} failed")
    else:
        print(done[0].last.decode(), end="")
    if Command.ended_by:
        return 128 + Command.ended_by
    return 1 if any(one.status or one.failed for one in done) else 0


if __name__ == "__main__":
    sys.exit(main())
