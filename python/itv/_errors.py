"""What the functions raise."""


class ItvError(Exception):
    """What this package raises."""


class Stopped(ItvError):
    """A command did not run, or stopped: status 2 of the program.

    The text is the program's sentence on why; `notes` are the lines before it, and `output` is what
    was written to standard output before.
    """

    def __init__(self, sentence, notes=(), output=b""):
        super().__init__(sentence)
        self.notes = list(notes)
        self.output = output


class Found(Stopped):
    """A strict verification found something in a delivery that it would have accepted.

    `findings` are what `verify` found, each a `Finding`; `notes` are those on what is left out and
    on what of the trusted root is not used. Where `run` is given other words than `--json=2`, the
    notes say what is found.
    """

    findings = ()


class NoMemory(Stopped, MemoryError):
    """A command stopped since memory was refused: status 3 of the program."""


class Refused(ItvError):
    """A delivery is refused, for a caller who asks to have that raised."""

    def __init__(self, verdict):
        super().__init__(f"the delivery is refused: {verdict.refusal}")
        self.verdict = verdict
