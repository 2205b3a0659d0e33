"""Whole verifications by the packages of the library, over files in memory."""

import base64
import datetime
import json
import re
import subprocess

from byte_forms import base64_text
from cases_on_disk import Difference, can_run, notes
from on_disk import Answer, bytes_of
from report_forms import json_of_lines

# A moment that Python's datetime has, in the words of the cases.
MOMENT = re.compile(r"(\d{4})-(\d\d)-(\d\d)T(\d\d):(\d\d):(\d\d)Z")


def folder_of(links):
    """A folder of links, as the package takes it."""
    return {**{name: bytes_of(content) for name, content in links.get("files", [])},
            **{name: folder_of(inner) for name, inner in links.get("folders", [])}}


def files_below(folder, at):
    """The files of such a folder by their paths. One more keeps an empty folder."""
    found = {f"{at}/.empty": b""}
    for name, one in folder.items():
        found.update(files_below(one, f"{at}/{name}") if isinstance(one, dict)
                     else {f"{at}/{name}": one})
    return found


def laid_out(case):
    """The words that verify a case, and its files by their paths."""
    words = ["verify", f"--at={case['at']}", f"--depth={case['depth']}", "--links=links"]
    files = files_below(folder_of(case["links"]), "links")
    for name in ("policy", "layout", "sums", "sums512", "provenance"):
        if case.get(name) is not None:
            files[name] = bytes_of(case[name])
            words.append(f"--{name}={name}")
    if case["records"]:
        files.update({f"records/{name}.link": bytes_of(one) for name, one in case["records"]})
        words.append("--records=records")
    for number, ring in enumerate(case["rings"]):
        files[f"ring-{number}"] = bytes_of(ring)
        words.append(f"--ring=ring-{number}")
    return words + ["--public-keys"] * bool(case.get("public_keys")), files


def moment_of(case):
    """The moment of a case, or None where no datetime is it."""
    found = MOMENT.fullmatch(case["at"]) if isinstance(case["at"], str) else None
    try:
        return datetime.datetime(*map(int, found.groups()), tzinfo=datetime.timezone.utc)
    except (AttributeError, ValueError):
        return None


def documents(case):
    """The documents of a case that are not folders, as both packages take them."""
    given = {name: case.get(name) for name in ("policy", "layout", "sums", "sums512", "provenance")}
    return {name: bytes_of(one) for name, one in given.items() if one is not None}


def records_of(case):
    """The records of a case, by the names of their files."""
    return {f"{name}.link": bytes_of(one) for name, one in case["records"]}


def answer_of(status, output, lines):
    """An answer with these lines beside its output."""
    return Answer(status, output, "".join(f"{line}\n" for line in lines).encode())


class PythonPackage:
    """The package for Python, in this process."""

    def __init__(self):
        # pylint: disable=import-outside-toplevel
        import itv
        self.itv = itv

    def ran(self, words, files):
        """What a command gives over files: status, output and notes."""
        try:
            given = self.itv.run(words, files)
        except self.itv.Stopped as stop:
            status = 3 if isinstance(stop, self.itv.NoMemory) else 2
            return answer_of(status, stop.output, [*stop.notes, f"itv: {stop}"])
        return answer_of(given.status, given.output, given.notes)

    def verified(self, case, moment):
        """The report of the verdict on a case, and what the verdict says by its own members."""
        more = {"records": records_of(case)} if case["records"] else {}
        if "trusted_root" in case:
            more["trusted_root"] = bytes_of(case["trusted_root"])
        verdict = self.itv.verify(
            **documents(case), **more, links=folder_of(case["links"]), at=moment,
            rings=[bytes_of(ring) for ring in case["rings"]], depth=case["depth"],
            public_keys=bool(case.get("public_keys")))
        if verdict.accepted:
            return verdict.report, {"verdict": "accepted", "steps": verdict.report["steps"],
                                    "files": verdict.report["files"]}
        refusal = verdict.refusal
        return verdict.report, {"verdict": "refused", "number": refusal.number, "name": refusal.name,
                                "at": refusal.at, **refusal.details}


def texts_of(files):
    """Files as Go's JSON has them."""
    return {path: base64_text(content) for path, content in files.items()}


class GoPackage:
    """The package for Go, in a process of trials/library_cases.go."""

    def __init__(self, program):
        # pylint: disable=consider-using-with
        self.process = subprocess.Popen([program], stdin=subprocess.PIPE, stdout=subprocess.PIPE)

    def asked(self, **request):
        """What the program answers to a request."""
        self.process.stdin.write(json.dumps(request).encode() + b"\n")
        self.process.stdin.flush()
        line = self.process.stdout.readline()
        if not line:
            raise EOFError(f"the program in Go ended with status {self.process.wait()}")
        return json.loads(line)

    def ran(self, words, files):
        """What a command gives over files: status, output and notes."""
        given = self.asked(words=words, files=texts_of(files))
        output, lines = base64.b64decode(given["Output"] or ""), given["Notes"] or []
        return answer_of(given["Status"], output, lines)

    def verified(self, case, moment):
        """The report of the verdict on a case, and what the verdict says by its own members."""
        links = files_below(folder_of(case["links"]), "links")
        delivery = {
            **texts_of(documents(case)), "at": f"{moment.replace(tzinfo=None).isoformat()}Z",
            "links": {path.partition("/")[2]: base64_text(one) for path, one in links.items()},
            "rings": [base64_text(bytes_of(ring)) for ring in case["rings"]], "depth": case["depth"],
            "publicKeys": bool(case.get("public_keys"))}
        if case["records"]:
            delivery["records"] = texts_of(records_of(case))
        if "trusted_root" in case:
            delivery["trustedRoot"] = base64_text(bytes_of(case["trusted_root"]))
        verdict = self.asked(delivery=delivery)
        report = {name: one for name, one in verdict["Report"].items()
                  if name not in ("findings", "evidence", "notes", "notesComplete")}
        if verdict["Accepted"]:
            return report, {"verdict": "accepted", "steps": verdict["Steps"] or [],
                            "files": verdict["Files"] or []}
        refusal = verdict["Refusal"]
        return report, {"verdict": "refused", "number": refusal["Number"], "name": refusal["Name"],
                        "at": refusal["At"] or [], **refusal["Details"]}


def differences(case, package):
    """Verifies a case by its words, and as the package's own function, and compares."""
    words, files = laid_out(case)
    given, report = package.ran(words, files), bytes_of(case["report"])
    parts = [("status", str(case["status"]).encode(), str(given.status).encode()),
             ("report", report, given.out), ("notes", *notes(case, given))]
    moment = moment_of(case)
    if moment:
        wanted = json.dumps(json.loads(json_of_lines(report.decode())), sort_keys=True).encode()
        for kind, found in zip(("verdict's report", "verdict"), package.verified(case, moment)):
            parts.append((kind, wanted, json.dumps(found, sort_keys=True).encode()))
    for kind, wanted_part, part in parts:
        if wanted_part != part:
            yield Difference(kind, words, wanted_part, part)


def has_zero(case):
    """Whether a word or a path of the case would have a zero byte."""
    words, files = laid_out(case)
    return any("\0" in text for text in [*words, *files])


def can_try(case):
    """Whether the library can be given the case."""
    return isinstance(case["at"], str) and can_run(case) and not has_zero(case)
