"""Deliveries of any size, made with Python's json, base64 and hmac, and runs of the program on them.

Everybody's secret is their own name. Used by bench/run and trials/hostile, among others.
"""

import ast
import base64
import hashlib
import hmac
import json
import os
import subprocess
import sys

ITV = os.path.join(os.path.dirname(os.path.abspath(__file__)), "..", "crates", "itv", "out", "itv")
TYPE = "application/vnd.in-toto+json"
MOMENT = "2029-12-31T00:00:00Z"
# The files that a delivery may be without.
OPTIONAL = {"sums", "sums512", "trusted-root"}


# Runs a command and writes its seconds, its peak memory in bytes and its status to a descriptor. It
# is a process of its own, since the peak of a process counts that of the process that started it,
# and the one that makes deliveries is larger than the program.
RUNNER = """
import os, sys, time
start = time.perf_counter()
child = os.posix_spawnp(sys.argv[2], sys.argv[2:], os.environ)
_, status, usage = os.wait4(child, 0)
told = time.perf_counter() - start, usage.ru_maxrss * 1024, os.waitstatus_to_exitcode(status)
os.write(int(sys.argv[1]), repr((*told, usage.ru_utime + usage.ru_stime)).encode())
"""


class Run:
    """A run of a command: its output, its status, wall time and processor time in seconds, peak
    memory in bytes."""

    def __init__(self, command):
        reader, writer = os.pipe()
        words = [sys.executable, "-S", "-E", "-c", RUNNER, str(writer), *command]
        with subprocess.Popen(words, stdout=subprocess.PIPE, stderr=subprocess.DEVNULL,
                              pass_fds=[writer]) as runner:
            os.close(writer)
            self.out = runner.stdout.read()
        with os.fdopen(reader, "rb") as answer:
            told = ast.literal_eval(answer.read().decode())
            self.seconds, self.peak, self.status, self.used = told


def best(command, times=3):
    """The fastest of some runs of a command."""
    return min((Run(command) for _ in range(times)), key=lambda run: run.seconds)


def digest(text):
    """The SHA-256 of a text, in hexadecimal."""
    return hashlib.sha256(text.encode()).hexdigest()


def key_object():
    """A key object that the program's rings know."""
    return {"keytype": "hmac", "scheme": "hmac-sha256", "keyval": {"public": ""}}


def identity(name, issuer):
    """The key object of an identity."""
    return {"keytype": "sigstore-oidc", "scheme": "Fulcio",
            "keyval": {"identity": name, "issuer": issuer}}


def signature(who, payload, hint=True, kind=TYPE):
    """Somebody's signature of a payload of a type, with or without the id as a hint."""
    message = f"DSSEv1 {len(kind.encode())} {kind} {len(payload)} ".encode() + payload
    code = hmac.new(who.encode(), message, hashlib.sha256).digest()
    given = {"sig": base64.b64encode(code).decode()}
    return {"keyid": who, **given} if hint else given


def envelope(payload, signatures, kind=TYPE):
    """The text of an envelope of a type, which is in-toto's unless another is given."""
    return json.dumps({"payload": base64.b64encode(payload).decode(), "payloadType": kind,
                       "signatures": signatures})


def compact(document):
    """The bytes of a document, as JSON without spaces."""
    return json.dumps(document, separators=(",", ":")).encode()


def signed(document, *people, kind=TYPE):
    """The text of a document's envelope, of this type and signed by these people."""
    payload = compact(document)
    return envelope(payload, [signature(who, payload, kind=kind) for who in people], kind)


def artifacts(paths):
    """An artifact map in which each path has the digest of its own text."""
    return {path: {"sha256": digest(path)} for path in paths}


def link(step, materials, products):
    """The body of a link."""
    return {"_type": "link", "name": step, "materials": artifacts(materials),
            "products": artifacts(products)}


def step(name, people, materials=(), products=(), threshold=None):
    """A step of a layout that all of these people sign, unless a threshold is given."""
    return {"_type": "step", "name": name, "pubkeys": list(people),
            "threshold": len(people) if threshold is None else threshold,
            "expected_materials": list(materials), "expected_products": list(products)}


def layout(people, steps):
    """The body of a layout with the keys of these people."""
    return {"_type": "layout", "expires": "2030-01-01T00:00:00Z", "inspect": [], "steps": steps,
            "keys": {who: key_object() for who in people}}


def statement(paths):
    """A Statement with SLSA v1.0 provenance of these files by the builder `ci`."""
    return {"_type": "https://in-toto.io/Statement/v1",
            "subject": [{"name": path, "digest": {"sha256": digest(path)}} for path in paths],
            "predicateType": "https://slsa.dev/provenance/v1",
            "predicate": {"buildDefinition": {"buildType": "make", "externalParameters": {}},
                          "runDetails": {"builder": {"id": "ci"}}}}


def policy(deliver, ignore=()):
    """A policy of one owner that trusts the builder `ci`."""
    builder = {"id": "ci", "keys": {"builder": key_object()}}
    return {"owners": {"owner": key_object()}, "deliver": deliver,
            "expectations": [{"files": "*", "builders": [builder], "buildType": "make",
                              "parameters": {}, "ignore": list(ignore)}]}


class Delivery:
    """The files of a delivery in a folder of its own."""

    def __init__(self, folder, body, rules, files, people, statements=1):
        self.folder = folder
        self.people = list(people)
        os.makedirs(self.path("links"))
        self.write("policy", compact(policy(rules)))
        self.write("layout", signed(body, "owner"))
        self.write("sums", "".join(f"{digest(path)}  {path}\n" for path in files))
        self.write_ring(["owner", "builder", *self.people])
        lines = [signed(statement(files[n::statements]), "builder") for n in range(statements)]
        self.write("provenance", "".join(line + "\n" for line in lines))

    def path(self, name):
        """The path of a file of the delivery."""
        return os.path.join(self.folder, name)

    def write(self, name, content):
        """Writes a file of the delivery, with the folders above it."""
        path = self.path(name)
        os.makedirs(os.path.dirname(path), exist_ok=True)
        with open(path, "wb") as file:
            file.write(content if isinstance(content, bytes) else content.encode())

    def write_ring(self, people):
        """Writes the ring of these people."""
        ring = [{"id": who, "secret": who.encode().hex()} for who in people]
        self.write("ring", json.dumps(ring))

    def add_lines(self, lines):
        """Adds lines in front of the provenance."""
        with open(self.path("provenance"), encoding="utf-8") as file:
            own = file.read()
        self.write("provenance", "".join(line + "\n" for line in lines) + own)

    def words(self, *further):
        """The command that verifies the delivery, by the digest lists and the trusted root that it
        has."""
        names = ["policy", "layout", "links", "sums", "sums512", "provenance", "ring",
                 "trusted-root"]
        options = [["--" + name, self.path(name)] for name in names
                   if name not in OPTIONAL or os.path.exists(self.path(name))]
        return [ITV, "verify", *sum(options, []), "--at", MOMENT, *further]

    def envelopes(self):
        """The paths of all envelopes of the delivery."""
        found = [self.path("layout"), self.path("provenance")]
        for folder, _, names in os.walk(self.path("links")):
            found += [os.path.join(folder, name) for name in names]
        return found

    def bytes_in(self):
        """How many bytes the program reads."""
        others = [self.path(name) for name in ("policy", "sums", "ring")]
        return sum(os.path.getsize(path) for path in self.envelopes() + others)


def chain(folder, steps, people, files, statements=1, rules=1):
    """A chain: each step makes this many files from those of the step before.

    This many people sign each step, and this many Statements have the files of the last step as
    subjects. A step has this many rules on its products before the last one.
    """
    people = [f"person-{n:03}" for n in range(people)]
    made = [[f"{n}/file-{m}" for m in range(files)] for n in range(steps)]
    body = layout(people, [chain_step(n, people, made[n][1:rules]) for n in range(steps)])
    deliver = [["MATCH", "*", "WITH", "PRODUCTS", "FROM", f"step-{steps - 1}"], ["DISALLOW", "*"]]
    delivery = Delivery(folder, body, deliver, made[-1], people, statements)
    for n in range(steps):
        record = link(f"step-{n}", made[n - 1] if n else [], made[n])
        for who in people:
            delivery.write(f"links/step-{n}.{who}.link", signed(record, who))
    return delivery


def chain_step(n, people, named):
    """A step of a chain, with a rule for each of these products."""
    before = [["MATCH", "*", "WITH", "PRODUCTS", "FROM", f"step-{n - 1}"], ["DISALLOW", "*"]]
    products = [["CREATE", path] for path in named] + [["CREATE", f"{n}/*"], ["DISALLOW", "*"]]
    return step(f"step-{n}", people, before, products)


def small(folder, people=("alice",)):
    """The smallest delivery: one step that makes one file, signed by these people."""
    body = layout(people, [step("build", people, [], [["CREATE", "app"], ["DISALLOW", "*"]])])
    deliver = [["MATCH", "*", "WITH", "PRODUCTS", "FROM", "build"], ["DISALLOW", "*"]]
    delivery = Delivery(folder, body, deliver, ["app"], people)
    for who in people:
        delivery.write(f"links/build.{who}.link", signed(link("build", [], ["app"]), who))
    return delivery
