"""A release as docs/guide.md makes one, in a folder of its own, and how it is changed."""

import copy
import json
import shutil
import subprocess
import time

IN_TOTO = "application/vnd.in-toto+json"
CLOSES = ["DISALLOW", "*"]
# Each kind of key, as openssl makes it, and what it signs with.
KINDS = {
    "ed25519": (["-algorithm", "ed25519"], []),
    "p256": (["-algorithm", "EC", "-pkeyopt", "ec_paramgen_curve:P-256"], ["-digest", "sha256"]),
    "rsa": (["-algorithm", "RSA", "-pkeyopt", "rsa_keygen_bits:3072"],
            ["-digest", "sha256", "-pkeyopt", "rsa_padding_mode:pss",
             "-pkeyopt", "rsa_pss_saltlen:digest"]),
}
PEOPLE = {"owner": "ed25519", "security": "ed25519", "alice": "ed25519", "bob": "p256",
          "carol": "rsa", "dave": "ed25519", "builder": "p256", "stranger": "ed25519"}


def moment(seconds):
    """A moment that lies this many seconds ahead."""
    return time.strftime("%Y-%m-%dT%H:%M:%SZ", time.gmtime(time.time() + seconds))


class Release:
    """A release: its documents, by which `itv` verifies it."""

    def __init__(self, folder):
        self.at = folder

    def copied(self, folder):
        """The same release in another folder."""
        shutil.copytree(self.at, folder)
        return Release(folder)

    # Programs that are run in the folder.

    def run(self, *words, given=None):
        """Runs a program, and gives its status and all that it wrote."""
        ran = subprocess.run(words, cwd=self.at, input=given, capture_output=True, check=False)
        return ran.returncode, (ran.stdout + ran.stderr).decode(errors="replace")

    def made(self, *words):
        """What a program writes to its standard output; it has to end well."""
        return subprocess.run(words, cwd=self.at, capture_output=True, check=True).stdout

    def verify(self, *words, **changed):
        """The words that verify the release, of which some options are changed or left out."""
        options = {"policy": "policy.json", "layout": "layout.envelope.json", "links": "links",
                   "records": "records", "provenance": "provenance.jsonl", "sums": "sums",
                   "at": moment(0), **changed}
        given = [word for name, value in options.items() if value is not None
                 for word in (f"--{name}", value)]
        return ["itv", "verify", *given, "--public-keys", "--strict", *words]

    # Files.

    def path(self, name):
        """The path of a file of the release."""
        return self.at / name

    def text(self, name):
        """The text of a file."""
        return self.path(name).read_text(encoding="utf-8")

    def write(self, name, content):
        """Writes a file: bytes and texts as they are, all else as JSON."""
        path = self.path(name)
        path.parent.mkdir(parents=True, exist_ok=True)
        if not isinstance(content, (bytes, str)):
            content = json.dumps(content)
        path.write_bytes(content if isinstance(content, bytes) else content.encode())

    def document(self, name):
        """The document in a file of JSON."""
        return json.loads(self.text(name))

    def digests(self, *names):
        """The digest list of files."""
        return self.made("itv", "digest", *names).decode()

    # Keys and signatures.

    def new_key(self, name, kind):
        """Makes a key pair."""
        private = f"keys/{name}.pem"
        self.made("openssl", "genpkey", *KINDS[kind][0], "-out", private)
        self.made("openssl", "pkey", "-in", private, "-pubout", "-out", f"keys/{name}.pub")
        self.write(f"keys/{name}.json",
                   self.made("itv", "key", f"keys/{name}.pub", "--name", name))

    def keys(self, *names):
        """The key objects of these names."""
        return {name: self.document(f"keys/{name}.json")[name] for name in names}

    def signature(self, message, name, *options):
        """The signature of a message."""
        self.write("message", message)
        return self.made("openssl", "pkeyutl", "-sign", "-rawin", "-in", "message", "-inkey",
                         f"keys/{name}.pem", *(options or KINDS[PEOPLE[name]][1]))

    def pae(self, body, kind=IN_TOTO):
        """What is signed for a body."""
        self.write("body", body)
        return self.made("itv", "pae", "body", "--type", kind)

    def signed(self, body, *names, kind=IN_TOTO):
        """The envelope of a body that these people sign."""
        message, onto = self.pae(body, kind), []
        for name in names:
            self.write("signature", self.signature(message, name))
            envelope = self.made("itv", "sign", "body", "--signature", "signature", "--keys",
                                 "keys.json", "--key", name, "--type", kind, *onto)
            self.write("onto", envelope)
            onto = ["--onto", "onto"]
        return self.text("onto")

    # Documents that are changed, and signed again by those who may.

    def policy(self, change):
        """Changes the policy."""
        document = self.document("policy.json")
        self.write("policy.json", change(document) or document)

    def layout(self, change, by=("owner", "security")):
        """Changes the layout."""
        document = self.document("layout.json")
        self.write("layout.json", change(document) or document)
        self.write("layout.envelope.json", self.signed(self.text("layout.json"), *by))

    def link(self, step, name, change, by=None, to=None):
        """Changes the link of a step, which `by` signs, in the file `to`."""
        link = json.loads(self.made("itv", "payload", f"links/{step}.{name}.link"))
        body = json.dumps(change(link) or link)
        self.write(to or f"links/{step}.{name}.link", self.signed(body, by or name))

    def statement(self, change, by="builder"):
        """Changes the provenance."""
        self.write("line", self.text("provenance.jsonl"))
        statement = json.loads(self.made("itv", "payload", "line"))
        body = json.dumps(change(statement) or statement)
        self.write("provenance.jsonl", self.signed(body, by))


def rules(*given):
    """A list of rules that lets nothing else through."""
    return [*copy.deepcopy(list(given)), CLOSES]


def step(name, ids, materials, products, threshold=1):
    """A step of the layout."""
    return {"_type": "step", "name": name, "threshold": threshold, "pubkeys": ids,
            "expected_command": [], "expected_materials": rules(*materials),
            "expected_products": rules(*products)}


def taken(pattern, item):
    """A rule that takes from the products of a step."""
    return ["MATCH", pattern, "WITH", "PRODUCTS", "FROM", item]


def layout_of(release):
    """The layout of the release."""
    return {
        "_type": "layout", "expires": moment(365 * 86400), "readme": "",
        "keys": release.keys("alice", "bob", "carol", "dave"),
        "steps": [
            step("fetch", ["alice"], [], [["CREATE", "src/*"]]),
            step("build", ["alice", "bob"], [["REQUIRE", "src/hello.sh"], taken("src/*", "fetch")],
                 [["CREATE", "bin/hello"]], threshold=2),
            step("package", ["carol"], [taken("bin/*", "build")], [["CREATE", "hello.tar"]]),
        ],
        "inspect": [{
            "_type": "inspection", "name": "unpack", "run": ["tar", "-xf", "hello.tar"],
            "expected_materials": rules(taken("hello.tar", "package")),
            "expected_products": rules(taken("bin/*", "build")),
        }],
    }


def policy_of(release):
    """The policy by which it is verified."""
    return {
        "owners": release.keys("owner", "security"),
        "deliver": rules(taken("*", "package")),
        "expectations": [{
            "files": "*", "level": 2, "buildType": "https://ci.example/make",
            "builders": [{"id": "https://ci.example/runners", "keys": release.keys("builder"),
                          "level": 2}],
            "parameters": {"ref": "v1.0"}, "ignore": ["job"],
        }],
    }


def made_in(folder):
    """Makes the release in an empty folder."""
    release = Release(folder)
    for name in ("keys", "links", "records", "src", "bin"):
        release.path(name).mkdir()
    for name, kind in PEOPLE.items():
        release.new_key(name, kind)
    release.write("keys.json", release.keys(*PEOPLE))
    release.write("layout.json", layout_of(release))
    release.write("policy.json", policy_of(release))
    release.layout(lambda document: None)
    release.write("src/hello.sh", "echo hello\n")
    release.write("bin/hello", "echo hello, world\n")
    release.made("tar", "-cf", "hello.tar", "bin")
    work = [("fetch", "alice", [], ["src/hello.sh"]),
            ("build", "alice", ["src/hello.sh"], ["bin/hello"]),
            ("build", "bob", ["src/hello.sh"], ["bin/hello"]),
            ("package", "carol", ["bin/hello"], ["hello.tar"])]
    for item, name, materials, products in work:
        body = link_of(release, item, materials, products)
        release.write(f"links/{item}.{name}.link", release.signed(body, name))
    release.write("records/unpack.link", link_of(release, "unpack", ["hello.tar"], ["bin/hello"]))
    release.write("sums", release.digests("hello.tar"))
    release.write("parameters.json", {"ref": "v1.0", "job": "71"})
    statement = release.made("itv", "statement", "--sums", "sums", "--builder",
                             "https://ci.example/runners", "--build-type",
                             "https://ci.example/make", "--parameters", "parameters.json")
    release.write("provenance.jsonl", release.signed(statement, "builder"))
    return release


def link_of(release, item, materials, products):
    """The body of a link."""
    release.write("before", release.digests(*materials) if materials else "")
    release.write("after", release.digests(*products) if products else "")
    return release.made("itv", "link", "--name", item, "--materials", "before", "--products",
                        "after").decode()
