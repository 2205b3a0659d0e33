"""The contracts of the Rust sources: functions, types and traits, with what their clauses name."""

import re
from dataclasses import dataclass, field

import specs
import tree

ITEM = re.compile(r"#|(pub|impl|trait|struct|enum|fn|mod|use|ghost|const|static|type|macro)\b")
MEMBER = re.compile(r"    (#\[|pub\b|fn\b|ghost\b|const\b|type\b)")
# The ghost members that a type is made with, and that a caller never sees.
INNER_GHOSTS = {"coded", "view", "size", "size_decreases", "invariant"}


@dataclass
class Contract:
    """A part of a source that has clauses: a function, a ghost member, a type or a trait."""

    crate: str
    module: str
    name: str
    owner: str
    is_public: bool
    types: set
    clauses: str
    scope: tuple
    is_inner: bool = False


@dataclass
class Source:
    """A source file: its contracts, its types, and the Rust names that it imports."""

    crate: str
    module: str
    contracts: list = field(default_factory=list)
    types: dict = field(default_factory=dict)
    rust_names: dict = field(default_factory=dict)


def without_comments(text):
    """The text without its comments."""
    return re.sub(r"(^|\s)//[^\n]*", r"\1", text)


def split_items(lines, start):
    """Splits lines where one matches the pattern `start`."""
    items = []
    for line in lines:
        if start.match(line) or not items:
            items.append([line])
        else:
            items[-1].append(line)
    return items


def capital_names(text):
    """The names in a text that can be types or traits."""
    return set(re.findall(r"\b[A-Z]\w*", text))


def clauses_of(text):
    """The clauses in a function's text: what is in braces after `requires` and `ensures`."""
    parts = []
    for found in re.finditer(r"\b(?:requires|ensures)\b[^{\n]*\{", text):
        depth, end = 1, found.end()
        while depth and end < len(text):
            depth += {"{": 1, "}": -1}.get(text[end], 0)
            end += 1
        parts.append(text[found.end() : end - 1])
    return "\n".join(parts)


def head_of_function(lines, indent):
    """A function's lines up to its body."""
    head = []
    for line in lines:
        if line.startswith(indent + "{"):
            break
        head.append(line)
        if line.rstrip().endswith(" {") and not re.search(r"\b(requires|ensures)\b", line):
            break
    return "\n".join(head)


def expand_use(text):
    """The paths that a Rust use item names, each with the name that it is imported as."""
    if "{" not in text:
        path, _, renamed = text.partition(" as ")
        return [(path.strip(), (renamed or path.split("::")[-1]).strip())]
    front, inner = text.split("{", 1)
    inner = inner.rsplit("}", 1)[0]
    parts, depth, word = [], 0, ""
    for letter in inner + ",":
        depth += {"{": 1, "}": -1}.get(letter, 0)
        if letter == "," and depth == 0:
            parts.append(word.strip())
            word = ""
        else:
            word += letter
    return [found for part in parts if part for found in expand_use(front.strip() + part)]


def read_rust_uses(text):
    """The Rust names that a text imports, each with its path."""
    names = {}
    for found in re.finditer(r"^(?:pub )?use\s+([^;]+);", text, re.MULTILINE):
        for path, name in expand_use(found[1].replace("\n", " ")):
            names[name] = path.split("::")
    return names


def public_names(crate):
    """The modules that a library makes public, and the names that it re-exports from others."""
    path = tree.TOP / "crates" / crate / "src" / "lib.rt"
    text = without_comments(path.read_text())
    return set(re.findall(r"^pub mod (\w+);", text, re.MULTILINE)), {
        (path[0] if path[0] != "crate" else path[1], path[-1])
        for path in uses_brought_out(text)
    }


def uses_brought_out(text):
    """The paths that `pub use` items re-export."""
    paths = []
    for found in re.finditer(r"^pub use\s+([^;]+);", text, re.MULTILINE):
        paths += [path.split("::") for path, _ in expand_use(found[1].replace("\n", " "))]
    return paths


def ghost_imports(items):
    """What the `ghost use` items among some items import."""
    uses = ["\n".join(item) for item in items if item[0].lstrip().startswith("ghost use")]
    return specs.read_imports("\n".join(uses) + "\n")


class Reader:
    """Reads one source file."""

    def __init__(self, crate, path, opened):
        self.crate = crate
        folder = tree.TOP / "crates" / crate / "src"
        self.module = ".".join(path.relative_to(folder).with_suffix("").parts)
        self.opened = opened
        self.text = without_comments(path.read_text())
        self.source = Source(crate, self.module, rust_names=read_rust_uses(self.text))
        self.items = split_items(self.text.splitlines(), ITEM)
        self.scope = ghost_imports(self.items)
        self.crate_types = {}

    def is_open(self, name):
        """Whether a public item of this file can be named from outside."""
        if self.opened is None or self.module == "lib":
            return True
        modules, names = self.opened
        return self.module.split(".")[0] in modules or (self.module, name) in names

    def add(self, named, types, clauses, scope, is_inner=False):
        """Adds a contract; `named` is its name, its owner, and whether it is public."""
        place = (self.crate, self.module)
        self.source.contracts.append(Contract(*place, *named, types, clauses, scope, is_inner))

    def read_types(self):
        """Reads the types of the file."""
        for item in self.items:
            self.read_type(item, self.scope)
        return self.source.types

    def read_items(self, types):
        """Reads the other items; `types` says which types of the crate are public."""
        self.crate_types = types
        for item in self.items:
            self.read_item(item, self.scope)
        return self.source

    def read_type(self, item, scope):
        """Reads a struct, an enum or a trait."""
        found = re.match(r"(pub(?:\(crate\))? )?(struct|enum|trait)\s+(\w+)", item[0])
        if not found:
            return
        text = "\n".join(item)
        is_public = found[1] == "pub " and self.is_open(found[3])
        self.source.types[found[3]] = is_public
        if found[2] != "trait":
            ghosts = "\n".join(re.findall(r"\bghost \w+: \{(.*?)\}", text, re.DOTALL))
            names = (found[3], found[3], is_public)
            self.add(names, capital_names(text), ghosts, scope)

    def read_item(self, item, scope):
        """Reads a function, an impl or a trait."""
        function = re.match(r"(pub(?:\(crate\))? )?fn\s+(\w+)", item[0])
        if function:
            is_public = function[1] == "pub " and self.is_open(function[2])
            is_public = is_public or self.opened is None
            self.read_function(item, "", (function[2], None, is_public), scope)
        elif re.match(r"impl\b", item[0]):
            self.read_impl(item, scope)
        elif re.match(r"(pub )?trait\b", item[0]):
            name = re.match(r"(?:pub )?trait\s+(\w+)", item[0])[1]
            self.read_members(item[1:], (name, self.source.types[name], True, False), scope)

    def read_impl(self, item, scope):
        """Reads an impl: if it is of a trait, all its members are as public as the type."""
        head = re.sub(r"<[^<>]*(<[^<>]*>)?[^<>]*>", "", " ".join(item[0].split()))
        found = re.match(r"impl\s+(?:(\w+)\s+for\s+)?&?(?:mut )?(\w+)", head)
        if not found:
            return
        is_public = self.opened is None or self.is_public_type(found[2])
        owner = (found[2], is_public, bool(found[1]), found[1] == "Model")
        self.read_members(item[1:], owner, scope)

    def is_public_type(self, name):
        """Whether a type can be named from outside; a type of another crate can."""
        return self.source.types.get(name, self.crate_types.get(name, True))

    def read_members(self, lines, owner, scope):
        """Reads the members of an impl or a trait."""
        name, is_public, all_members, is_model = owner
        members = split_items(lines, MEMBER)
        inner = ghost_imports(members)
        joined = ({**scope[0], **inner[0]}, {**scope[1], **inner[1]})
        for member in members:
            function = re.match(r"    (pub(?:\(crate\))? )?fn\s+(\w+)", member[0])
            ghost = re.match(r"    ghost (?!use)(\w+)", member[0])
            if function:
                says_so = self.opened is None or all_members or function[1] == "pub "
                shown = is_public and says_so
                self.read_function(member, "    ", (function[2], name, shown), joined)
            elif ghost:
                is_inner = is_model and ghost[1] in INNER_GHOSTS
                self.add((ghost[1], name, is_public), set(), "\n".join(member), joined, is_inner)

    def read_function(self, lines, indent, named, scope):
        """Reads a function with its clauses."""
        head = head_of_function(lines, indent)
        signature = re.split(r"\n\s+(?:requires|ensures)\b", head)[0]
        self.add(named, capital_names(signature), clauses_of(head), scope)


def read_crate(crate):
    """The source files of a crate, except those of tests."""
    opened = public_names(crate) if tree.is_library(crate) else None
    paths = tree.folder_files(crate, "src", ".rt")
    readers = [Reader(crate, path, opened) for path in paths]
    types = {}
    for reader in readers:
        types.update(reader.read_types())
    return [reader.read_items(types) for reader in readers]


def read_all():
    """Every source file, except those of tests, by crate and module."""
    sources = [source for crate in tree.crate_names() for source in read_crate(crate)]
    return {(source.crate, source.module): source for source in sources}
