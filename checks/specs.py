"""The definitions of specs/: the modules, what each defines, and which names it uses."""

import re
from dataclasses import dataclass, field

import tree

USE = re.compile(
    r"\buse\s+(Rattle\.[^\s{;]+?)(?:\.\{([^}]*)\}|\s+as\s+([^\s;]+))?\s*[;\n]"
)
HEAD = re.compile(r"(?P<words>(?:abbrev |unfoldable |pub |record |data )*)(?P<name>[^\s(){}:]+)")
TOKEN = re.compile(r"[^\s(){}\[\],;.]+|[.,;(){}\[\]]")


@dataclass
class Definition:
    """A definition, with its lines, its comment, and the parameters of the modules around it."""

    crate: str
    module: str
    name: str
    is_public: bool
    lines: list
    comment: list
    around: str
    number: int
    constructors: list = field(default_factory=list)

    @property
    def key(self):
        """What identifies it."""
        return (self.crate, self.module, self.name)

    @property
    def place(self):
        """The file that has it."""
        return f"{self.crate}/specs/{self.module.replace('.', '/')}.antt"

    def code(self):
        """Its text without comments."""
        return "\n".join(without_comment(line) for line in self.lines)

    def line_count(self):
        """How many lines it has, without comments and blank lines."""
        return sum(1 for line in self.code().splitlines() if line.strip())


@dataclass
class Module:
    """A file of specs/: its definitions, and what its imports bring in."""

    crate: str
    name: str
    path: object
    definitions: list
    imports: dict
    aliases: dict


def without_comment(line):
    """The line without the comment at its end."""
    return re.sub(r"(^|\s)--(\s.*|-*)?$", "", tree.without_strings(line))


def import_path(path):
    """What a path names: a crate, its folder (`specs`, `declared` or another), and the rest."""
    parts = path.strip().split(".")
    if len(parts) < 3 or parts[0] != "Rattle":
        return None
    if parts[2] == "specs" and len(parts) > 3 and parts[3] == "declared":
        return (parts[1], "declared", parts[4:])
    return (parts[1], parts[2], parts[3:])


def read_imports(text):
    """What use lines bring in: names, with their paths and names there, and aliases of modules."""
    imports, aliases = {}, {}
    for found in USE.finditer(text):
        path = import_path(found[1])
        if path is None:
            continue
        if found[2] is None:
            aliases[found[3] or path[2][-1]] = path
            continue
        for item in found[2].split(","):
            words = item.split()
            if words:
                imports[words[-1]] = (path, words[0])
    return imports, aliases


def indent_of(line):
    """How far a line is indented."""
    return len(line) - len(line.lstrip())


def items_of(lines):
    """Splits numbered lines into items: a head, what is indented deeper, the comment before."""
    items, comment, own = [], [], None
    for number, line in lines:
        if not line.strip():
            comment = []
        elif line.lstrip().startswith("--") and (own is None or indent_of(line) <= own):
            comment.append(line.strip())
        elif own is None or indent_of(line) <= own:
            own = indent_of(line) if own is None else own
            items.append((comment, [(number, line)]))
            comment = []
        else:
            inner = enumerate(comment, number - len(comment))
            items[-1][1].extend((place, " " * 16 + text) for place, text in inner)
            items[-1][1].append((number, line))
            comment = []
    return items


def split_header(lines):
    """The lines of a module's header, and those below it."""
    for index, (_, line) in enumerate(lines):
        if re.search(r"\b(where|mutual)\s*$", without_comment(line)):
            return lines[: index + 1], lines[index + 1 :]
    return lines, []


def is_signature(line):
    """Whether a line begins a definition, and not a further clause of one."""
    found = HEAD.match(line)
    return bool(found and found["words"]) or bool(re.match(r"\S+ :(\s|$)", line))


def constructors_of(lines):
    """The names that a `data` declares."""
    if not re.search(r"\bdata\b", lines[0].split(":")[0]):
        return []
    found = (re.match(r"\s+(\S+) :\s", without_comment(line)) for line in lines[1:])
    return [match[1] for match in found if match]


def read_block(crate, module, lines, around):
    """The definitions in some lines."""
    found = []
    for comment, item in items_of(lines):
        number, head = item[0]
        text = without_comment(head).strip()
        if text.startswith(("use ", "pub use ", "pub mod ", "mod ", "infix", "}")):
            continue
        if text.startswith("module ") or re.fullmatch(r"(abbrev )?mutual", text):
            header, inner = split_header(item)
            shown = "" if text.endswith("mutual") else " ".join(line.strip() for _, line in header)
            found += read_block(crate, module, inner, (around + "\n" + shown).strip())
        elif is_signature(text):
            words = HEAD.match(text)
            texts = [line for _, line in item]
            found.append(Definition(crate, module, words["name"], "pub " in words["words"], texts,
                                    comment, around, number, constructors_of(texts)))
        elif found:
            found[-1].lines += [line for _, line in item]
    return found


def read_module(crate, path):
    """A file of specs/."""
    name = ".".join(path.relative_to(tree.TOP / "crates" / crate / "specs").with_suffix("").parts)
    text = path.read_text()
    lines = [(number, line) for number, line in enumerate(text.splitlines(), 1)]
    imports, aliases = read_imports("\n".join(without_comment(line) for _, line in lines) + "\n")
    definitions = read_block(crate, name, without_uses(lines), "")
    return Module(crate, name, path, definitions, imports, aliases)


def without_uses(lines):
    """The lines without use items, even those that span several lines."""
    kept, depth = [], 0
    for number, line in lines:
        if depth or re.match(r"(pub )?use ", line):
            depth += line.count("{") - line.count("}")
        else:
            kept.append((number, line))
    return kept


def read_all():
    """Every module of every crate's specs/, by crate and name."""
    modules = {}
    for crate in tree.crate_names():
        for path in tree.folder_files(crate, "specs", ".antt"):
            module = read_module(crate, path)
            modules[(crate, module.name)] = module
    return modules


def bound_names(text):
    """The names that a text binds: parameters, what follows λ and let, and fields."""
    bound = set()
    for names in re.findall(r"[({]\s*([^(){}:=]+?)\s:\s", text):
        bound.update(names.split())
    for names in re.findall(r"λ\s*([^.(){}]+)\.", text):
        bound.update(names.split())
    bound.update(re.findall(r"\blet\s+([^\s:=]+)", text))
    bound.update(re.findall(r"^\s+(?:pub )?([^\s:]+)\s:\s", text, re.MULTILINE))
    return bound


def used_names(text):
    """The names that a text uses, each as a list of one name, or of a qualifier and a name."""
    plain = tree.without_strings(text)
    found, opened = [], []
    tokens = list(TOKEN.finditer(plain))
    for index, token in enumerate(tokens):
        word = token[0]
        following = tokens[index + 1][0] if index + 1 < len(tokens) else ""
        if word in "({[":
            opened.append(word)
        elif word in ")}]":
            opened = opened[:-1]
        elif word in ".,;":
            continue
        elif following == "=" and opened and opened[-1] == "{":
            continue
        elif plain[: token.start()][-1:] == "." and plain[: token.start()][-2:] != " .":
            head = tokens[index - 2][0] if index >= 2 else ""
            found.append([head, word])
        else:
            found.append([word])
    return found
