#!/usr/bin/env python3
"""Follows the names from public contracts through the definitions of specs/.

Prints for each crate how many lines of its specs/ (without comments and blank lines) the contracts
of `verify` rest on, those of `verify` and `run_verify`, and all public contracts. Fails where a
public contract reaches into a folder specs/inside/, and where an import leads nowhere.

    reach.py              the table
    reach.py --unreached  lists the definitions outside specs/inside/ that no public contract
                          reaches
    reach.py --from NAME  lists what NAME rests on: a public function, or a definition (such as
                          it_verify/specs/Made.antt:Made), which then comes first
"""

import sys

import contracts
import specs
import tree

VERIFY = [("it_verify", "verify")]
VERIFYING = VERIFY + [("it_verify", "run_verify")]


class Graph:
    """Which definition or type names which."""

    def __init__(self):
        self.modules = specs.read_all()
        self.sources = contracts.read_all()
        self.names = {}
        self.definitions = {}
        for module in self.modules.values():
            self.add_module(module)
        self.types = {}
        for source in self.sources.values():
            for name in source.types:
                self.types[(source.crate, "declared." + source.module, name)] = source
        self.edges = {}

    def add_module(self, module):
        """Adds what a module defines, by the names under which others find it."""
        own = self.names.setdefault((module.crate, module.name), {})
        for definition in module.definitions:
            self.definitions[definition.key] = definition
            own[definition.name] = definition.key
            for constructor in definition.constructors:
                own.setdefault(constructor, definition.key)

    def resolve(self, path, name):
        """The definition or the type that a path and a name lead to."""
        crate, kind, parts = path
        if kind == "specs":
            return self.in_module((crate, ".".join(parts)), name)
        if kind == "declared" and parts:
            return self.type_at(crate, parts, name)
        return None

    def in_module(self, module, name):
        """What a name means in a module, even one that the module imports."""
        if name in self.names.get(module, {}):
            return self.names[module][name]
        if module in self.modules and name in self.modules[module].imports:
            return self.resolve(*self.modules[module].imports[name])
        return None

    def type_at(self, crate, parts, name):
        """The Rust type of a declared module, even if the name is one of its variants."""
        shown = [part for part in parts if part != "TheVariants"]
        for length in range(len(shown), -1, -1):
            module = "declared." + (".".join(shown[:length]) or "lib")
            for wanted in shown[length : length + 1] + [name]:
                if (crate, module, wanted) in self.types:
                    return (crate, module, wanted)
        return self.type_named(crate, (shown + [name])[-1])

    def type_named(self, crate, name):
        """A type of a crate by its name alone."""
        for key in self.types:
            if key[0] == crate and key[2] == name:
                return key
        return None

    def rust_type(self, source, name):
        """What a name means as a type in a source file."""
        if name in source.types:
            return (source.crate, "declared." + source.module, name)
        path = source.rust_names.get(name)
        if not path:
            return None
        crate = source.crate if path[0] in {"crate", "super", "self"} else path[0]
        module = ".".join(path[1:-1]) or "lib"
        key = (crate, "declared." + module, path[-1])
        return key if key in self.types else self.type_named(crate, path[-1])

    def of_definition(self, key):
        """What a definition names."""
        definition = self.definitions[key]
        module = self.modules[(definition.crate, definition.module)]
        text = definition.around + "\n" + definition.code()
        bound = specs.bound_names(text)
        found = {self.in_module((module.crate, module.name), name) or None: None
                 for name in self.mixfix_names(module, text)}
        for words in specs.used_names(text):
            if len(words) == 2 and words[0] in module.aliases:
                path = module.aliases[words[0]]
                found[self.resolve(path, words[1])] = None
            elif words[0] not in bound:
                found[self.in_module((module.crate, module.name), words[0])] = None
        return [other for other in found if other and other != key]

    def mixfix_names(self, module, text):
        """The operators of this repository that a text uses."""
        words = {words[0] for words in specs.used_names(text)}
        names = list(self.names[(module.crate, module.name)]) + list(module.imports)
        return [name for name in names if "◌" in name and set(name.split("◌")) - {""} <= words]

    def of_contract(self, contract):
        """What a contract names: in its clauses, and as types in its signature."""
        source = self.sources[(contract.crate, contract.module)]
        imports, aliases = contract.scope
        found = {}
        bound = specs.bound_names(contract.clauses)
        for words in specs.used_names(contract.clauses):
            if words[0] in imports:
                if words[0] not in bound:
                    found[self.resolve(*imports[words[0]])] = None
            elif len(words) == 2 and words[0] in aliases:
                found[self.resolve(aliases[words[0]], words[1])] = None
            elif words[0][:1].isupper():
                found[self.rust_type(source, words[0])] = None
        for name in sorted(contract.types):
            found[self.rust_type(source, name)] = None
        return [other for other in found if other]

    def of_type(self, key):
        """What a type rests on: its fields, what is kept of them, what contracts see in its place."""
        source = self.types[key]
        found = {}
        is_trait = self.is_trait(source, key[2])
        for contract in source.contracts:
            is_seen = contract.name in {key[2], "Value"} or is_trait
            if contract.owner == key[2] and is_seen:
                found.update(dict.fromkeys(self.of_contract(contract)))
        return [other for other in found if other != key]

    def is_trait(self, source, name):
        """Whether a name of a source is that of a trait."""
        return not any(contract.name == name for contract in source.contracts)

    def next_to(self, key):
        """What a definition or a type names."""
        if key not in self.edges:
            of_key = self.of_definition if key in self.definitions else self.of_type
            self.edges[key] = of_key(key)
        return self.edges[key]

    def reached(self, starts):
        """Everything reached from some keys, each with the key that led to it."""
        led = {}
        waiting = [(start, None) for start in starts]
        while waiting:
            key, by = waiting.pop(0)
            if key not in led:
                led[key] = by
                waiting += [(other, key) for other in self.next_to(key)]
        return led

    def public_contracts(self):
        """The contracts that can be seen from outside their crate."""
        return [contract for source in self.sources.values() for contract in source.contracts
                if contract.is_public and not contract.is_inner]

    def inner_contracts(self):
        """What public types say about their private fields."""
        return [contract for source in self.sources.values() for contract in source.contracts
                if contract.is_public and contract.is_inner]


def is_inside(key):
    """Whether a definition is in specs/inside/."""
    return key[1].split(".")[0] == "inside"


def shown(key):
    """A definition or a type as a fault names it."""
    if key[1].startswith("declared."):
        return f"{key[0]}/src/{key[1][len('declared.'):].replace('.', '/')}.rt {key[2]}"
    return f"{key[0]}/specs/{key[1].replace('.', '/')}.antt {key[2]}"


def chain_to(led, key):
    """The names that led to a key, the first one first."""
    chain = []
    while key is not None:
        chain.append(key[2])
        key = led[key]
    return " > ".join(reversed(chain))


def told(contract):
    """A contract as a fault names it."""
    owner = contract.owner if contract.owner != contract.name else None
    name = f"{owner}::{contract.name}" if owner else contract.name
    return f"{contract.crate}/src/{contract.module.replace('.', '/')}.rt: the contract of {name}"


def inside_faults(graph):
    """The public contracts that reach into specs/inside/ (for a program: that of another crate)."""
    faults = []
    for contract in graph.public_contracts():
        led = graph.reached(graph.of_contract(contract))
        own = None if tree.is_library(contract.crate) else contract.crate
        inside = [key for key in led if key in graph.definitions and is_inside(key)]
        for key in [key for key in inside if key[0] != own][:1]:
            faults.append(f"{told(contract)} reaches into {shown(key)} by {chain_to(led, key)}")
    return faults


def lost_imports(graph):
    """The imports from crates of this repository that lead to no definition and no type."""
    places = [(tree.name_of(module.path), module.imports) for module in graph.modules.values()]
    for source in graph.sources.values():
        for contract in source.contracts:
            places.append((told(contract), contract.scope[0]))
    crates = set(tree.crate_names())
    lost = {f"{place}: nothing is known of the imported {name}": None
            for place, imports in places for path, name in imports.values()
            if path[0] in crates and path[1] != "proofs" and graph.resolve(path, name) is None}
    return list(lost)


def lines_by_crate(graph, led):
    """How many lines of each crate's specs/ are reached."""
    counts = {}
    for key in led:
        if key in graph.definitions:
            counts[key[0]] = counts.get(key[0], 0) + graph.definitions[key].line_count()
    return counts


def keys_of(graph, functions=None):
    """What the public contracts of these functions, or all public contracts, name."""
    return [key for contract in graph.public_contracts()
            if functions is None or (contract.crate, contract.name) in functions
            for key in graph.of_contract(contract)]


def print_table(graph):
    """Prints the lines of each crate."""
    columns = [lines_by_crate(graph, graph.reached(keys_of(graph, functions)))
               for functions in (VERIFY, VERIFYING, None)]
    for column in columns:
        column["together"] = sum(column.values())
    print(f"{'lines of specs/ for':20}{'verify':>10}{'run_verify too':>18}{'all that is public':>22}")
    for crate in tree.crate_names() + ["together"]:
        counts = [column.get(crate, 0) for column in columns]
        if counts[2]:
            print(f"{crate:20}{counts[0]:10}{counts[1]:18}{counts[2]:22}")


def print_unreached(graph):
    """Lists the definitions outside specs/inside/ that no public contract reaches."""
    public = graph.reached(keys_of(graph))
    inner = graph.reached(key for contract in graph.inner_contracts()
                          for key in graph.of_contract(contract))
    for key in graph.definitions:
        if key not in public and not is_inside(key):
            print(shown(key) + ("  (what a type says of its fields)" if key in inner else ""))


def depth_first(graph, start):
    """What a definition rests on, itself first, and each before what only that one leads to."""
    order, waiting = {}, [start]
    while waiting:
        key = waiting.pop()
        if key not in order:
            order[key] = None
            waiting += reversed(graph.next_to(key))
    return list(order)


def start_named(graph, name):
    """The keys that the name of a definition or of a public function leads to."""
    if ":" in name:
        file, own = name.split(":")
        crate, _, module = file.partition("/specs/")
        return [(crate, module[: -len(".antt")].replace("/", "."), own)]
    return [key for contract in graph.public_contracts() if contract.name == name
            for key in graph.of_contract(contract)]


def print_from(graph, name):
    """Lists what a name rests on."""
    told = {}
    for start in start_named(graph, name):
        told.update(dict.fromkeys(depth_first(graph, start)))
    for key in told:
        print(shown(key))


def main():
    """Does what the arguments say."""
    words = tree.words_of(__doc__)
    words.add_argument("--unreached", action="store_true")
    words.add_argument("--from", dest="start", metavar="NAME")
    chosen = words.parse_args()
    graph = Graph()
    if chosen.unreached:
        print_unreached(graph)
        return 0
    if chosen.start:
        print_from(graph, chosen.start)
        return 0
    print_table(graph)
    return tree.report(inside_faults(graph) + lost_imports(graph))


if __name__ == "__main__":
    sys.exit(main())
