#!/usr/bin/env python3
"""Keeps docs/headline.md true, and Headline.antt and HeadlineParts.antt of it_verify/specs.

Each quotation in docs/headline.md follows a line <!-- FILE: NAME NAME -->, which says which
definitions of a file (such as it_verify/specs/Made.antt), or which types of a source file, it
quotes. Fails where a quotation is not what the file has, where a definition that the headline rests
on is not quoted, where one that it does not rest on is quoted, and where the two entry pages do not
name exactly these definitions in this order: HeadlineParts.antt has those from the heading on path
patterns on. A line <!-- beside FILE: NAME --> quotes what the headline does not rest on.

    headline.py          checks
    headline.py --write  quotes anew, and writes the entry pages; finds a definition that moved to
                         another file
    headline.py --list   lists what is not quoted yet
"""

import re
import sys
import textwrap

import reach
import specs
import tree

PAGE = tree.TOP / "docs" / "headline.md"
ENTRIES = tree.TOP / "crates" / "it_verify" / "specs"
SECOND_PART = "\n## Path patterns\n"
# Comments for definitions that have none of their own.
COMMENTS = {
    "Items": "the items of a list",
    "Fields": "the members of an object",
    "IsKeyword": "the text is this keyword",
    "fields_of": "the fields that members are",
    "tree_of": "the tree that a part of a document is",
    "trees_of": "the trees that items are",
    "files_of": "the files of a bundle",
    "Algorithm": "the algorithms of digests that are known",
    "folder_at": "the folder of a name in a bundle",
    "empty": "the bundle without files and folders",
    "equal": "whether two trees are equal",
    "same_flag": "whether two truth values are equal",
    "equal_items": "whether two lists of trees are equal",
    "equal_fields": "whether two objects are equal",
}
ROOTS = [
    "it_verify/specs/Made.antt:Made",
    "it_verify/specs/Made.antt:verdict_of",
    "it_dsse/specs/Panel.antt:panel_of",
]
QUOTATION = re.compile(
    r"<!-- (?P<beside>beside )?(?P<file>\S+): (?P<names>[^\n]+?) -->\n"
    r"(?:```\w*\n(?P<text>.*?)```\n)?", re.DOTALL
)
HEAD = (
    "What the headline rests on: every definition that `Made` leads to, in the order in which "
    "docs/headline.md quotes them, {part}. The check of this crate keeps the names true, and the "
    "list is kept by checks/headline.py, which writes this file."
)
PARTS = {
    "Headline": "up to artifact rules; HeadlineParts has the others",
    "HeadlineParts": "from path patterns on",
}


def the_one(keys):
    """The key, if there is exactly one."""
    return keys[0] if len(keys) == 1 else None


def exact_key(file, name):
    """The key of a name in a file."""
    crate, _, rest = file.partition("/specs/")
    return (crate, rest.removesuffix(".antt").replace("/", "."), name)


def key_of(graph, file, name):
    """The definition of a name: in a file, failing that in its crate, or one the headline needs."""
    key = exact_key(file, name)
    if key in graph.definitions:
        return key
    others = [other for other in graph.definitions if other[2] == name]
    near = [other for other in others if other[0] == key[0]]
    needed = [other for other in needed_keys(graph) if other[2] == name]
    of_file = [other for other in needed if other[1].split(".")[-1] == key[1].split(".")[-1]]
    return the_one(near) or the_one(of_file) or the_one(needed)


def type_in(path, name):
    """The text of a type in a source file, if it is there."""
    text = path.read_text() if path.exists() else ""
    head = rf"^(?:///[^\n]*\n)*(?:pub(?:\(crate\))? )?(?:struct|enum|trait) {name}\b.*?^}}\n"
    plain = re.sub(r"^#\[.*\n", "", text, flags=re.MULTILINE)
    found = re.search(head, plain, re.DOTALL | re.MULTILINE)
    return found and found[0]


def type_file(file, name):
    """The source file that has a type: this one, another of its crate, or one of any crate."""
    crates = [file.partition("/")[0]] + tree.crate_names()
    paths = [tree.TOP / "crates" / file]
    paths += [path for crate in crates for path in tree.folder_files(crate, "src", ".rt")]
    return next((path for path in paths if type_in(path, name)), None)


def quoted_types(path, names):
    """A quotation of types of a file."""
    body = "\n".join(type_in(path, name) for name in names)
    return f"{marker(path.relative_to(tree.TOP / 'crates'), names)}```rust\n{body}```\n"


def marker(place, names):
    """The line before a quotation."""
    return f"<!-- {place}: {' '.join(names)} -->\n"


def quoted_definitions(graph, keys):
    """The text of definitions, each under the parameters of its module."""
    parts, around = [], ""
    for key in keys:
        definition = graph.definitions[key]
        if definition.around != around and definition.around:
            parts.append(definition.around + "\n")
        around = definition.around
        indent = " " * specs.indent_of(definition.lines[0])
        comment = "".join(indent + line + "\n" for line in definition.comment)
        text = comment + "\n".join(definition.lines) + "\n"
        parts.append(text if around else textwrap.dedent(text))
    return "\n".join(parts)


def by_place(pairs):
    """Groups pairs of a place and a name: each place with its names that follow one another."""
    groups = []
    for place, name in pairs:
        if not groups or groups[-1][0] != place:
            groups.append((place, []))
        groups[-1][1].append(name)
    return groups


def quotation(graph, file, names):
    """A quotation with the line before it, or several where the names are in several files."""
    is_type = file.endswith(".rt") and type_file(file, names[0])
    if is_type:
        groups = by_place((type_file(file, name), name) for name in names)
        return "\n".join(quoted_types(path, named) for path, named in groups)
    keys = [key_of(graph, file, name) for name in names]
    parts = []
    for place, group in by_place((graph.definitions[key].place, key) for key in keys):
        body = quoted_definitions(graph, group)
        parts.append(f"{marker(place, [key[2] for key in group])}```\n{body}```\n")
    return "\n".join(parts)


def quotation_as(graph, found):
    """What a quotation on the page should be."""
    text = quotation(graph, found["file"], found["names"].split())
    return text.replace("<!-- ", "<!-- beside ") if found["beside"] else text


def with_quotations(graph, page):
    """The page with each quotation as it should be."""
    return QUOTATION.sub(lambda found: quotation_as(graph, found), page)


def quoted_keys(graph, page):
    """The definitions that a page quotes, in order, but for those that are quoted beside."""
    return [key_of(graph, found["file"], name) for found in QUOTATION.finditer(page)
            if not found["file"].endswith(".rt") and not found["beside"]
            for name in found["names"].split()]


def lost_names(graph, page):
    """The names on a page that have no definition and no type, or several."""
    for found in QUOTATION.finditer(page):
        for name in found["names"].split():
            is_type = found["file"].endswith(".rt") and type_file(found["file"], name)
            if not is_type and key_of(graph, found["file"], name) is None:
                yield f"{tree.name_of(PAGE)}: {found['file']} has no {name}"


def root_key(graph, root):
    """The definition of a root, even if it moved within its crate."""
    file, name = root.split(":")
    crate = file.partition("/")[0]
    alike = [key for key in graph.definitions if (key[0], key[2]) == (crate, name)]
    if exact_key(file, name) in alike:
        return exact_key(file, name)
    if len(alike) != 1:
        raise SystemExit(f"checks/headline.py: {file} has no {name}")
    return alike[0]


def needed_keys(graph):
    """The definitions that the headline rests on."""
    needed = {}
    for root in ROOTS:
        needed.update(dict.fromkeys(reach.depth_first(graph, root_key(graph, root))))
    return [key for key in needed if key in graph.definitions]


def alias_of(key, keys):
    """The name of a definition on the entry page: its own, if no other has it."""
    alike = [other for other in keys if other[2].lower() == key[2].lower()]
    return key[2] if len(alike) == 1 else f"{key[0].removeprefix('it_')}_{key[2]}"


def words_of(definition):
    """The text of a definition's comment."""
    own = " ".join(line.lstrip("- ").strip() for line in definition.comment)
    return own or COMMENTS.get(definition.name, "as its equation says")


def comment_of(words):
    """A comment in lines of 100 columns."""
    return "".join(f"-- {line}\n" for line in textwrap.wrap(words, 97))


def entry_pages(graph, page):
    """The text of each entry page, by its path."""
    first, _, second = page.partition(SECOND_PART)
    quoted = quoted_keys(graph, page)
    return {ENTRIES / f"{name}.antt": entry_page(graph, name, quoted_keys(graph, part), quoted)
            for name, part in zip(PARTS, (first, second))}


def entry_page(graph, name, keys, quoted):
    """The text of an entry page."""
    parts = [comment_of(HEAD.format(part=PARTS[name])), "--\n"]
    for key in keys:
        alias = alias_of(key, quoted)
        item = key[2] if alias == key[2] else f"{key[2]} as {alias}"
        parts.append(comment_of(words_of(graph.definitions[key])))
        parts.append(f"pub use Rattle.{key[0]}.specs.{key[1]}.{{{item}}}\n")
    return "".join(parts)


def foreign_names(graph):
    """The names on which the headline rests of crates outside this repository, other than std."""
    own = set(tree.crate_names()) | {"std"}
    for key in needed_keys(graph):
        module = graph.modules[(key[0], key[1])]
        for words in specs.used_names(graph.definitions[key].code()):
            path, name = module.imports.get(words[0], (("std",), None))
            if len(words) == 2 and words[0] in module.aliases:
                path, name = module.aliases[words[0]], words[1]
            if path[0] not in own:
                yield path[0], name


def faults(graph, page):
    """What is not as it should be."""
    name = tree.name_of(PAGE)
    for found in QUOTATION.finditer(page):
        if found[0] != quotation_as(graph, found):
            yield f"{name}: {found['file']}: {found['names']} is quoted otherwise than it stands"
    quoted, needed = quoted_keys(graph, page), needed_keys(graph)
    for key in needed:
        if key not in quoted:
            yield f"{name}: the headline rests on {reach.shown(key)}, which is not quoted"
    for key in quoted:
        if key not in needed:
            yield f"{name}: the headline does not rest on {reach.shown(key)}, which is quoted"
    for crate, word in sorted(set(foreign_names(graph))):
        if f"`{word}`" not in page or f"`{crate}`" not in page:
            yield f"{name}: {word} of {crate} is trusted, and is not told"
    for path, text in entry_pages(graph, page).items():
        if not path.exists() or path.read_text() != text:
            yield f"{tree.name_of(path)}: does not name what {name} quotes"


def main():
    """Does what the arguments say."""
    words = tree.words_of(__doc__)
    words.add_argument("--write", action="store_true")
    words.add_argument("--list", action="store_true")
    chosen = words.parse_args()
    graph = reach.Graph()
    page = PAGE.read_text()
    lost = list(lost_names(graph, page))
    if lost:
        return tree.report(lost)
    if chosen.list:
        quoted = quoted_keys(graph, page)
        return tree.report(reach.shown(key) for key in needed_keys(graph) if key not in quoted)
    if chosen.write:
        page = with_quotations(graph, page)
        PAGE.write_text(page)
        for path, text in entry_pages(graph, page).items():
            path.write_text(text)
    return tree.report(list(faults(graph, page)))


if __name__ == "__main__":
    sys.exit(main())
