#!/usr/bin/env python3
"""Keeps what describes the commands in step with the list docs/commands.json.

That is docs/itv.1, the man page, the completions for bash, zsh and fish, the usages that itv
itself writes, and the version that its library tells, with its definition. Fails where one of them
is not what the list gives, and where docs/commands.md does not show the arguments of a command as
the list has them.

    manual.py          checks
    manual.py --write  writes the files
"""

import itertools
import json
import sys
import textwrap

import completions
import tree

LIST = tree.TOP / "docs" / "commands.json"
TABLE = tree.TOP / "docs" / "commands.md"
PAGE = tree.TOP / "docs" / "itv.1"
COMPLETIONS = tree.TOP / "completions"
USAGES = tree.TOP / "crates" / "it_words" / "src" / "words" / "usages.rt"
VERSION = tree.TOP / "crates" / "it_library" / "src" / "version.rt"
VERSION_SOURCE = """\
//! The version. Made by checks/manual.py from docs/commands.json.

/// The program with its version.
pub(crate) const VERSION: &str = "{program} {version}";
"""
DEFINITION = tree.TOP / "crates" / "it_library" / "specs" / "Version.antt"
DEFINITION_SOURCE = """\
-- The version. Made by checks/manual.py from docs/commands.json.
use Rattle.std.specs.Prelude.{{ℕ, List, codes}}

-- the program with its version
abbrev pub version_text : List ℕ
version_text = codes "{program} {version}"
"""
# The most columns that a line of a usage has.
COLUMNS = 79
USAGE_SOURCE = """\
//! The usages of the commands. Made by checks/manual.py from docs/commands.json.
use super::usage::Usage;

/// The program with its version.
pub(super) const VERSION: &str = "{version}";

/// What the program does.
pub(super) const SUMMARY: &str =
    "{summary}";

/// The usages, in the order in which they are shown.
pub(super) static USAGES: [Usage; {number}] = [
{names}
];
{usages}"""
USAGE = """
/// The usage of `{program} {command}`.
pub(super) const {constant}: Usage = Usage {{
    name: "{command}",
    line: "{line}",
    text: "{text}",
}};
"""


def text_of(words):
    """A text escaped for roff."""
    plain = words.replace("\\", "\\e").replace("-", "\\-")
    return "\\&" + plain if plain.startswith((".", "'")) else plain


def with_value(option):
    """An option with its value, between brackets where it may be left out."""
    if option["use"] == "maybe":
        return f"--{option['name']}[={option['value']}]"
    return f"--{option['name']} {option['value']}".rstrip()


def option_of(option):
    """An option with its value, escaped for roff."""
    name, _, value = with_value(option).partition(" ")
    return f"{text_of(name)} \\fI{value}\\fR" if value else text_of(name)


def choice_of(arguments, options):
    """Arguments and options of which those of one choice must be given; a bar separates the
    choices."""
    choices = {}
    for argument in arguments:
        choices.setdefault(argument["choice"], []).append(argument["value"])
    for option in options:
        choices.setdefault(option["choice"], []).append(with_value(option))
    return "(" + " | ".join(" ".join(words) for words in choices.values()) + ")"


def words_of(command):
    """The arguments of a command, as a synopsis shows them."""
    forms = {"needed": "{}", "any": "[{}..]"}
    chosen = [argument for argument in command["arguments"] if "choice" in argument]
    words = [argument["value"] for argument in command["arguments"] if argument not in chosen]
    for use, options in itertools.groupby(command["options"], key=lambda option: option["use"]):
        if use == "one":
            words.append(choice_of(chosen, options))
        elif use == "together":
            words.append("[" + " ".join(with_value(option) for option in options) + "]")
        else:
            words += [forms.get(use, "[{}]").format(with_value(option)) for option in options]
    return " ".join(words)


def command_lines(program, command):
    """What the man page says about a command."""
    yield f".SS \"{program} {command['name']}\""
    yield text_of(command["text"])
    for option in command["options"]:
        yield f".TP\n{option_of(option)}"
        yield text_of(option["text"])


def status_lines(listed):
    """The table of statuses."""
    found = {0: "good", 1: "bad"}
    for number, name in found.items():
        told = [f"{command['name']}: {command[name]}" for command in listed["commands"]
                if command[name]]
        yield f".TP\n{number}\n{text_of('; '.join(told))}."
    for status in listed["statuses"]:
        yield f".TP\n{status['number']}\n{text_of(status['text'])}"


def page_lines(listed):
    """The lines of the man page."""
    program = listed["program"]
    yield '.\\" Made by checks/manual.py from docs/commands.json.'
    yield f'.TH {program.upper()} 1 "" "{program} {listed["version"]}" "User Commands"'
    yield f".SH NAME\n{program} \\- {text_of(listed['summary'])}"
    yield ".SH SYNOPSIS\n.nh\n.ad l"
    for command in listed["commands"]:
        yield f".HP 4\n\\fB{program} {command['name']}\\fR {text_of(words_of(command))}"
    yield ".ad\n.hy\n.SH DESCRIPTION"
    yield "\n.PP\n".join(text_of(words) for words in listed["description"])
    yield ".SH COMMANDS"
    for command in listed["commands"]:
        yield from command_lines(program, command)
    yield ".SH EXIT STATUS"
    yield from status_lines(listed)
    yield ".SH EXAMPLE\n.nf"
    yield "\n".join(text_of(line) for line in listed["example"])
    yield f".fi\n.SH SEE ALSO\n{text_of(listed['see'])}"


def literal_of(text):
    """A text escaped for a string literal of the source."""
    return text.replace("\\", "\\\\").replace('"', '\\"')


def wrapped(words, first, rest):
    """A text wrapped into lines: the first begins with one text, the others with another."""
    return textwrap.fill(words, COLUMNS, initial_indent=first, subsequent_indent=rest,
                         break_long_words=False, break_on_hyphens=False)


def usage_line(program, command):
    """A command and its arguments, as its usage shows them: an option stays with its value."""
    parts = words_of(command).replace(" --", "\n--").replace(" [--", "\n[--").replace(" (--", "\n(--")
    words = wrapped(parts.replace(" ", "\0").replace("\n", " "), f"{program} {command['name']} ",
                    "    ")
    return words.replace("\0", " ")


def usage_text(command):
    """What a command does, and a line on each option."""
    shown = [with_value(option) for option in command["options"]]
    width = max(map(len, shown), default=0)
    lines = [wrapped(command["text"], "    ", "    ")]
    lines += [wrapped(option["text"], f"      {words:{width}}  ", " " * (width + 8))
              for words, option in zip(shown, command["options"])]
    return "\n".join(lines)


def usages(listed):
    """The source of the usages."""
    program = listed["program"]
    names = [command["name"].upper() for command in listed["commands"]]
    shown = [USAGE.format(program=program, command=command["name"], constant=name,
                          line=literal_of(usage_line(program, command)),
                          text=literal_of(usage_text(command)))
             for name, command in zip(names, listed["commands"])]
    return USAGE_SOURCE.format(version=f"{program} {listed['version']}", number=len(shown),
                               summary=literal_of(listed["summary"]), usages="".join(shown),
                               names=textwrap.fill(", ".join(names) + ",", 100, initial_indent="    ",
                                                   subsequent_indent="    "))


def made(listed):
    """The text of each file that this script makes, by its path."""
    page = "\n".join(page_lines(listed)) + "\n"
    program = listed["program"]
    return {PAGE: page, USAGES: usages(listed), VERSION: VERSION_SOURCE.format(**listed),
            DEFINITION: DEFINITION_SOURCE.format(**listed),
            COMPLETIONS / f"{program}.bash": completions.bash(listed),
            COMPLETIONS / f"_{program}": completions.zsh(listed),
            COMPLETIONS / f"{program}.fish": completions.fish(listed)}


def faults(listed):
    """What is not as the list gives it."""
    told = f"is not what {tree.name_of(LIST)} gives"
    for path, text in made(listed).items():
        if not path.exists() or path.read_text() != text:
            yield f"{tree.name_of(path)}: {told}"
    shown = TABLE.read_text()
    for command in listed["commands"]:
        words = f"`{listed['program']} {command['name']} {words_of(command)}`"
        if words not in shown:
            yield f"{tree.name_of(TABLE)}: does not show {words}"


def main():
    """Does what the arguments say."""
    words = tree.words_of(__doc__)
    words.add_argument("--write", action="store_true")
    is_written = words.parse_args().write
    listed = json.loads(LIST.read_text())
    if is_written:
        for path, text in made(listed).items():
            path.parent.mkdir(exist_ok=True)
            path.write_text(text)
    return tree.report(list(faults(listed)))


if __name__ == "__main__":
    sys.exit(main())
