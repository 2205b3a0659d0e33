"""The completions of the commands for bash, zsh and fish, from the list docs/commands.json."""

MADE = "Made by checks/manual.py from docs/commands.json."
TYPE = "application/vnd.in-toto+json"
DEPTHS = " ".join(str(depth) for depth in range(9))
# What each shell offers for a value, by its kind. For other kinds it offers nothing.
BASH = {
    "file": "compgen -f -- \"$word\"",
    "folder": "compgen -d -- \"$word\"",
    "depth": f"compgen -W '{DEPTHS}' -- \"$word\"",
    "type": f"compgen -W {TYPE} -- \"$word\"",
}
ZSH = {"file": "_files", "folder": "_files -/", "depth": f"({DEPTHS})", "type": f"({TYPE})"}
FISH = {
    "file": "-r -F",
    "folder": "-x -a '(__fish_complete_directories)'",
    "depth": f"-x -a '{DEPTHS}'",
    "type": f"-x -a {TYPE}",
}
BASH_SCRIPT = """\
# Bash completions for {program}. {made}

_{program}_values() {{
    case $1 in
{values}
    esac
}}

_{program}() {{
    local word=${{COMP_WORDS[COMP_CWORD]}} before=${{COMP_WORDS[COMP_CWORD - 1]}}
    local command=${{COMP_WORDS[1]}} offered
    # Of --option=value bash makes three words.
    if [ "$word" = = ]; then
        word= before=$before=
    elif [ "$before" = = ]; then
        before=${{COMP_WORDS[COMP_CWORD - 2]}}=
    fi
    if [ "$COMP_CWORD" = 1 ]; then
        offered=$(compgen -W '{commands}' -- "$word")
    elif [[ $before == --* ]]; then
        offered=$(_{program}_values "$command$before")
    else
        case $command in
{options}
        esac
    fi
    mapfile -t COMPREPLY < <(printf '%s' "${{offered:+$offered$'\\n'}}")
}}

complete -o filenames -F _{program} {program}
"""
ZSH_SCRIPT = """\
#compdef {program}
# Zsh completions for {program}. {made}

_{program}() {{
    local curcontext=$curcontext state line
    local -a commands=(
{commands}
    )
    _arguments -C '1: :->command' '*:: :->words'
    case $state in
        command) _describe -t commands command commands ;;
        words)
            case $line[1] in
{words}
            esac ;;
    esac
}}

_{program} "$@"
"""
FISH_SCRIPT = """\
# Fish completions for {program}. {made}
complete -c {program} -f
{lines}
"""


def takes_files(command):
    """Whether a command takes files as arguments."""
    return any(argument["kind"] == "file" for argument in command["arguments"])


def option_names(command):
    """The options of a command, separated by spaces."""
    return " ".join(f"--{option['name']}" for option in command["options"])


def offers_of(command):
    """What bash offers for a word of a command: its options, and files where it takes files."""
    names = option_names(command)
    offers = [f"compgen -W '{names}' -- \"$word\""] if names else []
    return "; ".join(offers + ([BASH["file"]] if takes_files(command) else []))


def value_lines(listed):
    """What bash offers after each option: values, if their kind is known; after an option without a
    value, words of the command; and after the = of one that may have a value, that value."""
    for command in listed["commands"]:
        for option in command["options"]:
            named = f"{command['name']}--{option['name']}"
            if option["kind"] in BASH:
                yield f"        {named} | {named}=) {BASH[option['kind']]} ;;"
            if option["use"] == "maybe":
                yield f"        {named}=) compgen -W {option['value']} -- \"$word\" ;;"
            if option["use"] == "maybe" or not option["value"]:
                yield f"        {named}) {offers_of(command)} ;;"


def word_lines(listed):
    """What bash offers for a word of each command."""
    for command in listed["commands"]:
        offers = offers_of(command)
        if offers:
            yield f"            {command['name']}) offered=$({offers}) ;;"


def bash(listed):
    """The completions for bash."""
    return BASH_SCRIPT.format(
        program=listed["program"],
        made=MADE,
        commands=" ".join(command["name"] for command in listed["commands"]),
        values="\n".join(value_lines(listed)),
        options="\n".join(word_lines(listed)),
    )


def zsh_text(text):
    """A text escaped for a quoted word of zsh's completions."""
    for one in "\\[]:":
        text = text.replace(one, "\\" + one)
    return text.replace("'", "'\\''")


def zsh_value(option):
    """What stands before and behind the text of an option for its value."""
    if option["use"] == "maybe":
        return "=-", f"::{option['value']}:({option['value']})"
    return ("=", f":{option['value']}:{ZSH.get(option['kind'], ' ')}") if option["value"] else ("", "")


def zsh_words(command):
    """What zsh completes after the name of a command."""
    for option in command["options"]:
        often = "*" if option["use"] == "any" else ""
        before, behind = zsh_value(option)
        yield f"'{often}--{option['name']}{before}[{zsh_text(option['text'])}]{behind}'"
    for argument in command["arguments"]:
        often = "*" if argument["value"].endswith("..") else ""
        offers = ZSH.get(argument["kind"], " ")
        yield f"'{often}:{argument['value'].removesuffix('..')}:{offers}'"


def zsh(listed):
    """The completions for zsh."""
    commands = [f"        '{command['name']}:{zsh_text(command['text'])}'"
                for command in listed["commands"]]
    words = []
    for command in listed["commands"]:
        given = " \\\n                    ".join(["_arguments", *zsh_words(command)])
        words.append(f"                {command['name']}) {given} ;;")
    return ZSH_SCRIPT.format(program=listed["program"], made=MADE, commands="\n".join(commands),
                             words="\n".join(words))


def fish_text(text):
    """A text as a quoted word of fish."""
    return "'" + text.replace("\\", "\\\\").replace("'", "\\'") + "'"


def fish_value(option):
    """What fish offers for the value of an option."""
    if option["use"] == "maybe":
        return f" -f -a {option['value']}"
    return f" {FISH.get(option['kind'], '-x')}" if option["value"] else ""


def fish_lines(listed):
    """What fish completes."""
    start = f"complete -c {listed['program']} -n"
    for command in listed["commands"]:
        text = fish_text(command["text"])
        yield f"{start} __fish_use_subcommand -a {command['name']} -d {text}"
        seen = f"{start} '__fish_seen_subcommand_from {command['name']}'"
        for option in command["options"]:
            yield f"{seen} -l {option['name']}{fish_value(option)} -d {fish_text(option['text'])}"
        if takes_files(command):
            yield f"{seen} -F"


def fish(listed):
    """The completions for fish."""
    return FISH_SCRIPT.format(program=listed["program"], made=MADE,
                              lines="\n".join(fish_lines(listed)))
