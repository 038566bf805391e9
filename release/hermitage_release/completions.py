"""Completions for bash, zsh and fish."""
from hermitage_release.command_line import HELP, Item, Program, Subcommand

NAME = "hermitage_lab"


def quoted(text: str) -> str:
    """A text as one word of a shell."""
    return "'" + text.replace("'", "'\\''") + "'"


def names_of(program: Program) -> list[str]:
    """All subcommands."""
    return [*(made.name for made in program.subcommands), HELP]


def takes_files(made: Subcommand) -> bool:
    """Whether a subcommand has arguments that are file names."""
    return any(not item.values for item in made.arguments)


def bash(program: Program) -> str:
    """The completion for bash. It needs no library."""
    values, words, files = [], [], []
    for made in program.subcommands:
        for item in made.options:
            if item.values:
                values.append(f'        "{made.name} {item.long}") words={quoted(" ".join(item.values))} ;;')
            elif item.value:
                values.append(f'        "{made.name} {item.long}") words= files=yes ;;')
        options = " ".join(name for item in made.options for name in item.names())
        words.append(f'        "{made.name} -"*) words={quoted(options)} ;;')
        others = [value for item in made.arguments for value in item.values]
        if others:
            files.append(f'        "{made.name} "*) words={quoted(" ".join(others))} ;;')
        elif takes_files(made):
            files.append(f'        "{made.name} "*) files=yes ;;')
    top = " ".join([*names_of(program), *(name for item in program.options for name in item.names())])
    return f"""# Completion of {NAME} for bash.
_{NAME}() {{
    local word=${{COMP_WORDS[COMP_CWORD]}} before=${{COMP_WORDS[COMP_CWORD - 1]}} command=${{COMP_WORDS[1]}} words= files=
    COMPREPLY=()
    if [ "$COMP_CWORD" -eq 1 ]; then
        words={quoted(top)}
    elif [ "$command" = {HELP} ]; then
        words={quoted(" ".join(names_of(program)[:-1]))}
    else
        case "$command $before" in
{chr(10).join(values)}
        *)
            case "$command $word" in
{chr(10).join(f"    {line}" for line in [*words, *files])}
            esac
            ;;
        esac
    fi
    if [ -n "$files" ]; then
        mapfile -t COMPREPLY < <(compgen -f -- "$word")
        compopt -o filenames 2>/dev/null
    else
        mapfile -t COMPREPLY < <(compgen -W "$words" -- "$word")
    fi
}}
complete -F _{NAME} {NAME}
"""


def zsh_item(item: Item) -> str:
    """An option or an argument as `_arguments` takes it."""
    text = "".join(f"\\{letter}" if letter in "[]:\\" else letter for letter in item.text)
    value = f":{item.value.lower()}:{'(' + ' '.join(item.values) + ')' if item.values else '_files'}" if item.value else ""
    if not item.long:
        return quoted(f"*{value}")
    return " ".join(quoted(f"{name}[{text}]{value}") for name in item.names())


def zsh(program: Program) -> str:
    """The completion for zsh."""
    listed = "\n".join(f"        {quoted(f'{made.name}:{made.about}')}" for made in program.subcommands)
    cases = []
    for made in program.subcommands:
        items = " \\\n                ".join(zsh_item(item) for item in [*made.options, *made.arguments])
        cases.append(f"        {made.name})\n            _arguments \\\n                {items}\n            ;;")
    return f"""#compdef {NAME}
# Completion of {NAME} for zsh.
_{NAME}() {{
    local -a commands
    commands=(
{listed}
        '{HELP}:Prints help'
    )
    if (( CURRENT == 2 )); then
        _describe command commands
        _arguments {" ".join(zsh_item(item) for item in program.options)}
        return
    fi
    shift words
    (( CURRENT -= 1 ))
    case ${{words[1]}} in
{chr(10).join(cases)}
        {HELP})
            _describe command commands
            ;;
    esac
}}
_{NAME} "$@"
"""


def fish_item(when: str, item: Item) -> str:
    """An option or an argument as `complete` takes it."""
    names = " ".join([f"-s {item.short[1:]}"] * bool(item.short) + [f"-l {item.long[2:]}"] * bool(item.long))
    values = f" -x -a {quoted(' '.join(item.values))}" if item.values else " -r -F" if item.value else ""
    return f"complete -c {NAME} -n {quoted(when)} {names}{values} -d {quoted(item.text)}"


def fish(program: Program) -> str:
    """The completion for fish."""
    top, seen = "__fish_use_subcommand", "__fish_seen_subcommand_from"
    lines = [f"# Completion of {NAME} for fish.", f"complete -c {NAME} -f"]
    lines += [fish_item(top, item) for item in program.options]
    for made in program.subcommands:
        lines.append(f"complete -c {NAME} -n {top} -a {made.name} -d {quoted(made.about)}")
        lines += [fish_item(f"{seen} {made.name}", item) for item in made.options]
        for item in made.arguments:
            more = f"-a {quoted(' '.join(item.values))}" if item.values else "-F"
            lines.append(f"complete -c {NAME} -n {quoted(f'{seen} {made.name}')} {more} -d {quoted(item.text)}")
    lines.append(f"complete -c {NAME} -n {top} -a {HELP} -d 'Prints help'")
    lines.append(f"complete -c {NAME} -n '{seen} {HELP}' -a {quoted(' '.join(names_of(program)[:-1]))}")
    return "\n".join(lines) + "\n"


def files(program: Program) -> dict[str, str]:
    """The text of each shell's file."""
    return {f"{NAME}.bash": bash(program), f"_{NAME}": zsh(program), f"{NAME}.fish": fish(program)}
