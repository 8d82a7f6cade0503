"""Completions for bash, zsh and fish, from the table of commands and options."""
from __future__ import annotations

from typing import Iterable, List, Sequence

from .help import Command, Option, Program

# the names of values that are files, and of those that are folders
FILES = ("FILE", "IN", "LOG", "STATUS", "PROGRAM", "PUBLIC.pem", "PRIVATE.pem", "CA.pem", "CERT.pem")
FOLDERS = ("ARCHIVE", "DIR", "FOLDER")
# options that may be given several times
REPEATED = ("--accept", "--match", "--place", "--key", "--session-key", "--ca", "--ca-anchor", "--cert", "--sshlogin")
NOTE = "Made by tools/make-pages from what --help says."


def kind(value: str) -> str:
    """What a value is: files, folders, codes, or a text that nobody can guess."""
    bare = value.strip("<>.[]")
    return "files" if bare in FILES else "folders" if bare in FOLDERS else "codes" if bare == "CODE" else "text"


def quoted(text: str) -> str:
    """A word in single quotes, for bash and zsh."""
    return "'" + text.replace("'", "'\\''") + "'"


def escaped(words: Iterable[str]) -> str:
    """Words that a shell reads once more: no word is a pattern of file names there."""
    return " ".join(it.replace("?", "\\?") for it in words)


def argument_kind(command: Command) -> str:
    """What the words after a command are."""
    return kind(command.arguments[0][0]) if command.arguments else "none"


def brief(text: str) -> str:
    """The first clause of a text, which fits into a menu."""
    for mark in (". ", "; ", ": ", " ["):
        text = text.split(mark)[0]
    return text.rstrip(".")


# ---- bash


def bash_value(option: Option) -> str:
    """What completes the last value of an option."""
    if option.choices:
        return f"words {quoted(' '.join(option.choices))}"
    return kind(option.values[-1])


def bash_options(name: str, command: Command) -> List[str]:
    """The branches for a word after an option."""
    made = []
    for option in command.options:
        if len(option.values) == 1:
            made.append(f"    {quoted(f'{command.name} {option.name}')}) _{name}_offer {bash_value(option)} ;;")
        elif option.values:
            made.append(f"    {quoted(f'{command.name} {option.name}')}) ;;")
    return made


def bash_second(name: str, command: Command) -> List[str]:
    """The branches for the second word after an option."""
    return [f"    {quoted(f'{command.name} {option.name}')})\n        _{name}_offer {bash_value(option)}\n        return\n        ;;"
            for option in command.options if len(option.values) == 2]


BASH = """# {note} Completion of {program} for bash.
# shellcheck shell=bash

# _{name}_offer KIND [WORDS]: what may stand here.
_{name}_offer() {{
    local current=${{COMP_WORDS[COMP_CWORD]}}
    [[ $current == = ]] && current=
    case $1 in
    words) mapfile -t COMPREPLY < <(compgen -W "$2" -- "$current") ;;
    codes) mapfile -t COMPREPLY < <(compgen -W {codes} -- "$current") ;;
    files)
        compopt -o filenames 2>/dev/null
        mapfile -t COMPREPLY < <(compgen -f -- "$current")
        ;;
    folders)
        compopt -o filenames 2>/dev/null
        mapfile -t COMPREPLY < <(compgen -d -- "$current")
        ;;
    esac
}}

_{name}() {{
    local current=${{COMP_WORDS[COMP_CWORD]}} before=${{COMP_WORDS[COMP_CWORD - 1]}} second='' command=${{COMP_WORDS[1]}}
    COMPREPLY=()
    if [[ $before == *['<>'] ]]; then
        _{name}_offer files
        return
    fi
    if ((COMP_CWORD == 1)); then
        _{name}_offer words {first}
        return
    fi
    ((COMP_CWORD > 3)) && second=${{COMP_WORDS[COMP_CWORD - 2]}}
    # --option=value is three words here
    [[ $before == = ]] && before=$second second=
    case "$command $second" in
{seconds}
    esac
    case "$command $before" in
{values}
    *) _{name}_words "$command" "$current" ;;
    esac
}}

# _{name}_words COMMAND CURRENT: a word that is no value of an option.
_{name}_words() {{
    case $1 in
{words}
    esac
}}

complete -F _{name} {program}
"""


def bash_words(name: str, program: Program, command: Command) -> str:
    """The branch for a word of a command: options, and what its arguments are."""
    options = f"_{name}_offer words {quoted(' '.join(it.name for it in command.options))}"
    argument = argument_kind(command)
    if argument == "none":
        return f"    {command.name}) {options} ;;"
    return f"    {command.name})\n        if [[ $2 == -* ]]; then\n            {options}\n        else\n" \
        f"            _{name}_offer {argument}\n        fi\n        ;;"


def bash(program: Program) -> str:
    """The completion for bash."""
    name = program.name.replace("-", "_")
    words = [bash_words(name, program, it) for it in program.commands]
    words.append(f"    help) _{name}_offer words {quoted(' '.join(it.name for it in program.commands))} ;;")
    seconds = [line for it in program.commands for line in bash_second(name, it)]
    return BASH.format(
        note=NOTE, program=program.name, name=name, codes=quoted(escaped(program.codes)),
        first=quoted(" ".join(first_words(program) + [it.name for it in program.options])),
        seconds="\n".join(seconds or ["    *) ;;"]),
        values="\n".join(line for it in program.commands for line in bash_options(name, it)), words="\n".join(words))


def first_words(program: Program) -> List[str]:
    """The commands, and `help`."""
    return [*(it.name for it in program.commands), "help"]


# ---- zsh


def zsh_text(text: str) -> str:
    """A text between the brackets of a specification."""
    return "".join("\\" + it if it in "[]\\:" else it for it in brief(text))


def zsh_action(option_or_kind: str, choices: Sequence[str], codes: Iterable[str]) -> str:
    """What completes a value."""
    if choices:
        return f"({' '.join(choices)})"
    return {"files": "_files", "folders": "_files -/", "codes": f"({escaped(codes)})"}.get(option_or_kind, " ")


def zsh_option(option: Option, codes: Iterable[str]) -> str:
    """An option as a specification of _arguments."""
    if option.short:
        return f"'(- *)'{{{option.short},{option.name}}}{quoted(f'[{zsh_text(option.text)}]')}"
    made = ("*" if option.name in REPEATED else "") + option.name + ("=" if len(option.values) == 1 else "")
    made += f"[{zsh_text(option.text)}]"
    for index, value in enumerate(option.values):
        choices = option.choices if index == len(option.values) - 1 else []
        made += f":{value}:{zsh_action(kind(value), choices, codes)}"
    return quoted(made)


def zsh_command(program: Program, command: Command) -> List[str]:
    """The branch of a command."""
    specs = [zsh_option(it, program.codes) for it in command.options]
    for number, (value, _) in enumerate(command.arguments, 1):
        bare = value.strip("<>.[]")
        many = "..." in command.usage.split(bare)[-1] or "..." in value
        specs.append(quoted(f"{'*' if many else number}:{bare}:{zsh_action(kind(value), [], program.codes)}"))
    return [f"            {command.name})", "                _arguments \\",
            *[f"                    {it} \\" for it in specs], "                    && ret=0", "                ;;"]


def zsh(program: Program) -> str:
    """The completion for zsh."""
    name = program.name
    commands = [quoted(f"{it.name}:{brief(it.purpose)}") for it in program.commands]
    commands.append(quoted("help:Prints the help of a command"))
    made = [f"#compdef {name}", f"# {NOTE} Completion of {name} for zsh.", "", f"_{name}() {{",
            '    local curcontext="$curcontext" state line ret=1', "    local -a commands",
            "    typeset -A opt_args", "    commands=("]
    made += [f"        {it}" for it in commands]
    made += ["    )", "    _arguments -C \\"]
    made += [f"        {zsh_option(it, program.codes)} \\" for it in program.options]
    made += ["        '1:command:->command' \\", "        '*::argument:->argument' && ret=0", "    case $state in",
             "    command) _describe command commands && ret=0 ;;", "    argument)", "        case $line[1] in"]
    for command in program.commands:
        made += zsh_command(program, command)
    made += ["            help)", "                commands=(${commands:#help:*})",
             "                _describe command commands && ret=0", "                ;;"]
    made += ["        esac", "        ;;", "    esac", "    return ret", "}", "", f'_{name} "$@"']
    return "\n".join(made) + "\n"


# ---- fish


def fish_quoted(text: str) -> str:
    """A word in single quotes, for fish."""
    return "'" + text.replace("\\", "\\\\").replace("'", "\\'") + "'"


def fish_option(name: str, condition: str, option: Option) -> str:
    """An option of fish."""
    made = f"complete -c {name} -n {condition} -l {option.name[2:]}"
    if option.short:
        made += f" -s {option.short[1:]}"
    if option.choices:
        made += f" -x -a {fish_quoted(' '.join(option.choices))}"
    elif option.values and kind(option.values[-1]) == "files":
        made += " -r -F"
    elif option.values and kind(option.values[-1]) == "folders":
        made += " -x -a '(__fish_complete_directories)'"
    elif option.values:
        made += " -x"
    return f"{made} -d {fish_quoted(brief(option.text))}"


def fish_command(program: Program, command: Command) -> List[str]:
    """A command of fish: itself, its options, and what its arguments are."""
    name = program.name
    function = "__" + name.replace("-", "_") + "_command"
    made = [f"complete -c {name} -n {function} -a {command.name} -d {fish_quoted(brief(command.purpose))}"]
    condition = fish_quoted(f"{function} {command.name}")
    made += [fish_option(name, condition, it) for it in command.options]
    argument = argument_kind(command)
    if argument == "files":
        made.append(f"complete -c {name} -n {condition} -F")
    elif argument == "folders":
        made.append(f"complete -c {name} -n {condition} -a '(__fish_complete_directories)'")
        # fish takes the second value of an option for an argument, which is offered folders alone
        made += [f"complete -c {name} -n {fish_quoted(f'{function} {command.name}; and {function}_second {it.name}')} -F"
                 for it in command.options if len(it.values) == 2 and kind(it.values[1]) == "files"]
    elif argument == "codes":
        made.append(f"complete -c {name} -n {condition} -a {fish_quoted(escaped(program.codes))}")
    return made


FISH = """# {note} Completion of {program} for fish.

# {function} [COMMAND]: whether the command line has this command, or none yet.
function {function}
    set -l words (commandline -opc)
    if set -q argv[1]
        set -q words[2]; and test "$words[2]" = "$argv[1]"
    else
        not set -q words[2]
    end
end

# {function}_second OPTION: whether the second value of this option is next.
function {function}_second
    set -l words (commandline -opc)
    set -q words[3]; and test "$words[-2]" = "$argv[1]"
end

complete -c {program} -f
{lines}
"""


def fish(program: Program) -> str:
    """The completion for fish."""
    function = "__" + program.name.replace("-", "_") + "_command"
    lines = [fish_option(program.name, function, it) for it in program.options]
    for command in program.commands:
        lines += fish_command(program, command)
    names = " ".join(it.name for it in program.commands)
    lines.append(f"complete -c {program.name} -n {function} -a help -d 'Prints the help of a command'")
    lines.append(f"complete -c {program.name} -n {fish_quoted(function + ' help')} -a {fish_quoted(names)}")
    return FISH.format(note=NOTE, program=program.name, function=function, lines="\n".join(lines))
