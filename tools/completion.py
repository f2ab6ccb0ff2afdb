#!/usr/bin/env python3
"""Makes what completes the words of reqkeyd, reqkeyctl, reqkey-trap and reqkey-door in bash, zsh and fish, of what the programs say of themselves.

Use: completion.py FOLDER OUT, with the folder of the programs and the one to write to; `make install` calls it. The programs make their help of the
table by which they read their words, so a command, an option or a name that is new there is completed once this has run.
"""
import pathlib
import re
import shlex
import sys
from typing import NamedTuple

from program_help import option, part, said, subcommands

PROGRAMS = ["reqkeyd", "reqkeyctl"]
STARTER = "reqkey-trap"  # has no commands: options, and then another program with its words
SERVER = "reqkey-door"  # has options alone
FILES = {"PATH", "FILE", "FOLDER"}  # the values that are files or folders
REST = "files"  # the argument that stands for any number of files


class Option(NamedTuple):
    spellings: list
    value: str  # the name of its value, or nothing
    about: str
    instead: str  # the argument that is not given where this option is, or nothing


class Call(NamedTuple):
    """A subcommand, or the program itself."""

    about: str
    options: list
    arguments: list


class Program(NamedTuple):
    name: str
    itself: Call
    commands: dict
    words: dict  # for an argument its words, each with what it is for


def brief(text):
    """The beginning of a description, up to where it goes into details."""
    return re.split(r"[;(]| \[|\.(?:\s|$)", text)[0].strip()


def read_options(text):
    found = []
    for line in part(text, "Options"):
        *spellings, last = option(line).split(" ")
        value = last if spellings and not last.startswith("-") else ""
        about = re.split(r"\s{2,}", line, maxsplit=1)[1]
        instead = re.search(r"no <(\w+)> is given", about)
        found.append(Option(spellings if value else [*spellings, last], value, brief(about), instead[1] if instead else ""))
    return found


def words_of(rule, errors):
    """The words that the rule of an argument names: `keep, default or user`, or of numbers those that are errors."""
    names = re.fullmatch(r"(?:a number up to \d+, or )?((?:[a-z]+, )*[a-z]+(?: or [a-z]+)?)(?:: (.*))?", rule)
    if names:
        return {word: names[2] or "" for word in re.split(r", | or ", names[1])}
    bounds = re.fullmatch(r"the number of an error, (\d+) to (\d+)", rule)
    return {number: name for number, name in errors.items() if bounds and int(bounds[1]) <= int(number) <= int(bounds[2])}


def read_program(path):
    """All that a program says of its words."""
    text = said(path, "--help")
    errors = dict(line.split() for line in part(text, "Errors"))
    commands, words = {}, {}
    for name in subcommands(text):
        its = said(path, name, "--help")
        rules = [re.split(r"\s{2,}", line, maxsplit=1) for line in part(its, "Arguments")]
        arguments = [argument.strip("<>[].") for argument, _ in rules]
        words.update((argument, words_of(rule, errors)) for argument, (_, rule) in zip(arguments, rules))
        commands[name] = Call(brief(its.partition("\n")[0]), read_options(its), arguments)
    words = {"command": {name: call.about for name, call in commands.items()}, **{name: its for name, its in words.items() if its}}
    return Program(path.name.partition(".")[0], Call("", read_options(text), ["command"]), commands, words)


def spellings(options):
    return " ".join(word for it in options for word in it.spellings)


def filled(template, program, **parts):
    """A template with these parts in the place of their names; a line that would be empty is left out."""
    for name, text in {"name": program.name, **parts}.items():
        place = f"@{name.upper()}@"
        template = template.replace(place, text) if text else template.replace(f"{place}\n", "").replace(place, "")
    return template


BASH = """\
# Completes the words of @NAME@ in bash. Made by tools/completion.py of what the program says of itself.
_@NAME@()
{
    # for the program and each command its options; for each command its arguments, and for those their words; for options the names of their
    # values, and the arguments in whose place they stand
    local -A options=(
@OPTIONS@
    )
    local -A arguments=(
@ARGUMENTS@
    )
    local -A words=(
@WORDS@
    )
    local -A values=(@VALUES@)
    local -A instead=(@INSTEAD@)
    local current=${COMP_WORDS[COMP_CWORD]} command=@NAME@ value= dropped= seen=0 candidates word at
    local -a left=(command)

    # what the words up to the current one say; those behind the first argument are arguments, whatever they look like
    for ((at = 1; at < COMP_CWORD; at++)); do
        word=${COMP_WORDS[at]}
        if [[ $value ]]; then
            [[ $word == = ]] || value=
        elif [[ $seen == 0 && $word == -* && " ${options[$command]} " == *" $word "* ]]; then
            value=${values[$word]}
            dropped+=" ${instead[$word]} "
        elif [[ $command == @NAME@ ]]; then
            command=$word
            left=()
            for word in ${arguments[$command]}; do
                [[ $dropped == *" $word "* ]] || left+=("$word")
            done
        else
            seen=1
            [[ ${left[0]} == files ]] || left=("${left[@]:1}")
        fi
    done

    COMPREPLY=()
    [[ $current != = ]] || current=
    if [[ $value == PATH || $value == FILE || $value == FOLDER || (! $value && ${left[0]} == files && $current != -*) ]]; then
        compopt -o filenames 2> /dev/null
        mapfile -t COMPREPLY < <(compgen -f -- "$current")
    elif [[ ! $value ]]; then
        candidates=${words[${left[0]:--}]}
        [[ $current != -* || $seen == 1 ]] || candidates=${options[$command]}
        mapfile -t COMPREPLY < <(compgen -W "$candidates" -- "$current")
    fi
}
complete -F _@NAME@ @NAME@
"""


def bash(program):
    def rows(table):
        return "\n".join(f"        [{name}]={shlex.quote(text)}" for name, text in table.items() if text)

    def pairs(table):
        return " ".join(f"[{name}]={text}" for name, text in table.items() if text)

    options = [it for call in [program.itself, *program.commands.values()] for it in call.options]
    return filled(
        BASH, program,
        options=rows({program.name: spellings(program.itself.options), **{name: spellings(call.options) for name, call in program.commands.items()}}),
        arguments=rows({name: " ".join(call.arguments) for name, call in program.commands.items()}),
        words=rows({name: " ".join(its) for name, its in program.words.items()}),
        values=pairs({word: it.value for it in options for word in it.spellings}),
        instead=pairs({word: it.instead for it in options for word in it.spellings}),
    )


ZSH = """\
#compdef @NAME@
# Completes the words of @NAME@ in zsh. Made by tools/completion.py of what the program says of itself.
_@NAME@()
{
    local curcontext=$curcontext state line name
    local -A opt_args given
    local -a options left arguments
    local -A words_of=(
@WORDS@
    )

    _arguments -C -A '-*' \\
@ITSELF@
        '1:command:->command' '*::argument:->argument' && return
    given=("${(@kv)opt_args}")
    case $state in
    command)
        left=(
@COMMANDS@
        )
        _describe command left
        ;;
    argument)
        options=('(-h --help)'{-h,--help}'[Print help]')
        case $words[1] in
@ARGUMENTS@
        esac
@INSTEAD@
        for name in $left; do
            arguments+=("$(($#arguments + 1)):$name:${words_of[$name]- }")
        done
        _arguments $options $arguments
        ;;
    esac
}
_@NAME@ "$@"
"""


def zsh_quoted(text):
    return shlex.quote(text).replace("'\"'\"'", r"'\''")


def zsh_option(it):
    """An option as _arguments takes it."""
    about = re.sub(r"([\[\]:])", r"\\\1", it.about)
    if it.value:
        return " ".join(zsh_quoted(f"{word}=[{about}]:{it.value}:{'_files' if it.value in FILES else ' '}") for word in it.spellings)
    if len(it.spellings) == 1:
        return zsh_quoted(f"{it.spellings[0]}[{about}]")
    return zsh_quoted(f"({' '.join(it.spellings)})") + "{" + ",".join(it.spellings) + "}" + zsh_quoted(f"[{about}]")


def zsh(program):
    def case(name, call):
        own = [zsh_option(it) for it in call.options if "--help" not in it.spellings]
        more = "".join(f"\n                {it}" for it in own)
        names = f"arguments=('*:{REST}:_files')" if call.arguments == [REST] else f"left=({' '.join(call.arguments)})"
        acts = ([f"options+=({more}\n            )"] if own else []) + ([names] if call.arguments else [])
        return "\n".join([f"        {name})", *[f"            {act}" for act in acts], "            ;;"]) if acts else None

    def action(its):
        """What completes an argument: its words alone, or each with what it is for."""
        told = " ".join(f"{word}\\:{shlex.quote(about)}" if about else word for word, about in its.items())
        return f"(({told}))" if any(its.values()) else f"({told})"

    return filled(
        ZSH, program,
        words="\n".join(f"        {name} {zsh_quoted(action(its))}" for name, its in program.words.items() if name != "command"),
        itself="\n".join(f"        {zsh_option(it)} \\" for it in program.itself.options),
        commands="\n".join("            " + zsh_quoted(f"{name}:{call.about}") for name, call in program.commands.items()),
        arguments="\n".join(filter(None, (case(name, call) for name, call in program.commands.items()))),
        instead="\n".join(f"        (( $+given[{it.spellings[0]}] )) && left=(${{left:#{it.instead}}})" for it in program.itself.options if it.instead),
    )


FISH = """\
# Completes the words of @NAME@ in fish. Made by tools/completion.py of what the program says of itself.

# Whether this is what comes next: `command`, or behind one the name of its argument, or `in COMMAND`.
function __@NAME@_at
    set -l words (commandline -opc)
    set -e words[1]
    set -l left command
    set -l command @NAME@
    set -l dropped
    while set -q words[1]
        set -l word $words[1]
        set -e words[1]
        if test $command != @NAME@
            contains files $left; or set -e left[1]
            continue
        end
        switch $word
@VALUES@
            case '-*'
                continue
            case '*'
                set command $word
                set left
        end
        switch $command
@ARGUMENTS@
        end
        for name in $dropped
            set left (string match -v -- $name $left)
        end
    end
    test "$left[1]" = "$argv[1]"; or test "in $command" = "$argv"
end

complete -c @NAME@ -f
@OPTIONS@
@WORDS@
"""


def fish_quoted(text):
    return "'" + text.replace("\\", "\\\\").replace("'", "\\'") + "'"


def fish_option(it):
    """An option as `complete` takes it."""
    names = " ".join(f"-l {word[2:]}" if word.startswith("--") else f"-s {word[1:]}" for word in it.spellings)
    value = " -r -F" if it.value in FILES else " -x" if it.value else ""
    return f"{names}{value} -d {fish_quoted(it.about)}"


def fish(program):
    def at(condition):
        return f"complete -c {program.name} -n {fish_quoted(f'__{program.name}_at {condition}')}"

    def case(words, *acts):
        return "\n".join([f"            case {words}", *[f"                {act}" for act in acts]])

    values = []
    for it in program.itself.options:
        if it.instead:
            values.append(case(it.spellings[0], f"set -a dropped {it.instead}", "set -e words[1]", "continue"))
            values.append(case(f"'{it.spellings[0]}=*'", f"set -a dropped {it.instead}", "continue"))
    others = " ".join(word for it in program.itself.options if it.value and not it.instead for word in it.spellings)
    values += [case(others, "set -e words[1]", "continue")] if others else []
    rows = [f"{at('command')} {fish_option(it)}" for it in program.itself.options]
    rows += [f"{at(f'in {name}')} {fish_option(it)}" for name, call in program.commands.items() for it in call.options]
    takes_files = [REST] in [call.arguments for call in program.commands.values()]
    words = [f"{at(REST)} -F"] if takes_files else []
    for name, its in program.words.items():
        words += [f"{at(name)} -a {word}" + (f" -d {fish_quoted(about)}" if about else "") for word, about in its.items()]
    return filled(
        FISH, program,
        values="\n".join(values),
        arguments="\n".join(case(name, f"set left {' '.join(call.arguments)}") for name, call in program.commands.items() if call.arguments),
        options="\n".join(rows),
        words="\n".join(words),
    )


STARTER_BASH = """\
# Completes the words of @NAME@ in bash. Made by tools/completion.py of what the program says of itself.
_@FUNCTION@()
{
    local -A values=(@VALUES@)
    local current=${COMP_WORDS[COMP_CWORD]} value= at word
    COMPREPLY=()
    for ((at = 1; at < COMP_CWORD; at++)); do
        word=${COMP_WORDS[at]}
        if [[ $value ]]; then
            [[ $word == = ]] || value=
        elif [[ $word == -* && $word != -- ]]; then
            value=${values[$word]}
        else
            [[ $word != -- ]] || ((at++))
            break
        fi
    done
    [[ $current != = ]] || current=
    if [[ $value == PATH ]] || ((at < COMP_CWORD)); then
        compopt -o filenames 2> /dev/null
        mapfile -t COMPREPLY < <(compgen -f -- "$current")
    elif [[ ! $value && $current == -* && ${COMP_WORDS[COMP_CWORD - 1]} != -- ]]; then
        mapfile -t COMPREPLY < <(compgen -W "@OPTIONS@" -- "$current")
    elif [[ ! $value ]]; then
        mapfile -t COMPREPLY < <(compgen -c -- "$current")
    fi
}
complete -F _@FUNCTION@ @NAME@
"""

STARTER_ZSH = """\
#compdef @NAME@
# Completes the words of @NAME@ in zsh. Made by tools/completion.py of what the program says of itself.
_arguments -S -A '-*' \\
@OPTIONS@
    '(-)1:program: _command_names -e' '*::words: _normal'
"""

STARTER_FISH = """\
# Completes the words of @NAME@ in fish. Made by tools/completion.py of what the program says of itself.
@OPTIONS@
complete -c @NAME@ -x -a '(__fish_complete_subcommand - @VALUES@)'
"""


SERVER_BASH = """\
# Completes the words of @NAME@ in bash. Made by tools/completion.py of what the program says of itself.
_@FUNCTION@()
{
    local -A values=(@VALUES@)
    local current=${COMP_WORDS[COMP_CWORD]} before=${COMP_WORDS[COMP_CWORD - 1]}
    COMPREPLY=()
    [[ $before != = ]] || before=${COMP_WORDS[COMP_CWORD - 2]}
    [[ $current != = ]] || { current= before=${COMP_WORDS[COMP_CWORD - 1]}; }
    if [[ ${values[$before]} == PATH ]]; then
        compopt -o filenames 2> /dev/null
        mapfile -t COMPREPLY < <(compgen -f -- "$current")
    elif [[ ! ${values[$before]} ]]; then
        mapfile -t COMPREPLY < <(compgen -W "@OPTIONS@" -- "$current")
    fi
}
complete -F _@FUNCTION@ @NAME@
"""

SERVER_ZSH = """\
#compdef @NAME@
# Completes the words of @NAME@ in zsh. Made by tools/completion.py of what the program says of itself.
_arguments -S \\
@OPTIONS@
    && return
"""

SERVER_FISH = """\
# Completes the words of @NAME@ in fish. Made by tools/completion.py of what the program says of itself.
complete -c @NAME@ -f
@OPTIONS@
"""


def alone_of(name, path, templates, fish_values):
    """The files for a program without commands, by these templates; what stands there for the options with a value in fish."""
    options = read_options(said(path, "--help"))
    program = Program(name, Call("", options, []), {}, {})
    with_value = {word: it.value for it in options if it.value for word in it.spellings}
    in_bash, in_zsh, in_fish = templates
    return {
        f"{name}.bash": filled(in_bash, program, function=name.replace("-", "_"), options=spellings(options),
                               values=" ".join(f"[{word}]={value}" for word, value in with_value.items())),
        f"_{name}": filled(in_zsh, program, options="\n".join(f"    {zsh_option(it)} \\" for it in options)),
        f"{name}.fish": filled(in_fish, program, options="\n".join(f"complete -c {name} {fish_option(it)}" for it in options),
                               **({"values": " ".join(with_value)} if fish_values else {})),
    }


def starter_of(path):
    """The files for the program that starts others."""
    # (with a word other than an option before them, fish takes none for its own)
    return alone_of(STARTER, path, [STARTER_BASH, STARTER_ZSH, STARTER_FISH], fish_values=True)


def server_of(path):
    """The files for the program that has options alone."""
    return alone_of(SERVER, path, [SERVER_BASH, SERVER_ZSH, SERVER_FISH], fish_values=False)


SHELLS = {"{}.bash": bash, "_{}": zsh, "{}.fish": fish}


def made_of(program):
    """The files for a program, by their names."""
    return {file.format(program.name): make(program) for file, make in SHELLS.items()}


def write(out, made):
    """Writes these files into a folder."""
    for file, text in made.items():
        (out / file).write_text(text)


if __name__ == "__main__":
    if len(sys.argv) != 3:
        sys.exit("usage: completion.py FOLDER OUT")
    folder, out = map(pathlib.Path, sys.argv[1:])
    out.mkdir(parents=True, exist_ok=True)
    for name in PROGRAMS:
        write(out, made_of(read_program(folder / name)))
    write(out, starter_of(folder / STARTER))
    write(out, server_of(folder / SERVER))
