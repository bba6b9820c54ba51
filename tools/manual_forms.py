"""What is made of the manual of sb: the text that `sb --help` prints, the man page, and the completions for bash, zsh and fish."""
from __future__ import annotations

import re
import textwrap
from collections.abc import Callable, Iterable

from manual import Command, Manual, Number, Option, Status, version

WIDTH = 96
# more numbers than that are not offered one by one
OFFERED = 32
MADE = "made of docs/manual.toml by tools/write_manual"


# -------------------------------------------------------------------------------------------------------------- help


def rows(entries: Iterable[tuple[str, str]]) -> list[str]:
    """Two columns, the second wrapped."""
    listed = list(entries)
    left = max(len(name) for name, _ in listed) + 2
    made = []
    for name, text in listed:
        lines = textwrap.wrap(text, WIDTH - left - 2, break_on_hyphens=False)
        made += [f"  {head:<{left}}{line}".rstrip() for head, line in zip([name] + [""] * len(lines), lines or [""])]
    return made


def paragraphs(texts: Iterable[str]) -> list[str]:
    made = []
    for text in texts:
        made += ["", *textwrap.wrap(text, WIDTH, break_on_hyphens=False)]
    return made


def of_commands(option: Option) -> str:
    """The option's text, with the commands that take it."""
    return (f"of {' and '.join(f'`{name}`' for name in option.commands)}: " if option.commands else "") + option.told()


def help_text(m: Manual) -> str:
    starts = ["usage:"] + [""] * len(m.forms())
    lines = [f"{m.name} {m.title}.", *paragraphs(m.about), ""]
    lines += [f"{start:<6} {form}" for start, form in zip(starts, m.forms())]
    lines += ["", "Commands:", *rows((command.name, command.does) for command in m.commands), *paragraphs(m.input)]
    lines += ["", "Options:", *rows((option.all_words(), of_commands(option)) for option in m.options)]
    lines += ["", "Status, and what is printed:", *statuses(m), *paragraphs(m.diagnostics)]
    lines += ["", "Environment:", *rows((variable.name, variable.does) for variable in m.variables)]
    lines += ["", "Examples:", *(f"  {example.command}" for example in m.examples), *paragraphs(m.more)]
    return "\n".join(lines) + "\n"


def statuses(m: Manual) -> list[str]:
    widest = max(len(status.prints) for status in m.statuses)
    return rows((f"{status.status}  {status.prints:<{widest}}", status.means) for status in m.statuses)


# ---------------------------------------------------------------------------------------------------------- man page


def roff(text: str) -> str:
    """Text for roff: what stands between backquotes in bold."""
    parts = text.replace("\\", "\\e").split("`")
    made = "".join(rf"\fB{literal(part)}\fR" if at % 2 else part for at, part in enumerate(parts))
    return re.sub(r"^([.'])", r"\\&\1", made)


def literal(text: str) -> str:
    """Words of a command line, letter by letter: a hyphen and an apostrophe are no others."""
    return text.replace("-", r"\-").replace("'", r"\(aq")


def tagged(entries: Iterable[tuple[str, str]]) -> list[str]:
    made = []
    for tag, text in entries:
        made += [".TP", tag, roff(text)]
    return made


def bold(words: str) -> str:
    return rf"\fB{literal(words)}\fR"


def synopsis(m: Manual, command: Command) -> list[str]:
    options = [rf"[{bold(option.name)}{' N' * (option.number is not None)}]" for option in m.options_of(command)]
    return [".br", " ".join([bold(f"{m.name} {command.name}"), *options, command.operands()])]


def tag_of(option: Option) -> str:
    return ", ".join([*map(bold, option.also), bold(option.name) + " N" * (option.number is not None)])


def page_paragraphs(texts: Iterable[str]) -> list[str]:
    made = []
    for text in texts:
        made += [".PP", roff(text)]
    return made


def man_page(m: Manual) -> str:
    lines = [rf'.\" {MADE}', f'.TH {m.name.upper()} 1 "" "Tolweddi {version()}" "User Commands"']
    lines += [".SH NAME", rf"{m.name} \- {roff(m.title)}", ".SH SYNOPSIS"]
    for command in m.commands:
        lines += synopsis(m, command)
    for option in m.alone():
        lines += [".br", bold(f"{m.name} {option.name}")]
    lines += [".SH DESCRIPTION", *page_paragraphs(m.about)]
    lines += [".SH COMMANDS", *tagged((bold(command.name), command.does) for command in m.commands), *page_paragraphs(m.input)]
    lines += [".SH OPTIONS", *tagged((tag_of(option), of_commands(option)) for option in m.options)]
    lines += [".SH EXIT STATUS", *tagged((bold(str(status.status)), status_text(status)) for status in m.statuses)]
    lines += page_paragraphs(m.diagnostics)
    lines += [".SH ENVIRONMENT", *tagged((bold(variable.name), variable.does) for variable in m.variables)]
    lines += [".SH FILES", *tagged((bold(file.name), file.does) for file in m.files)]
    lines += [".SH EXAMPLES", *tagged((bold(example.command.replace("\\", "\\e")), example.does) for example in m.examples)]
    lines += [".SH SEE ALSO", *page_paragraphs(m.more)]
    return "\n".join(lines) + "\n"


def status_text(status: Status) -> str:
    return status.means + (f" (prints {status.prints})" if status.prints else "")


# ------------------------------------------------------------------------------------------------------- completions


def plain(text: str) -> str:
    return text.replace("`", "")


def quoted(text: str) -> str:
    """A word for a shell, between apostrophes."""
    return "'" + text.replace("'", "'\\''") + "'"


def choices(number: Number | None) -> list[str]:
    """The numbers that are offered: all where they are few."""
    return [] if number is None or number.most - number.least >= OFFERED else [str(n) for n in range(number.least, number.most + 1)]


def bash_completion(m: Manual) -> str:
    first = [command.name for command in m.commands] + [option.name for option in m.alone()]
    values = [
        f"        {command.name}:{option.name}) _sb_offer {quoted(' '.join(choices(option.number)))} \"$word\"; return ;;"
        for command in m.commands for option in m.options_of(command) if option.number
    ]
    options = [
        f"        {command.name}:-*) _sb_offer {quoted(' '.join(option.name for option in m.options_of(command)))} \"$word\" ;;"
        for command in m.commands if m.options_of(command)
    ]
    files = [f"        {command.name}:*) _sb_files \"$word\" ;;" for command in m.commands if command.files]
    return BASH.format(made=MADE, first=quoted(" ".join(first)), values="\n".join(values), rest="\n".join(options + files))


BASH = """# Completes the words of sb in bash; {made}.

_sb_offer() {{
    mapfile -t COMPREPLY < <(compgen -W "$1" -- "$2")
}}

_sb_files() {{
    compopt -o filenames 2>/dev/null
    mapfile -t COMPREPLY < <(compgen -f -- "$1")
}}

_sb() {{
    local word=${{COMP_WORDS[COMP_CWORD]}} before=${{COMP_WORDS[COMP_CWORD - 1]}}
    COMPREPLY=()
    if [ "$COMP_CWORD" = 1 ]; then
        _sb_offer {first} "$word"
        return
    fi
    # bash takes `--workers=4` for three words
    [ "$word" != = ] || word=
    [ "$before" != = ] || before=${{COMP_WORDS[COMP_CWORD - 2]}}
    case ${{COMP_WORDS[1]}}:$before in
{values}
    esac
    case ${{COMP_WORDS[1]}}:$word in
{rest}
    esac
}}

complete -F _sb sb
"""


def zsh_text(text: str) -> str:
    """A description within a specification of _arguments."""
    return re.sub(r"([\[\]:\\])", r"\\\1", plain(text))


def zsh_choices(number: Number) -> str:
    """The numbers that are offered; where it is a blank, zsh shows the description alone."""
    return f"({' '.join(choices(number))})" if choices(number) else " "


def zsh_arguments(m: Manual, command: Command) -> str:
    specs = []
    for option in m.options_of(command):
        value = f":N, {option.number.told()}:{zsh_choices(option.number)}" if option.number else ""
        specs.append(f"{option.name}{'=' * bool(value)}[{zsh_text(option.does)}]{value}")
    specs += [f"{at}:{name}:_files" for at, name in enumerate(command.files, 1)]
    specs += [f"1:N, {command.number.range()}: "] if command.number else []
    return f"            ({command.name}) _arguments {' '.join(map(quoted, specs))} ;;"


def zsh_completion(m: Manual) -> str:
    return ZSH.format(
        made=MADE,
        alone=" ".join(quoted(f"(- :){option.name}[{zsh_text(option.does)}]") for option in m.alone()),
        commands="\n".join(f"        {quoted(f'{command.name}:{zsh_text(command.brief)}')}" for command in m.commands),
        cases="\n".join(zsh_arguments(m, command) for command in m.commands),
    )


ZSH = """#compdef sb
# Completes the words of sb in zsh; {made}.

_sb() {{
    local state
    local -a line commands
    commands=(
{commands}
    )
    _arguments -C {alone} '1: :->command' '*:: :->words' && return
    case $state in
        (command) _describe command commands ;;
        (words)
            case $line[1] in
{cases}
            esac
            ;;
    esac
}}

_sb "$@"
"""


def fish_option(option: Option, condition: str) -> str:
    value = f" -x -a {quoted(' '.join(choices(option.number)))}" if option.number else ""
    return f"complete -c sb -n {quoted(condition)} -l {option.name.removeprefix('--')}{value} -d {quoted(plain(option.told()))}"


def fish_completion(m: Manual) -> str:
    lines = [f"# Completes the words of sb in fish; {MADE}.", "", "complete -c sb -f"]
    first = "__fish_use_subcommand"
    lines += [f"complete -c sb -n {first} -a {command.name} -d {quoted(plain(command.brief))}" for command in m.commands]
    lines += [fish_option(option, first) for option in m.alone()]
    for command in m.commands:
        condition = f"__fish_seen_subcommand_from {command.name}"
        lines += [f"complete -c sb -n {quoted(condition)} -F"] * bool(command.files)
        lines += [fish_option(option, condition) for option in m.options_of(command)]
    return "\n".join(lines) + "\n"


FORMS: dict[str, Callable[[Manual], str]] = {
    "help": help_text,
    "man": man_page,
    "bash": bash_completion,
    "zsh": zsh_completion,
    "fish": fish_completion,
}
