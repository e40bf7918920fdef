"""Manual pages, and completion for bash, zsh and fish, made from the texts of --help."""

import argparse
import re
import sys
from dataclasses import dataclass, field

from .sources import TOP

OPTION = re.compile(r"^  (?:(-\w), |    )(--[\w-]+)(?: <([^>]+)>)?  +(\S.*)$")
ARGUMENT = re.compile(r"^  [\[<](\w+)[\]>]  +(\S.*)$")


@dataclass
class Option:
    """An option: its spellings, the name of its value or an empty text, and its help."""

    names: list
    value: str
    help: str
    choices: list = field(default_factory=list)


@dataclass
class Page:
    """A command: what it does in a few words, its usage, the other paragraphs, and its arguments, options and
    commands.
    """

    name: str
    about: str
    usage: str
    text: list
    arguments: list
    options: list
    commands: list = field(default_factory=list)


def of_help(name, text):
    """The page of a program of which only the text of --help is known."""
    page = Page(name, text.split("\n\n")[0].split(". ")[0].split(":")[0].replace("\n", " ").rstrip("."), "", [], [], [])
    for line in text.splitlines():
        option, argument = OPTION.match(line), ARGUMENT.match(line)
        if option:
            short, long, value, about = option.groups()
            page.options.append(Option([name for name in (short, long) if name], value or "", about))
        elif argument:
            page.arguments.append(argument.groups())
        elif line.startswith("Usage: "):
            page.usage = line[len("Usage: ") :]
        elif line not in ("Arguments:", "Options:"):
            page.text.append(line)
    return page


def of_parser(name, parser, about):
    """The page of a command of the client."""
    usage = " ".join(parser.format_usage().split())[len("usage: ") :]
    page = Page(name, about, usage, (parser.description or "").splitlines(), [], [])
    for action in parser._actions:
        if isinstance(action, argparse._SubParsersAction):
            helps = {choice.dest: choice.help for choice in action._choices_actions}
            page.commands = [
                of_parser(f"{name} {word}", choice, helps.get(word, "")) for word, choice in action.choices.items()
            ]
        elif action.option_strings:
            value = (
                ""
                if action.nargs == 0
                else str(action.metavar or (action.choices and "|".join(action.choices)) or action.dest.upper())
            )
            page.options.append(Option(action.option_strings, value, action.help or "", list(action.choices or [])))
        elif action.help != argparse.SUPPRESS:
            page.arguments.append((str(action.metavar or action.dest), action.help or ""))
    return page


def of_client():
    """The page of the Python client."""
    sys.path.insert(0, str(TOP / "clients/python"))
    from wokureti.commands import parser_of

    return of_parser("wokureti", parser_of(), "look at, edit, repair and compare VP8 streams")


def escaped(text):
    """A text as roff prints it unchanged."""
    text = (
        text.replace("\\", "\\e")
        .replace("-", "\\-")
        .replace("'", "\\(aq")
        .replace("`", "\\(ga")
        .replace("^", "\\(ha")
        .replace("~", "\\(ti")
    )
    return "\\&" + text if text.startswith(".") else text


def roff_of(page):
    """The lines of a page's arguments and options."""
    for name, about in page.arguments:
        yield from (".TP", f".I {escaped(name)}", escaped(about) or "\\&")
    for option in page.options:
        names = ", ".join(f"\\fB{escaped(name)}\\fR" for name in option.names)
        yield from (
            ".TP",
            names + (f" \\fI{escaped(option.value)}\\fR" if option.value else ""),
            escaped(option.help) or "\\&",
        )


def manual(page, version, date):
    """The manual page."""
    title = page.name.upper()
    lines = [
        f'.TH {title} 1 "{date}" "wokureti {version}" "User Commands"',
        ".SH NAME",
        f"{page.name} \\- {escaped(page.about)}",
    ]
    lines += [
        ".SH SYNOPSIS",
        ".nf",
        escaped(page.usage),
        ".fi",
        ".SH DESCRIPTION",
        ".nf",
        *map(escaped, page.text),
        ".fi",
        ".SH OPTIONS",
        *roff_of(page),
    ]
    if page.commands:
        lines.append(".SH COMMANDS")
    for command in page.commands:
        lines += [
            f".SS {escaped(command.name)}",
            escaped(command.about) + ".",
            ".PP",
            *map(escaped, command.text),
            ".PP",
            ".nf",
            escaped(command.usage),
            ".fi",
            *roff_of(command),
        ]
    others = [name for name in ("vp8serve", "vp8list", "wokureti") if name != page.name]
    return "\n".join([*lines, ".SH SEE ALSO", ", ".join(f"\\fB{name}\\fR(1)" for name in others), ""])


def names_of(page):
    return [name for option in page.options for name in option.names]


def bash(page):
    """Completion for bash: commands, then their options, and files."""
    name = page.name
    cases = "".join(
        f"        {command.name.split()[1]}) words='{' '.join(names_of(command))}' ;;\n" for command in page.commands
    )
    chosen = (
        f'    case ${{COMP_WORDS[1]}} in\n{cases}    esac\n    [ "$COMP_CWORD" -gt 1 ] ||'
        f' words=\'{" ".join([*(command.name.split()[1] for command in page.commands), *names_of(page)])}\'\n'
        if page.commands
        else ""
    )
    return f"""# Completion for bash of {name}.
_{name}() {{
    local words='{' '.join(names_of(page))}'
{chosen}    COMPREPLY=($(compgen -W "$words" -- "${{COMP_WORDS[COMP_CWORD]}}") \
$(compgen -f -- "${{COMP_WORDS[COMP_CWORD]}}"))
}}
complete -o filenames -F _{name} {name}
"""


def quoted(text):
    return text.replace("'", "'\\''")


def zsh_words(page):
    """The words of zsh's _arguments for a page."""
    for option in page.options:
        about = quoted(option.help.replace("[", "(").replace("]", ")").replace(":", ","))
        value = (
            f":{option.value.lower()}:({' '.join(option.choices)})"
            if option.choices
            else f":{option.value.lower()}:_files"
            if option.value
            else ""
        )
        for name in option.names:
            yield f"'{name}[{about}]{value}'"
    yield "'*:file:_files'"


def zsh(page):
    """Completion for zsh."""
    if not page.commands:
        return f"#compdef {page.name}\n_arguments \\\n    " + " \\\n    ".join(zsh_words(page)) + "\n"
    about = " ".join(f"'{command.name.split()[1]}:{quoted(command.about)}'" for command in page.commands)
    cases = "".join(
        f"    {command.name.split()[1]}) _arguments {' '.join(zsh_words(command))} ;;\n" for command in page.commands
    )
    return (
        f"#compdef {page.name}\nif (( CURRENT == 2 )); then\n    local -a commands=({about})\n    _describe command"
        f" commands\nelse\n    case $words[2] in\n{cases}    esac\nfi\n"
    )


def fish(page):
    """Completion for fish."""
    lines = [f"# Completion for fish of {page.name}."]
    for command in page.commands:
        word = command.name.split()[1]
        lines.append(f"complete -c {page.name} -n __fish_use_subcommand -f -a {word} -d '{quoted(command.about)}'")
        lines += [f"{line} -n '__fish_seen_subcommand_from {word}'" for line in fish_options(page.name, command)]
    return "\n".join([*lines, *([] if page.commands else fish_options(page.name, page)), ""])


def fish_options(name, page):
    for option in page.options:
        words = " ".join(f"-{'l' if word.startswith('--') else 's'} {word.lstrip('-')}" for word in option.names)
        choices = f" -x -a '{' '.join(option.choices)}'" if option.choices else " -r" if option.value else ""
        yield f"complete -c {name} {words}{choices} -d '{quoted(option.help)}'"


def files(helps, version, date):
    """The files below share/, by their paths, of the programs' help texts (by name) and of the client."""
    found = {}
    for page in [*(of_help(name, text) for name, text in helps.items()), of_client()]:
        found[f"share/man/man1/{page.name}.1"] = manual(page, version, date)
        found[f"share/bash-completion/completions/{page.name}"] = bash(page)
        found[f"share/zsh/site-functions/_{page.name}"] = zsh(page)
        found[f"share/fish/vendor_completions.d/{page.name}.fish"] = fish(page)
    return found
