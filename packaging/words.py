#!/usr/bin/env python3
"""Writes what an installed `hardieflax` says of itself, from the page of `./sql_tool --help`, which is the one table of its words.

words.py VERSION TOOLCHAIN FOLDER < PAGE writes to the folder

    help               the page as the installed program has it
    commands           a line for each command: its name, and a letter where a word follows
    version            the answer to --version
    hardieflax.1       the manual page
    hardieflax.bash    the completions of three shells
    hardieflax.zsh
    hardieflax.fish
"""

from __future__ import annotations

import pathlib
import re
import sys
from dataclasses import dataclass

NAME = "hardieflax"
SUMMARY = "builds SELECT statements over a schema that you declare"
# What ./sql_tool alone has, which proves and builds the program.
OF_THE_TREE = ("--try", "--no-build")
# The status by which a script around the program says that it did not run it.
NOT_RUN = "1"
NOT_RUN_MEANS = "the program beside this script is missing, or does not run here"
PAGES = "Pages and examples are in the folder share/doc/hardieflax."


class PageError(Exception):
    """The page is not laid out as this script reads it."""


@dataclass(frozen=True)
class Entry:
    """A command, an option or an exit status: its name, the operand that follows a command's, and what it does."""

    name: str
    operand: str
    text: str

    @property
    def title(self) -> str:
        """The name with its operand."""
        return f"{self.name} {self.operand}".rstrip()


@dataclass(frozen=True)
class Page:
    """What the page of --help says."""

    commands: tuple[Entry, ...]
    options: tuple[Entry, ...]
    notes: str
    statuses: tuple[Entry, ...]

    def words_for(self, operand: str) -> list[str]:
        """The words that may stand for an operand, which the page has in brackets: "the dialect D (Pg or Mysql)"."""
        found = re.search(rf"\b{operand}(?: \w+)? \(([^;)]*)", " ".join(entry.text for entry in self.commands)) if operand else None
        return [word for word in re.findall(r"[A-Za-z]\w*", found[1]) if word not in ("or", "to")] if found else []

    @property
    def with_words(self) -> list[tuple[Entry, list[str]]]:
        """The commands that one of some words follows, with those words."""
        return [(entry, words) for entry in self.commands if (words := self.words_for(entry.operand))]


ENTRY = re.compile(r"^  (\S+)(?: ([A-Z]|[A-Z]+\.\.)(?= |$))?(?: +(.*))?$")


def entries(block: str) -> list[Entry]:
    """The entries of a paragraph: each begins two columns in, and goes on further in."""
    found: list[Entry] = []
    for line in block.splitlines():
        begins = ENTRY.match(line)
        if begins:
            found.append(Entry(begins[1], begins[2] or "", (begins[3] or "").strip()))
        elif found and line.startswith("   "):
            last = found.pop()
            found.append(Entry(last.name, last.operand, f"{last.text} {line.strip()}".strip()))
        else:
            raise PageError(f"a line of no entry: {line!r}")
    return found


def statuses(block: str) -> list[Entry]:
    """The exit statuses of their paragraph, whose first line is its title."""
    found = entries("\n".join(re.sub(r"^  (\d) (\w+) +", r"  \1  \2: ", line) for line in block.splitlines()[1:]))
    return [Entry(NOT_RUN, "", NOT_RUN_MEANS) if entry.name == NOT_RUN else entry for entry in found]


def read(text: str) -> Page:
    """The page in its parts. PageError: it is laid out in another way."""
    paragraphs = text.rstrip("\n").split("\n\n")
    if len(paragraphs) != 5 or not paragraphs[0].startswith("usage: "):
        raise PageError(f"{len(paragraphs)} paragraphs, and not usage, commands, options, notes and statuses")
    _, commands, options, notes, ends = paragraphs
    return Page(
        tuple(entries(commands)),
        tuple(entry for entry in entries(options) if entry.name not in OF_THE_TREE),
        " ".join(notes.split()),
        tuple(statuses(ends)),
    )


def wrapped(text: str, width: int) -> list[str]:
    """The words of a text in lines of at most this width."""
    lines: list[str] = []
    for word in text.split():
        if lines and len(lines[-1]) + 1 + len(word) <= width:
            lines[-1] += f" {word}"
        else:
            lines.append(word)
    return lines


def shown(entry: Entry) -> str:
    """An entry of the page of --help."""
    head, *rest = wrapped(entry.text, 64)
    return "\n".join([f"  {entry.title:<12}{head}", *(f"{'':14}{line}" for line in rest)])


def help_page(page: Page) -> str:
    """The page of --help of the installed program."""
    notes = wrapped(f"{page.notes} {PAGES}", 78)
    parts = [
        [f"usage: {NAME} COMMAND < INPUT > OUTPUT"],
        [shown(entry) for entry in page.commands],
        [shown(entry) for entry in page.options],
        notes,
        ["The exit status, with its word on standard error unless it is 0:", *(shown(entry) for entry in page.statuses)],
    ]
    return "\n\n".join("\n".join(part) for part in parts) + "\n"


def command_lines(page: Page) -> str:
    """The commands as the installed script reads them."""
    return "".join(f"{entry.title}\n" for entry in page.commands)


def roff(text: str) -> str:
    """A text in a manual page."""
    escaped = text.replace("\\", "\\e").replace("-", "\\-")
    return f"\\&{escaped}" if escaped.startswith((".", "'")) else escaped


def manual(page: Page, version: str) -> str:
    """The manual page."""

    def section(title: str, listed: tuple[Entry, ...]) -> list[str]:
        lines = [f".SH {title}"]
        for entry in listed:
            operand = f" \\fI{roff(entry.operand)}\\fR" if entry.operand else ""
            lines += [".TP", f"\\fB{roff(entry.name)}\\fR{operand}", roff(entry.text)]
        return lines

    lines = [
        f'.TH HARDIEFLAX 1 "" "{NAME} {version}" "User Commands"',
        ".nh",
        ".ad l",
        ".SH NAME",
        f"{NAME} \\- {roff(SUMMARY)}",
        ".SH SYNOPSIS",
        f".B {NAME}",
        ".I COMMAND",
        "< \\fIINPUT\\fR > \\fIOUTPUT\\fR",
        ".SH DESCRIPTION",
        roff(f"{page.notes} {PAGES}"),
        *section("COMMANDS", page.commands),
        *section("OPTIONS", page.options),
        *section("EXIT STATUS", page.statuses),
        ".SH EXAMPLES",
        ".nf",
        f"{NAME} build < share/doc/{NAME}/examples/filter.json",
        f"echo 'SELECT \"t\".\"id\" FROM \"t\"' | {NAME} read Pg",
        ".fi",
    ]
    return "\n".join(lines) + "\n"


def first_words(entry: Entry) -> str:
    """What a completion says of an entry: its text up to the first comma, colon or bracket, without what a shell quotes."""
    return re.split(r"[,:;({]| on standard", entry.text)[0].replace("'", "").strip()


def bash(page: Page) -> str:
    """The completion for bash."""
    words = " ".join(entry.name for entry in (*page.commands, *page.options))
    operands = "\n".join(f"    2,{entry.name}) words='{' '.join(choice)}' ;;" for entry, choice in page.with_words)
    return f"""\
# shellcheck shell=bash
_{NAME}() {{
    local words='' word=${{COMP_WORDS[COMP_CWORD]}}
    case $COMP_CWORD,${{COMP_WORDS[1]}} in
    1,*) words='{words}' ;;
{operands}
    esac
    mapfile -t COMPREPLY < <(compgen -W "$words" -- "$word")
}}
complete -o bashdefault -o default -F _{NAME} {NAME}
"""


def zsh(page: Page) -> str:
    """The completion for zsh."""
    words = "\n".join(f"    '{entry.name}:{first_words(entry)}'" for entry in (*page.commands, *page.options))
    operands = "\n".join(f"3,{entry.name}) compadd {' '.join(choice)} ;;" for entry, choice in page.with_words)
    return f"""\
#compdef {NAME}
local -a words_of_{NAME}
words_of_{NAME}=(
{words}
)
case $CURRENT,$words[2] in
2,*) _describe command words_of_{NAME} ;;
{operands}
*) _files ;;
esac
"""


def fish(page: Page) -> str:
    """The completion for fish."""
    lines = []
    for entry in (*page.commands, *page.options):
        lines.append(f"complete -c {NAME} -f -n __fish_use_subcommand -a '{entry.name}' -d '{first_words(entry)}'")
    for entry, choice in page.with_words:
        lines.append(f"complete -c {NAME} -f -n '__fish_seen_subcommand_from {entry.name}' -a '{' '.join(choice)}'")
    return "\n".join(lines) + "\n"


def main(arguments: list[str]) -> int:
    if len(arguments) != 3:
        print("usage: words.py VERSION TOOLCHAIN FOLDER < PAGE", file=sys.stderr)
        return 2
    version, toolchain, folder = arguments
    page = read(sys.stdin.read())
    files = {
        "help": help_page(page),
        "commands": command_lines(page),
        "version": f"{NAME} {version}\n{toolchain}\n",
        f"{NAME}.1": manual(page, version),
        f"{NAME}.bash": bash(page),
        f"{NAME}.zsh": zsh(page),
        f"{NAME}.fish": fish(page),
    }
    for name, text in files.items():
        (pathlib.Path(folder) / name).write_text(text, encoding="utf-8")
    return 0


if __name__ == "__main__":
    try:
        sys.exit(main(sys.argv[1:]))
    except PageError as error:
        sys.exit(f"words.py: the page of ./sql_tool --help has another layout: {error}")
