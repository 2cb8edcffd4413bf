"""What the program tells of itself: its help and that of each command, read into values."""

import os
import re
import subprocess
import typing

from placing import shown

# What stands above the lists of a help, each of which has its entries below, with two spaces before them or more.
LISTS = ("Commands:", "Arguments:", "Options:")
# The first line of an option: a letter, a word, a name for its value and the beginning of its text. Some may be missing.
OPTION = re.compile(
    r" {2,6}(?=-)(?P<letter>-\w)?(?:, )? *(?P<word>--[\w-]+)?(?: <(?P<value>[^>]+)>|\[=<(?P<optional>[^>]+)>\])?(?: {2,}(?P<text>\S.*))?$"
)
CHOICES = re.compile(r"\[possible values: (.*)\]")


class NoHelp(Exception):
    """Why there is nothing that could be read."""


class Option(typing.NamedTuple):
    """An option: its letter and its word, the name of its value, what is told of it, the values that it may have, and the
    name of a value that may be left out, and stands behind a '='. What it has not is empty."""

    letter: str
    word: str
    value: str
    text: str
    choices: tuple
    optional: str

    def names(self):
        """As it may be written."""
        return [name for name in (self.letter, self.word) if name]


class Help(typing.NamedTuple):
    """A help: the line that tells in short what it is about, the text above the usage, the usage, the commands with a
    line for each, whether there are words that are no options, the options, and the text below them."""

    short: str
    text: str
    usage: str
    commands: dict
    has_arguments: bool
    options: list
    after: str


def ask(program, words):
    """What the program writes for these words."""
    name = shown(program)
    try:
        # (by its name alone, since Convoy does not start by a path that is no UTF-8)
        done = subprocess.run([os.path.basename(program), *words], executable=program, stdin=subprocess.DEVNULL, capture_output=True)
        told = done.stdout.decode("utf-8")
    except OSError as fault:
        raise NoHelp(f"{name} does not start: {fault.strerror}") from fault
    except UnicodeDecodeError as fault:
        raise NoHelp(f"{name} {' '.join(words)} writes what is no text") from fault
    if done.returncode or not told:
        said = f": {shown(line)}" if (line := done.stderr.partition(b"\n")[0]) else ""
        raise NoHelp(f"{name} {' '.join(words)} ends with status {done.returncode}{said}")
    return told


def parts_of(text):
    """The parts of a help by the lines above them: that above the usage by '', and that below the lists by 'after'."""
    parts, name = {"": []}, ""
    for line in text.splitlines():
        if line in LISTS:
            name = line
        elif line.startswith("Usage: "):
            parts["usage"] = [line.removeprefix("Usage: ")]
            continue
        elif name in LISTS and line[:1].strip():
            name = "after"
        parts.setdefault(name, []).append("" if line == name else line)
    return {name: "\n".join(lines).strip("\n") for name, lines in parts.items()}


def commands_of(text):
    """The commands of a list, each with its line."""
    return dict(re.findall(r"^  (\w[\w-]*) +(\S.*)$", text, re.MULTILINE))


def option_of(lines):
    """The option that these lines tell."""
    told = OPTION.match(lines[0]).groupdict(default="")
    text = "\n".join([told["text"], *(line.strip() for line in lines[1:])]).strip()
    choices = CHOICES.search(text)
    values = tuple(choices.group(1).split(", ")) if choices else ()
    return Option(told["letter"], told["word"], told["value"], text, values, told["optional"])


def options_of(text):
    """The options of a list."""
    entries = []
    for line in text.splitlines():
        if OPTION.match(line):
            entries.append([])
        if not entries:
            raise NoHelp(f"below \"Options:\" the help has a line that is no option: {shown(line.strip())}")
        entries[-1].append(line)
    return [option_of(lines) for lines in entries]


def help_of(program, words=()):
    """The help of the program, or of the command that the words name."""
    parts = parts_of(ask(program, [*words, "--help"]))
    if not {"usage", "Options:"} <= parts.keys():
        raise NoHelp(f"{shown(program)} {' '.join([*words, '--help'])} tells no usage, or no options")
    return Help(
        short=ask(program, [*words, "-h"]).splitlines()[0],
        text=parts[""],
        usage=parts["usage"],
        commands=commands_of(parts.get("Commands:", "")),
        has_arguments="Arguments:" in parts,
        options=options_of(parts["Options:"]),
        after=parts.get("after", ""),
    )


class Program(typing.NamedTuple):
    """What a program tells: its path, its name and version, its help, and that of each of its commands by name."""

    path: str
    name: str
    version: str
    whole: Help
    commands: dict


def read(path):
    """All that the program tells of itself."""
    whole = help_of(path)
    name, _, version = ask(path, ["--version"]).strip().partition(" ")
    return Program(path, name, version, whole, {command: help_of(path, [command]) for command in whole.commands})


def in_short(text):
    """The first clause of a text, on one line and without backquotes."""
    return re.split(r"[:.;] | \(| \[|[.:]$", " ".join(text.replace("`", "").split()))[0]
