"""The manual page, made from the help of the program and of its commands."""

import datetime
import os
import re
import textwrap

# Lines of a help that begin with two spaces, and empty ones between them: an example or a table, which stays as it is.
AS_IT_STANDS = re.compile(r"((?:^  .*\n(?:\n+(?=  ))?)+)", re.MULTILINE)
# A heading in the text below the options, with what stands below it as it is.
HEADING = re.compile(r"(?:\A|(?<=\n\n))(\S.*):\n(?=  )")
STATUS = re.compile(r"  (\d+) +(.*)")
# What SOURCE_DATE_EPOCH may be: seconds since 1970, for some centuries.
DATE = re.compile(r"[0-9]{1,11}")
# What the help does not say.
SEE_ALSO = """\
The pages of Convoy's repository: docs/USING.md says how to get from a system to a scenario, docs/FORMATS.md has all
texts that are read and written, docs/HINTS.md what the hints beside a fault say, and docs/PROTOCOL.md the rules of the
protocol. Beside this page share/convoy/scenario.schema.json is installed, by which editors complete and check scenarios.
"""


def plain(text, dash="-"):
    """Text in which no sign means anything to roff."""
    for sign, name in (("\\", r"\e"), ("-", dash), ("'", r"\(aq"), ("`", r"\(ga"), ("^", r"\(ha"), ("~", r"\(ti")):
        text = text.replace(sign, name)
    return text


def lines_of(text):
    """Lines of which none is a request to roff."""
    return [rf"\&{line}" if line.startswith(".") else line for line in text.split("\n")]


def code(text):
    """Text that can be typed as it is."""
    return plain(text, r"\-")


def bold(text):
    return rf"\fB{code(text)}\fP"


def italic(text):
    return rf"\fI{code(text)}\fP"


def running(text):
    """Text to be filled, in which what stands between backquotes is bold."""
    pieces = re.split("`([^`]*)`", text)
    return "".join(bold(piece) if place % 2 else plain(piece) for place, piece in enumerate(pieces))


def filled(text):
    """The lines of running text."""
    return lines_of(textwrap.fill(running(text), 80, break_long_words=False, break_on_hyphens=False))


def paragraphs(text, macro=".PP"):
    """The paragraphs of a text, each begun by a macro, and its examples between them."""
    lines = []
    for place, piece in enumerate(AS_IT_STANDS.split(text + "\n")):
        if place % 2:
            lines += [".sp", ".RS 4", ".nf", *lines_of(code(textwrap.dedent(piece).rstrip("\n"))), ".fi", ".RE"]
        else:
            for paragraph in piece.strip("\n").split("\n\n"):
                lines += [macro, *filled(paragraph)] if paragraph else []
    return lines


def sentence(words):
    """Words as they are listed: `a, b and c`."""
    return words[0] if len(words) == 1 else f"{', '.join(words[:-1])} and {words[-1]}"


def usage(text):
    """A usage with its names for words in italics."""
    name, _, rest = text.partition(" ")
    return " ".join([bold(name), re.sub(r"[A-Z]+", lambda word: italic(word.group()), rest)])


def head(option):
    """How an option is written, as the head of an entry."""
    value = f" {italic(option.value)}" if option.value else f"[={italic(option.optional)}]" if option.optional else ""
    return ", ".join(map(bold, option.names())) + value


def is_taken_by(told, option):
    """Whether what has this help takes an option of that name."""
    return option.names() in [known.names() for known in told.options]


def command(name, told, whole):
    """What is told of a command, with the names of the options that the program itself does not take."""
    own = [bold(option.names()[-1]) for option in told.options if not is_taken_by(whole, option)]
    listed = [".PP", "Options:", f"{sentence(own)}."] if own else []
    return [f".SS {code(name)}", *filled(f"{told.short}."), *paragraphs(told.text), *listed]


def options(whole, commands):
    """Each option once, with the commands that take it where the program itself does not. Where two commands tell other
    things of an option, it has an entry for each."""
    takers = {option: [] for option in whole.options}
    for name, told in commands.items():
        for option in told.options:
            if not is_taken_by(whole, option):
                takers.setdefault(option, []).append(bold(name))
    for option, names in takers.items():
        yield from [".TP", head(option), *paragraphs(option.text, ".IP")[1:]]
        yield from [".IP", f"An option of {sentence(names)}."] if names else []


def statuses(text):
    """The table of the exit statuses."""
    for number, meaning in STATUS.findall(text):
        yield from [".TP", bold(number), *filled(meaning)]


def below_options(text):
    """What stands below the options: the exit statuses, and all else."""
    first, *pieces = HEADING.split(text)
    told = dict(zip(pieces[::2], pieces[1::2]))
    status = told.pop("Exit status", "")
    examples = [first.strip("\n"), *(f"{heading}:\n{below.rstrip()}" for heading, below in told.items())]
    return status, "\n\n".join(piece for piece in examples if piece)


def day(program):
    """The day that stands below the page: that of SOURCE_DATE_EPOCH, or else of the program."""
    told = os.environ.get("SOURCE_DATE_EPOCH", "")
    seconds = int(told) if DATE.fullmatch(told) else os.stat(program.path).st_mtime
    return datetime.datetime.fromtimestamp(seconds, datetime.timezone.utc).strftime("%Y-%m-%d")


def man_page(program):
    """The page."""
    name, whole, commands = program.name, program.whole, program.commands
    status, examples = below_options(whole.after)
    sections = {
        "NAME": [rf"{name} \-", *filled(whole.short[:1].lower() + whole.short[1:])],
        "SYNOPSIS": [usage(whole.usage)],
        "DESCRIPTION": paragraphs(whole.text)[1:],
        "COMMANDS": [line for each, told in commands.items() for line in command(each, told, whole)],
        "OPTIONS": list(options(whole, commands)),
        "EXIT STATUS": list(statuses(status)),
        "EXAMPLES": paragraphs(examples)[1:],
        "SEE ALSO": paragraphs(SEE_ALSO)[1:],
    }
    lines = [f'.TH {name.upper()} 1 {day(program)} "{name} {program.version}" "User Commands"']
    for title, told in sections.items():
        lines += [f".SH {title}", *told] if told else []
    return "\n".join(lines) + "\n"
