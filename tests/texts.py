"""The texts of which the tests speak: those that have a name, in tests/cases/texts, and those that are made of these.

`texts.BASE` is the text that is named `base`. A text is told by the name of another one and its edits, each after ` | `:

    base | at = 6 => at = 7         the first `at = 6` is replaced, and has to be there
    base | at = 0 =>> at = 1        each is replaced, and one has to be there
    base | ^ time = "real"          a line stands above it
    base | + [[link]]\\nto = "a"     lines stand below it; a `\\` at their end leaves the end of the last line out
    certificate | [:9]              its first nine bytes are left
    base | [3 x]                    it stands there three times

In edits `<link>` stands for the text of that name, `<9 x 1, >` for nine times `1, `, where `%` counts from 0, and `\\n`, `\\r`, `\\t`, `\\s`, `\\\\`,
`\\x22` and `\\u00fc` for characters, of which `\\s` is a space; `\\xff` stands for a byte that is no text.
"""

import pathlib
import re

ROOT = pathlib.Path(__file__).resolve().parent.parent
CHARACTERS = {"n": "\n", "r": "\r", "t": "\t", "s": " "}
ESCAPE = re.compile(r"\\(?:x([0-9a-f]{2})|u([0-9a-f]{4})|(.))")
# A text by its name, or a piece that is repeated.
INSERTED = re.compile(r"<(?:(\d+) x ([^<>]*)|(\d*)|([a-z][a-z0-9-]*))>")
EDIT = re.compile(r"(?P<above>\^ )?(?P<below>\+ )?(?:(?P<old>.*?) =>(?P<all>>)?(?: |\Z))?(?P<new>.*)", re.DOTALL)
TEXTS = {}


def character(escape):
    """What an escape stands for; a byte that is no text as Python keeps it in a string (`surrogateescape`)."""
    byte, point, sign = escape.groups()
    if sign:
        return CHARACTERS.get(sign, sign)
    return chr(int(byte or point, 16) + (0xDC00 if byte and byte > "7f" else 0))


def inserted(own, number, piece, place, name):
    """What stands for angle brackets: a repeated piece, a word of a text, that text, or one that has a name."""
    if number:
        piece = ESCAPE.sub(character, piece)
        return "".join(piece.replace("%", str(turn)) for turn in range(int(number))) if "%" in piece else piece * int(number)
    return TEXTS[name] if name else own.split()[int(place) - 1] if place else own


def spelled_out(piece, own=""):
    """A piece of an edit, with what its escapes and its angle brackets stand for: `<>` for the text `own`, and `<2>` for the
    second word of that."""
    pieces, end = [], 0
    for found in INSERTED.finditer(piece):
        pieces += [ESCAPE.sub(character, piece[end : found.start()]), inserted(own, *found.groups())]
        end = found.end()
    return "".join([*pieces, ESCAPE.sub(character, piece[end:])])


def lines(piece, own=""):
    """A piece as lines: the last one is ended, unless a backslash says that it is not."""
    if re.search(r"(?<!\\)(\\\\)*\\\Z", piece):
        return spelled_out(piece[:-1], own)
    text = spelled_out(piece, own)
    return text if text.endswith("\n") else text + "\n"


def edited(text, edit, own=""):
    """A text after one edit."""
    if cut := re.fullmatch(r"\[:(-?\d+)\]", edit):
        return text[: int(cut.group(1))]
    if times := re.fullmatch(r"\[(\d+) x\]", edit):
        return text * int(times.group(1))
    part = EDIT.fullmatch(edit)
    if part["above"] or part["below"]:
        above, below = (lines(edit[2:], own) if part[place] else "" for place in ("above", "below"))
        return above + text + below
    old, new = spelled_out(part["old"], own), spelled_out(part["new"], own)
    if old not in text:
        raise ValueError(f"{old!r} is not in the text that '{edit}' changes")
    return text.replace(old, new) if part["all"] else text.replace(old, new, 1)


def named(name):
    """The text of a name; one with a slash is that of a file of the repository."""
    return (ROOT / name).read_text(encoding="utf-8") if "/" in name else TEXTS[name]


def text_of(told, own=""):
    """The text that is told by a name and by edits; the name `<>` is that of the text `own`."""
    name, *edits = told.split(" | ")
    text = own if name == "<>" else named(name)
    for edit in edits:
        text = edited(text, edit, own)
    return text


def bytes_of(text):
    """The bytes of a text."""
    return text.encode("utf-8", "surrogateescape")


def read_texts(written):
    """The texts of a file: each below a line '=== NAME', or told in a line '=== NAME < TEXT'."""
    for block in re.split(r"(?m)^=== ", re.sub(r"(?m)^## .*\n", "", written))[1:]:
        head, _, body = block.partition("\n")
        name, _, told = head.partition(" < ")
        TEXTS[name] = text_of(told) if told else body.rstrip("\n") + "\n" * bool(body.strip())


def __getattr__(name):
    """The text of a name, in capitals."""
    try:
        return TEXTS[name.lower().replace("_", "-")]
    except KeyError:
        raise AttributeError(f"there is no text of the name {name}") from None


def quoted(names):
    """Names as an array of TOML."""
    return "[" + ", ".join(f'"{name}"' for name in names) + "]"


def message_of(name, sender, at, *groups):
    """The table of a message, by the words of its line in a certificate."""
    sent = "" if sender == "client" else f'from = "{sender}"\n'
    return f'\n[[multicast]]\nname = "{name}"\n{sent}to = {quoted(groups)}\nat = {at}\n'


def with_outage(span, text):
    """The text with the key `outage` in a line above it, which tells a number of ticks or a duration; with None a comment stands
    there, so that all other lines have the same numbers."""
    key = "# No outage is told." if span is None else f"outage = {span}" if span.isdigit() else f'outage = "{span}"'
    return f"{key}\n{text}"


def scenario_of(certificate):
    """The scenario of a certificate in whole ticks without links, as a text."""
    lines = [line.split() for line in certificate.splitlines()]
    first = {words[0]: words[1:] for words in lines}
    messages = "".join(message_of(*words[1:]) for words in lines if words[0] == "multicast")
    message, group = first["target"]
    head = f'delay = {first["delay"][0]}\ngroups = {quoted(first["groups"])}\n'
    return head + messages + f'\n[target]\nmessage = "{message}"\ngroup = "{group}"\n'


read_texts((ROOT / "tests" / "cases" / "texts").read_text(encoding="utf-8"))
