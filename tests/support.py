"""What the tests have in common: how the program is run, what is wrong with an answer, and how a part counts its checks."""

import argparse
import importlib.machinery
import importlib.util
import resource
import subprocess
import sys
import typing

from program import ROOT, program

PROGRAM = program()
# A run that takes more seconds than this hangs.
PATIENCE = 60
# The examples that few commands read: a message of the one has several senders, and groups of the other are replicated by white box.
OF_LATENCY = ("any-client.toml", "white-box.toml")


class Wrong(Exception):
    """What is wrong with an answer."""


class NotTested(Exception):
    """Why a check can't be made on this machine, or not now."""


class Answer(typing.NamedTuple):
    """How a run ended, and what it wrote to standard output and to standard error."""

    status: int
    out: str
    errors: str


def example_scenarios():
    """The texts of examples/ that are scenarios; others are plans, kinds of messages, and workflows."""
    return sorted(path for path in (ROOT / "examples").glob("*.toml") if path.suffixes == [".toml"])


def plain_scenarios():
    """Those of them that each command reads."""
    return [path for path in example_scenarios() if path.name not in OF_LATENCY]


def load(path):
    """A script as a module."""
    loader = importlib.machinery.SourceFileLoader(path.name, str(path))
    module = importlib.util.module_from_spec(importlib.util.spec_from_file_location(path.name, path, loader=loader))
    loader.exec_module(module)
    return module


def run(words, text="", before=None):
    """One run over a text, which is a string or bytes. `before` is called in the process before the program starts."""
    data = text if isinstance(text, bytes) else text.encode()
    try:
        done = subprocess.run([PROGRAM, *words], input=data, capture_output=True, timeout=PATIENCE, preexec_fn=before)
    except subprocess.TimeoutExpired as late:
        raise Wrong(f"{words}: no end within {PATIENCE} seconds") from late
    return Answer(done.returncode, done.stdout.decode(), done.stderr.decode())


def used_seconds():
    """The seconds of processor time that all runs have taken that have ended: what else the machine does counts for little."""
    used = resource.getrusage(resource.RUSAGE_CHILDREN)
    return used.ru_utime + used.ru_stime


def need(holds, what):
    """Says what is wrong where something does not hold."""
    if not holds:
        raise Wrong(what)


def want(got, expected):
    """Says what is wrong where a value is not the one that is expected."""
    need(got == expected, f"{got!r}, and not {expected!r}")


def answers(words, text, out, status=0):
    """A run has to write this and to end so."""
    done = run(words, text)
    want((done.status, done.out), (status, out))


def changed(text, *pairs):
    """The text with the first of each old piece replaced by the new one; each old piece has to be there."""
    for old, new in pairs:
        need(old in text, f"{old!r} is not in the text that is to be changed")
        text = text.replace(old, new, 1)
    return text


def tell(passed, failed):
    """Writes the last line of a part, and answers its exit status."""
    print(f"{passed} passed, {failed} failed")
    return 1 if failed else 0


def share_of(words, documentation):
    """Which checks are to be made, as (place, number of shares), by the command line of a part."""
    parser = argparse.ArgumentParser(description=documentation, formatter_class=argparse.RawDescriptionHelpFormatter)
    parser.add_argument("--share", metavar="PLACE/NUMBER", default="1/1", help="make one of so many shares of the checks")
    place, _, number = parser.parse_args(words).share.partition("/")
    if not (place.isdecimal() and number.isdecimal() and 1 <= int(place) <= int(number)):
        parser.error("a share is a place from 1 to a number, as 1/4")
    return int(place), int(number)


def count(checks):
    """Makes checks, each a name and a function that raises what is wrong, and answers how many passed and failed. One that
    can't be made is told, and is neither."""
    passed = failed = 0
    for name, check in checks:
        try:
            check()
            passed += 1
        except NotTested as why:
            print(f"{name}: not tested: {why}", flush=True)
        except Wrong as wrong:
            failed += 1
            print(f"{name}: {wrong}", flush=True)
    return passed, failed


def part(documentation, checks):
    """The whole of a part: makes its checks, or a share of them, tells each that fails, and ends with the counts."""
    place, number = share_of(sys.argv[1:], documentation)
    mine = (check for turn, check in enumerate(checks()) if turn % number == place - 1)
    sys.exit(tell(*count(mine)))
