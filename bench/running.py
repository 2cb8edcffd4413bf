"""What the scripts of bench/ have in common: runs of a program with their times, and what its answers say."""

import os
import pathlib
import subprocess
import sys
import tempfile
import time
import typing

ROOT = pathlib.Path(__file__).resolve().parent.parent
sys.path.insert(0, str(ROOT / "tests"))


class Run(typing.NamedTuple):
    """How a run ended, what it wrote, and its milliseconds: by the clock, and of processor time."""

    status: int
    out: str
    errors: str
    elapsed: float
    used: float


def run(words, text):
    """One run of a program over a text, which is bytes, from files to files."""
    with tempfile.TemporaryFile() as source, tempfile.TemporaryFile() as out, tempfile.TemporaryFile() as errors:
        source.write(text)
        source.seek(0)
        start = time.monotonic()
        process = subprocess.Popen(words, stdin=source, stdout=out, stderr=errors)
        _, status, usage = os.wait4(process.pid, 0)
        elapsed = time.monotonic() - start
        process.returncode = os.waitstatus_to_exitcode(status)
        told = [written(stream) for stream in (out, errors)]
    return Run(process.returncode, *told, elapsed * 1000, (usage.ru_utime + usage.ru_stime) * 1000)


def written(stream):
    """All that stands in a file."""
    stream.seek(0)
    return stream.read().decode()


def nodes_of(lines):
    """How many node lines a certificate has: those between `schedule`, in real time `order`, and `end`."""
    last = max(number for number, line in enumerate(lines) if line.split()[:1] in (["schedule"], ["order"]))
    return len(lines) - last - 2


def known_latencies(folder, suffix):
    """The latencies that are known of a folder's scenarios by name, or none where no file has that suffix."""
    table = folder.with_name(folder.name + suffix)
    if not table.is_file():
        return {}
    pairs = (line.split() for line in table.read_text().splitlines() if line.strip())
    return {name: int(latency) for name, latency in pairs}
