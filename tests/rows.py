"""The rows of tables: as each format has them, and those that are made of other rows.

This is written from docs/FORMATS.md, and shares nothing with the program. A number is a `Decimal`, with all its digits.
"""

import csv
import decimal
import io
import itertools
import json
import re

from support import need, want

NUMBER = re.compile(r"\d+(\.\d+)?")
# The columns of times, and those of all numbers of which a row for several groups has the greatest.
TIMES = ("least_time", "most_time", "outage_latency_time", "ceiling_time", "attained_time", "most_until_time", "left_time", "by_time", "unit")
GREATEST = ("least", "most", "least_time", "most_time", "ceiling", "attained", "ceiling_time", "attained_time")
# What a row that stands for several changes has nothing of.
OF_ONE_CHANGE = ("message", "from", "to", "rival", "tied", "nodes")


def exact(text):
    """The number that a text tells, which has no digit that says nothing."""
    number = decimal.Decimal(text)
    want(text, format(number.normalize(), "f"))
    return number


def value_of(cell, nothing):
    """What stands in a cell: a number, a word, or nothing."""
    return None if cell == nothing else exact(cell) if NUMBER.fullmatch(cell) else cell


def rows_of_text(out):
    """The rows of aligned columns."""
    header, *lines = out.splitlines()
    need(not any(line.endswith(" ") for line in out.splitlines()), "a line ends in a space")
    names = header.split()
    for line in lines:
        cells = re.split(" {2,}", line.lstrip())
        want(len(cells), len(names))
        yield {name: value_of(cell, "-") for name, cell in zip(names, cells)}


def rows_of_csv(out):
    """The rows of CSV. An apostrophe at the head of a cell is no part of it."""
    for row in csv.DictReader(io.StringIO(out, newline=""), strict=True):
        values = {name: value_of(cell, "") for name, cell in row.items()}
        yield {name: value.removeprefix("'") if isinstance(value, str) else value for name, value in values.items()}


def rows_of_json(out):
    """The rows of JSON."""
    return json.loads(out, parse_int=exact, parse_float=exact)


def has_columns(rows, names):
    """Each row has these columns, in this order."""
    for row in rows:
        want(list(row), names.split())


def in_columns(rows):
    """The rows as aligned columns have them: without times where the length of a tick is not known."""
    if any(row["unit"] for row in rows):
        return rows
    return [{name: value for name, value in row.items() if name not in TIMES} for row in rows]


def aligned(out):
    """Whether each cell begins where its column does, or ends where its column does, in all lines of aligned columns."""
    places = [[(cell.start(), cell.end()) for cell in re.finditer(r"\S+(?: \S+)*", line)] for line in out.splitlines()]
    columns = [(min(start for start, _ in column), max(end for _, end in column), column) for column in zip(*places)]
    return all(start == left or end == right for left, right, column in columns for start, end in column)


def finding(line):
    """What `latency` writes, as the cells of a row."""
    word, *words = line.split()
    count = 1 if word == "greatest" else 2
    ticks, times, unit = words[:count], words[count:-1], words[-1] if words[count:] else None
    first, last = (exact(times[0]), exact(times[-1])) if unit else (None, None)
    return {"answer": word, "least": exact(ticks[0]), "most": exact(ticks[-1]), "least_time": first, "most_time": last, "unit": unit}


def greatest(values):
    """The greatest of some numbers, where all are known."""
    return None if None in values else max(values)


def at_all_groups(rows):
    """The row for a message at all its groups: the greatest numbers of its rows, and of a survey what the first one tells
    that has the least of it, or for which memory ran out."""
    first = rows[0]
    row = {name: greatest([each[name] for each in rows]) for name in first if name in GREATEST}
    if "answer" not in first:
        return first | {"group": "*"} | row
    told = next((each for each in rows if each["least"] == row["least"]), None)
    if row["least"] is not None:
        told = told | {"answer": "greatest" if row["least"] == row["most"] else "open"}
    return told | {"group": "*", "nodes": None} | row


def with_all_groups(rows):
    """The rows of messages at their groups, and after those of each message the one for all its groups."""
    for _, of_message in itertools.groupby(rows, key=lambda row: row["message"]):
        of_message = list(of_message)
        yield from [*of_message, at_all_groups(of_message)]


def folded(rows):
    """The rows of a table of changes, with one row for those changes that change nothing."""
    asked = next(row for row in rows if row["change"] == "nothing")
    same = [row for row in rows if row is not asked and (row["answer"], row["least"]) == ("greatest", asked["least"]) and asked["answer"] == "greatest"]
    for row in rows:
        if row not in same:
            yield row
        if row is asked and same:
            yield asked | {"change": f"{len(same)} other{'s' * (len(same) > 1)}"} | dict.fromkeys(OF_ONE_CHANGE)
