"""What the tools for simulated networks share: the program, its tables, and means over seeds with their intervals."""
import csv
import itertools
import math
import os
from typing import NamedTuple

from running import Refusal, stop
from workbench.programs import program

# Student's t at 0.975 for 1 to 10 degrees of freedom, and the normal distribution's quantile.
STUDENT = (12.7062, 4.3027, 3.1824, 2.7764, 2.5706, 2.4469, 2.3646, 2.3060, 2.2622, 2.2281)
NORMAL = 1.959964
# The columns of `figures` that are ranks, and those that say which calls a row is about.
RANKS = ("p50", "p99", "p999")
LENGTHS = ("part", "from", "to")
ALL = "all"  # the seed of rows over all seeds, and the part of rows about all calls


def simulator(tool, named=None):
    """The path of the program that runs: this one, the one that HOMA_SIMULATE names, or that of `./homa-simulate`."""
    path = named or program("homa-simulate", "HOMA_SIMULATE")
    if path is None:
        raise Refusal("there is no program: HOMA_SIMULATE names one, or ./homa-simulate is there")
    if not os.path.isfile(path):
        stop(tool, f"{path}: there is no such program", 127)
    return path


class Table(NamedTuple):
    """Rows by the names of their columns; a line that begins with `#` is a remark. Rows over all seeds are left out."""

    columns: list
    rows: list
    remarks: list


def table_of(lines, name):
    """The table of these lines; `name` is what a refusal calls it."""
    remarks, rest = [], []
    for line in lines:
        (remarks if line.startswith("#") else rest).append(line)
    columns, *rows = list(csv.reader(rest)) or [[]]
    if not rows:
        raise Refusal(f"{name}: it has no rows")
    for row in rows:
        if len(row) != len(columns):
            raise Refusal(f"{name}: a row has {len(row)} values, and the head {len(columns)}: {','.join(row)[:60]}")
    found = [row for row in (dict(zip(columns, row)) for row in rows) if row.get("seed") != ALL]
    return Table(columns, found, remarks)


def need_columns(table, name, columns):
    """Refuses a table that lacks one of these columns."""
    for column in columns:
        if column not in table.columns:
            raise Refusal(f"{name}: no column `{column}`: it has {', '.join(table.columns[:8])} ..")


def values_of(table, name):
    """The values of a column, each once, in the order of the rows."""
    return list(dict.fromkeys(row[name] for row in table.rows))


def swept_of(table):
    """The columns that a sweep puts before those of the program: they stand before `seed`."""
    return list(itertools.takewhile(lambda name: name != "seed", table.columns))


def is_of_figures(table):
    return {*LENGTHS} <= {*table.columns}


def is_part(row):
    """Whether a row of `figures` is about the calls of some lengths, and not about all, or the half of all."""
    return row["part"].isdecimal()


def number_of(cell):
    """The number in a cell; None if there is none, or one without a bound."""
    try:
        value = float(cell)
    except ValueError:
        return None
    return value if math.isfinite(value) else None


def student(freedom):
    """The factor of a 95% interval with so many degrees of freedom."""
    if freedom <= len(STUDENT):
        return STUDENT[freedom - 1]
    z = NORMAL
    first = (z**3 + z) / 4
    second = (5 * z**5 + 16 * z**3 + 3 * z) / 96
    third = (3 * z**7 + 19 * z**5 + 17 * z**3 - 15 * z) / 384
    return z + first / freedom + second / freedom**2 + third / freedom**3


class Mean(NamedTuple):
    """A mean, half its 95% interval (None of one value), and of how many values."""

    value: float
    off: float | None
    count: int


def mean_of(values):
    """The mean of values that differ by chance; None if there is none."""
    count = len(values)
    if not count:
        return None
    mean = sum(values) / count
    if count == 1:
        return Mean(mean, None, 1)
    variance = sum((value - mean) ** 2 for value in values) / (count - 1)
    return Mean(mean, student(count - 1) * math.sqrt(variance / count), count)


def chosen_rows(table, name, wheres):
    """The table with those rows alone of which each `COLUMN=VALUE` is true; `name` is what a refusal calls it."""
    rows = table.rows
    for word in wheres:
        column, equals, value = word.partition("=")
        if not equals:
            raise Refusal(f"--where {word}: COLUMN=VALUE is wanted, as load=800")
        need_columns(table, name, [column])
        rows = [row for row in rows if row[column] == value]
        if not rows:
            raise Refusal(f"--where {word}: {name} has no such row")
    return table._replace(rows=rows)
