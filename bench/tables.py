#!/usr/bin/env python3
"""Tables of Markdown. A program that measures prints them, measure.py puts them into the page, and plots.py reads them there.
In each text a table stands below a line `<!-- table NAME -->`. Cells are texts; seconds and ratios have two digits."""
import math
import re

from command_line import CommandLine

BLOCK = re.compile(r"^<!-- table (.+) -->\n((?:\|.*\n)+)", re.MULTILINE)
# Less counts as this in a ratio.
LEAST_SECONDS = 0.005
# What stands where nothing was measured.
NOTHING = "-"


class Table:
    """A name, a head, and rows of as many cells."""

    def __init__(self, name, *head):
        self.name, self.head, self.rows = name, head, []

    def add(self, *cells):
        if len(cells) != len(self.head):
            raise ValueError(f"{self.name}: {len(cells)} cells under {len(self.head)}: {cells}")
        self.rows.append(cells)

    def __str__(self):
        """The lines, each with its end."""
        return self.beginning() + "".join(map(line_of, self.rows))

    def beginning(self):
        return f"<!-- table {self.name} -->\n" + line_of(self.head) + "|" + "---|" * len(self.head) + "\n"


class PrintedTable(Table):
    """One that is printed as it grows."""

    def __init__(self, name, *head):
        super().__init__(name, *head)
        print(self.beginning(), end="", flush=True)

    def add(self, *cells):
        super().add(*cells)
        print(line_of(cells), end="", flush=True)


def line_of(cells):
    return f"| {' | '.join(cells)} |\n"


def cells_of(line):
    return [cell.strip() for cell in line.strip()[1:-1].split("|")]


def tables_of(text):
    """The tables of a text, by their names."""
    found = {}
    for name, lines in BLOCK.findall(text):
        head, _, *rows = map(cells_of, lines.splitlines())
        found[name] = Table(name, *head)
        for row in rows:
            found[name].add(*row)
    return found


def with_tables(text, tables):
    """The text with these tables in place of those of their names."""
    missing = sorted({table.name for table in tables} - set(tables_of(text)))
    if missing:
        raise ValueError(f"no table {', '.join(missing)}")
    by_name = {table.name: table for table in tables}
    return BLOCK.sub(lambda block: str(by_name.get(block[1], block[0])), text)


def text_of(file):
    with open(file, encoding="utf-8") as it:
        return it.read()


def put_text(file, text):
    with open(file, "w", encoding="utf-8") as out:
        out.write(text)


def rows_of(table):
    """The rows, each with its cells by the words of the head."""
    return [dict(zip(table.head, row)) for row in table.rows]


def seconds(number):
    """Two digits, or all that stand before the point. A tenth of a second and more has at most two behind it."""
    for least, places in (9.95, 0), (0.995, 1), (0.0995, 2):
        if number >= least:
            return f"{number:,.{places}f}"
    return f"{number:.2g}"


def times(ours, theirs):
    """How many times their seconds ours are."""
    return max(ours, LEAST_SECONDS) / max(theirs, LEAST_SECONDS)


def ratio(ours, theirs):
    return seconds(times(ours, theirs))


def beside(ours, theirs):
    """Seconds, and the ratio to those of the program beside it."""
    return f"{seconds(ours)} ({ratio(ours, theirs)})"


def mean_ratio(pairs):
    """The geometric mean of ratios, with the least and the greatest."""
    logs = [math.log(times(ours, theirs)) for ours, theirs in pairs]
    if not logs:
        return NOTHING
    mean, least, greatest = (seconds(math.exp(it)) for it in (sum(logs) / len(logs), min(logs), max(logs)))
    return f"{mean} ({least} to {greatest})"


def number_in(cell):
    """The number with which a cell begins, or none."""
    found = re.match(r"\d[\d,]*(\.\d+)?", cell)
    return float(found[0].replace(",", "")) if found else None


def ratio_in(cell):
    """The ratio that a cell has in parentheses, or none."""
    found = re.search(r"\(([\d.,]+)\)$", cell)
    return float(found[1].replace(",", "")) if found else None


if __name__ == "__main__":
    CommandLine(__doc__).end()
