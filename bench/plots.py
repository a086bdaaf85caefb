#!/usr/bin/env python3
"""Draws the plots of bench/README.md from the tables of that page.

    bench/plots.py

writes bench/figures/ratios.svg, solve.svg and growth.svg. A cell without a number is not drawn.
"""
import math
import os

from command_line import CommandLine
from tables import number_in, put_text, ratio_in, rows_of, tables_of, text_of

HERE = os.path.dirname(os.path.abspath(__file__))
PAGE, FIGURES = os.path.join(HERE, "README.md"), os.path.join(HERE, "figures")
WIDTH = 860
SERIES = ["#4f7fa8", "#b5713d", "#5d9160", "#8a6ba6"]
STYLE = """<style>
text { font-family: Helvetica, Arial, 'Liberation Sans', 'DejaVu Sans', sans-serif; fill: #2b2f36; font-size: 12px; }
.title { font-size: 15px; font-weight: bold; }
.faint { fill: #59606b; font-size: 11px; }
.grid { stroke: #dcd9d2; stroke-width: 1; }
.one { stroke: #59606b; stroke-width: 1.2; }
.middle { text-anchor: middle; }
.end { text-anchor: end; }
</style>
"""
# Of each line of ratios.svg the command, the program beside it, the tables, and the column that has the ratio.
RATIOS = [
    ("reduce pure", "plain C++", ("pure",), "`reduce pure`"),
    ("check, pure", "plain C++", ("pure",), "`check`"),
    ("reduce matching", "plain C++", ("matching",), "one worker"),
    ("reduce linear", "plain C++", ("linear",), "`reduce linear`"),
    ("report", "plain C++", ("commands",), "`report`"),
    ("edits", "from scratch", ("editing",), "`edits`"),
    ("verify", "reading", ("solving formulas", "solving circuits"), "`verify`"),
    ("mus", "picomus", ("mus families", "mus circuits"), "`mus`"),
]
# The least ratio on the picture, at whose edge what is less stands, and the greatest. Then the axes.
LEAST_RATIO, MOST_RATIO = 0.02, 5
RATIO_MARKS = (0.02, 0.05, 0.1, 0.2, 0.5, 1, 2, 5)
LEAST_SECONDS, MOST_SECONDS = 0.01, 60
GROWING = ("reading", "`reduce pure`", "`check`")


def text(x, y, words, kind=""):
    return f'<text x="{x:.1f}" y="{y:.1f}" class="{kind}">{escaped(words)}</text>'


def escaped(words):
    return words.replace("&", "&amp;").replace("<", "&lt;")


def line(x, y, to_x, to_y, kind="grid"):
    return f'<line x1="{x:.1f}" y1="{y:.1f}" x2="{to_x:.1f}" y2="{to_y:.1f}" class="{kind}"/>'


def dot(x, y, colour, words):
    shape = f'<circle cx="{x:.1f}" cy="{y:.1f}" r="4.5" fill="{colour}" fill-opacity="0.75" stroke="{colour}">'
    return f"{shape}<title>{escaped(words)}</title></circle>"


def picture(title, height, shapes):
    """A picture on a light card, which can be read on white and on dark pages."""
    head = f'<svg xmlns="http://www.w3.org/2000/svg" viewBox="0 0 {WIDTH} {height}" width="{WIDTH}" height="{height}">\n'
    card = f'<title>{title}</title>\n<rect width="{WIDTH}" height="{height}" rx="12" fill="#faf9f6"/>\n'
    return head + STYLE + card + text(24, 32, title, "title") + "\n" + "\n".join(shapes) + "\n</svg>\n"


def logarithmic(least, greatest, start, end):
    """Where a number is on an axis that goes by its logarithm."""
    scale = (end - start) / math.log(greatest / least)
    return lambda value: start + scale * math.log(min(max(value, least), greatest) / least)


def ratios(tables):
    place = logarithmic(LEAST_RATIO, MOST_RATIO, 220, WIDTH - 40)
    top, step = 62, 30
    bottom = top + step * len(RATIOS)
    shapes = []
    for value in RATIO_MARKS:
        shapes += [line(place(value), top - 8, place(value), bottom, "one" if value == 1 else "grid"),
                   text(place(value), bottom + 18, f"{value:g}", "middle faint")]
    for at, (command, beside, names, column) in enumerate(RATIOS):
        y = top + step * at + step / 2
        shapes += [text(24, y - 1, command), text(24, y + 11, f"to {beside}", "faint")]
        for row in (row for name in names for row in rows_of(tables[name])):
            found = ratio_in(row[column])
            if found is not None:
                told = next(iter(row.values()))
                shapes.append(dot(place(found), y, SERIES[at % len(SERIES)], f"{told}: {found:g}"))
    shapes += [text(place(1), bottom + 34, "as long as the program beside it; to the left leank is faster", "middle faint"),
               text(place(LEAST_RATIO) - 12, bottom + 34, "a smaller ratio stands at this edge", "faint")]
    return picture("Time of leank, as a ratio to the program beside it", bottom + 50, shapes)


def solve(tables):
    left, right, top, bottom = 80, 560, 56, 456
    across, up = (logarithmic(LEAST_SECONDS * 0.8, MOST_SECONDS, *ends) for ends in ((left, right), (bottom, top)))
    shapes = []
    for value in (0.01, 0.1, 1, 10):
        shapes += [line(across(value), top, across(value), bottom), line(left, up(value), right, up(value)),
                   text(across(value), bottom + 18, f"{value:g} s", "middle faint"),
                   text(left - 8, up(value) + 4, f"{value:g} s", "end faint")]
    for times, words in ((1, "as long"), (10, "ten times as long")):
        least, end = LEAST_SECONDS * 0.8, MOST_SECONDS / times
        shapes += [line(across(least), up(least * times), across(end), up(MOST_SECONDS), "one"),
                   text(across(end) + 6, top + 12 + 14 * (times == 1), words, "faint")]
    groups = (("solving circuits", "circuits, by yosys and abc"), ("solving formulas", "drawn and built formulas"))
    for at, ((name, words), colour) in enumerate(zip(groups, SERIES)):
        shapes += [dot(right + 60, top + 62 + 24 * at, colour, words), text(right + 74, top + 66 + 24 * at, words)]
        for row in rows_of(tables[name]):
            ours, theirs = (number_in(row[column]) for column in ("`solve`", "minisat"))
            if ours is not None and theirs is not None:
                x, y = (max(it, LEAST_SECONDS) for it in (theirs, ours))
                shapes.append(dot(across(x), up(y), colour, f"{row['formula']}: {row['`solve`']} s, minisat {row['minisat']} s"))
    shapes += [text((left + right) / 2, bottom + 40, "minisat", "middle"), text(24, (top + bottom) / 2, "solve"),
               text(right + 54, top + 118, f"A run that is over {MOST_SECONDS} s", "faint"),
               text(right + 54, top + 133, "is not drawn; times", "faint"),
               text(right + 54, top + 148, f"below {LEAST_SECONDS} s stand there.", "faint")]
    return picture("Seconds of the processor to the answer: solve and minisat", bottom + 56, shapes)


def growth(tables):
    rows = [row for row in rows_of(tables["pure"]) if row["formula"].startswith("random")]
    left, right, top, bottom = 80, 720, 56, 396
    across, up = logarithmic(5e5, 2e7, left, right), logarithmic(0.03, 8, bottom, top)
    shapes = []
    for value in (1e6, 2e6, 5e6, 1e7):
        shapes += [line(across(value), top, across(value), bottom),
                   text(across(value), bottom + 18, f"{value / 1e6:g} million", "middle faint")]
    for value in (0.05, 0.1, 0.2, 0.5, 1, 2, 5):
        shapes += [line(left, up(value), right, up(value)), text(left - 8, up(value) + 4, f"{value:g} s", "end faint")]
    for name, colour in zip(GROWING, SERIES):
        points = sorted((number_in(row["literals"]), number_in(row[name])) for row in rows if number_in(row[name]) is not None)
        places = [(across(literals), up(took)) for literals, took in points]
        path = " ".join(f"{x:.1f},{y:.1f}" for x, y in places)
        shapes.append(f'<polyline points="{path}" fill="none" stroke="{colour}" stroke-width="1.8"/>')
        shapes += [dot(x, y, colour, f"{name.strip('`')}: {took:g} s") for (x, y), (_, took) in zip(places, points)]
        shapes += [text(x + 10, y + 4, name.strip("`")) for x, y in places[-1:]]
    shapes += [line(across(7.5e5), up(0.04), across(1.2e7), up(0.64), "one"),
               text(across(1.2e7) + 10, up(0.64) + 4, "in proportion", "faint"),
               text((left + right) / 2, bottom + 38, "literals of random formulas", "middle")]
    return picture("Seconds of the processor, by size", bottom + 54, shapes)


def pictures(page):
    """The text of each picture, by the name of its file."""
    tables = tables_of(page)
    return {f"{make.__name__}.svg": make(tables) for make in (ratios, solve, growth)}


def draw():
    for name, drawn in pictures(text_of(PAGE)).items():
        put_text(os.path.join(FIGURES, name), drawn)


if __name__ == "__main__":
    CommandLine(__doc__).end()
    draw()
