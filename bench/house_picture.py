#!/usr/bin/env python3
"""The crates as the floors of a house, drawn as SVG for bench/house.py."""
from command_line import CommandLine

# From the left edge of a band to its first room, and from the last room to the right edge; from its upper edge to its first row,
# below its name; from row to row; and between two rooms of a row.
MARGIN, FIRST_ROW, ROW, ROOM_HEIGHT, ROOM_GAP = 14, 32, 29, 22, 8

# The left edge of the house, and how wide its floors are: whole ones, and those before and behind the wall.
LEFT, WHOLE, BEFORE, BEHIND_LEFT, BEHIND = 20, 960, 628, 672, 308

# Between two floors; how high the way of the data is, and the gable.
GAP, STRIP, GABLE = 8, 118, 64

REDUCERS = ("pure", "matching", "linear", "search", "general", "parts", "questions", "documents")

# The colours of floors: the band, and the edges of its rooms.
COLOURS = {
    "ground": ("#e3e1dc", "#98928a"),
    "texts": ("#f3ebd3", "#bfa45c"),
    "pure": ("#d9e9f5", "#7ba6c6"),
    "matching": ("#d6ecec", "#6fa9a8"),
    "linear": ("#dcebdc", "#7eaa80"),
    "search": ("#e2e0f4", "#8f8ac4"),
    "general": ("#dde3f4", "#8593c4"),
    "the wall": ("#f1e3dc", "#b98a74"),
    "roof": ("#e6dcea", "#9a7fa6"),
    "tests": ("#e4e9e0", "#9aa791"),
}
OTHERS = ("#e9e6f3", "#9990be")

# How rooms, names and words look, and the head of an arrow.
STYLES = """\
<defs><marker id="head" viewBox="0 0 8 8" refX="7" refY="4" markerWidth="7" markerHeight="7" orient="auto">
<path d="M0 0.5 L8 4 L0 7.5 Z" fill="#59606b"/></marker></defs>
<style>
text { font-family: Helvetica, Arial, 'Liberation Sans', 'DejaVu Sans', sans-serif; fill: #2b2f36; }
.crate { font: 11.5px ui-monospace, Menlo, Consolas, 'Liberation Mono', 'DejaVu Sans Mono', monospace; text-anchor: middle; }
.title { font-size: 20px; font-weight: bold; text-anchor: middle; }
.name { font-size: 14px; font-weight: bold; }
.words { font-size: 11.5px; fill: #59606b; }
.room { fill: #ffffff; }
.wall { fill: #6b5b53; }
.thing { fill: #ffffff; stroke: #59606b; stroke-width: 1.2; }
.act { fill: #59606b; }
.told, .done { font-size: 12px; text-anchor: middle; }
.done { fill: #ffffff; }
.way { fill: none; stroke: #59606b; stroke-width: 1.4; marker-end: url(#head); }
.joint { fill: none; stroke: #59606b; stroke-width: 1.4; }
</style>
"""

# The way of the data, from the left edge of the house and the top of its strip.
WAY = """\
<rect class="thing" x="14" y="18" width="48" height="26" rx="13"/><text class="told" x="38" y="35">text</text>
<path class="way" d="M62 31 H83"/>
<rect class="act" x="84" y="18" width="64" height="26" rx="5"/><text class="done" x="116" y="35">reader</text>
<path class="way" d="M148 31 H169"/>
<rect class="thing" x="170" y="18" width="70" height="26" rx="13"/><text class="told" x="205" y="35">formula</text>
<path class="way" d="M240 31 H261"/>
<rect class="act" x="262" y="18" width="78" height="26" rx="5"/><text class="done" x="301" y="35">reducers</text>
<path class="way" d="M340 31 H361"/>
<rect class="thing" x="362" y="18" width="82" height="26" rx="13"/><text class="told" x="403" y="35">document</text>
<path class="way" d="M444 31 H465"/>
<rect class="act" x="466" y="18" width="66" height="26" rx="5"/><text class="done" x="499" y="35">printer</text>
<path class="way" d="M532 31 H553"/>
<rect class="thing" x="554" y="18" width="48" height="26" rx="13"/><text class="told" x="578" y="35">text</text>
<text class="name" x="14" y="83">the way of the data</text>
<path class="joint" d="M205 44 V78 M403 44 V78"/>
<path class="way" d="M205 78 H667"/>
<rect class="wall" x="635" y="0" width="8" height="62"/><rect class="wall" x="635" y="94" width="8" height="24"/>
<text class="words" x="668" y="35">a formula and a document, whoever made it</text>
<rect class="act" x="668" y="65" width="70" height="26" rx="5"/><text class="done" x="703" y="82">checker</text>
<path class="way" d="M738 78 H759"/>
<rect class="thing" x="760" y="65" width="150" height="26" rx="13"/><text class="told" x="835" y="82">accepted or refused</text>
"""


def floors_of(text):
    """The floors with their names, what is on them, and their rooms."""
    floors = []
    for line in text.splitlines():
        if line.startswith("# "):
            name, _, words = line[2:].partition(": ")
            floors.append((name, words, []))
        elif ":" in line and floors:
            floors[-1][2].append(line.split(":")[0])
    return floors


def rooms_of(rooms, width, edge):
    """The rooms on a band so wide, in rows, and how high the band is."""
    shapes, x, y = [], MARGIN, FIRST_ROW
    for room in rooms:
        wide = len(room) * 7 + 16
        if x + wide + MARGIN > width and x > MARGIN:
            x, y = MARGIN, y + ROW
        shapes.append(f'<rect class="room" x="{x}" y="{y}" width="{wide}" height="{ROOM_HEIGHT}" rx="5" stroke="{edge}"/>\n')
        shapes.append(f'<text class="crate" x="{x + wide // 2}" y="{y + 15}">{room}</text>\n')
        x += wide + ROOM_GAP
    return "".join(shapes), y + ROW + 4


class House:
    """The picture so far. Heights are counted downwards, as in SVG, and the ground's floor stands on 0."""

    def __init__(self):
        self.shapes = []
        # the upper edge of what stands so far, that of the floors below the reducers and the checks, the lower edge of all
        self.top = self.base = self.depth = 0

    def add(self, name, words, rooms):
        """Draws a floor on what stands there."""
        width = BEFORE if name in REDUCERS else BEHIND if name == "the wall" else WHOLE
        colours = COLOURS.get(name, OTHERS)
        shapes, high = rooms_of(rooms, width, colours[1])
        x = LEFT
        if name == "tests":
            y = self.depth + GAP
            self.depth = y + high
        elif name == "the wall":
            # beside the reducers, and as high as these
            self.top = min(self.top, self.base - high - GAP)
            x, y, high = BEHIND_LEFT, self.top, self.base - self.top - GAP
            self.shapes.append(f'<rect class="wall" x="655" y="{y}" width="8" height="{high}"/>\n')
        else:
            if name == "roof":
                self.put_way()
            self.top -= high + GAP
            y = self.top
        self.shapes.append(f'<g transform="translate({x} {y})">\n')
        self.shapes.append(f'<rect width="{width}" height="{high}" rx="8" fill="{colours[0]}"/>\n')
        behind = len(name) * 8 + 26
        self.shapes.append(f'<text class="name" x="14" y="21">{name}</text><text class="words" x="{behind}" y="21">{words}</text>\n')
        self.shapes.append(shapes + "</g>\n")
        if name == "roof":
            self.put_gable()
        elif width == WHOLE and name != "tests":
            self.base = self.top

    def put_way(self):
        """Draws the way of the data on all that stands."""
        self.top -= STRIP
        self.shapes.append(f'<g transform="translate(20 {self.top})">\n{WAY}</g>\n')

    def put_gable(self):
        """Draws the gable, with the name of the house."""
        self.top -= GABLE
        self.shapes.append(f'<g transform="translate(20 {self.top})"><path d="M0 60 L480 4 L960 60 Z" fill="#cdbcd5"/>\n')
        self.shapes.append('<text class="title" x="480" y="46">leank</text></g>\n')


def picture(text):
    """The picture of a map."""
    house = House()
    for floor in floors_of(text):
        house.add(*floor)
    top = house.top - GAP
    high = house.depth - top + GAP
    return (
        f'<svg xmlns="http://www.w3.org/2000/svg" viewBox="0 {top} 1000 {high}" width="1000" height="{high}">\n'
        "<title>The crates of leank, as the floors of a house</title>\n"
        f'<rect y="{top}" width="1000" height="{high}" rx="14" fill="#faf9f6"/>\n'
        + STYLES + "".join(house.shapes) + "</svg>\n"
    )


if __name__ == "__main__":
    CommandLine(__doc__).end()
