#!/usr/bin/env python3
"""Compares the map of the crates with what tells it: the order, the walls, the folders, the pages and the picture.

    bench/house.py
    bench/house.py draw

The first prints what is wrong, and its status is 1 then:

- in crates.txt a crate stands before one that it stands on, or a crate has no folder or a folder no crate;
- a check, behind the wall, uses a reducer, a reader, a printer, a log or a search, itself or through others: it may use other checks,
  laws, and what SHARED and EXCEPT name, and an exception that nothing needs is wrong too;
- a floor below the roof stands on a check;
- one of the floors APART, with a reducer or the search, uses another of them;
- a crate that is no test stands on one that is;
- the tables of docs/ARCHITECTURE.md have other crates or another order, or not two columns, or its heads are other floors;
- docs/house.svg is not the picture of crates.txt;
- a crate exports a name that no other crate names, no test either; OFFERED has the exceptions, of which again none may be idle.

`draw` draws that picture: the crates as the floors of a house (SVG), from the lowest floor up, and the tests below the ground.
Nobody else compares these, so run it whenever the map changes. Needs python3.
"""
import os
import re
import sys

from command_line import CommandLine
from house_exports import unnamed
from house_picture import picture

TOP = os.path.dirname(os.path.dirname(os.path.abspath(__file__)))
PICTURE = "docs/house.svg"
WALL = "the wall"
# Floors that do not know each other.
APART = ("pure", "matching", "linear", "search")
# What the checks use that other crates use too, beside laws: a fault in one of these may stand on both sides of the wall.
SHARED = {
    "lk_model": "the types and the definitions",
    "lk_outside": "the gate that halves of work enter",
    "par_halves": "work on a list in halves on threads",
    "partial_assign": "whether literals satisfy a clause",
}
# What one check alone may use beside these, with all that it stands on.
EXCEPT = {
    ("check_linear", "exact_rows"): "sums of exact numbers; what they are is proved of them, and the run of the reducer is not there",
    ("lean_checker", "itoa"): "the digits of a number in the line of a verdict",
    ("answer_check", "answer_text"): "no check of its own: it hands out the texts of answers beside their checks",
}
# What is exported for users of the library, though no crate here calls it.
OFFERED = {}


def read(name):
    with open(os.path.join(TOP, name), encoding="utf-8") as it:
        return it.read()


def floors_of(text):
    """For each floor in its order the crates, and for each of these what it stands on."""
    floors = {}
    for line in text.splitlines():
        if line.startswith("# "):
            floor = floors.setdefault(line[2:].split(":")[0], {})
        elif line.strip():
            crate, uses = line.split(":")
            floor[crate] = uses.split()
    return floors


def wrong_order(floors):
    seen, every = set(), {crate for floor in floors.values() for crate in floor}
    for crates in floors.values():
        for crate, uses in crates.items():
            for below in uses:
                if below in every and below not in seen:
                    yield f"crates.txt: {crate} stands before {below}, on which it stands"
            seen.add(crate)


def reached(every, name):
    """A crate and all that it stands on, those of the kit too."""
    return {name}.union(*(reached(every, below) for below in every.get(name, ())))


def wrong_wall(floors):
    every = {crate: uses for crates in floors.values() for crate, uses in crates.items()}
    used = {(crate, below) for crate, uses in floors[WALL].items() for below in uses if below not in floors[WALL]}
    yield from (f"bench/house.py: {crate} does not use {below}, so this is no exception" for crate, below in sorted(EXCEPT.keys() - used))
    for crate, below in sorted(used - EXCEPT.keys()):
        for name in sorted(reached(every, below)):
            if name not in SHARED and not (name in every and name.endswith("_laws")):
                through = "" if name == below else f" through {below}"
                yield f"crates.txt: {crate} is behind the wall, and uses {name}{through}"


def wrong_floors(floors):
    floor_of = {crate: floor for floor, crates in floors.items() for crate in crates}
    for floor, crates in floors.items():
        for crate, uses in crates.items():
            for below in uses:
                if floor_of.get(below) == WALL and floor not in (WALL, "roof", "tests"):
                    yield f"crates.txt: {crate} uses {below}, which is behind the wall"
                if floor in APART and floor_of.get(below) in APART and floor_of[below] != floor:
                    yield f"crates.txt: {crate} uses {below}, which is on the floor {floor_of[below]}"
                if floor_of.get(below) == "tests" and floor != "tests":
                    yield f"crates.txt: {crate} stands on a test"


def wrong_folders(floors):
    listed = {crate for crates in floors.values() for crate in crates}
    folders = {name for name in os.listdir(os.path.join(TOP, "crates")) if os.path.isdir(os.path.join(TOP, "crates", name, "src"))}
    yield from (f"crates/{name}: no such folder with src/" for name in sorted(listed - folders))
    yield from (f"crates/{name}: not in crates.txt" for name in sorted(folders - listed))


def wrong_pages(floors):
    listed = [crate for crates in floors.values() for crate in crates]
    rows = re.findall(r"^\| \[(\w+)\]\(\.\./crates/\1/README\.md\) \|(.*)\|$", read("docs/ARCHITECTURE.md"), re.M)
    yield from (f"docs/ARCHITECTURE.md: the row of {crate} has not two columns" for crate, does in rows if not does.strip() or "|" in does)
    told = [crate for crate, _ in rows]
    if told != listed:
        at = next((i for i, (a, b) in enumerate(zip(told, listed)) if a != b), min(len(told), len(listed)))
        yield f"docs/ARCHITECTURE.md: row {at + 1} of the map is {told[at:at + 1]}, and not {listed[at:at + 1]}"
    heads = re.findall(r"^### ([^:\n]+): (.*)$", read("docs/ARCHITECTURE.md"), re.M)
    heads = [f"{name.lower()}: {words}" for name, words in heads]
    named = [line[2:] for line in read("crates.txt").splitlines() if line.startswith("# ")]
    if heads != named:
        yield f"docs/ARCHITECTURE.md: the heads of the floors are not those of crates.txt: {sorted(set(heads) ^ set(named))}"


def wrong_picture():
    if not os.path.isfile(os.path.join(TOP, PICTURE)) or read(PICTURE) != picture(read("crates.txt")):
        yield f"{PICTURE} is not the picture of crates.txt: draw it anew"


def texts_under(crate, folders, ending):
    found = []
    for folder in folders:
        for place, _, names in os.walk(os.path.join(TOP, "crates", crate, folder)):
            found += [read(os.path.join(place, name)) for name in sorted(names) if name.endswith(ending)]
    return "\n".join(found)


def wrong_exports(floors):
    every = [crate for crates in floors.values() for crate in crates]
    codes = {crate: texts_under(crate, ["src"], ".rt") for crate in every}
    idle = set(unnamed(codes, {crate: texts_under(crate, ["specs", "proofs"], ".antt") for crate in every}))
    for crate, name in sorted(OFFERED.keys() - idle):
        yield f"bench/house.py: {name} of {crate} is not exported, or some crate names it, so this is no exception"
    yield from (f"crates/{crate}: exports {name}, which no other crate names" for crate, name in sorted(idle - OFFERED.keys()))


def draw():
    with open(os.path.join(TOP, PICTURE), "w", encoding="utf-8") as out:
        out.write(picture(read("crates.txt")))


def main():
    words = CommandLine(__doc__)
    is_drawn = words.takes("draw")
    words.end()
    if is_drawn:
        return draw()
    floors = floors_of(read("crates.txt"))
    checks = (wrong_order, wrong_wall, wrong_floors, wrong_folders, wrong_pages, wrong_exports)
    wrong = [*(line for check in checks for line in check(floors)), *wrong_picture()]
    print("\n".join(wrong) or f"{len(floors)} floors, {sum(map(len, floors.values()))} crates: all is told as it is")
    return 1 if wrong else 0


if __name__ == "__main__":
    sys.exit(main())
