#!/usr/bin/env python3
"""Refuses each allocation of each command in turn.

    bench/memory.py LEANK [WORD]

LEANK is the built program (`dist/leank`). Needs gcc. Of each command, and each of
its allocations (of the first 500, and then of every twentieth part), a run in which that one is refused ends as the run in
which none is, or with 9. With 9 nothing stands on standard output, and on standard error stands `leank: out of memory`, or
nothing, since there may be no memory for the words. Each other end is printed. The status is 1 if there is one, or if no
allocation was refused. Runs have one worker, so that allocations come in one order. With a word, allocations are refused of
those commands alone whose names have it, as `mus`.
"""
import os
import subprocess
import sys
import tempfile
from collections import Counter

from command_line import CommandLine
from runs import built

FILES = {
    "square": "p cnf 2 4\n1 2 0\n1 -2 0\n-1 2 0\n-1 -2 0\n",
    "model": "p cnf 3 3\n1 2 0\n-2 3 0\n2 -3 0\n",
    "parts": "p cnf 6 8\n1 2 0\n1 -2 0\n-1 2 0\n3 4 0\n3 -4 0\n-3 4 0\n-3 -4 0\n5 6 0\n",
    "eight": "p cnf 3 8\n" + "".join(f"{a}1 {b}2 {c}3 0\n" for a in ("", "-") for b in ("", "-") for c in ("", "-")),
    "empty": "p cnf 1 2\n1 0\n0\n",
    "long": "p cnf 4 9\n-2 -3 4 0\n-1 -4 0\n2 4 0\n-1 2 0\n-1 -2 -3 4 0\n-1 3 4 0\n-1 2 -3 4 0\n-2 3 0\n1 -4 0\n",
    "late": "p cnf 5 12\n1 -2 3 -4 0\n-1 -5 0\n1 2 3 4 0\n-2 5 0\n-2 -3 4 -5 0\n2 3 4 -5 0\n-1 2 3 0\n-3 4 0\n-1 3 -4 5 0\n"
            "1 -2 4 -5 0\n-1 -3 5 0\n1 -4 0\n",
    "wrong": "p cnf 2 1\n1 x 0\n",
    "values": "v 1 2 3 0\n",
    "edits": "d 1\nc no edit\na -1 0\na 1 0\na -1 1 0\nd 2\nd 5\n" + "a 1 0\n" * 20,
}
# How many allocations are refused in turn before some are left out.
EACH = 500
CLASSES = ("pure", "matching", "linear", "general")


def commands():
    """Words of commands; a word in braces is the output of an earlier one."""
    for name in ("square", "model", "parts", "eight", "empty", "wrong"):
        yield f"{name} solve", ["solve", name]
        yield f"{name} report", ["report", name]
        yield f"{name} deficiency", ["deficiency", name]
        yield f"{name} edits", ["edits", name, "edits"]
        yield f"{name} mus", ["mus", name]
        for kind in CLASSES:
            yield f"{name} {kind}", ["reduce", kind, name, "--protect", "1"]
    yield "solve stops", ["solve", "eight", "--conflicts", "1"]
    yield "mus stops", ["mus", "eight", "--conflicts", "1"]
    # A refutation names more than the core, and a budget is used up behind the first decision.
    yield "long mus", ["mus", "long"]
    yield "late mus stops", ["mus", "late", "--conflicts", "1"]
    yield "general stops", ["reduce", "general", "eight", "--conflicts", "1"]
    yield "linear stops", ["reduce", "linear", "eight", "--pivots", "1"]
    for name in ("square", "model", "parts", "eight", "empty"):
        yield f"{name} verify", ["verify", name, f"{{{name} solve}}"]
        yield f"{name} mus verify", ["verify", name, f"{{{name} mus}}"]
        for kind in CLASSES:
            yield f"{name} {kind} check", ["check", name, f"{{{name} {kind}}}"]
            yield f"{name} {kind} extend", ["extend", name, f"{{{name} {kind}}}", "values"]
    yield "unfinished check", ["check", "eight", "{general stops}"]
    yield "mus check", ["check", "{mus stops}", "{mus stops}"]
    yield "unfinished extend", ["extend", "eight", "{solve stops}", "values"]
    yield "no answer", ["verify", "square", "values"]
    yield "other answer", ["verify", "model", "{square solve}"]
    yield "no document", ["check", "square", "values"]
    yield "no edits", ["edits", "square", "values"]
    yield "no words", ["reduce", "square"]
    yield "no file", ["solve", "nothing"]
    yield "demo", ["demo", "7"]


def ended(words, folder, library, place):
    """How a command ends if the allocation of this number is refused, and whether it was."""
    mark = os.path.join(folder, "refused")
    how = {**os.environ, "LD_PRELOAD": library, "FAIL_ALLOCATION": str(place), "REFUSED": mark}
    done = subprocess.run(words, capture_output=True, env=how, cwd=folder, timeout=100)
    was_refused = os.path.exists(mark)
    if was_refused:
        os.unlink(mark)
    return (done.returncode, done.stdout, done.stderr), was_refused


def places():
    """Each of the first allocations, and then fewer and fewer."""
    place = 1
    while True:
        yield place
        place += max(1, (place - EACH) // 20)


def main():
    words = CommandLine(__doc__)
    leank, only, faults, counts = words.program(), words.word("WORD", ""), 0, Counter()
    words.end()
    words.needs("gcc")
    with tempfile.TemporaryDirectory() as folder:
        library = built(folder, "failing_allocation.c", "-shared", "-fPIC", "-ldl")
        for name, text in FILES.items():
            with open(os.path.join(folder, name), "w") as file:
                file.write(text)
        for name, words in commands():
            words = [leank, *(word.strip("{}") for word in words)]
            ample, _ = ended(words, folder, library, 0)
            counts[f"status {ample[0]} with all memory"] += 1
            with open(os.path.join(folder, name), "wb") as file:
                file.write(ample[1])
            for place in places() if only in name else ():
                found, was_refused = ended(words, folder, library, place)
                if not was_refused:
                    break
                no_memory = found in ((9, b"", b"leank: out of memory\n"), (9, b"", b""))
                counts["out of memory" if no_memory else "as with all memory" if found == ample else "other"] += 1
                if not no_memory and found != ample:
                    faults += 1
                    print(f"{name}: allocation {place}: {found}, not {ample}")
    print(", ".join(f"{what}: {count}" for what, count in sorted(counts.items())))
    print(f"{faults} differences")
    if not counts["out of memory"]:
        sys.exit("no allocation was refused: the program is not linked as LD_PRELOAD needs it")
    sys.exit(faults > 0)


if __name__ == "__main__":
    main()
