#!/usr/bin/env python3
"""Small inputs that might take long.

    bench/traps.py LEANK [--only WORD] [--growth | --bounds]

LEANK is the built program (`dist/leank`). Each input has at most 2 MB. For each command that takes it stand the
processor seconds, the peak of memory in MB and the status; what takes more than 3 seconds (5 for forged documents) or
300 MB, or gets no answer in 60, is marked. With --only there are only inputs whose names have the word. With --growth each
is run at a sixteenth and at a quarter of its size instead, under valgrind, which counts instructions (Debian: valgrind); a
growth of more than 5 times is marked. With --bounds only those runs are made that have a bound of their own: the most
instructions for each byte of the inputs, or the most bytes of memory for each byte that is read or written; what is past its
bound is marked. A run may hold 4 GB.
"""
import os
import re
import resource
import signal
import subprocess
import sys
import tempfile

from command_line import CommandLine
from trap_inputs import ANSWERS, BOUNDS, DOCUMENTS, EDITS, FORMULAS, pigeons

LIMIT, FORGED_LIMIT, TIME_OUT, MOST_GROWTH, MOST_MEMORY, MOST_BYTES = 3.0, 5.0, 60, 5.0, 300, 4 << 30

FORMULA_COMMANDS = [
    ("reduce", "pure"), ("reduce", "matching"), ("reduce", "matching", "--workers", "64"),
    ("reduce", "general", "--conflicts", "100"), ("reduce", "linear", "--pivots", "1000"), ("report",), ("deficiency",),
    ("solve", "--conflicts", "100"), ("mus", "--conflicts", "100"),
]
DOCUMENT_OPTIONS = [[], ["--workers", "64"]]

# Runs a command and prints its peak of memory and its status. It inherits little memory, unlike a child of the caller.
RUNNER = f"""
import resource, subprocess, sys
resource.setrlimit(resource.RLIMIT_CPU, ({TIME_OUT}, {TIME_OUT} + 5))
resource.setrlimit(resource.RLIMIT_AS, ({MOST_BYTES}, {MOST_BYTES}))
done = subprocess.run(sys.argv[1:], stdout=open("out", "wb"), stderr=subprocess.DEVNULL)
print(resource.getrusage(resource.RUSAGE_CHILDREN).ru_maxrss, done.returncode)
"""


def run(words, folder):
    """Processor seconds, peak of MB, and status, which is None where the time ran out."""
    before = resource.getrusage(resource.RUSAGE_CHILDREN)
    told = subprocess.run([sys.executable, "-c", RUNNER] + words, cwd=folder, capture_output=True, text=True)
    peak, status = map(int, told.stdout.split())
    after = resource.getrusage(resource.RUSAGE_CHILDREN)
    seconds = after.ru_utime + after.ru_stime - before.ru_utime - before.ru_stime
    return seconds, peak // 1024, None if status in (-signal.SIGXCPU, -signal.SIGKILL) else status


def instructions(words, folder):
    """Instructions of a run; None where the time ran out."""
    counted = ["valgrind", "--tool=callgrind", "--callgrind-out-file=/dev/null"] + words
    try:
        told = subprocess.run(counted, cwd=folder, stdout=subprocess.DEVNULL, stderr=subprocess.PIPE, text=True, timeout=5 * TIME_OUT)
    except subprocess.TimeoutExpired:
        return None
    return int(re.search(r"Collected : (\d+)", told.stderr).group(1))


def put(folder, name, text):
    assert len(text) <= 2200000, (name, len(text))
    with open(os.path.join(folder, name), "w") as file:
        file.write(text)


def row(name, words, folder, limit):
    seconds, peak, status = run(words, folder)
    late = status is None or seconds > limit
    large = peak > MOST_MEMORY
    shown = " ".join(words[1:])[:40]
    text = f"{name:28} {shown:40} {seconds:7.2f} s {peak:6} MB  {'none' if status is None else status:>4}"
    print(text + ("  LATE" if late else "") + ("  LARGE" if large else ""), flush=True)
    return late or large


def growth_row(name, words, small, large):
    """Whether four times the size takes more than so many times the instructions."""
    few, many = instructions(words, small), instructions(words, large)
    if few is None or many is None:
        print(f"{name:28} {' '.join(words[1:]):40} none in time  GROWS", flush=True)
        return True
    grows = many / few > MOST_GROWTH
    print(f"{name:28} {' '.join(words[1:]):40} {few:14} {many:14} x {many / few:5.2f}{'  GROWS' if grows else ''}", flush=True)
    return grows


def split(command):
    """The words and the options of a command."""
    is_option = lambda w: w.startswith("--") or w.isdigit()
    return [w for w in command if not is_option(w)], [w for w in command if is_option(w)]


def write_document(program, reducer, folder):
    """The document that a reducer writes, kept beside the formula."""
    words, options = split(reducer)
    with open(os.path.join(folder, "d"), "wb") as out:
        subprocess.run([program] + words + ["f"] + options, cwd=folder, stdout=out, stderr=subprocess.DEVNULL, timeout=TIME_OUT)


def part_of(make, size, part):
    """The size with which a formula has that part of the literals."""
    return max(int(size / part ** (1 / 3)), 1) if make is pigeons else max(size // part, 1)


def formula_rows(program, make, size, judge, folders):
    """Each command on a formula, and the check of what the reducers write."""
    for folder, part in folders:
        put(folder, "f", make(part_of(make, size, part)))
    marked = 0
    for command in FORMULA_COMMANDS:
        words, options = split(command)
        marked += judge(make.__name__, [program] + words + ["f"] + options, LIMIT)
    for reducer in FORMULA_COMMANDS[:5]:
        try:
            for folder, _ in folders:
                write_document(program, reducer, folder)
        except subprocess.TimeoutExpired:
            continue
        marked += judge(f"{make.__name__} {reducer[1]}", [program, "check", "f", "d"], LIMIT)
    return marked


def put_texts(folder, command, texts):
    """Writes what a command reads, and answers the names and how many bytes there are."""
    texts = (texts,) if isinstance(texts, str) else texts
    names = ("f", "e") if command == ("edits",) else ("f", "d", "m")
    for name, text in zip(names, texts):
        put(folder, name, text)
    return list(names[:len(texts)]), sum(map(len, texts))


def bound_row(program, bound, folder):
    """Whether a run is past its bound."""
    names, read = put_texts(folder, bound.command, bound.make(bound.size))
    words = [program, *bound.command, *names, *bound.options]
    if bound.memory is None:
        ratio, most = (instructions(words, folder) or float("inf")) / max(read, 1), bound.instructions
    else:
        _, peak, _ = run(words, folder)
        ratio, most = peak * 2**20 / (read + os.path.getsize(os.path.join(folder, "out"))), bound.memory
    past = ratio > most
    name, command = f"{bound.make.__name__:28} {bound.size:7}", " ".join(bound.command)
    print(f"{name} {command:16} {ratio:10.2f} of {most}{'  PAST' if past else ''}", flush=True)
    return past


def own_row(program, bound, folder):
    """The same run beside the time and the memory that all have."""
    names, _ = put_texts(folder, bound.command, bound.make(bound.size))
    return row(bound.make.__name__, [program, *bound.command, *names, *bound.options], folder, LIMIT)


def document_rows(program, make, size, judge, folders, word="check"):
    """The check of a document, or by another word of an answer."""
    for folder, part in folders:
        formula, text = make(size // part)
        put(folder, "f", formula)
        put(folder, "d", text)
    options = DOCUMENT_OPTIONS if len(folders) == 1 and word == "check" else DOCUMENT_OPTIONS[:1]
    return sum(judge(make.__name__, [program, word, "f", "d"] + it, FORGED_LIMIT) for it in options)


def answer_rows(program, make, size, judge, folders):
    """The check of an answer."""
    return document_rows(program, make, size, judge, folders, "verify")


def edits_rows(program, make, size, judge, folders):
    """The kernels after each of some edits."""
    for folder, part in folders:
        formula, text = make(size // part)
        put(folder, "f", formula)
        put(folder, "e", text)
    return judge(make.__name__, [program, "edits", "f", "e"], LIMIT)


def all_rows(program, only, judge, folders):
    """How many of the rows that all kinds of inputs have are marked."""
    marked = 0
    kinds = ((FORMULAS, formula_rows), (DOCUMENTS, document_rows), (ANSWERS, answer_rows), (EDITS, edits_rows))
    for inputs, rows in kinds:
        for make, size in inputs:
            if only in make.__name__:
                marked += rows(program, make, size, judge, folders)
    return marked


def main():
    words = CommandLine(__doc__)
    only, is_growth = words.option("--only", "", str), words.flag("--growth")
    is_bounds = not is_growth and words.flag("--bounds")
    program = words.program()
    words.end()
    if is_growth or is_bounds:
        words.needs("valgrind")
    own = [bound for bound in BOUNDS if only in bound.make.__name__]
    with tempfile.TemporaryDirectory() as small, tempfile.TemporaryDirectory() as large:
        folders = [(small, 16), (large, 4)] if is_growth else [(large, 1)]

        def judge(name, words, limit):
            return growth_row(name, words, small, large) if is_growth else row(name, words, large, limit)

        if is_bounds:
            marked = sum(bound_row(program, bound, large) for bound in own)
        else:
            marked = all_rows(program, only, judge, folders)
            marked += 0 if is_growth else sum(own_row(program, bound, large) for bound in own)
    print(f"{marked} past their bounds" if is_bounds else f"{marked} marked")
    sys.exit(1 if marked else 0)


if __name__ == "__main__":
    main()
