#!/usr/bin/env python3
"""Measures all figures anew: runs the programs that measure one after another, and puts their tables into bench/README.md.

    bench/measure.py [LEANK] [--search TEST_SEARCH] [NAME ...]

LEANK is the built program, by default `dist/leank`, and TEST_SEARCH what learning.py needs, by default what a run of the gate
built in crates/test_search/out. NAME is one of `bench`, `pure`, `matching`, `editing`, `commands`, `general`, `lean_kernel`,
`linear`, `solving`, `mus`, `learning` and `gains`; without it all are run, which takes about 50 minutes on four processors of 2.5
GHz. Nothing else should run at that time.

After each program its tables stand in the page, with the commit of this folder, the day and the processor, and the pictures are
drawn anew; so what was measured is kept if the run is interrupted. What `gains` counts goes into bench/figures/gains.tsv and the
rows of docs/GAINS.md. A line for each program says how long it took, or that it failed. Then the page keeps the tables that it had,
and a file that the line names has what was printed. The status is 1 if one failed. Needs git and all that these programs need.
"""
import datetime
import os
import re
import subprocess
import sys
import textwrap
import time
from collections import Counter

import gains
import plots
from command_line import RELEASED, CommandLine
from runs import kept
from tables import put_text, tables_of, text_of, with_tables

HERE = os.path.dirname(os.path.abspath(__file__))
SEARCH = os.path.join(os.path.dirname(HERE), "crates", "test_search", "out", "test_search")
# The words of each run. The first is the name of the program.
RUNS = [
    "bench LEANK",
    "pure LEANK",
    "matching LEANK",
    "editing LEANK",
    "commands LEANK",
    "general LEANK",
    "lean_kernel LEANK",
    "linear LEANK",
    "solving LEANK families",
    "solving LEANK formulas",
    "solving LEANK circuits",
    "solving LEANK parts",
    "mus families LEANK",
    "mus circuits LEANK",
    "learning SEARCH",
    "gains LEANK",
]
NAMES = list(dict.fromkeys(run.split()[0] for run in RUNS))
# The lines of the page that say with what its tables were measured.
MEASURED = re.compile(r"<!-- measured -->\n((?:.+\n)+)")
# So many processors may be at work when nothing else is said to run.
IDLE = 0.2


def processor():
    with open("/proc/cpuinfo", encoding="utf-8") as it:
        name = re.search(r"^model name\s*: (.*)$", it.read(), re.MULTILINE)
    return re.sub(r"\(\w+\)", "", name[1]) if name else "an unknown processor"


def spent():
    """The seconds that all processors together were at work."""
    with open("/proc/stat", encoding="utf-8") as it:
        user, nice, system, *_ = map(int, it.readline().split()[1:])
    return (user + nice + system) / os.sysconf("SC_CLK_TCK")


def working(seconds=2):
    """How many processors are at work."""
    before = spent()
    time.sleep(seconds)
    return (spent() - before) / seconds


def git(*words):
    return subprocess.run(["git", *words], cwd=HERE, stdout=subprocess.PIPE, text=True, check=True).stdout


def with_what(commit):
    """With what is measured now. The program is that of the commit if its sources and dist/ have no changes."""
    changes = " with changes" if git("status", "--porcelain", "--", "../crates", "../crates.txt", "../dist") else ""
    others = "nothing else running" if working() < IDLE else "with other work"
    machine = f"on {processor()}, {os.cpu_count()} processors, {others}"
    return f"the program of commit {commit}{changes}, {datetime.date.today()}, {machine}"


def measured_with(page):
    """With what each table of a page was measured."""
    most, *others = re.split(r"(?<=\.) (?=But `)", " ".join(MEASURED.search(page)[1].split()))
    found = dict.fromkeys(tables_of(page), re.fullmatch(r"Measured with (.*)\.", most)[1])
    for other in others:
        names, what = re.fullmatch(r"But (`.*?`) with (.*)\.", other).groups()
        found.update(dict.fromkeys(re.findall("`(.*?)`", names), what))
    return found


def with_measured(page, found):
    """The page with lines that say this: what holds of most tables once, and what else holds of some."""
    most = Counter(found.values()).most_common(1)[0][0]
    lines = [f"Measured with {most}."]
    for what in dict.fromkeys(found.values()):
        if what != most:
            lines.append(f"But {', '.join(f'`{name}`' for name in found if found[name] == what)} with {what}.")
    filled = "".join(textwrap.fill(line, 120, break_on_hyphens=False) + "\n" for line in lines)
    return MEASURED.sub(lambda _: f"<!-- measured -->\n{filled}", page)


def put(tables, commit, what):
    """Puts tables into the pages, and draws the pictures."""
    if "gains" in tables:
        put_text(gains.DATA, gains.data_of(tables["gains"], commit))
        gains.put_rows()
    for_page = {name: table for name, table in tables.items() if name != "gains"}
    page = text_of(plots.PAGE)
    found = measured_with(page) | dict.fromkeys(for_page, what)
    put_text(plots.PAGE, with_measured(with_tables(page, for_page.values()), found))
    plots.draw()


def is_measured(run, paths, commit, what):
    """Runs a program, puts its tables, and prints a line."""
    name, *words = run.split()
    begin = time.monotonic()
    done = subprocess.run([sys.executable, os.path.join(HERE, f"{name}.py"), *(paths.get(word, word) for word in words)],
                          stdin=subprocess.DEVNULL, capture_output=True, text=True)
    took, tables = f"{time.monotonic() - begin:6.0f} s", tables_of(done.stdout)
    fault = "" if done.returncode == 0 else f"status {done.returncode}"
    if not fault:
        try:
            put(tables, commit, what)
        except ValueError as error:
            fault = str(error)
    if fault:
        print(f"FAILED   {took}  {run}: {fault}; {kept(name, done.stdout + done.stderr)}", flush=True)
    else:
        print(f"measured {took}  {run}: {sum(len(table.rows) for table in tables.values())} rows", flush=True)
    return not fault


def main():
    words = CommandLine(__doc__)
    paths = {"SEARCH": os.path.abspath(words.option("--search", SEARCH, str))}
    paths["LEANK"] = RELEASED if not words.left or words.left[0] in NAMES else words.program()
    names = words.some("NAME", NAMES)
    words.needs("git")
    commit = git("rev-parse", "--short=7", "HEAD").strip()
    what = with_what(commit)
    begin = time.monotonic()
    found = [is_measured(run, paths, commit, what) for run in RUNS if run.split()[0] in names]
    print(f"{sum(found)} of {len(found)} measured in {(time.monotonic() - begin) / 60:.0f} minutes with {what}")
    return 0 if all(found) else 1


if __name__ == "__main__":
    sys.exit(main())
