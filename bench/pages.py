#!/usr/bin/env python3
"""Compares docs/REFERENCE.md, docs/leank.1 and the limits that README.md tells with each other and with the program, figures with
what they come from, and follows the links of the pages.

    bench/pages.py [LEANK]

LEANK, by default `dist/leank`, is run with each option of each command at its least and greatest number and one past each, with
inputs for each status, and at each limit of formulas and one past it. Of defaults the two pages are compared alone. Each picture
has to be what plots.py draws from the tables of bench/README.md, and the rows of docs/GAINS.md what bench/figures/gains.tsv says.
Links are those within the repository, also to headings. With differences, which are printed, the status is 1. It takes half a
minute.
"""
import itertools
import re
import subprocess
import sys
import tempfile
from pathlib import Path

import gains
import plots
from command_line import RELEASED, CommandLine
from formulas import formula_text, pigeons, square
from tables import text_of

TOP = Path(__file__).resolve().parent.parent
REFERENCE, MANUAL, README = ((TOP / name).read_text() for name in ("docs/REFERENCE.md", "docs/leank.1", "README.md"))
FILES = {
    "FORMULA": formula_text(2, [[1], [-1, 2]]), "ANSWER": b"s SATISFIABLE\nv 1 2 0\n", "MODEL": b"v 1 2 0\n", "EDITS": b"a 1 0\n",
    "DOCUMENT": b"c leank 1 pure\nc formula 2 2\nc keep 0\nc set 1 2 0\nc order 2 1 0\np cnf 2 0\n",
    "open": b"c leank 1 unfinished\nc formula 2 2\nc learned 0\nc round\np cnf 2 2\n1 0\n-1 2 0\n",
    "forged": b"c leank 1 pure\nc formula 2 2\nc keep 0\nc set 1 0\nc order 1 0\np cnf 2 0\n", "wrong": b"s SATISFIABLE\nv 1 -2 0\n",
    "square": formula_text(2, square(1, 2)), "pigeons": formula_text(*pigeons(3)), "bad": b"p cnf x\n",
    # (each variable weighs as much as the two before it)
    "sums": formula_text(186, [clause for v in range(1, 185) for clause in ([v + 2, -v - 1, -v], [-v - 2, v + 1, v])]),
    "most": formula_text(2895, [[v] for v in range(1, 2896)]), "more": formula_text(2896, [[v] for v in range(1, 2897)]),
    "wide": b"p cnf 1000000 0\n"}
RUNS = f"""0: check FORMULA DOCUMENT; extend FORMULA DOCUMENT MODEL; verify FORMULA ANSWER; edits FORMULA EDITS; mus square
0: report FORMULA; deficiency FORMULA; reduce linear most; demo 0; demo {2**64 - 1}
1: ; help; reduce pure; reduce PURE FORMULA; demo x; demo -1; demo {2**64}
2: report bad; check FORMULA FORMULA; extend FORMULA DOCUMENT FORMULA; verify FORMULA DOCUMENT; edits FORMULA FORMULA
3: report nothing; report .
4: report FORMULA >/dev/full
5: check FORMULA open; extend FORMULA open MODEL; reduce linear FORMULA --pivots 0
5: reduce general pigeons --conflicts 1; solve pigeons --conflicts 1; mus pigeons --conflicts 1
6: reduce linear sums
7: reduce linear more
8: check FORMULA forged; extend FORMULA forged MODEL; verify FORMULA wrong
9: reduce pure wide
10: solve FORMULA; mus FORMULA
20: solve square"""
# (the numbers of an option, with its default if that is one; the limits of a formula)
RANGE = r"([\d,]+) to ([\d,^]+(?: - 1)?)(?:.*default ([\d,]+))?"
MOST = r"most ([\d,]+)\s+variables,\s+([\d,]+)\s+clauses,\s+([\d,]+)\s+literals[^.]*?and\s+([\d^]+)\s+bytes"
differences = []


def expect(holds, what):
    differences.extend([] if holds else [what])


def section(text, begin, end):
    return text.split(begin, 1)[1].split(end, 1)[0]


def numbers(pattern, text):
    return [eval(word.replace(",", "").replace("^", "**")) for word in re.search(pattern, text, re.DOTALL).groups() if word]


def usages(lines):
    """The commands, by their words, with the options of each."""
    split = [(line.replace("CLASS", "pure|matching|linear|general").split("[")[0].split()[1:], line) for line in lines]
    return {" ".join([words[0], name, *words[2:]]): set(re.findall(r"\[(--\w+) \w+\]", line))
            for words, line in split for name in words[1].split("|")}


def plain(roff):
    """A text of the manual page without its macros."""
    text = re.sub(r'^\.\w+ ?|"|\\f.|\\(?=-)', "", roff, flags=re.MULTILINE).replace("\n", " ")
    return re.sub(r" ?(\|) ?|(?<=\[) | (?=])", r"\1", text)


def manual():
    """Of the manual page the commands, the numbers of each option, the statuses, and the limits."""
    synopsis, options, statuses = (section(MANUAL, f".SH {name}\n", "\n.SH") for name in ("SYNOPSIS", "OPTIONS", "EXIT STATUS"))
    return (usages(plain(part) for part in re.split(r"\n\.(?:PP|br)\n", synopsis)),
            {text.split()[0]: numbers(RANGE, text) for text in map(plain, options.split(".TP\n")[1:])},
            set(re.findall(r"^\.B (\d+)$", statuses, re.MULTILINE)), numbers(MOST, plain(MANUAL)))


def reference():
    """The same of REFERENCE."""
    words, statuses = (section(REFERENCE, f"## {name}\n", "\n## ") for name in ("The command line", "Statuses"))
    options = re.findall(r"^\| `(--\w+) \w+` \| (.*?) \| (.*?) \|", words, re.MULTILINE)
    return (usages(re.findall("^    (leank .*)", words, re.MULTILINE)),
            {name: numbers(RANGE, f"{of}, default {default}") for name, of, default in options},
            set(re.findall(r"^\| (\d+) \|", statuses, re.MULTILINE)), numbers(MOST, REFERENCE))


def ended(leank, room, words):
    """The status of a run, and the first line that it says or writes."""
    limit = "ulimit -v 8000; " if "wide" in words else ""
    done = subprocess.run(f"{limit}'{leank}' {words}", shell=True, cwd=room, capture_output=True)
    return done.returncode, (done.stderr or done.stdout).decode().split("\n")[0]


def try_options(leank, room, commands, options):
    for words, has in commands.items():
        for option, (least, greatest, *_) in options.items():
            for number in (least - 1, least, greatest, greatest + 1):
                line = f"{words.replace('demo N', 'demo 1')} {option} {number}"
                found, refusal = ended(leank, room, line), (1, f"leank: word {line.count(' ') + (option in has)} refused")
                expect(found[0] != 1 if option in has and least <= number <= greatest else found == refusal, f"{line}: {found}")


def try_runs(leank, room, statuses):
    lines = re.findall(r"`((?:leank: |refused |unfinished )[^`]+)`", section(REFERENCE, "## Statuses\n", "\n## "))
    shapes = "|".join(re.sub("[A-Z]+", ".+", re.escape(line)) for line in lines)
    expect(set(re.findall(r"^\d+", RUNS, re.MULTILINE)) == statuses, f"{sorted(statuses)} are not the statuses that are tried")
    for status, words in ((status, words) for status, runs in re.findall("(.*?): (.*)", RUNS) for words in runs.split("; ")):
        found, said = ended(leank, room, words)
        expect(found == int(status), f"{words}: status {found}, not {status}")
        expect(re.fullmatch(shapes, said) or not re.match("leank: |refused |unfinished ", said), f"{words}: {said}")


def try_limits(leank, room, most):
    heads = (b"p cnf %d 0\n", b"p cnf 0 %d\n", b"p cnf 1 1\n", b"p cnf 0 0\n%\n")
    for text, more, greatest in zip(heads, (b"", b"0\n", b"1 ", b""), most):
        for k in (greatest, greatest + 1):
            with open(f"{room}/limit", "wb") as file:
                file.write(text.replace(b"%d", b"%d" % k) + more * k)
                file.truncate(k if greatest == most[3] else None)
            found = ended(leank, room, "report limit")
            expect(found[0] == 0 if k == greatest else re.search("past a limit|too long", found[1]), f"{text} at {k}: {found}")


def expect_same(what, found, wanted, source):
    """Reports the first lines that differ."""
    lines = itertools.zip_longest(found.splitlines(), wanted.splitlines(), fillvalue="no line")
    first = next((pair for pair in lines if pair[0] != pair[1]), ("another end", ""))
    expect(found == wanted, f"{what}: {first[0]}\n{source}: {first[1]}")


def compare_figures():
    for name, drawn in plots.pictures(text_of(plots.PAGE)).items():
        # (of bytes, line ends are compared too)
        expect_same(f"bench/figures/{name}", Path(plots.FIGURES, name).read_bytes().decode(), drawn, "bench/plots.py draws")
    page = text_of(gains.PAGE)
    expect_same("docs/GAINS.md", page, gains.with_rows(page, text_of(gains.DATA)), "bench/figures/gains.tsv says")


def follow_links():
    for page in [TOP / "README.md", TOP / "bench/README.md", *TOP.glob("docs/*.md"), *TOP.glob("crates/*/README.md")]:
        for target, anchor in re.findall(r"\]\((?!\w+:)([^)#\s]*)#?([^)\s]*)\)", page.read_text()):
            to = (page.parent / target).resolve() if target else page
            titles = re.findall(r"^#+ (.*)$", to.read_text(), re.MULTILINE) if anchor and to.exists() else []
            is_there = not anchor or anchor in [re.sub(r"[^\w\- ]", "", title.lower()).replace(" ", "-") for title in titles]
            expect(to.exists() and is_there, f"{page.relative_to(TOP)}: no {target} {anchor}")


def main(leank):
    here, there = manual(), reference()
    for what, one, other in zip(("commands", "options", "statuses", "limits"), here, there):
        expect(one == other, f"{what} of leank.1: {one};\n{what} of REFERENCE: {other}")
    expect(numbers(MOST, README) == there[3], f"limits of README: {numbers(MOST, README)};\nlimits of REFERENCE: {there[3]}")
    compare_figures()
    follow_links()
    with tempfile.TemporaryDirectory() as room:
        for name, text in FILES.items():
            (Path(room) / name).write_bytes(text)
        try_options(leank, room, *there[:2])
        try_runs(leank, room, there[2])
        try_limits(leank, room, there[3])
    sys.exit("\n".join(differences) or 0)


if __name__ == "__main__":
    asked = CommandLine(__doc__)
    program = asked.program(default=RELEASED)
    asked.end()
    main(program)
