#!/usr/bin/env python3
"""Compares `edits` with matching kernels that are computed anew after each edit.

    bench/edits.py LEANK [COUNT]
    bench/edits.py faults LEANK
    bench/edits.py limits LEANK
    bench/edits.py long LEANK
    bench/edits.py answer FORMULA EDITS
    bench/edits.py rows
    bench/edits.py expected

LEANK is the built program (`dist/leank`). The first compares COUNT drawn lists (by
default 500) of 50 edits each, `faults` texts with each kind of faulty line at each place and texts with each byte changed,
`limits` the last clause and the last literal that there is room for and the first that there is not, and `long` texts of
2^30 bytes and of one more (it writes 1 GB in a folder for temporary files). Each prints the differences; the status is 1 if
there is one. `answer` prints what `edits` must write or say. `rows` prints a script for crates/test_commands, and `expected`
what the script must print. Needs python3.

The kernel of a formula of few variables is found by all sets of variables (see deficiency.py), that of a larger one by a
plain matching, one path after the other.
"""
import os
import random
import re
import subprocess
import sys
import tempfile
from collections import namedtuple

from command_line import CommandLine
from deficiency import matching_kernel
from formulas import drawn_clause, mixed_clauses, write
from judge import read_formula

SEED = 1
EDITS = 50
MOST_CLAUSES, MOST_LITERALS, MOST_BYTES = 4_000_000, 20_000_000, 1 << 30
# Up to so many variables a kernel is found by all sets of them.
FEW = 6

BLANKS = re.compile(rb"[ \t\r]+")
NUMBER = re.compile(rb"-?[0-9]+")

Add = namedtuple("Add", "clause")
Remove = namedtuple("Remove", "number")
Answer = namedtuple("Answer", "status written said", defaults=(b"", b""))


class Refused(Exception):
    """The text of edits is refused at a line, for a reason."""

    def __init__(self, line, reason):
        super().__init__(line, reason)
        self.said = f"leank: edits line {line}: {reason}\n".encode()


def number_of(word):
    """The number that a word writes, or None. There is no -0."""
    if not NUMBER.fullmatch(word):
        return None
    return None if word.startswith(b"-") and int(word) == 0 else int(word)


def edit_of(variables, first, words):
    """The edit that a line of these words makes, or None."""
    numbers = [number_of(word) for word in words]
    if None in numbers or not numbers:
        return None
    if first == b"d":
        return Remove(numbers[0]) if len(numbers) == 1 and numbers[0] > 0 else None
    *literals, last = numbers
    if first != b"a" or last != 0 or 0 in literals or any(abs(l) > variables for l in literals):
        return None
    return Add(tuple(dict.fromkeys(literals)))


class Live:
    """The live clauses under their numbers, and how many clauses and literals were ever held."""

    def __init__(self, clauses):
        self.clauses = dict(enumerate(clauses, 1))
        self.held, self.literals = len(clauses), sum(map(len, clauses))

    def make(self, edit):
        """Makes an edit, or says why it cannot be made."""
        if isinstance(edit, Remove):
            return None if self.clauses.pop(edit.number, None) is not None else "no such clause"
        if self.held == MOST_CLAUSES or self.literals + len(edit.clause) > MOST_LITERALS:
            return "past a limit"
        self.held += 1
        self.literals += len(edit.clause)
        self.clauses[self.held] = edit.clause
        return None


def states(variables, clauses, text):
    """The live clauses at first and after each edit, one and the same object each time."""
    live = Live(clauses)
    yield live
    if len(text) > MOST_BYTES:
        raise Refused(text.count(b"\n", 0, MOST_BYTES) + 1, "past a limit")
    for line, written in enumerate(text.split(b"\n"), 1):
        words = [word for word in BLANKS.split(written) if word]
        if not words or words[0].startswith(b"c"):
            continue
        edit = edit_of(variables, words[0], words[1:])
        wrong = "not an edit" if edit is None else live.make(edit)
        if wrong:
            raise Refused(line, wrong)
        yield live


def plain_kernel(clauses):
    """The places in a list of clauses to which alternating paths lead from those without a variable, where as many as can be
    have one."""
    owner, own = {}, [None] * len(clauses)

    def path_from(start):
        """How the search from a clause came to each variable, and a variable that no clause has, or None."""
        came, waiting = {}, [start]
        for place in waiting:
            for variable in map(abs, clauses[place]):
                if variable not in came:
                    came[variable] = place
                    if variable not in owner:
                        return came, variable
                    waiting.append(owner[variable])
        return came, None

    for start in range(len(clauses)):
        came, variable = path_from(start)
        while variable is not None:
            place = came[variable]
            owner[variable], own[place], variable = place, variable, own[place]
    reached = set()
    for start in range(len(clauses)):
        if own[start] is None:
            came, _ = path_from(start)
            reached.update(came.values(), (owner[variable] for variable in came), [start])
    return sorted(reached)


def kernel_of(variables, live):
    """The numbers of the matching kernel of the live clauses."""
    numbers, clauses = list(live.clauses), list(live.clauses.values())
    places = [p - 1 for p in matching_kernel(variables, clauses)] if variables <= FEW else plain_kernel(clauses)
    return [numbers[place] for place in places]


def keep_line(numbers):
    return " ".join(map(str, ["keep", *numbers, 0])) + "\n"


def answer(variables, clauses, text):
    """What `edits` must answer for a formula and a text of edits."""
    try:
        return Answer(0, "".join([keep_line(kernel_of(variables, live)) for live in states(variables, clauses, text)]).encode())
    except Refused as refused:
        return Answer(2, b"", refused.said)


class Runs:
    """Runs of leank that are compared with answers, and how many differ. Files of such runs are kept."""

    def __init__(self, leank):
        self.leank, self.folder, self.count, self.differences = leank, tempfile.mkdtemp(), 0, 0

    def path(self, kind):
        return os.path.join(self.folder, f"{self.count}.{kind}")

    def compare(self, formula, text, expected):
        """Compares a run on a formula, of which the text may be given, with the expected answer."""
        self.count += 1
        paths = [self.path("cnf"), self.path("edits")]
        with open(paths[0], "w") as out:
            out.write(formula) if isinstance(formula, str) else write(out, *formula)
        with open(paths[1], "wb") as out:
            out.write(text)
        ended = subprocess.run([self.leank, "edits", *paths], stdout=subprocess.PIPE, stderr=subprocess.PIPE)
        if Answer(ended.returncode, ended.stdout, ended.stderr) != expected:
            self.differences += 1
            print(f"{paths[0]}, {paths[1]}: status {ended.returncode}, {ended.stderr!r}, not {expected.status}, {expected.said!r}")
            return
        for path in paths:
            os.remove(path)

    def end(self):
        print(f"{self.count} runs, {self.differences} differences")
        if not self.differences:
            os.rmdir(self.folder)
        return 1 if self.differences else 0


def drawn_lines(draw, variables, clauses, count, width):
    """So many lines that each make an edit, and some that make none."""
    live = Live(clauses)
    lines = []
    while count:
        kind = draw.random()
        if kind < 0.05:
            lines.append(draw.choice(["", "c a 1 0", "\t", "comment", " \r"]))
            continue
        if kind < 0.5 and live.clauses:
            number = draw.choice(list(live.clauses))
            live.make(Remove(number))
            lines.append(f"d {number}" if kind < 0.45 else f"\td  00{number}\r")
        else:
            clause = drawn_clause(draw, range(1, variables + 1), min(draw.choice(width), variables))
            if clause and kind < 0.6:
                clause.append(draw.choice([clause[0], -clause[0]]))
            live.make(Add(tuple(dict.fromkeys(clause))))
            lines.append(" ".join(map(str, ["a", *clause, 0])))
        count -= 1
    return lines


def drawn(draw):
    """A formula and lines of edits."""
    variables = draw.randrange(FEW + 1) if draw.random() < 0.6 else draw.randrange(FEW + 1, 40)
    width = draw.choice([(0, 1, 1, 2), (1, 2, 2), (2, 3), (1, 2, 3, 4)])
    each = draw.choice([0.5, 1, 1, 1.3])
    clauses = mixed_clauses(draw, variables, int(each * variables) + draw.randrange(3), width)
    return (variables, clauses), drawn_lines(draw, variables, clauses, EDITS, width)


def compare(leank, count):
    draw, runs = random.Random(SEED), Runs(leank)
    for _ in range(count):
        formula, lines = drawn(draw)
        text = "\n".join(lines).encode() + draw.choice([b"", b"\n"])
        runs.compare(formula, text, answer(*formula, text))
    return runs.end()


# Lines that are no edits over three variables, and lines that name no live clause.
NO_EDITS = [
    b"a", b"d", b"a 1", b"a 0 0", b"a 1 0 2 0", b"a 4 0", b"a -4 0", b"a 1 -0", b"a - 0", b"a x 0", b"a 1,2 0", b"a +1 0",
    b"a 1 2 0 c", b"A 1 0", b"add 1 0", b"a1 0", b"d 0", b"d -1", b"d 00", b"d 1 2", b"d 1 0", b"d x", b"d1", b"D 1", b"e 1",
    b"p cnf 3 3", b"1 0", b"0", b"%", b"a 99999999999999999999 0", b"a 4294967297 0", b"C a 1 0", b"\x0bd 1", b"\xff", b"\x00", b"d 1\x00",
]
NO_CLAUSES = [b"d 9", b"d 4294967297", b"d 18446744073709551617", b"d 99999999999999999999999999", b"d 2"]
THREE = (3, [(1, 2), (-2, 3), (2, -3)])
GOOD = [b"d 2", b"a -1 3 0", b"c d 9", b"", b"a 0", b"d 5", b"  d 004 ", b"a 3 3 -3 1 0"]


def faulty_texts():
    """Texts with one faulty line behind none, one or more good ones, and good ones behind it; and each byte of one changed."""
    for place in range(1, len(GOOD) + 1):
        for line in NO_EDITS + NO_CLAUSES:
            yield b"\n".join(GOOD[:place] + [line] + GOOD[place:])
        yield b"\n".join(GOOD[:place] + [b"d 1", b"d 1"] + GOOD[place:])
    for line in NO_EDITS + NO_CLAUSES[:-1]:
        yield line
    text = b"\n".join(GOOD)
    for place in range(len(text)):
        for other in b"\n 0129-acd\t\rx":
            yield text[:place] + bytes([other]) + text[place + 1 :]
        yield text[:place]
        yield text[:place] + text[place + 1 :]


def faults(leank):
    runs = Runs(leank)
    for text in faulty_texts():
        runs.compare(THREE, text, answer(*THREE, text))
    return runs.end()


def limits(leank):
    """Formulas with room for one more clause, or for two more literals; nothing is kept of the first."""
    runs = Runs(leank)
    most = MOST_CLAUSES - 1
    clauses = f"p cnf 1 {most}\n" + "1 0\n" * most
    runs.compare(clauses, b"d 1\na 0\na 0\n", Answer(2, b"", b"leank: edits line 3: past a limit\n"))
    wide = " ".join(map(str, range(1, 1000)))
    wide_clauses = f"p cnf 1000000 20020\n" + f"{wide} 0\n" * 20020
    spare = MOST_LITERALS - 999 * 20020
    fits = " ".join(map(str, range(1, spare)))
    for text, line in [(f"a {fits} {spare} 0\na 0\na 1 0\n", 3), (f"a {fits} {spare} {spare + 1} 0\n", 1), (f"d 1\na {fits} 0\na 1 1 0\na 2 0\n", 4)]:
        runs.compare(wide_clauses, text.encode(), Answer(2, b"", f"leank: edits line {line}: past a limit\n".encode()))
    one_less = f"p cnf 1000000 {MOST_CLAUSES - 1}\n" + "".join(f"{v % 1000000 + 1} 0\n" for v in range(MOST_CLAUSES - 1))
    every = keep_line(range(1, MOST_CLAUSES)).encode()
    runs.compare(one_less, b"a 0\n", Answer(0, every + every[:-2] + b"%d 0\n" % MOST_CLAUSES))
    return runs.end()


def long(leank):
    """Texts of the most bytes, and of one more: the limit comes before a faulty line, at the line of the byte that is too many."""
    runs = Runs(leank)
    line = b"c " + b"x" * 1021 + b"\n"
    body = line * (MOST_BYTES // len(line))
    kept = keep_line([]).encode()
    one = (1, [(1,)])
    runs.compare(one, body, Answer(0, kept))
    runs.compare(one, body[:-4] + b"\nd 1", Answer(0, kept * 2))
    count = body.count(b"\n")
    for text, at in [(body + b"c", count + 1), (body + b"\n", count + 1), (b"d 9\n" + body[4:] + b"d 1", count + 2), (body[:-1] + b"xx", count), (body[:-1] + b"x\n", count)]:
        runs.compare(one, text, Answer(2, b"", b"leank: edits line %d: past a limit\n" % at))
    runs.compare(one, b"d 9\n" + body[4:], Answer(2, b"", b"leank: edits line 1: no such clause\n"))
    return runs.end()


class Rows:
    """A script for test_commands, and what it must print."""

    def __init__(self):
        self.script, self.printed = [], []

    def head(self, remark):
        self.script += ["", f"# {remark}", "new"]

    def line(self, line):
        self.script.append(line)

    def text(self, name, text):
        written = text.decode("latin-1").replace("\r", "\\r").replace("\n", "\\n")
        self.line(f"text {name} {written}")

    def run(self, words, answered):
        self.line(f"run {words}")
        self.printed.append(f"== {words}\nstatus {answered.status}\n{answered.written.decode()}-- said\n{answered.said.decode()}")

    def formula(self, variables, clauses):
        lines = [f"p cnf {variables} {len(clauses)}", *(" ".join(map(str, [*clause, 0])) for clause in clauses)]
        self.text("f", "".join(line + "\n" for line in lines).encode())

    def edits(self, formula, text):
        self.text("e", text)
        self.run("edits f e", answer(*formula, text))


WORKED = [
    ((1, [(1,), (1,)]), [b"d 1\na -1 0\nd 2\n", b"d 1\nd 1\n", b"a 2 0\n", b"", b"\n\n", b"d 1", b"a 0", b"a 1 -1 0\na 1 1 0"]),
    ((0, []), [b"", b"a 0\na 0\nd 1\nd 2\n", b"a 1 0\n", b"d 1\n"]),
    (THREE, [b"a -1 0\nd 1\nd 4\n", b"a 1 -2 -3 0\na -1 -2 -3 0\na 2 3 0\nd 2\n", b"d 1\nd 2\nd 3\na 3 0\n"]),
    ((2, [(1, 2), (1, -2), (-1, 2), (-1, -2)]), [b"d 1\nd 2\nd 3\nd 4\n", b"d 4\na 1 0\nd 5\n", b"d 4\nd 3\na 2 -2 0\n"]),
    ((12, [(1,)] + [(-v, v + 1) for v in range(1, 12)]), [b"a -12 0\nd 6\na -6 7 0\n", b"a 1 0\nd 1\nd 13\n", b"d 1\na -12 0\na -12 0\n"]),
    ((1000000, []), [b"a 1000000 0\na -1000000 0\nd 1\n", b"a 1000001 0\n", b"a -1000000 1 0\na 1 0\na 1000000 0\n"]),
]


def made_rows():
    rows = Rows()
    rows.head("Edits: the matching kernel at first and after each edit. Clauses come and go, with numbers for good.")
    for formula, texts in WORKED:
        rows.formula(*formula)
        for text in texts:
            rows.edits(formula, text)
    rows.head("Faulty lines: the first one is printed, and nothing is written.")
    rows.formula(*THREE)
    for line in [line for line in NO_EDITS if line.isascii() and b"\x00" not in line] + NO_CLAUSES[:-1]:
        rows.edits(THREE, b"c first\n" + line + b"\nd 9")
    rows.edits(THREE, b"\n".join(GOOD))
    for place in range(1, len(GOOD)):
        rows.edits(THREE, b"\n".join(GOOD[:place] + [b"d 2"] + GOOD[place:]))
    rows.head("Drawn edits; the kernels are found by all sets of variables, or by a plain matching from scratch.")
    draw = random.Random(2)
    for _ in range(40):
        formula, lines = drawn(draw)
        rows.formula(*formula)
        rows.edits(formula, "\n".join(lines[:30]).encode())
    rows.head("The same text of edits in pieces of other lengths.")
    formula, lines = drawn(random.Random(3))
    rows.formula(*formula)
    for chunk in (1, 2, 3, 5, 7, 64):
        rows.line(f"shelf chunk {chunk}")
        rows.edits(formula, "\n".join(lines[:20]).encode())
        rows.edits(formula, "\n".join(lines[:20] + ["d 1", "d 1"]).encode())
    return rows


def print_answer(formula_text, text):
    formula = read_formula(formula_text)
    found = answer(formula.n, list(formula.clause.values()), text)
    sys.stdout.buffer.write(found.written)
    sys.stderr.buffer.write(found.said)
    return found.status


def print_rows():
    print("\n".join(made_rows().script))


def print_expected():
    print("".join(made_rows().printed), end="")


def main():
    words = CommandLine(__doc__)
    kinds = {"rows": print_rows, "expected": print_expected, "faults": faults, "limits": limits, "long": long}
    kind = words.takes("answer", *kinds)
    if kind == "answer":
        return print_answer(*words.files("FORMULA", "EDITS"))
    given = [] if kind in ("rows", "expected") else [words.program()]
    if kind is None:
        given.append(words.number("COUNT", 500))
    words.end()
    return kinds.get(kind, compare)(*given)


if __name__ == "__main__":
    sys.exit(main())
