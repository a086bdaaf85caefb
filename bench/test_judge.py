#!/usr/bin/env python3
"""Runs judge.py beside `leank check` and `leank verify`.

    bench/test_judge.py LEANK [--rounds N] [--seed S] [--every]

LEANK is the built program (`dist/leank`). First the worked documents and answers of docs/FORMAT.md are judged, and its
examples of each kind of check. With `--every` each of them is also judged with each line left out, doubled, and swapped
with the next, and with each number one more, one less, and negated. Then, N times (by default 50), a small formula is
drawn, and with drawn options and budgets leank writes all that it writes of it; each text is judged, then texts that are
forged from it by one or two drawn changes, and the text itself for a forged formula. The first difference between the two
judges is printed, and the status is 1. Else the counts are printed, by class and by verdict. Needs python3.
"""
import os
import random
import re
import subprocess
import sys
import tempfile
from collections import Counter

import corners
import judge
from command_line import CommandLine
from formulas import drawn_clause, formula_text, pigeons, sign_patterns, square

PAGE = os.path.join(os.path.dirname(os.path.abspath(__file__)), "..", "docs", "FORMAT.md")
FORGED_EACH = 8
CLASSES = corners.CLASSES
NUMBERS = [0, 1, -1, 2, -2, 3, 2**32 - 1, 2**32, 2**63 - 1, 2**63, 2**64, 2**127 - 1, 2**127, -(2**127 - 1), -(2**127),
           1_000_000, 1_000_001, 4_000_000, 4_000_001]
WORDS = [*CLASSES, "unfinished", "mus", "", "+1", "01", "-0", "00", "x", "c", "p", "cnf", "0", "\t1", "1\r", "1_0", "\u00b2", "%", "--1", "1.0", "9" * 45]


class Difference(Exception):
    pass


class Both:
    """The two judges."""

    def __init__(self, leank, room):
        self.leank, self.room = leank, room
        self.counts = Counter()

    def run(self, *arguments):
        done = subprocess.run([self.leank, *arguments], capture_output=True)
        return done.stdout, done.stderr, done.returncode

    def name(self, name, text):
        path = os.path.join(self.room, name)
        with open(path, "wb") as file:
            file.write(text)
        return path

    def judge(self, command, formula, text, origin, program=False):
        """What both say of a text, which has to be the same; `program` runs judge.py as a program too."""
        names = self.name("formula", formula), self.name("text", text)
        theirs = self.run(command, *names)
        ours = (judge.check if command == "check" else judge.verify)(formula, text)
        ours = (as_line(ours[0]), as_line(ours[1]), ours[2])
        if ours != theirs:
            raise Difference(command, formula, text, theirs, ours)
        if program:
            done = subprocess.run([sys.executable, judge.__file__, *names], capture_output=True)
            if (done.stdout, done.stderr, done.returncode) != theirs:
                raise Difference(command, formula, text, theirs, (done.stdout, done.stderr, done.returncode))
        self.counts[origin, class_of(command, text), kind_of(theirs)] += 1
        return theirs[0].decode().strip()


def as_line(text):
    return b"" if text is None else text.encode() + b"\n"


def class_of(command, text):
    first = text.split(b"\n", 1)[0]
    if command == "check":
        found = re.fullmatch(rb"c leank [12] (pure|matching|linear|general|unfinished)", first)
        return found[1].decode() if found else "no document"
    return {b"s SATISFIABLE": "model", b"s UNSATISFIABLE": "refutation", b"c leank 1 mus": "core"}.get(first, "no answer")


def kind_of(said):
    out, fault, _ = said
    if out:
        return re.match(r"refused \S+|\S+", out.decode())[0]
    return re.sub(r" line [0-9]+", "", fault.decode().strip().removeprefix("leank: "))


# ---------------------------------------------------------------------------------------------------------------------
# The page

def worked():
    """The worked documents and answers of the page: name, number of variables, clauses, lines."""
    page = open(PAGE, encoding="utf-8").read()
    for section in re.split(r"^### ", page, flags=re.MULTILINE)[1:]:
        formula = re.search(r"Formula: N = ([0-9]+), (.*)", section)
        lines = re.findall(r"^    (.*)$", section, flags=re.MULTILINE)
        if formula:
            clauses = [[int(l) for l in c.split(",")] for c in re.findall(r"\{([^}]*)\}", formula[2])]
            yield section.split("\n", 1)[0], int(formula[1]), clauses, lines


def judge_page(both, every):
    examples = {}
    for name, n, clauses, lines in worked():
        examples[name] = n, clauses, lines
        answer = lines[0].startswith("s ") or lines[0] == "c leank 1 mus"
        command = "verify" if answer else "check"
        said = both.judge(command, formula_text(n, clauses), joined(lines), "page", program=True)
        wanted = "unfinished 1" if name == "Unfinished" else "accepted"
        if said != wanted:
            raise Difference(command, formula_text(n, clauses), joined(lines), said, wanted)
        if every:
            for forged in every_change(lines):
                both.judge(command, formula_text(n, clauses), joined(forged), "page, changed")
    page = open(PAGE, encoding="utf-8").read()
    rows = re.findall(r"^\| (\w+) \| (.*) \| `(refused .*)` \|$", page, flags=re.MULTILINE)
    for name, change, wanted in rows:
        n, clauses, lines = examples[name]
        words = re.findall(r"`([^`]*)`", change)
        if change.startswith("its formula with a fourth clause"):
            clauses = clauses + [[1]]
        elif change.startswith("to be extended"):
            continue
        elif change.endswith("is left out"):
            lines = [line for line in lines if line != words[0]]
        else:
            lines = [words[1] if line == words[0] else line for line in lines]
        said = both.judge("check", formula_text(n, clauses), joined(lines), "page")
        if said != wanted:
            raise Difference("check", formula_text(n, clauses), joined(lines), said, wanted)
    return len(examples), len(rows)


def every_change(lines):
    for i, line in enumerate(lines):
        yield lines[:i] + lines[i + 1:]
        yield lines[:i] + [line] + lines[i:]
        yield lines[:i] + lines[i + 1:i + 2] + [line] + lines[i + 2:]
        words = line.split(" ")
        for j, word in enumerate(words):
            if is_number(word):
                for number in (int(word) + 1, int(word) - 1, -int(word)):
                    yield lines[:i] + [" ".join(words[:j] + [str(number)] + words[j + 1:])] + lines[i + 1:]


def joined(lines):
    return "".join(line + "\n" for line in lines).encode("latin-1")


# ---------------------------------------------------------------------------------------------------------------------
# Corners of the page

def judge_corners(both):
    for (n, clauses), lines in corners.TEXTS:
        for command in ("check", "verify"):
            both.judge(command, formula_text(n, clauses), joined(lines), "corners")
    # (a document of the formula that is empty: what is told is the fault of the formula, or its other size)
    for text in corners.FORMULAS:
        both.judge("verify", text.encode("latin-1"), b"s SATISFIABLE\nv 1 0\n", "formulas")
        both.judge("check", text.encode("latin-1"), b"c leank 1 general\nc formula 1 1\nc keep 0\nc set 1 0\np cnf 1 0\n", "formulas")


# ---------------------------------------------------------------------------------------------------------------------
# Drawn formulas

def drawn_formula(draw):
    """A small formula: random clauses, pieces without a model, or pigeons; some clauses empty, repeated or tautologies."""
    kind = draw.randrange(8)
    if kind == 0:
        n, clauses = pigeons(draw.choice([1, 2, 2, 3]))
    elif kind == 1:
        n = draw.randrange(0, 4)
        clauses = [draw.choices([*range(-n, 0), *range(1, n + 1)], k=draw.randrange(4)) if n else []
                   for _ in range(draw.randrange(7))]
    elif kind == 2:
        n = draw.choice([3, 3, 4])
        clauses = sign_patterns(range(1, n + 1))
        draw.shuffle(clauses)
        if draw.random() < 0.4:
            clauses.pop()
    elif kind == 3 and draw.random() < 0.5:
        # (mus refutes most of these with a few learned clauses, and then may not decide on fewer of the clauses)
        n = draw.randrange(8, 13)
        clauses = [drawn_clause(draw, range(1, n + 1), 3) for _ in range(int(6.5 * n))]
    else:
        n = draw.randrange(2, 9)
        width = draw.choice([2, 2, 3, 3])
        clauses = [drawn_clause(draw, range(1, n + 1), min(n, max(1, width - (draw.random() < 0.2))))
                   for _ in range(int(n * draw.choice([0.8, 1, 1.5, 2, 3, 5])))]
        if draw.random() < 0.5 and n >= 2:
            a, b = draw.sample(range(1, n + 1), 2)
            clauses += square(a, b)
    if draw.random() < 0.15 and clauses:
        clauses.append(list(draw.choice(clauses)))
    if draw.random() < 0.4:
        # Further clauses share variables with the others, and have one of their own: they are in no kernel.
        for _ in range(draw.randrange(1, 5)):
            n += 1
            clauses.append([*(draw.choice(draw.choice(clauses) or [n]) for _ in range(draw.randrange(3)) if clauses), draw.choice([n, -n])])
    if draw.random() < 0.1 and n:
        clauses.append([1, draw.randrange(1, n + 1), -1])
    if draw.random() < 0.05:
        clauses.append([])
    if draw.random() < 0.5:
        draw.shuffle(clauses)
    return n + draw.choice([0, 0, 0, 1]), clauses


def spelled(draw, n, clauses):
    """A text of the formula: at times with comments, other blanks, lines broken elsewhere, an end mark."""
    if draw.random() < 0.7:
        return formula_text(n, clauses)
    numbers = [str(l) for c in clauses for l in [*c, 0]]
    text = f"p cnf {n} {len(clauses)}\n"
    for i, number in enumerate(numbers):
        text += draw.choice(["", "", "0"]) * (number[0] != "-") + number
        text += "" if i + 1 == len(numbers) else draw.choice([" ", "\t", "\r ", "\n", "\nc 1 0\n", "\n\n", "  "])
    if clauses and clauses[-1] and draw.random() < 0.2:
        text = text.removesuffix("0") if text.endswith(" 0") else text
    return ("c x\n" * draw.randrange(2) + text + draw.choice(["", "\n", "\n%\n0\n", "\n%x p\n"])).encode()


# ---------------------------------------------------------------------------------------------------------------------
# Forged texts

def is_number(word):
    return bool(re.fullmatch(r"-?[0-9]+", word))


def forge(draw, text, formula):
    """The text with a drawn change."""
    lines = text.decode("latin-1").split("\n")
    change = draw.choice([number_changed] * 3 + [word_changed] * 2 + [line_changed] * 2 + [bytes_changed]
                         + [kept_changed] * 2 + [literal_flipped] * 3 + [protected_changed] * 2 + [class_changed] * 10
                         + [rounds_changed] * 4 + [all_multiplied] + [size_changed])
    return change(draw, lines, formula).encode("latin-1", "replace")


def forge_formula(draw, text, formula):
    change = draw.choice([number_changed, word_changed, line_changed, bytes_changed, sign_changed, sign_changed])
    return change(draw, text.decode("latin-1").split("\n"), formula).encode("latin-1", "replace")


def number_changed(draw, lines, formula):
    places = [(i, j) for i, line in enumerate(lines) for j, word in enumerate(line.split(" ")) if is_number(word)]
    if not places:
        return "\n".join(lines)
    # Lines of a kind are equally likely, whatever their number.
    kind = draw.choice(sorted({kind_of_line(lines[i]) for i, _ in places}))
    i, j = draw.choice([place for place in places if kind_of_line(lines[place[0]]) == kind])
    words = lines[i].split(" ")
    old = int(words[j])
    other = draw.choice([word for line in lines for word in line.split(" ") if is_number(word)])
    new = draw.choice([old + 1, old - 1, -old, int(other), draw.choice(NUMBERS)])
    words[j] = str(new)
    return "\n".join([*lines[:i], " ".join(words), *lines[i + 1:]])


def kind_of_line(line):
    return " ".join(line.split(" ")[:2]) if line[:1] in "cps" else "clause"


def word_changed(draw, lines, formula):
    i = draw.randrange(len(lines))
    words = lines[i].split(" ")
    j = draw.randrange(len(words))
    other = draw.choice([draw.choice(words), draw.choice(draw.choice(lines).split(" ")), draw.choice(WORDS), str(draw.choice(NUMBERS))])
    change = draw.randrange(4)
    if change == 0:
        words[j] = other
    elif change == 1:
        words.insert(j, other)
    elif change == 2:
        words.pop(j)
    else:
        k = draw.randrange(len(words))
        words[j], words[k] = words[k], words[j]
    return "\n".join([*lines[:i], " ".join(words), *lines[i + 1:]])


def line_changed(draw, lines, formula):
    i, k = sorted([draw.randrange(len(lines)), draw.randrange(len(lines))])
    change = draw.randrange(5)
    if change == 0:
        lines[i], lines[k] = lines[k], lines[i]
    elif change == 1:
        lines.pop(i)
    elif change == 2:
        lines.insert(k, lines[i])
    elif change == 3:
        del lines[i:min(k, i + 3)]
    else:
        i = min(i, len(lines) - 2)
        lines[i:i + 2] = lines[i:i + 2][::-1]
    return "\n".join(lines)


def kept_changed(draw, lines, formula):
    """A position is kept that was not, or the other way round, with its clause line and the number of them."""
    where = [i for i, line in enumerate(lines) if re.match("c (keep|core)", line)]
    header = [i for i, line in enumerate(lines) if line.startswith("p cnf ")]
    _, clauses = formula
    if not where or not header or not clauses:
        return number_changed(draw, lines, formula)
    i, h = where[0], header[0]
    words = lines[i].split(" ")
    kept = [int(word) for word in words[2:-1] if is_number(word)]
    bodies = dict(zip(kept, lines[h + 1:]))
    p = draw.randrange(1, len(clauses) + 1)
    if p in kept:
        bodies.pop(p, None)
    else:
        bodies[p] = " ".join(map(str, [*dict.fromkeys(clauses[p - 1]), 0]))
    lines[i] = " ".join([*words[:2], *map(str, sorted(bodies)), "0"])
    head = lines[h].split(" ")
    before = [line for line in lines[:h] if line.split(" ")[:3] != ["c", "without", str(p)] or p in bodies]
    return "\n".join([*before, " ".join([*head[:3], str(len(bodies))]), *(bodies[q] for q in sorted(bodies)), ""])


def literal_flipped(draw, lines, formula):
    """A literal is flipped in each line of a kind that has it as a word; or it leaves or enters the set line and the order."""
    words = [word for line in lines for word in line.split(" ") if is_number(word) and int(word)]
    if not words:
        return "\n".join(lines)
    word = draw.choice(words)
    new = str(-int(word))
    kinds = draw.choice([["c set", "c order"], ["c set", "c order"], ["c set"], [kind_of_line(draw.choice(lines))]])
    change = draw.randrange(3)
    for i, line in enumerate(lines):
        if kind_of_line(line) in kinds:
            found = line.split(" ")
            if change == 0:
                found = [new if w == word else w for w in found]
            elif change == 1:
                found = [w for w in found if w != word]
            elif found[-1] == "0" and word not in found and new not in found:
                found = [*found[:2], *sorted([*found[2:-1], word], key=lambda w: abs(int(w)) if is_number(w) else 0), "0"]
            lines[i] = " ".join(found)
    return "\n".join(lines)


def rounds_changed(draw, lines, formula):
    """A round or a step is left out, doubled or moved, and the steps are numbered anew."""
    steps = [i for i, line in enumerate(lines) if re.match("c step [0-9]+ ", line)]
    rounds = [i for i, line in enumerate(lines) if line == "c round"]
    if not steps:
        return draw.choice([number_changed, line_changed])(draw, lines, formula)
    first = int(lines[steps[0]].split(" ")[2])
    change = draw.randrange(5)
    if change == 0 and rounds:
        k = draw.randrange(len(rounds))
        end = rounds[k + 1] if k + 1 < len(rounds) else steps[-1] + 1
        del lines[rounds[k]:end]
    elif change == 1:
        i = draw.choice(steps)
        lines.insert(i, lines[i])
    elif change == 2:
        lines.pop(draw.choice(steps))
    elif change == 3:
        lines.insert(draw.choice(steps), "c round")
    else:
        # A further step states a clause of the formula, or a resolvent of two, which may be a tautology.
        p, q = (draw.randrange(1, len(formula[1]) + 1) for _ in range(2))
        clause, other = set(formula[1][p - 1]), set(formula[1][q - 1])
        chain = [p]
        for literal in [l for l in clause if -l in other][:1]:
            chain += [literal, q]
            clause = clause - {literal} | other - {-literal}
        clause = sorted(clause, key=lambda l: (abs(l), l < 0))
        lines.insert(draw.choice(steps), " ".join(map(str, ["c step", 0, *clause, 0, *chain, 0])))
    # The numbers of steps in chains follow, where the step is still there.
    new_number, number = {}, first
    for i, line in enumerate(lines):
        if re.match("c step [0-9]+ ", line):
            words = line.split(" ")
            old, words[2] = int(words[2]), str(number)
            close = words.index("0", 3) if "0" in words[3:] else len(words)
            for j in range(close + 1, len(words), 2):
                if is_number(words[j]) and int(words[j]) in new_number:
                    words[j] = str(new_number[int(words[j])])
            new_number[old] = number
            lines[i] = " ".join(words)
            number += 1
    if draw.random() < 0.7:
        learned = sum(1 for line in lines if re.match("c step [0-9]+ [^0]", line))
        lines = [f"c learned {learned}" if line.startswith("c learned ") else line for line in lines]
    return "\n".join(lines)


def protected_changed(draw, lines, formula):
    """Other variables are protected, or none are, with the version that has them."""
    if not re.match("c leank [12] ", lines[0]) or len(lines) < 3:
        return number_changed(draw, lines, formula)
    _, _, version, name = lines[0].split(" ", 3)
    rest = lines[2:] if version == "1" else lines[3:]
    chosen = sorted({draw.randrange(1, formula[0] + 1) for _ in range(draw.randrange(3))}) if formula[0] else []
    if version == "2" and draw.random() < 0.3:
        return "\n".join([f"c leank 1 {name}", lines[1], *rest])
    return "\n".join([f"c leank 2 {name}", lines[1], " ".join(map(str, ["c protect", *chosen, 0])), *rest])


def size_changed(draw, lines, formula):
    """The number of variables or clauses is another one, in both lines that have it."""
    change = draw.randrange(3)
    for i, line in enumerate(lines):
        words = line.split(" ")
        if words[:2] in (["c", "formula"], ["p", "cnf"]) and len(words) == 4 and is_number(words[2]) and is_number(words[3]):
            if change < 2:
                words[2] = str(int(words[2]) + [1, -1][change])
            elif words[1] == "formula":
                words[3] = str(int(words[3]) + 1)
            lines[i] = " ".join(words)
    return "\n".join(lines)


def sign_changed(draw, lines, formula):
    """A literal of a clause line is its complement."""
    places = [(i, j) for i, line in enumerate(lines) if kind_of_line(line) == "clause"
              for j, word in enumerate(line.split(" ")) if is_number(word) and int(word)]
    if places:
        i, j = draw.choice(places)
        words = lines[i].split(" ")
        words[j] = str(-int(words[j]))
        lines[i] = " ".join(words)
    return "\n".join(lines)


CLASS_LINES = ["c order", "c pair", "c own", "c row", "c stage", "c dual", "c unit", "c step", "c without"]


def class_changed(draw, lines, formula):
    """A line of the class is left out, doubled for another variable or position, or has another number in its range."""
    n, m = formula[0], len(formula[1])
    places = [i for i, line in enumerate(lines) if kind_of_line(line) in CLASS_LINES and len(line.split(" ")) > 2]
    if not places or n * m == 0:
        return number_changed(draw, lines, formula)
    kind = draw.choice(sorted({kind_of_line(lines[i]) for i in places}))
    i = draw.choice([i for i in places if kind_of_line(lines[i]) == kind])
    words = lines[i].split(" ")
    change = draw.random()
    if change < 0.15:
        lines.pop(i)
        return "\n".join(lines)
    literal = str(draw.choice([1, -1]) * draw.randrange(1, n + 1))
    small = str(draw.choice([-2, -1, 1, 1, 2, 3, 5]))
    position, variable = str(draw.randrange(1, m + 1)), str(draw.randrange(1, n + 1))
    if change < 0.3 and kind in ("c pair", "c own", "c row", "c dual", "c unit"):
        # The line once more, for a number that has none; between those below and above it.
        new = draw.randrange(1, (m if kind in ("c own", "c dual") else n) + 1)
        others = {i: int(line.split(" ")[2]) for i, line in enumerate(lines) if kind_of_line(line) == kind and is_number(line.split(" ")[2])}
        at = min((i for i, number in others.items() if number > new), default=max(others) + 1)
        return "\n".join([*lines[:at], " ".join([*words[:2], str(new), *words[3:]]), *lines[at:]])
    if change < 0.4 and kind == "c stage":
        k = draw.choice([i for i in places if kind_of_line(lines[i]) == kind])
        lines[i], lines[k] = lines[k], lines[i]
        return "\n".join(lines)
    if kind == "c order":
        j = draw.randrange(2, len(words))
        if change < 0.6:
            words.insert(j, literal)
        else:
            k = draw.randrange(2, len(words))
            words[j], words[k] = words[k], words[j]
    elif kind == "c without":
        words = [*words[:3], *(str(v if draw.random() < 0.5 else -v) for v in range(1, n + 1) if draw.random() < 0.8), "0"]
    elif kind == "c step":
        j = draw.randrange(3, len(words))
        turned = draw.choice([literal, position, str(m + draw.randrange(1, 4)), str(-int(words[j])) if is_number(words[j]) else "0"])
        if draw.random() < 0.5 and words[j] != "0":
            words[j] = turned
        elif draw.random() < 0.5:
            del words[len(words) - 3:len(words) - 1]
        else:
            words[-1:] = [literal, position, "0"]
    else:
        ranges = {"pair": [position] * 2, "own": [variable], "row": [position, position, str(draw.randrange(4))],
                  "stage": [variable] + [small] * 3, "dual": [draw.choice([small, "0"])],
                  "unit": [small, position, small, position, small]}[words[1]]
        begin = 2 if kind == "c stage" else 3
        j = draw.randrange(begin, len(words) - (kind in ("c stage", "c unit")))
        words[j] = ranges[min(j - begin, len(ranges) - 1)]
    lines[i] = " ".join(words)
    return "\n".join(lines)


def all_multiplied(draw, lines, formula):
    """All numbers of stages, duals or units times a number."""
    times, kind = draw.choice([2, 3, 2**100, -1]), draw.choice(["stage", "dual", "unit"])
    for i, line in enumerate(lines):
        words = line.split(" ")
        if words[:2] == ["c", kind] and all(map(is_number, words[2:])):
            behind = {"stage": range(3, len(words), 2), "dual": range(3, 4), "unit": range(3, len(words), 2)}[kind]
            for j in behind:
                words[j:j + 1] = [str(int(word) * times) for word in words[j:j + 1]]
            lines[i] = " ".join(words)
    return "\n".join(lines)


def bytes_changed(draw, lines, formula):
    text = "\n".join(lines)
    i = draw.randrange(len(text) + 1)
    return draw.choice([
        text[:-1], text + "\n", text + "0\n", text + "0", text[:i], text[:i] + "\n" + text[i:],
        text[:i] + draw.choice(" \t\r\x00\n-0139cps%\xb9") + text[i + 1:], "", "\n", text.replace("\n", "\r\n"), text + text])


# ---------------------------------------------------------------------------------------------------------------------
# Rounds

def texts_of(both, draw, path, n):
    """All that leank writes of a formula: the command that reads it, and the text, which belongs to itself or not."""
    budget = ["--conflicts", str(draw.choice([1, 1, 2, 3, 5, 100]))] if draw.random() < 0.7 else []
    for name in CLASSES:
        options = budget + (["--pivots", str(draw.choice([0, 1, 2, 3, 5, 9, 20]))] if draw.random() < 0.2 else [])
        if draw.random() < 0.4:
            options += ["--protect", ",".join(str(draw.randrange(1, n + 3)) for _ in range(draw.choice([1, 1, 2, 3])))]
        yield "check", both.run("reduce", name, path, *options)
    yield "check", both.run("reduce", "general", path, "--conflicts", str(draw.choice([1, 1, 2, 3, 4])))
    yield "verify", both.run("solve", path, *budget)
    yield "verify", both.run("mus", path, *budget)
    yield "verify", both.run("mus", path, "--conflicts", str(draw.choice([1, 3, 4, 5])))


def a_round(both, draw):
    n, clauses = drawn_formula(draw)
    text = spelled(draw, n, clauses)
    path = both.name("written", text)
    for command, (written, said, status) in texts_of(both, draw, path, n):
        if not written:
            both.counts["nothing written", " ".join(said.decode().split()[1:3]), f"status {status}"] += 1
            continue
        formula = text
        if written.startswith(b"c leank") and b"unfinished" in written.split(b"\n", 1)[0]:
            command = "check"
            if not both.judge(command, formula, written, "written").startswith("unfinished"):
                # (of some clauses, as mus writes it, the text is the formula)
                formula = written
                both.judge(command, formula, written, "written")
        else:
            said = both.judge(command, formula, written, "written")
            if said != "accepted":
                raise Difference(command, formula, written, said, "accepted")
        for _ in range(FORGED_EACH):
            forged = forge(draw, written, (n, clauses))
            if draw.random() < 0.3:
                forged = forge(draw, forged, (n, clauses))
            both.judge(command, formula, forged, "forged")
        both.judge({"check": "verify", "verify": "check"}[command], formula, written, "for the other command")
        other = forge_formula(draw, formula, (n, clauses))
        both.judge(command, other, written, "for a forged formula")


def main():
    words = CommandLine(__doc__)
    rounds, seed, is_every = words.option("--rounds", 50), words.option("--seed", 1), words.flag("--every")
    leank = words.program()
    words.end()
    with tempfile.TemporaryDirectory() as room:
        both = Both(leank, room)
        try:
            print("{} worked texts and {} examples of the page".format(*judge_page(both, is_every)))
            judge_corners(both)
            for number in range(rounds):
                a_round(both, random.Random(f"{seed} {number}"))
        except Difference as difference:
            command, formula, text, theirs, ours = difference.args
            print(f"leank {command} says {theirs}\njudge.py says {ours}\nof the formula")
            print(formula.decode("latin-1"), "and the text", text.decode("latin-1"), sep="\n")
            return 1
        report(both.counts)
    return 0


def report(counts):
    for origin in dict.fromkeys(key[0] for key in sorted(counts)):
        print(f"{origin}: {sum(count for key, count in counts.items() if key[0] == origin)}")
        for name in dict.fromkeys(key[1] for key in sorted(counts) if key[0] == origin):
            row = {key[2]: count for key, count in sorted(counts.items()) if key[:2] == (origin, name)}
            print(f"    {name}: " + ", ".join(f"{kind} {count}" for kind, count in row.items()))
    judged = {key: count for key, count in counts.items() if key[0] != "nothing written"}
    print(f"all: {sum(judged.values())}")
    for kind in sorted({key[2] for key in judged}):
        print(f"    {kind}: {sum(count for key, count in judged.items() if key[2] == kind)}")
    print(f"{sum(judged.values())} texts judged, no difference")


if __name__ == "__main__":
    sys.exit(main())
