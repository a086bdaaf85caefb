#!/usr/bin/env python3
"""Judges a text that leank writes, as `leank check` and `leank verify` do, and shares nothing with them.

    bench/judge.py FORMULA DOCUMENT

The text is a document (of the class pure, matching, linear or general, or unfinished) or an answer (a model, a refutation
or a core). It is judged as an answer if its first line is `c leank 1 mus` or begins with `s`, else as a document. Printed
is `accepted`, `unfinished L`, or `refused KIND PLACE` for the first check that fails; the status is 0, 5 or 8. A text
outside its grammar is told on standard error, as in `leank: document line 3: not a document`, with status 2. Words that it
does not take, and files that it cannot read, have that status too.

This program is written from docs/FORMAT.md, and its grammar of formulas from docs/REFERENCE.md, for readers who want to
see in few lines what is checked. It is plain Python, with exact integers, and needs python3 alone. The words of the command
line are read by command_line.py, and all else is here. The parts below
are those of the page: a formula; the form of documents and answers; and then the checks, each a function with the name of
its kind. A check yields, ascending, the places at which it fails; the first of them is told.

The checks read a formula whose positions and variables count from 1. S is what the page calls S, the kept positions.
"""
import re
import sys
from collections import defaultdict, namedtuple
from functools import cached_property

from command_line import CommandLine

MOST_VARIABLES, MOST_CLAUSES, MOST_LITERALS, MOST_BYTES = 1_000_000, 4_000_000, 20_000_000, 1 << 30
MOST_RANK, MOST_LEARNED, MOST_STEPS = 2**32 - 1, 2**63 - 1, 2**64 - 1
WIDEST = 2**127 - 1


# ---------------------------------------------------------------------------------------------------------------------
# A formula (REFERENCE.md, "What a formula is")

class Formula:
    """The number of variables, and the clauses as lists of literals, by their positions 1 to m."""

    def __init__(self, n, clauses):
        self.n, self.m = n, len(clauses)
        self.clause = dict(enumerate(clauses, 1))

    @cached_property
    def positions_of(self):
        """Of each literal the positions of the clauses that contain it."""
        positions = defaultdict(list)
        for p, clause in self.clause.items():
            for literal in clause:
                positions[literal].append(p)
        return positions


class Fault(Exception):
    """A text is refused: which text, the line of its first fault, and what is wrong there."""


class FormulaFault(Exception):
    """A fault of a formula: the byte at which it shows, counted from 0, and the text of the refusal."""


def decimal(word):
    """The number that a word of a formula writes, or None."""
    spelling = re.fullmatch(rb"(-?)0*([0-9]+)", word)
    if not spelling:
        return None
    # A number of more digits than this is past each range, and it stays so when it is cut.
    number = int(spelling[2][:20])
    if spelling[1]:
        return -number if number else None
    return number


def read_formula(text):
    try:
        formula = parse_formula(text)
        if len(text) > MOST_BYTES:
            raise FormulaFault(MOST_BYTES, "too long")
        return formula
    except FormulaFault as fault:
        place, reason = fault.args
        if len(text) > MOST_BYTES <= place:
            place, reason = MOST_BYTES, "too long"
        raise Fault("formula", text.count(b"\n", 0, place) + 1, reason) from None


def parse_formula(text):
    header, clauses, clause, literals = None, [], [], 0
    begin, end = 0, len(text)
    for line in text.split(b"\n"):
        # Each word with its first and its last byte.
        words = [(word.group(), begin + word.start(), begin + word.end() - 1) for word in re.finditer(rb"[^ \t\r]+", line)]
        begin += len(line) + 1
        last_of_line = min(begin, len(text)) - 1
        if not words or words[0][0].startswith(b"c"):
            continue
        first, first_byte, _ = words[0]
        if first.startswith(b"%"):
            end = first_byte
            break
        if header is None:
            if not first.startswith(b"p"):
                raise FormulaFault(first_byte, "no header")
            header = [decimal(word) for word, _, _ in words[2:]]
            if [word for word, _, _ in words[:2]] != [b"p", b"cnf"] or len(header) != 2 or None in header or min(header) < 0:
                raise FormulaFault(last_of_line, "bad header")
            if header[0] > MOST_VARIABLES or header[1] > MOST_CLAUSES:
                raise FormulaFault(last_of_line, "past a limit")
            continue
        if first.startswith(b"p"):
            raise FormulaFault(first_byte, "second header")
        for word, _, last_byte in words:
            number = decimal(word)
            if number is None:
                raise FormulaFault(last_byte, "bad token")
            if len(clauses) == header[1]:
                raise FormulaFault(last_byte, "too many clauses")
            if number == 0:
                # A repeated literal counts at its first occurrence.
                clauses.append(list(dict.fromkeys(clause)))
                clause = []
                continue
            if abs(number) > header[0]:
                raise FormulaFault(last_byte, "variable beyond header")
            literals += 1
            if literals > MOST_LITERALS:
                raise FormulaFault(last_byte, "past a limit")
            clause.append(number)
    if header is None:
        raise FormulaFault(end, "no header")
    if clause:
        clauses.append(list(dict.fromkeys(clause)))
    if len(clauses) < header[1]:
        raise FormulaFault(end, "too few clauses")
    return Formula(header[0], clauses)


# ---------------------------------------------------------------------------------------------------------------------
# Lines and words (FORMAT.md, "General rules")

class Lines:
    """The lines of a text, read one after the other. What cannot come at a line refuses the text there."""

    def __init__(self, kind, text):
        self.kind = kind
        # (no word that may come has a byte beyond ASCII; `rest` is what follows the last byte 10)
        *self.lines, self.rest = text.decode("latin-1").split("\n")
        self.read = 0

    def refuse(self, line):
        raise Fault(self.kind, line, f"not {'an' if self.kind == 'answer' else 'a'} {self.kind}")

    def comes(self, *words):
        """Whether the next line is there, with its byte 10, and begins with these words."""
        return self.read < len(self.lines) and self.lines[self.read].split(" ", len(words))[:len(words)] == list(words)

    def line(self, *words):
        """The next line, which has to begin with these words: what follows them."""
        if not self.comes(*words):
            self.refuse(self.read + 1)
        self.read += 1
        return Words(self, self.lines[self.read - 1].split(" ")[len(words):])

    def end(self):
        if self.read < len(self.lines) or self.rest:
            self.refuse(self.read + 1)


class Words:
    """The words of a line, read one after the other."""

    def __init__(self, lines, words):
        self.lines, self.words = lines, iter(words)

    def need(self, rule):
        if not rule:
            self.lines.refuse(self.lines.read)

    def word(self, allowed):
        word = next(self.words, None)
        self.need(word in allowed)
        return word

    def number(self, least, greatest):
        """A number in its shortest decimal spelling, within a range. None of the ranges has one of 40 digits."""
        word = next(self.words, "")
        self.need(len(word) <= 40 and re.fullmatch("0|-?[1-9][0-9]*", word) and least <= int(word) <= greatest)
        return int(word)

    def nonzero(self, greatest):
        number = self.number(-greatest, greatest)
        self.need(number != 0)
        return number

    def to_zero(self, greatest):
        """The numbers of a list, without the 0 that closes it; none is beyond greatest, up or down."""
        numbers = []
        while number := self.number(-greatest, greatest):
            numbers.append(number)
        return numbers

    def ascending(self, greatest):
        """A list of numbers from 1 to greatest, ascending."""
        numbers = self.to_zero(greatest)
        self.need(rises([0, *numbers]))
        return numbers

    def assignment(self, n):
        """A list of literals, ascending by variable, at most one for a variable."""
        literals = self.to_zero(n)
        self.need(rises([abs(l) for l in literals]))
        return literals

    def end(self):
        self.need(next(self.words, None) is None)


def rises(numbers):
    return all(one < other for one, other in zip(numbers, numbers[1:]))


# ---------------------------------------------------------------------------------------------------------------------
# The form of documents (FORMAT.md, "Finished documents", "Unfinished documents")

class Text:
    """What the lines of a document or an answer say: the attributes have the names of the lines."""


# `turns` are pairs of a literal and a number.
Step = namedtuple("Step", "number clause first turns")


def read_document(text):
    lines = Lines("document", text)
    found = Text()
    head = lines.line("c", "leank")
    version = head.word(["1", "2"])
    found.kind = head.word(["pure", "matching", "linear", "general", "unfinished"])
    head.end()
    size = lines.line("c", "formula")
    found.n, found.m = size.number(0, MOST_VARIABLES), size.number(0, MOST_CLAUSES)
    size.end()
    found.protected = set(listed(lines, "protect", Words.ascending, found.n)) if version == "2" else set()
    if found.kind == "unfinished":
        learned = lines.line("c", "learned")
        found.learned = learned.number(0, MOST_LEARNED)
        learned.end()
        found.rounds = read_open_rounds(lines, found)
        found.keep = list(range(1, found.m + 1))
    else:
        found.keep = listed(lines, "keep", Words.ascending, found.m)
        found.set = listed(lines, "set", Words.assignment, found.n)
        {"pure": read_pure, "matching": read_matching, "linear": read_linear, "general": read_general}[found.kind](lines, found)
    read_clauses(lines, found)
    lines.end()
    return found


def listed(lines, word, read, greatest):
    """The list that is all of a line."""
    line = lines.line("c", word)
    numbers = read(line, greatest)
    line.end()
    return numbers


def table(lines, word, greatest, read):
    """All next lines that begin with this word and a number, ascending from 1 to greatest: by this number what is read of
    the words behind it."""
    rows, last = {}, 0
    while lines.comes("c", word):
        line = lines.line("c", word)
        last = line.number(last + 1, greatest)
        rows[last] = read(line)
        line.end()
    return rows


def read_clauses(lines, found):
    """The problem line, and the clause lines of the kept positions."""
    problem = lines.line("p", "cnf")
    problem.number(found.n, found.n)
    problem.number(len(found.keep), len(found.keep))
    problem.end()
    found.clause, literals = {}, 0
    for p in found.keep:
        line = lines.line()
        clause = line.to_zero(found.n)
        line.need(len(set(clause)) == len(clause))
        literals += len(clause)
        line.need(literals <= MOST_LITERALS)
        line.end()
        found.clause[p] = clause


def read_pure(lines, found):
    n, m = found.n, found.m
    found.order = listed(lines, "order", Words.to_zero, n)
    found.pair = table(lines, "pair", n, lambda line: (line.number(1, m), line.number(1, m)))


def read_matching(lines, found):
    n, m = found.n, found.m
    found.own = table(lines, "own", m, lambda line: line.number(1, n))
    found.row = table(lines, "row", n, lambda line: (line.number(1, m), line.number(1, m), line.number(0, MOST_RANK)))


def read_linear(lines, found):
    n, m = found.n, found.m
    found.stage = []
    while lines.comes("c", "stage"):
        line = lines.line("c", "stage")
        found.stage.append(numbered(line, n))
        line.end()
    found.dual = table(lines, "dual", m, lambda line: line.number(-WIDEST, WIDEST))
    found.unit = table(lines, "unit", n, lambda line: (line.number(-WIDEST, WIDEST), numbered(line, m)))


def numbered(line, greatest):
    """The list `v x v x .. 0`: by each v, ascending from 1 to greatest, its x, which is not 0."""
    numbers, last = {}, 0
    while v := line.number(0, greatest):
        line.need(last < v)
        numbers[v] = line.nonzero(WIDEST)
        last = v
    return numbers


def read_general(lines, found):
    """Rounds, each of which ends with its first empty step."""
    found.rounds, number = [], found.m
    # (a chain of a formula without clauses can begin with nothing, so no round of it ends)
    while found.m > 0 and lines.comes("c", "round"):
        found.rounds.append(read_round(lines, found, number))
        number += len(found.rounds[-1])


def read_open_rounds(lines, found):
    """The same, but the last round has no empty step."""
    rounds, number = [], found.m
    while True:
        lines.line("c", "round").end()
        steps = []
        while lines.comes("c", "step") and (not steps or steps[-1].clause):
            number += 1
            steps.append(read_step(lines, found, number))
        rounds.append(steps)
        if not steps or steps[-1].clause:
            return rounds


def read_round(lines, found, number):
    """A round that ends with its first empty step, whose steps are numbered on from this number."""
    lines.line("c", "round").end()
    steps = []
    while not steps or steps[-1].clause:
        number += 1
        steps.append(read_step(lines, found, number))
    return steps


def read_step(lines, found, number):
    line = lines.line("c", "step")
    line.number(number, min(number, MOST_STEPS))
    clause = line.to_zero(found.n)
    line.need(rises([(abs(l), l < 0) for l in clause]))
    first = line.number(1, number - 1)
    turns = []
    while turn := line.number(-found.n, found.n):
        turns.append((turn, line.number(1, number - 1)))
    line.end()
    return Step(number, clause, first, turns)


# ---------------------------------------------------------------------------------------------------------------------
# The form of answers (FORMAT.md, "Answers", "Cores"), which belong to a formula of n variables and m clauses

def read_answer(text, n, m):
    lines = Lines("answer", text)
    found = Text()
    found.n, found.m, found.protected = n, m, set()
    if lines.comes("c") and m > 0:
        found.kind = "core"
        read_core(lines, found)
    elif lines.comes("s", "UNSATISFIABLE") and m > 0:
        found.kind = "refutation"
        found.keep = range(1, m + 1)
        lines.line("s", "UNSATISFIABLE").end()
        found.rounds = [read_round(lines, found, m)]
    else:
        found.kind = "model"
        lines.line("s", "SATISFIABLE").end()
        line = lines.line("v")
        found.model = line.assignment(n)
        line.need(len(found.model) == n)
        line.end()
    lines.end()
    return found


def read_core(lines, found):
    lines.line("c", "leank", "1", "mus").end()
    lines.line("c", "formula", str(found.n), str(found.m)).end()
    found.keep = listed(lines, "core", Words.ascending, found.m)
    found.rounds = [read_round(lines, found, found.m)]
    found.without = {}
    for p in found.keep:
        line = lines.line("c", "without", str(p))
        found.without[p] = line.assignment(found.n)
        line.end()
    read_clauses(lines, found)


# ---------------------------------------------------------------------------------------------------------------------
# The checks of all finished documents (FORMAT.md, "Checks")

def variables_of(clause):
    return {abs(l) for l in clause}


def other_formula(formula, found):
    if (found.n, found.m) != (formula.n, formula.m):
        yield 0


def kept_clause(formula, found):
    for p in found.keep:
        if found.clause[p] != formula.clause[p]:
            yield p


def protected_set(formula, found):
    for literal in found.set:
        if abs(literal) in found.protected:
            yield abs(literal)


def not_autarky(formula, found):
    true, touched = set(found.set), variables_of(found.set)
    for p, clause in formula.clause.items():
        if touched & variables_of(clause) and true.isdisjoint(clause):
            yield p


def not_exactly_removed(formula, found):
    kept, touched = set(found.keep), variables_of(found.set)
    for p, clause in formula.clause.items():
        if bool(touched & variables_of(clause)) == (p in kept):
            yield p


def variables_of_kept(formula, found):
    """The variables of S: those that occur in a clause at a kept position and are not protected."""
    return {abs(l) for p in found.keep for l in formula.clause[p]} - found.protected


# ---------------------------------------------------------------------------------------------------------------------
# The checks of the class pure

def bad_order(formula, found):
    true, earlier = set(found.set), set()
    for index, literal in enumerate(found.order, 1):
        later = [p for p in formula.positions_of[-literal] if earlier.isdisjoint(formula.clause[p])]
        if literal in earlier or literal not in true or later:
            yield index
        earlier.add(literal)
    if true - earlier:
        yield len(found.order) + 1


def bad_pair(formula, found):
    kept, of_kept = set(found.keep), variables_of_kept(formula, found)
    for v in range(1, formula.n + 1):
        if (v in found.pair) != (v in of_kept):
            yield v
        elif v in found.pair:
            a, b = found.pair[v]
            if not (a in kept and v in formula.clause[a] and b in kept and -v in formula.clause[b]):
                yield v


# ---------------------------------------------------------------------------------------------------------------------
# The checks of the class matching

def bad_owner(formula, found):
    kept, true, earlier = set(found.keep), set(found.set), set()
    for p, clause in formula.clause.items():
        if (p in found.own) == (p in kept):
            yield p
        elif p in found.own:
            v = found.own[p]
            if v in earlier or not true & set(clause) & {v, -v}:
                yield p
            earlier.add(v)


def bad_row(formula, found):
    kept, of_kept = set(found.keep), variables_of_kept(formula, found)
    earlier = set()
    # Of each position that is the own one of a row, the greatest rank of such a row.
    rank_of = {}
    for m, _, rank in found.row.values():
        rank_of[m] = max(rank, rank_of.get(m, 0))
    for v in range(1, formula.n + 1):
        if (v in found.row) != (v in of_kept):
            yield v
        elif v in found.row:
            m, e, rank = found.row[v]
            if not all(p in kept and {v, -v} & set(formula.clause[p]) for p in (m, e)):
                yield v
            elif m in earlier or (e in rank_of and rank_of[e] >= rank):
                yield v
            earlier.add(m)


# ---------------------------------------------------------------------------------------------------------------------
# The checks of the class linear

def balance(formula, numbers):
    """The balance of numbers at positions, in each variable in which it is not 0."""
    total = defaultdict(int)
    for p, number in numbers.items():
        for literal in formula.clause[p]:
            total[abs(literal)] += number if literal > 0 else -number
    return {v: sum_ for v, sum_ in total.items() if sum_ != 0}


def bad_sign(formula, found):
    signs = {}
    for stage in found.stage:
        for v, x in stage.items():
            signs.setdefault(v, v if x > 0 else -v)
    set_line = {abs(l): l for l in found.set}
    for v in range(1, formula.n + 1):
        if signs.get(v) != set_line.get(v):
            yield v


def bad_stage(formula, found):
    for p, clause in formula.clause.items():
        for stage in found.stage:
            if any(abs(l) in stage for l in clause):
                if sum(stage.get(abs(l), 0) * (1 if l > 0 else -1) for l in clause) < 0:
                    yield p
                break


def bad_dual(formula, found):
    kept = set(found.keep)
    for p in formula.clause:
        if (p in found.dual) != (p in kept) or found.dual.get(p, 1) < 1:
            yield p


def bad_balance(formula, found):
    yield from sorted(variables_of_kept(formula, found) & balance(formula, found.dual).keys())


def bad_unit(formula, found):
    kept, of_kept = set(found.keep), variables_of_kept(formula, found)
    for v in range(1, formula.n + 1):
        if (v in found.unit) != (v in of_kept):
            yield v
        elif v in found.unit:
            d, shares = found.unit[v]
            total = balance(formula, shares)
            if d == 0 or shares.keys() - kept or total.get(v, 0) != d or (total.keys() & of_kept) - {v}:
                yield v


# ---------------------------------------------------------------------------------------------------------------------
# The checks of rounds: of the class general, of unfinished documents, of refutations and of cores

def crossed(clause, blocked):
    """A clause without the literals on blocked variables, as a set."""
    return {l for l in clause if abs(l) not in blocked}


def reached(steps):
    """The numbers of positions and steps that are reached from the last step of a round."""
    numbers = {steps[-1].number}
    # A chain names smaller numbers only, so a step that is reached is known to be when it comes here.
    for step in reversed(steps):
        if step.number in numbers:
            numbers.update([step.first, *(number for _, number in step.turns)])
    return numbers


def rounds_and_blocked(formula, found):
    """Each round, with the variables that were blocked before it; and at last no steps, with all that are blocked."""
    blocked = set(found.protected)
    for steps in found.rounds:
        yield steps, blocked
        if steps and not steps[-1].clause:
            # (all variables of a used clause are blocked then: those that are crossed out of it were so before)
            blocked.update(abs(l) for p in reached(steps) if p <= formula.m for l in formula.clause[p])
    yield [], blocked


def conclusion(step, clause_of):
    """What the chain of a step states, as a set, or None; clause_of is the clause that a number stands for, or None."""
    so_far = clause_of(step.first)
    if so_far is None:
        return None
    for turn, number in step.turns:
        other = clause_of(number)
        if other is None or turn not in so_far or -turn not in other:
            return None
        so_far = (so_far - {turn}) | (other - {-turn})
    return so_far


def bad_step(formula, found):
    kept = set(found.keep)
    for steps, blocked in rounds_and_blocked(formula, found):
        stated = {}

        def clause_of(number):
            if number > formula.m:
                return stated.get(number)
            return crossed(formula.clause[number], blocked) if number in kept else None

        for step in steps:
            if conclusion(step, clause_of) != set(step.clause):
                yield step.number
            stated[step.number] = set(step.clause)


def not_blocked(formula, found):
    *_, (_, blocked) = rounds_and_blocked(formula, found)
    yield from sorted(variables_of_kept(formula, found) - blocked)


def bad_count(formula, found):
    if sum(1 for steps in found.rounds for step in steps if step.clause) != found.learned:
        yield 0


def not_learned(formula, found):
    for steps, blocked in rounds_and_blocked(formula, found):
        earlier = []
        for step in steps:
            clause = set(step.clause)
            # A crossed clause that is not empty and a subset of this one shares a literal with it.
            crossed_clauses = (crossed(formula.clause[p], blocked) for l in clause for p in formula.positions_of[l])
            if clause and (any(-l in clause for l in clause)
                           or any(part and part <= clause for part in crossed_clauses)
                           or any(part <= clause for part in earlier)):
                yield step.number
            earlier.append(clause)


# ---------------------------------------------------------------------------------------------------------------------
# The checks of answers alone

def model_fails(formula, found):
    true = set(found.model)
    for p, clause in formula.clause.items():
        if true.isdisjoint(clause):
            yield p


def bad_without(formula, found):
    for p in found.keep:
        true = set(found.without[p])
        if any(q != p and true.isdisjoint(formula.clause[q]) for q in found.keep):
            yield p


# ---------------------------------------------------------------------------------------------------------------------
# Verdicts

FINISHED = [other_formula, kept_clause, protected_set, not_autarky, not_exactly_removed]
CHECKS = {
    "pure": FINISHED + [bad_order, bad_pair],
    "matching": FINISHED + [bad_owner, bad_row],
    "linear": FINISHED + [bad_sign, bad_stage, bad_dual, bad_balance, bad_unit],
    "general": FINISHED + [bad_step, not_blocked],
    "unfinished": [other_formula, kept_clause, bad_count, bad_step, not_learned],
    "model": [model_fails],
    "refutation": [bad_step],
    "core": [kept_clause, bad_step, bad_without],
}


def verdict(formula, found):
    """The line of the verdict, and the status."""
    for check in CHECKS[found.kind]:
        for place in check(formula, found):
            return f"refused {check.__name__.replace('_', '-')} {place}", 8
    return (f"unfinished {found.learned}", 5) if found.kind == "unfinished" else ("accepted", 0)


def check(formula, text):
    """What `leank check` says of a document: a line on standard output or None, one on standard error or None, the status.
    The formula is a text, or what was read of one."""
    return judged(formula, lambda formula: read_document(text))


def verify(formula, text):
    """What `leank verify` says of an answer, in the same way."""
    return judged(formula, lambda formula: read_answer(text, formula.n, formula.m))


def judged(formula, read):
    try:
        formula = formula if isinstance(formula, Formula) else read_formula(formula)
        line, status = verdict(formula, read(formula))
        return line, None, status
    except Fault as fault:
        return None, "leank: {} line {}: {}".format(*fault.args), 2


def main():
    words = CommandLine(__doc__)
    formula_text, text = words.files("FORMULA", "DOCUMENT")
    first = text.split(b"\n", 1)[0]
    judge = verify if first == b"c leank 1 mus" or first.startswith(b"s") else check
    line, fault, status = judge(formula_text, text)
    print(line or fault, file=sys.stdout if line else sys.stderr)
    return status


if __name__ == "__main__":
    sys.exit(main())
