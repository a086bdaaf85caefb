#!/usr/bin/env python3
"""Tests of judge.py with answers and cores: worked verdicts, texts of small answers that are listed one by one, answers of a
plain search, each also forged, and cores that a plain search finds, also with a clause or literals changed. No leank is run.

    bench/test_answers.py [TEST ...]
"""
import itertools
import random
import re
import unittest
from collections import Counter

import judge
from command_line import CommandLine
from forging import (CHANGED, EMPTY, EMPTY_CORE, SQUARE, SQUARE_CORE, UNITS, UNITS_CORE, changed, drawn_change, drawn_forgery,
                     with_words_changed)
from formulas import drawn_clause, formula_text, pigeons, shuffled, side_by_side
from resolving import answer

IMPLIED = (2, [(1,), (-1, 2)])
SQUARE_ANSWER = b"s UNSATISFIABLE\nc round\nc step 5 1 0 1 2 2 0\nc step 6 0 3 2 4 -1 5 0\n"
NO_CLAUSE, EMPTY_CLAUSE, BOTH_SIGNS = (0, []), (1, [()]), (2, [(1, -1, 2), (-2,), (1,), (-1,)])


def judged(formula, text):
    """The verdict, or the refused line."""
    line, fault, _ = judge.verify(formula_text(*formula), text)
    return line or int(re.fullmatch("leank: answer line ([0-9]+): not an answer", fault)[1])


def steps_of(formula, text):
    """The steps of an answer that is a refutation, or none."""
    try:
        found = judge.read_answer(text, formula[0], len(formula[1]))
    except judge.Fault:
        return []
    return found.rounds[0] if found.kind == "refutation" else []


def refuted(*steps):
    return b"s UNSATISFIABLE\nc round\n" + b"".join(b"c step %b\n" % step for step in steps)


WORKED = [
    (IMPLIED, b"s SATISFIABLE\nv 1 2 0\n", "accepted"),
    (IMPLIED, b"s SATISFIABLE\nv 1 -2 0\n", "refused model-fails 2"),
    (IMPLIED, b"s SATISFIABLE\nv -1 -2 0\n", "refused model-fails 1"),
    (IMPLIED, b"s SATISFIABLE\nv 1 0\n", 2),
    (IMPLIED, b"s SATISFIABLE\nv 2 1 0\n", 2),
    (IMPLIED, b"s SATISFIABLE\nv 1 2 0", 2),
    (IMPLIED, b"s SATISFIABLE\n", 2),
    (IMPLIED, b"s SATISFIABLE", 1),
    (IMPLIED, b"", 1),
    (IMPLIED, b"\n", 1),
    (IMPLIED, b"s SATISFIABLE\nv 1 2 0\n\n", 3),
    (IMPLIED, b"s SATISFIABLE\nv 1 2 0\nv", 3),
    (NO_CLAUSE, b"s SATISFIABLE\nv 0\n", "accepted"),
    (NO_CLAUSE, b"s UNSATISFIABLE\nc round\n", 1),
    (NO_CLAUSE, b"s SATISFIABLE\nv 1 0\n", 2),
    (EMPTY_CLAUSE, refuted(b"2 0 1 0"), "accepted"),
    (EMPTY_CLAUSE, b"s SATISFIABLE\nv 1 0\n", "refused model-fails 1"),
    (EMPTY_CLAUSE, refuted(b"2 1 0 1 0", b"3 0 1 0"), "refused bad-step 2"),
    (EMPTY_CLAUSE, refuted(b"2 0 1 0", b"3 0 1 0"), 4),
    (EMPTY_CLAUSE, refuted(b"1 0 1 0"), 3),
    (EMPTY_CLAUSE, refuted(b"2 0 2 0"), 3),
    (EMPTY_CLAUSE, refuted(b"2 0 0 0"), 3),
    (EMPTY_CLAUSE, refuted(b"2 0 1 2 1 0"), 3),
    (SQUARE, SQUARE_ANSWER, "accepted"),
    (SQUARE, refuted(b"5 1 0 1 2 2 0", b"6 0 3 2 4 0"), "refused bad-step 6"),
    (SQUARE, refuted(b"5 2 0 1 2 2 0", b"6 0 3 2 4 0"), "refused bad-step 5"),
    (SQUARE, refuted(b"5 2 1 0 1 0", b"6 0 3 2 4 -1 5 0"), 3),
    (SQUARE, refuted(b"5 1 2 0 1 0", b"6 1 0 5 2 2 0", b"7 0 3 2 4 -1 6 0"), "accepted"),
    (SQUARE, refuted(b"5 1 0 1 2 2 0", b"6 0 3 2 4 -1 6 0"), 4),
    (SQUARE, refuted(b"5 1 0 1 2 2 0"), 4),
    (SQUARE, refuted(), 3),
    (SQUARE, b"s UNSATISFIABLE\n", 2),
    (SQUARE, refuted(b"5 1 0 1 2 2 0", b"6 0 3 2 4 -1 5 0 "), 4),
    (SQUARE, refuted(b"5 3 0 1 2 2 0"), 3),
    (SQUARE, refuted(b"5 0 1 3 2 0"), 3),
    # The first has both signs of 1. Without -1 it keeps 1, whose complement comes back with no turn.
    (BOTH_SIGNS, refuted(b"5 1 -1 0 1 2 2 0", b"6 1 0 5 -1 3 0", b"7 0 6 1 4 0"), "accepted"),
    (BOTH_SIGNS, refuted(b"5 1 0 3 1 1 2 2 0", b"6 0 5 1 4 0"), "accepted"),
    (BOTH_SIGNS, refuted(b"5 0 3 1 1 2 2 0"), "refused bad-step 5"),
    (BOTH_SIGNS, refuted(b"5 -1 1 0 1 2 2 0"), 3),
    (BOTH_SIGNS, refuted(b"5 1 1 0 1 2 2 0"), 3),
]


def small_texts(variables, clauses, steps, turns):
    """All answers with at most so many steps, of at most so many turns."""
    for signs in itertools.product((1, -1), repeat=variables):
        yield b"s SATISFIABLE\n" + b" ".join([b"v", *(b"%d" % (s * v) for v, s in enumerate(signs, 1)), b"0"]) + b"\n"
    if clauses > 0:
        yield from small_rounds(variables, clauses + 1, steps, turns, b"s UNSATISFIABLE\nc round\n")


def small_rounds(variables, number, steps, turns, before):
    if steps == 0:
        return
    literals = [l for v in range(1, variables + 1) for l in (v, -v)]
    chosen = list(itertools.chain.from_iterable(itertools.combinations(literals, k) for k in range(len(literals) + 1)))
    pairs = list(itertools.product(literals, range(1, number)))
    chains = [turn for k in range(turns + 1) for turn in itertools.product(pairs, repeat=k)]
    for clause, first, chain in itertools.product(chosen, range(1, number), chains):
        words = [*clause, 0, first, *(word for pair in chain for word in pair), 0]
        text = before + b"c step %d %b\n" % (number, " ".join(map(str, words)).encode())
        if clause:
            yield from small_rounds(variables, number + 1, steps - 1, turns, text)
        else:
            yield text


def line_by_list(texts, prefixes, text):
    """The first line with which none of these texts goes on, or None if it is one of them."""
    lines = text.split(b"\n")
    for k in range(1, len(lines)):
        if b"".join(line + b"\n" for line in lines[:k]) not in prefixes:
            return k
    return None if text in texts else len(lines)


def resolvents(clauses, step):
    """The chain's clause as flags of literals, from its definition."""
    flags = lambda literals: sum(1 << (2 * abs(l) + (l < 0)) for l in literals)
    so_far = flags(clauses[step.first])
    for literal, number in step.turns:
        other = flags(clauses[number])
        if not so_far & flags([literal]) or not other & flags([-literal]):
            return None
        so_far = so_far & ~flags([literal]) | other & ~flags([-literal])
    return so_far == flags(step.clause)


def first_misstated(clauses, steps):
    stated = [None, *clauses, *(step.clause for step in steps)]
    return next((step.number for step in steps if not resolvents(stated, step)), None)


def has_model(variables, clauses):
    """Whether some total assignment satisfies the clauses, by trying all."""
    total = ({s * v for v, s in enumerate(signs, 1)} for signs in itertools.product((1, -1), repeat=variables))
    return any(all(not true.isdisjoint(clause) for clause in clauses) for true in total)


def drawn_formula(draw):
    """A small formula: some with empty clauses, with both signs of a variable, with equal clauses."""
    variables = draw.randrange(7)
    clauses = []
    for _ in range(draw.randrange(5 * variables + 3)):
        least = 0 if draw.random() < 0.03 else min(1, variables)
        clause = drawn_clause(draw, range(1, variables + 1), draw.randrange(least, min(variables, 3) + 1))
        if clause and draw.random() < 0.05:
            clause.append(-clause[0])
        clauses.append(tuple(clause))
    return variables, clauses


class Answers(unittest.TestCase):
    def test_worked_verdicts(self):
        for formula, text, verdict in WORKED:
            self.assertEqual(judged(formula, text), verdict, text)

    def test_lines_as_by_a_list_of_all_small_answers(self):
        for variables, clauses, steps, turns in [(0, 0, 1, 0), (0, 2, 2, 1), (1, 0, 1, 0), (1, 1, 2, 2), (2, 1, 2, 1)]:
            texts = set(small_texts(variables, clauses, steps, turns))
            prefixes = {text[: k + 1] for text in texts for k, byte in enumerate(text) if byte == 10}
            drawn = random.Random(1).sample(sorted(texts), min(len(texts), 40))
            formula = (variables, [tuple(range(1, variables + 1))] * clauses)
            for text in drawn:
                for other in with_words_changed(text)[1:]:
                    more = any(len(step.turns) > turns for step in steps_of(formula, other))
                    if not more and other.count(b"c step") <= steps:
                        line = line_by_list(texts, prefixes, other)
                        verdict = judged(formula, other)
                        self.assertEqual(verdict if isinstance(verdict, int) else None, line, other)

    def test_answers_of_a_search(self):
        draw = random.Random(2)
        for _ in range(300):
            formula = drawn_formula(draw)
            text = answer(*formula)
            self.assertEqual(judged(formula, text), "accepted", (formula, text))
            self.assertEqual(text.startswith(b"s SAT"), has_model(*formula))

    def test_forged_answers(self):
        draw = random.Random(3)
        found = Counter()
        for _ in range(60):
            formula = drawn_formula(draw)
            for text in with_words_changed(answer(*formula))[1:]:
                verdict, steps = judged(formula, text), steps_of(formula, text)
                found["a line" if isinstance(verdict, int) else verdict.split(" ")[0]] += 1
                if steps:
                    wrong = first_misstated(formula[1], steps)
                    self.assertEqual(verdict, f"refused bad-step {wrong}" if wrong else "accepted", (formula, text))
                    self.assertFalse(verdict == "accepted" and has_model(*formula), (formula, text))
        self.assertEqual(set(found), {"accepted", "a line", "refused"})

    def test_drawn_forgeries(self):
        draw = random.Random(5)
        found = {drawn_change: Counter(), drawn_forgery: Counter()}
        for _ in range(40):
            formula = drawn_formula(draw)
            text = answer(*formula)
            for forged in [drawn_change, drawn_forgery] * 20:
                found[forged][type(judged(formula, forged(draw, text)))] += 1
        self.assertEqual(found[drawn_change][int], 0)
        self.assertGreater(found[drawn_forgery][int], 400)

    def test_larger_refutations(self):
        draw = random.Random(4)
        for formula in (pigeons(4), shuffled(draw, *side_by_side([pigeons(3), pigeons(2, 2), pigeons(3)]))):
            text = answer(*formula)
            self.assertEqual(judged(formula, text), "accepted")
            steps = steps_of(formula, text)
            self.assertLessEqual(judge.reached(steps), set(range(1, steps[-1].number + 1)))

    def test_formulas_as_they_are_written(self):
        found = judge.read_formula(b"c made by hand\r\np  cnf 3  3 \r\n 1 2\r\n0 -2 3 3 0\r\n2 -3\r\n%\r\n0\r\n")
        self.assertEqual((found.n, found.clause), (3, {1: [1, 2], 2: [-2, 3], 3: [2, -3]}))
        self.assertEqual(judge.read_formula(b"p cnf 1 2\n0\nc 1\n1").clause, {1: [], 2: [1]})


EXPECTED = {
    "a core with one clause too many": "refused bad-without 1",
    "a core with one clause too few": "refused bad-step 6",
    "a core of no clause": "refused bad-step 5",
    "literals that leave a clause unsatisfied": "refused bad-without 2",
    "literals on other variables too": "accepted",
    "a clause with its literals the other way round": "refused kept-clause 1",
    "a clause of another position": "refused kept-clause 2",
}


def models(variables, clauses):
    """All models, as lists of a literal for each variable."""
    for signs in itertools.product((1, -1), repeat=variables):
        model = [s * v for v, s in enumerate(signs, 1)]
        if all(not set(model).isdisjoint(clause) for clause in clauses):
            yield model


def at(clauses, positions):
    return [clauses[p - 1] for p in positions]


def plain_core(variables, clauses):
    """The positions of a core of clauses without a model: each is left out where the others have none."""
    core = list(range(1, len(clauses) + 1))
    for p in list(core):
        less = [q for q in core if q != p]
        if not has_model(variables, at(clauses, less)):
            core = less
    return core


def told_step(line, names, given):
    """The line of a step over some clauses, told in the numbers of the whole formula."""
    words = line.split(" ")
    tell = lambda number: str(names[int(number) - 1] if int(number) <= len(names) else given + int(number) - len(names))
    middle = words.index("0", 3)
    turns = [words[k] if (k - middle) % 2 == 0 else tell(words[k]) for k in range(middle + 2, len(words) - 1)]
    return " ".join(["c step", tell(words[2]), *words[3 : middle + 1], tell(words[middle + 1]), *turns, "0"])


def core_text(variables, clauses, core, without):
    """The text of a core, with a refutation by a plain search."""
    kept = at(clauses, core)
    steps = answer(variables, kept).decode().split("\n")[2:-1]
    lines = ["c leank 1 mus", f"c formula {variables} {len(clauses)}", " ".join(["c core", *map(str, core), "0"]), "c round"]
    lines += [told_step(line, core, len(clauses)) for line in steps]
    lines += [" ".join(["c without", *map(str, [p, *literals]), "0"]) for p, literals in zip(core, without)]
    lines += [f"p cnf {variables} {len(core)}", *(" ".join(map(str, [*clause, 0])) for clause in kept)]
    return "".join(line + "\n" for line in lines).encode()


def drawn_unsatisfiable(draw):
    while True:
        variables = draw.randrange(1, 5)
        count = draw.randrange(2, 4 * variables + 3)
        clauses = [tuple(drawn_clause(draw, range(1, variables + 1), draw.randrange(1, min(3, variables) + 1))) for _ in range(count)]
        if not has_model(variables, clauses):
            return variables, clauses


class Cores(unittest.TestCase):
    def test_worked(self):
        for formula, text in ((SQUARE, SQUARE_CORE), (UNITS, UNITS_CORE), (EMPTY, EMPTY_CORE)):
            self.assertEqual(judged(formula, text), "accepted")
        for name, (formula, text, pairs) in CHANGED.items():
            self.assertEqual(judged(formula, changed(text, pairs)), EXPECTED[name], name)

    def test_drawn(self):
        draw = random.Random(1)
        for _ in range(300):
            variables, clauses = formula = drawn_unsatisfiable(draw)
            core = plain_core(variables, clauses)
            without = [next(models(variables, at(clauses, [q for q in core if q != p]))) for p in core]
            self.assertEqual(judged(formula, core_text(variables, clauses, core, without)), "accepted")
            self.forged(draw, formula, core, without)

    def forged(self, draw, formula, core, without):
        variables, clauses = formula
        k = draw.randrange(len(core))
        other = [draw.choice((v, -v)) for v in range(1, variables + 1)]
        others = at(clauses, [q for q in core if q != core[k]])
        is_witness = all(not set(other).isdisjoint(clause) for clause in others)
        text = core_text(variables, clauses, core, [*without[:k], other, *without[k + 1 :]])
        self.assertEqual(judged(formula, text), "accepted" if is_witness else f"refused bad-without {core[k]}")
        for p in set(range(1, len(clauses) + 1)) - set(core):
            more = sorted([*core, p])
            place = more.index(p)
            text = core_text(variables, clauses, more, [*without[:place], without[0], *without[place:]])
            self.assertTrue(judged(formula, text).startswith("refused bad-without "))


if __name__ == "__main__":
    unittest.main(argv=CommandLine(__doc__).tests(Answers, Cores))
