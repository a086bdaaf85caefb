#!/usr/bin/env python3
"""Tests of `examples/lrat.sh`: refutations and cores of drawn formulas as LRAT proofs, and forged ones; and of `lrat.py`,
which checks them, with worked proofs.

    bench/test_lrat.py [LEANK [TEST ...]]

LEANK is the built program, by default `dist/leank`. Where `lrat-check` is found (Debian's package drat-trim, from Debian 13 on), it has to verify each proof
of the script too.
"""
import itertools
import os
import random
import shutil
import subprocess
import tempfile
import unittest

import judge
from command_line import RELEASED, CommandLine
from formulas import drawn_clause, formula_text, mixed_clauses, parity, pigeons, shuffled, side_by_side
from lrat import fault, read_formula

TOP = os.path.dirname(os.path.dirname(os.path.abspath(__file__)))
LEANK, SCRIPT = RELEASED, os.path.join(TOP, "examples", "lrat.sh")
OTHER_CHECKER = shutil.which("lrat-check")

SQUARE = (2, [[1, 2], [1, -2], [-1, 2], [-1, -2]])
SQUARE_PROOF = b"5 1 0 2 1 0\n6 0 5 4 3 0\n"
REPEATED = (2, [[1, 2, 1], [1, -2], [-1, 2], [-1, -2]])

# What is right, or the line that is wrong, of proofs.
WORKED = [
    (SQUARE, SQUARE_PROOF, None),
    (SQUARE, b"5 1 0 1 2 0\n5 d 1 2 0\n9 0 5 4 3 0\n", None),
    (SQUARE, b"5 1 0 1 2 0\n5 d 1 4 0\n6 0 5 4 3 0\n", 3),
    (SQUARE, b"5 1 0 1 2 0\n5 d 1 1 0\n6 0 5 4 3 0\n", 2),
    (SQUARE, b"5 1 0 1 2 0\n", 2),
    (SQUARE, b"", 1),
    (SQUARE, b"5 1 0 1 2 0\n6 0 5 4 3 0", 2),
    (SQUARE, SQUARE_PROOF + b"7 1 0 5 0\n", 3),
    (SQUARE, SQUARE_PROOF + b"\n", 3),
    (SQUARE, b"4 1 0 1 2 0\n6 0 4 4 3 0\n", 1),
    (SQUARE, b"5 1 0 1 2 0\n5 0 5 4 3 0\n", 2),
    (SQUARE, b"5 1 0 1 2 3 0\n6 0 5 4 3 0\n", 1),
    (SQUARE, b"5 1 0 1 0\n6 0 5 4 3 0\n", 1),
    (SQUARE, b"5 1 0 0\n6 0 5 4 3 0\n", 1),
    (SQUARE, b"5 1 0 1 6 0\n6 0 5 4 3 0\n", 1),
    (SQUARE, b"5 1 0 1 5 0\n6 0 5 4 3 0\n", 1),
    (SQUARE, b"5 1 0 -1 2 0\n6 0 5 4 3 0\n", 1),
    (SQUARE, b"5 1 1 0 1 2 0\n6 0 5 4 3 0\n", 1),
    (SQUARE, b"5 1 -1 0 1 2 0\n6 0 5 4 3 0\n", 1),
    (SQUARE, b"5 1 3 0 1 2 0\n6 0 5 4 3 0\n", 1),
    (SQUARE, b"5 1 0 1  2 0\n6 0 5 4 3 0\n", 1),
    (SQUARE, b"5 1 0 1 2 0 \n6 0 5 4 3 0\n", 1),
    (SQUARE, b"c 5\n5 1 0 1 2 0\n6 0 5 4 3 0\n", 1),
    (SQUARE, b"05 1 0 1 2 0\n6 0 5 4 3 0\n", 1),
    (SQUARE, b"5 1 0 1 2 0\n6 -1 0 4 3 0\n7 0 5 6 0\n", None),
    (SQUARE, b"5 1 0 1 2 0\n6 0 5 3 4 0\n", None),
    # Clause 5 makes 1 true, and so satisfies clause 2.
    (SQUARE, b"5 1 0 1 2 0\n6 0 5 2 4 0\n", 2),
    (SQUARE, b"6 0 1 2 0\n", 1),
    # The repeated literal is unset twice.
    (REPEATED, b"5 2 0 1 3 0\n6 0 5 2 4 0\n", 1),
    (REPEATED, b"5 1 0 2 1 0\n6 0 5 4 3 0\n", None),
    (REPEATED, b"5 1 2 0 1 0\n6 2 0 5 3 0\n7 0 6 2 4 0\n", None),
    # A clause with both literals of a variable is never unit.
    ((1, [[1, -1], [1], [-1]]), b"4 0 1 2 3 0\n", 1),
    ((1, [[1, -1], [1], [-1]]), b"4 0 2 3 0\n", None),
    ((1, [[]]), b"2 0 1 0\n", None),
    ((1, [[]]), b"2 0 0\n", 1),
    ((0, []), b"1 0 0\n", 1),
]

# Answers that `verify` accepts and no search writes, with their proofs.
ODD = [
    # A step that states a clause with both literals of a variable has no line.
    ((2, [[1, -1, 2], [-2], [1], [-1]]), b"5 1 -1 0 1 2 2 0;6 1 0 5 -1 3 0;7 0 6 1 4 0", b"5 1 0 3 0\n6 0 4 5 0\n"),
    # A turn takes 1 out, and a later one brings it in again.
    ((2, [[1, 2], [-1, 2], [1, -2], [-1]]), b"5 1 0 1 1 2 2 3 0;6 0 5 1 4 0", b"5 1 0 3 1 0\n6 0 4 5 0\n"),
    # A turn takes 1 out where -1 is there too, and stays.
    ((3, [[1, 2], [-1, -2], [-1, 3], [-3], [1]]), b"6 -1 3 0 1 2 2 1 3 0;7 0 6 -1 5 3 4 0", b"6 -1 3 0 3 0\n7 0 4 5 6 0\n"),
    # A step without turns.
    ((2, [[1, 2], [1, -2], [-1]]), b"4 1 2 0 1 0;5 1 0 4 2 2 0;6 0 5 1 3 0", b"4 1 2 0 1 0\n5 1 0 2 4 0\n6 0 3 5 0\n"),
    # Clauses with a repeated literal are stated as sets, if they are used.
    ((1, [[1, 1], [1, -1, -1], [-1, -1]]), b"4 0 1 1 3 0", b"4 -1 0 3 0\n5 1 0 1 0\n6 0 4 5 0\n"),
    ((1, [[1, 1], [1, -1, -1], [-1, -1]]), b"4 1 0 1 0;5 1 0 1 1 2 0;6 0 4 1 3 0", b"4 1 0 1 0\n5 1 0 4 0\n6 1 0 4 0\n7 -1 0 3 0\n8 0 7 5 0\n"),
]


class Room:
    """A folder with the files of one formula after the other."""

    def __init__(self, folder):
        self.formula, self.answer, self.plain, self.proof = (os.path.join(folder, it) for it in ("formula", "answer", "plain", "proof"))

    def put(self, name, text):
        with open(name, "wb") as file:
            file.write(text)

    def run(self, *words):
        done = subprocess.run(words, stdout=subprocess.PIPE, stderr=subprocess.PIPE)
        return done.returncode, done.stdout

    def answered(self, command, text):
        """The status and the answer of a command for a formula's text."""
        self.put(self.formula, text)
        return self.run(LEANK, command, self.formula)

    def rewritten(self, text, answer):
        """The status and the output of the script."""
        self.put(self.formula, text)
        self.put(self.answer, answer)
        return self.run(SCRIPT, self.formula, self.answer)


def drawn_text(draw, variables, clauses):
    """The formula in words and lines that leank takes too."""
    words = [("-" if l < 0 else "") + "0" * (draw.random() < 0.1) + str(abs(l)) for clause in clauses for l in [*clause, 0]]
    if clauses and clauses[-1] and draw.random() < 0.5:
        words.pop()
    gaps = ["\n", " ", "\t", "  ", "\r\n", "\n\n", "\nc 1 0\n", "\n c 2 0\n"]
    body = "".join(word + draw.choice(gaps) for word in words)
    return (f"c\n p  cnf {variables} {len(clauses)} \r\n" + body + draw.choice(["", "\n%\n0\n", "\n c"])).encode()


def spoiled(draw, variables, clauses):
    """The formula with repeated clauses and literals, with clauses with both literals of a variable, and empty ones."""
    clauses = [list(clause) for clause in clauses]
    for clause in clauses:
        if clause and draw.random() < 0.3:
            clause.insert(draw.randrange(len(clause) + 1), draw.choice(clause))
        if clause and draw.random() < 0.1:
            clause.insert(draw.randrange(len(clause) + 1), -draw.choice(clause))
    for _ in range(draw.randrange(3)):
        clauses.insert(draw.randrange(len(clauses) + 1), list(draw.choice(clauses)))
    if draw.random() < 0.05:
        clauses.insert(draw.randrange(len(clauses) + 1), [])
    return variables, clauses


def random_formula(draw):
    variables, least = draw.randrange(1, 10), draw.randrange(1, 4)
    return variables, mixed_clauses(draw, variables, draw.randrange(variables, 4 * least * variables + 3), range(least, 4))


def built_formula(draw):
    kind = draw.randrange(4)
    if kind == 0:
        return pigeons(draw.randrange(1, 6))
    if kind == 1:
        return parity(draw, draw.randrange(4, 12))
    if kind == 2:
        return side_by_side([pigeons(2, 2), pigeons(draw.randrange(2, 5)), pigeons(1, 1)])
    return shuffled(draw, *side_by_side([random_formula(draw), pigeons(3), random_formula(draw)]))


def drawn_formulas(draw):
    for _ in range(150):
        formula = random_formula(draw)
        yield spoiled(draw, *formula) if draw.random() < 0.7 else formula
    for _ in range(40):
        formula = shuffled(draw, *built_formula(draw))
        yield spoiled(draw, *formula) if draw.random() < 0.5 else formula


def drawn_lesser(draw, text, count):
    """At most so many forged proofs, each with a hint or a literal less."""
    lines = [line.split(b" ") for line in text.split(b"\n")[:-1]]
    places = [(k, place) for k, words in enumerate(lines) for place in range(1, len(words)) if words[place] != b"0"]
    for k, place in places if len(places) <= count else draw.sample(places, count):
        others = [*lines[:k], lines[k][:place] + lines[k][place + 1 :], *lines[k + 1 :]]
        yield b"".join(b" ".join(words) + b"\n" for words in others)


def drawn_change(draw, text):
    """The proof with a word of it changed, or two of its words or lines exchanged."""
    lines = text.split(b"\n")[:-1]
    k = draw.randrange(len(lines))
    words = lines[k].split(b" ")
    place = draw.randrange(len(words))
    kind = draw.randrange(4)
    if kind == 0:
        words[place] = b"%d" % (int(words[place]) + draw.choice((1, -1)))
    elif kind == 1:
        words[place] = b"%d" % -int(words[place])
    elif kind == 2:
        other = draw.randrange(len(words))
        words[place], words[other] = words[other], words[place]
    lines[k] = b" ".join(words)
    if kind == 3:
        other = draw.randrange(len(lines))
        lines[k], lines[other] = lines[other], lines[k]
    return b"".join(line + b"\n" for line in lines)


def has_model(variables, clauses):
    totals = ({s * v for v, s in enumerate(signs, 1)} for signs in itertools.product((1, -1), repeat=variables))
    return any(all(not true.isdisjoint(clause) for clause in clauses) for true in totals)


def drawn_refutation(draw, variables, clauses):
    """An answer of at most 40 steps to a formula without a model. Its turns are drawn: a chain may take a literal out twice,
    and go through clauses with both literals of a variable."""
    stated, lines = [], []
    while not lines or stated[-1] or len(lines) == 2:
        if len(lines) in (0, 42):
            stated, lines = [None, *map(set, clauses)], ["s UNSATISFIABLE", "c round"]
        number, first = len(stated), draw.randrange(1, len(stated))
        so_far, chain = stated[first], [first]
        for _ in range(draw.randrange(7)):
            turns = [(l, k) for l in sorted(so_far) for k in range(1, number) if -l in stated[k]]
            resolvent = lambda turn: so_far - {turn[0]} | (stated[turn[1]] - {-turn[0]})
            if not turns:
                break
            turn = draw.choice(turns) if draw.random() < 0.6 else min(turns, key=lambda turn: len(resolvent(turn)))
            so_far, chain = resolvent(turn), [*chain, *turn]
        stated.append(so_far)
        literals = sorted(so_far, key=lambda l: (abs(l), l < 0))
        lines.append(" ".join(map(str, ["c step", number, *literals, 0, *chain, 0])))
    return "".join(line + "\n" for line in lines).encode()


class Checking(unittest.TestCase):
    def test_worked_proofs(self):
        for formula, text, line in WORKED:
            found = fault(formula, text)
            self.assertEqual(found and found[0], line, (text, found))

    def test_formulas_as_they_are_written(self):
        text = b"c made by hand\r\np  cnf 3  3 \r\n 1 2 01\r\n0 -2 3 3 0\r\n2 -3\r\n%\r\n0\r\n"
        self.assertEqual(read_formula(text), (3, [[1, 2, 1], [-2, 3, 3], [2, -3]]))
        self.assertEqual(read_formula(b"p cnf 1 2\n0\nc 1\n1"), (1, [[], [1]]))


class Rewriting(unittest.TestCase):
    def setUp(self):
        folder = tempfile.TemporaryDirectory()
        self.addCleanup(folder.cleanup)
        self.room = Room(folder.name)

    def proof_of(self, text, answer):
        """The proof that the script makes of an answer, which is right."""
        status, proof = self.room.rewritten(text, answer)
        self.assertEqual((status, fault(read_formula(text), proof)), (0, None), (text, answer, proof))
        if OTHER_CHECKER:
            self.room.put(self.room.plain, formula_text(*read_formula(text)))
            self.room.put(self.room.proof, proof)
            status, said = self.room.run(OTHER_CHECKER, self.room.plain, self.room.proof)
            self.assertTrue(status == 0 and b"\nc VERIFIED\n" in said, (text, proof, said))
        return proof

    def refuses_lesser(self, draw, formula, proof):
        """Each hint and each literal is needed, since no chain of leank takes a variable out twice."""
        for forged in drawn_lesser(draw, proof, 40):
            self.assertIsNotNone(fault(formula, forged), (formula, forged))

    def test_answers_of_solve_and_mus(self):
        draw = random.Random(1)
        found = {"solve": 0, "mus": 0}
        for variables, clauses in drawn_formulas(draw):
            text = drawn_text(draw, variables, clauses) if draw.random() < 0.5 else formula_text(variables, clauses)
            for command, status in (("solve", 20), ("mus", 0)):
                ended, answer = self.room.answered(command, text)
                self.assertIn(ended, (status, 10))
                if ended == status:
                    found[command] += 1
                    self.refuses_lesser(draw, (variables, clauses), self.proof_of(text, answer))
                else:
                    self.assertEqual(self.room.rewritten(text, answer), (1, b""))
        self.assertEqual(found["solve"], found["mus"])
        self.assertGreater(found["solve"], 120)

    def test_proofs_of_cores_name_no_other_clauses(self):
        draw = random.Random(2)
        for _ in range(60):
            variables, clauses = spoiled(draw, *random_formula(draw))
            status, answer = self.room.answered("mus", formula_text(variables, clauses))
            if status == 0:
                core = set(map(int, answer.split(b"\n")[2].split()[2:-1]))
                proof = self.proof_of(formula_text(variables, clauses), answer)
                only = lambda kept: (variables, [clause if p in kept else [1, -1] for p, clause in enumerate(clauses, 1)])
                self.assertIsNone(fault(only(core), proof))
                for p in core:
                    self.assertIsNotNone(fault(only(core - {p}), proof))

    def test_changed_proofs_prove_no_formula_with_a_model(self):
        draw = random.Random(3)
        refused = proved = 0
        for _ in range(60):
            variables, clauses = random_formula(draw)
            text = formula_text(variables, clauses)
            status, answer = self.room.answered("solve", text)
            if status == 20:
                proof = self.proof_of(text, answer)
                for _ in range(50):
                    other = [list(clause) for clause in clauses]
                    if draw.random() < 0.7:
                        k = draw.randrange(len(other))
                        other[k] = drawn_clause(draw, range(1, variables + 1), draw.randrange(1, variables + 1))
                    if fault((variables, other), drawn_change(draw, proof)) is None:
                        proved += 1
                        self.assertFalse(has_model(variables, other), (other, proof))
                    else:
                        refused += 1
        self.assertGreater(refused, 500)
        self.assertGreater(proved, 20)

    def test_odd_answers(self):
        for (variables, clauses), steps, proof in ODD:
            answer = b"s UNSATISFIABLE\nc round\n" + b"".join(b"c step %b\n" % step for step in steps.split(b";"))
            text = formula_text(variables, clauses)
            self.assertEqual(judge.verify(text, answer), ("accepted", None, 0), answer)
            self.assertEqual(self.proof_of(text, answer), proof)
            self.assertEqual(self.room.run(LEANK, "verify", self.room.formula, self.room.answer), (0, b"accepted\n"))

    def test_other_texts_are_refused(self):
        text, (_, refutation) = formula_text(*SQUARE), self.room.answered("solve", formula_text(*SQUARE))
        document = refutation.replace(b"s UNSATISFIABLE\n", b"c leank 1 general\nc formula 2 4\nc keep 1 2 3 4 0\nc set 0\n")
        for answer in (b"", b"\n", b"s SATISFIABLE\nv 1 2 0\n", document, b"c leank 1 unfinished\nc formula 2 4\n"):
            self.assertEqual(self.room.rewritten(text, answer), (1, b""), answer)
        for other in (text.replace(b"p cnf 2 4", b"p cnf 2 5") + b"1 0\n", b"p cnf 2 3\n1 2 0 1 -2 0 -1 2 0\n"):
            self.assertEqual(self.room.rewritten(other, refutation), (1, b""), other)
        cut = refutation[: refutation.index(b"c step 6")]
        self.assertEqual(self.room.rewritten(text, cut)[0], 1)

    def test_names(self):
        folder = os.path.dirname(self.room.formula)
        link = os.path.join(folder, "link")
        os.symlink(SCRIPT, link)
        text = formula_text(*SQUARE)
        _, answer = self.room.answered("solve", text)
        names = ["a=1", "-", "-v", "a b", "--", "part=answer", "\\n"]
        for formula, other in itertools.permutations(names, 2):
            self.room.put(os.path.join(folder, formula), text)
            self.room.put(os.path.join(folder, other), answer)
            env = {**os.environ, "CDPATH": TOP}
            proof = subprocess.run([link, formula, other], cwd=folder, env=env, stdout=subprocess.PIPE, check=True).stdout
            self.assertIsNone(fault(SQUARE, proof))
        for words in ([], ["a=1"], ["a=1", "-", "-v"], ["a=1", "none"], ["none", "-"], ["a=1", "."]):
            done = subprocess.run([link, *words], cwd=folder, stdout=subprocess.PIPE, stderr=subprocess.PIPE)
            self.assertEqual((done.returncode, done.stdout), (2, b""), words)
            self.assertNotEqual(done.stderr, b"")

    def test_drawn_chains(self):
        draw = random.Random(4)
        done = 0
        while done < 200:
            variables = draw.randrange(1, 5)
            drawn = [drawn_clause(draw, range(1, variables + 1), draw.randrange(1, variables + 1)) for _ in range(4 * variables)]
            variables, clauses = spoiled(draw, variables, drawn)
            if not has_model(variables, clauses):
                answer = drawn_refutation(draw, variables, clauses)
                text = formula_text(variables, clauses)
                self.assertEqual(judge.verify(text, answer), ("accepted", None, 0), answer)
                self.proof_of(text, answer)
                done += 1


if __name__ == "__main__":
    asked = CommandLine(__doc__)
    LEANK = asked.program(default=RELEASED)
    unittest.main(argv=asked.tests(Checking, Rewriting))
