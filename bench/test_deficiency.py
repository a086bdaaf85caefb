#!/usr/bin/env python3
"""Tests of the judge of maximal deficiencies: worked formulas, forged texts, and the answers of a plain matching, each also
changed.

    bench/test_deficiency.py [TEST ...]
"""
import itertools
import random
import unittest

from command_line import CommandLine
from deficiency import drawn, greatest_value, judge, matching_kernel, text_of

THREE = (3, [(1, 2), (-2, 3), (2, -3)])
CIRCLE = (3, [(1, -2), (2, -3), (3, -1), (1, -3)])
SQUARE = (2, [(1, 2), (1, -2), (-1, 2), (-1, -2)])

# A formula, its greatest value, and its kernel for matching autarkies.
WORKED = [
    ((0, []), 0, []),
    ((5, []), 0, []),
    ((0, [(), ()]), 2, [1, 2]),
    (THREE, 0, []),
    (CIRCLE, 1, [1, 2, 3, 4]),
    (SQUARE, 2, [1, 2, 3, 4]),
    ((1, [(1,), (1,)]), 1, [1, 2]),
    ((1, [(1, -1)]), 0, []),
    ((3, [(1,), (-1,), (1, 2), (2, 3)]), 1, [1, 2]),
    ((2, [(), (1,), (2,), (-2,)]), 2, [1, 3, 4]),
]

FORGED = [
    (CIRCLE, b"deficiency 1\nsubset 1 2 3 4 0\nown 1 1\nown 2 2\nown 3 3\n", None),
    (CIRCLE, b"deficiency 1\nsubset 1 2 3 4 0\nown 1 1\nown 2 2\nown 3 3", "not such a text"),
    (CIRCLE, b"deficiency 01\nsubset 1 2 3 4 0\nown 1 1\nown 2 2\nown 3 3\n", "not such a text"),
    (CIRCLE, b"deficiency 1\nsubset 1 2 3 4\nown 1 1\nown 2 2\nown 3 3\n", "not such a text"),
    (CIRCLE, b"deficiency 0\nsubset 0\nown 1 1\nown 2 2\nown 3 3\n", "the greatest value is 1"),
    (CIRCLE, b"deficiency 1\nsubset 1 2 3 0\nown 1 1\nown 2 2\nown 3 3\n", "the kernel is [1, 2, 3, 4]"),
    (CIRCLE, b"deficiency 1\nsubset 2 1 3 4 0\nown 1 1\nown 2 2\nown 3 3\n", "the kernel is [1, 2, 3, 4]"),
    (CIRCLE, b"deficiency 1\nsubset 1 2 3 4 0\nown 1 1\nown 2 2\n", "another number of clauses has no variable"),
    (CIRCLE, b"deficiency 1\nsubset 1 2 3 4 0\nown 1 1\nown 2 2\nown 3 1\n", "a variable stands twice"),
    (CIRCLE, b"deficiency 1\nsubset 1 2 3 4 0\nown 1 3\nown 2 2\nown 3 1\n", "a clause lacks its variable"),
    (CIRCLE, b"deficiency 1\nsubset 1 2 3 4 0\nown 2 2\nown 1 1\nown 3 3\n", "the positions do not ascend"),
    (CIRCLE, b"deficiency 1\nsubset 1 2 3 4 0\nown 1 1\nown 1 2\nown 3 3\n", "the positions do not ascend"),
    (CIRCLE, b"deficiency 1\nsubset 1 2 3 4 0\nown 1 1\nown 2 2\nown 5 3\n", "the positions do not ascend"),
    (THREE, b"deficiency 0\nsubset 0\nown 1 1\nown 2 2\nown 3 3\n", None),
    (THREE, b"deficiency 0\nsubset 0\nown 1 1\nown 2 3\nown 3 2\n", None),
    (THREE, b"deficiency 0\nsubset 2 3 0\nown 1 1\nown 2 3\nown 3 2\n", "the kernel is []"),
]


def matched(clauses):
    """A greatest matching, by one path after the other: the clause of each variable that has one."""
    of_variable = {}

    def find(position, seen):
        for variable in map(abs, clauses[position - 1]):
            if variable not in seen:
                seen.add(variable)
                if variable not in of_variable or find(of_variable[variable], seen):
                    of_variable[variable] = position
                    return True
        return False

    for position in range(1, len(clauses) + 1):
        find(position, set())
    return of_variable


def reached(clauses, of_variable):
    """The positions to which alternating paths lead from those without a variable."""
    waiting = sorted(set(range(1, len(clauses) + 1)) - set(of_variable.values()))
    found = set(waiting)
    while waiting:
        for variable in map(abs, clauses[waiting.pop() - 1]):
            position = of_variable[variable]
            if position not in found:
                found.add(position)
                waiting.append(position)
    return sorted(found)


def answer(clauses):
    of_variable = matched(clauses)
    own = sorted((position, variable) for variable, position in of_variable.items())
    return len(clauses) - len(own), reached(clauses, of_variable), own


class Judge(unittest.TestCase):
    def test_worked(self):
        for (variables, clauses), value, kept in WORKED:
            self.assertEqual((greatest_value(clauses), matching_kernel(variables, clauses)), (value, kept))

    def test_forged(self):
        for formula, text, wrong in FORGED:
            self.assertEqual(judge(*formula, text), wrong, text)

    def test_least_set(self):
        """The kernel is what all sets that have the greatest value have in common."""
        draw = random.Random(2)
        for _ in range(300):
            variables, clauses = drawn(draw)
            best, common = greatest_value(clauses), set(range(1, len(clauses) + 1))
            for size in range(len(clauses) + 1):
                for chosen in itertools.combinations(range(1, len(clauses) + 1), size):
                    occurring = {abs(l) for p in chosen for l in clauses[p - 1]}
                    self.assertLessEqual(size - len(occurring), best)
                    if size - len(occurring) == best:
                        common.intersection_update(chosen)
            self.assertEqual(matching_kernel(variables, clauses), sorted(common))

    def test_plain_matching(self):
        """What a plain matching gives is accepted, and is not with another value, set or number of pairs."""
        draw = random.Random(3)
        for _ in range(500):
            variables, clauses = drawn(draw)
            value, kept, own = answer(clauses)
            self.assertIsNone(judge(variables, clauses, text_of(value, kept, own)))
            self.assertIsNotNone(judge(variables, clauses, text_of(value + 1, kept, own)))
            self.assertIsNotNone(judge(variables, clauses, text_of(value, kept + [len(clauses) + 1], own)))
            if kept:
                self.assertIsNotNone(judge(variables, clauses, text_of(value, kept[1:], own)))
            if own:
                self.assertIsNotNone(judge(variables, clauses, text_of(value, kept, own[1:])))
                self.assertIsNotNone(judge(variables, clauses, text_of(value, kept, own + own[-1:])))


if __name__ == "__main__":
    unittest.main(argv=CommandLine(__doc__).tests(Judge))
