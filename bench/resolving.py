#!/usr/bin/env python3
"""A plain search for a model of a small formula, or for a refutation. It tries both values of a variable, and resolves the
clauses that are false under them. Its time is exponential."""
from command_line import CommandLine


class Refuted(Exception):
    """The clauses are refuted by the steps so far."""


class Search:
    def __init__(self, variables, clauses):
        self.variables, self.given = variables, len(clauses)
        self.clauses = [None, *map(tuple, clauses)]
        self.steps = []

    def forced(self, values):
        """A clause that is false, or the literal that a clause forces, with the clause's number; or None."""
        for number in range(1, len(self.clauses)):
            clause = self.clauses[number]
            if values.isdisjoint(clause):
                unset = [l for l in clause if -l not in values]
                if len(unset) < 2:
                    return (unset[0] if unset else None), number
        return None

    def chain(self, first, turns):
        """The number of the clause that the turns that can be made lead to."""
        clause, made = set(self.clauses[first]), []
        for literal, number in turns:
            if literal in clause:
                clause = (clause - {literal}) | (set(self.clauses[number]) - {-literal})
                made.append((literal, number))
        if not made and clause:
            return first
        self.clauses.append(tuple(sorted(clause, key=lambda l: (abs(l), -l))))
        self.steps.append((first, made))
        if not clause:
            raise Refuted
        return len(self.clauses) - 1

    def false_clause(self, values, variable):
        """The number of a clause that is false under the values; or the values become a model, and it is None."""
        begin, turns = set(values), []
        while (found := self.forced(values)) is not None and found[0] is not None:
            values.add(found[0])
            turns.append((-found[0], found[1]))
        if found is not None:
            return self.chain(found[1], reversed(turns))
        while variable in values or -variable in values:
            variable += 1
        if variable > self.variables:
            return None
        number = self.either(values, variable)
        if number is None:
            return None
        values.clear()
        values.update(begin)
        return self.chain(number, reversed(turns))

    def either(self, values, variable):
        """The same, where both values of a variable are tried."""
        kept = set(values)
        values.add(variable)
        positive = self.false_clause(values, variable)
        if positive is None or -variable not in self.clauses[positive]:
            return positive
        values.clear()
        values.update(kept | {-variable})
        negative = self.false_clause(values, variable)
        if negative is None or variable not in self.clauses[negative]:
            return negative
        return self.chain(positive, [(-variable, negative)])


def answer(variables, clauses):
    """The text of the answer that the search finds."""
    search, values = Search(variables, clauses), set()
    try:
        search.false_clause(values, 1)
    except Refuted:
        lines = ["s UNSATISFIABLE", "c round"]
        for number, (first, turns) in enumerate(search.steps, search.given + 1):
            words = [*search.clauses[number], 0, first, *(part for turn in turns for part in turn), 0]
            lines.append(f"c step {number} " + " ".join(map(str, words)))
    else:
        lines = ["s SATISFIABLE", " ".join(["v", *map(str, sorted(values, key=abs)), "0"])]
    return "".join(line + "\n" for line in lines).encode()


if __name__ == "__main__":
    CommandLine(__doc__).end()
