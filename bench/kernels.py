#!/usr/bin/env python3
"""Pure kernels and matching kernels by their definitions, for the rows of test_kernels that write many answers.

    bench/kernels.py drawn COUNT
    bench/kernels.py small

The first prints what test_kernels is to print for the row `drawn COUNT`: the pure kernels of drawn formulas over six
variables, each found by scanning the whole formula at each step. The second prints it for the row `small`: for all formulas
of at most four clauses over three variables the number of pairs of a maximum matching, the clauses that some maximum
matching leaves, and those that no matching autarky touches, by trying each way to give the clauses variables.
"""
import itertools

from command_line import CommandLine
from formulas import sampled_clauses


def least_with(clauses, order, l):
    """The least position of a clause that the order does not touch and that has the literal, or 0."""
    for p, clause in enumerate(clauses, 1):
        if l in clause and not touches(order, clause):
            return p
    return 0


def touches(order, clause):
    return any(l in order or -l in order for l in clause)


def least_pure(n, clauses, order):
    for v in range(1, n + 1):
        signs = [l for l in (v, -v) if least_with(clauses, order, l)]
        if len(signs) == 1:
            return signs[0]
    return None


def pure(n, clauses):
    order = []
    while (l := least_pure(n, clauses, order)) is not None:
        order.append(l)
    kept = [p for p, clause in enumerate(clauses, 1) if not touches(order, clause)]
    pairs = []
    for v in range(1, n + 1):
        one, other = least_with(clauses, order, v), least_with(clauses, order, -v)
        if one or other:
            pairs.append(f"Pair {{ var: {v}, with: {one}, against: {other} }}")
    words = "".join(f" {l}" for l in order)
    return f"= order{words}; kept {kept}; pairs [{', '.join(pairs)}]"


def ways(sets):
    """Each way to give the clauses a variable of their own or none (0)."""
    for way in itertools.product(*([0, *sorted(clause)] for clause in sets)):
        given = [v for v in way if v]
        if len(set(given)) == len(given):
            yield way


def is_autarky(chosen, every):
    """Whether the chosen variables are those of a matching autarky: some way gives the clauses that they touch, and no
    others, a variable, each of them a chosen one."""
    return any(all((v in chosen) if clause & chosen else v == 0 for v, clause in zip(way, every[1])) for way in every[0])


def small(sets):
    every = list(ways(sets))
    most = max(sum(map(bool, way)) for way in every)
    largest = [way for way in every if sum(map(bool, way)) == most]
    places = range(len(sets))
    left = [i + 1 for i in places if any(not way[i] for way in largest)]
    autarkies = [set(c) for k in (1, 2, 3) for c in itertools.combinations((1, 2, 3), k) if is_autarky(set(c), (every, sets))]
    kept = [i + 1 for i in places if not any(sets[i] & chosen for chosen in autarkies)]
    return f"= {most} {left} {kept}"


def print_drawn(count):
    for seed in range(count):
        print(pure(6, sampled_clauses(6, seed, seed % 16)))


def print_small():
    for count in range(5):
        for code in range(8**count):
            digits = [code // 8**i % 8 for i in range(count)]
            print(small([{v for v in (1, 2, 3) if digit >> (v - 1) & 1} for digit in digits]))


def main():
    words = CommandLine(__doc__)
    count = words.number("COUNT") if words.one("kind", ("drawn", "small")) == "drawn" else None
    words.end()
    if count is None:
        print_small()
    else:
        print_drawn(count)


if __name__ == "__main__":
    main()
