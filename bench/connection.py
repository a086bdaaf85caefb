#!/usr/bin/env python3
"""The orders of variables that clause learning decides by, by their definition, in plain loops.

    bench/connection.py < crates/test_search/stdin

prints what test_search is to print for each line `orders` of its input: the variables of the crossed clauses,
ascending, by their connection, and by how often they occur. By the connection the next variable has most points, and of
those with as many it is the least. When a variable comes, each clause with it gives points to its variables that have not
come: one if it is the first of them, two if two are left, four if one is left. By the occurrences those with most come
first, and of those with as many the least.
"""
import sys

from command_line import CommandLine


def crossed(clauses, part, blocked):
    """The clauses at the positions of a part, from 1 on, without the literals of blocked variables."""
    return [[l for l in clauses[p - 1] if abs(l) not in blocked] for p in part]


def ascending(clauses):
    return sorted({abs(l) for clause in clauses for l in clause})


def given(left, whole):
    """The points that a clause gives where so many of its literals are left."""
    return {0: 0, 1: 4, 2: 2}.get(left, 1 if left == whole - 1 else 0)


def by_connection(clauses):
    points = dict.fromkeys(ascending(clauses), 0)
    order = []
    while points:
        following = min(points, key=lambda v: (-points[v], v))
        del points[following]
        order.append(following)
        for clause in clauses:
            if following in map(abs, clause):
                left = [abs(l) for l in clause if abs(l) in points]
                for v in left:
                    points[v] += given(len(left), len(clause))
    return order


def by_occurrences(clauses):
    def occurrences(v):
        return sum(abs(l) == v for clause in clauses for l in clause)

    return sorted(ascending(clauses), key=lambda v: (-occurrences(v), v))


def numbers(text):
    return [int(word) for word in text.split()]


def main():
    CommandLine(__doc__).end()
    for line in sys.stdin:
        kind, *fields = line.split("|")
        if kind.strip() == "orders":
            name, _, clauses, part, blocked = fields
            clauses = [[l for l in numbers(clause) if l] for clause in clauses.split(",")]
            left = crossed(clauses, numbers(part), set(numbers(blocked)))
            print(f"== {name.strip()}\nascending: {ascending(left)}")
            print(f"by connection: {by_connection(left)}\nby occurrences: {by_occurrences(left)}")


if __name__ == "__main__":
    main()
