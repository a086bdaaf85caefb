#!/usr/bin/env python3
"""The parts of drawn formulas, for the script of crates/test_parts.

    bench/drawn_parts.py rows [COUNT]
    bench/drawn_parts.py expected [COUNT]

`rows` prints a row for the formula of each seed below COUNT, or 500: at most 12 clauses of one to three literals over 20 variables,
drawn by the linear congruence of `lk_samples`. `expected` prints each with its answer, which comes from a look at each pair of
clauses: two are in one part if they share a variable, or if both share a part with a third. Needs python3.
"""
from command_line import CommandLine
from formulas import sampled_clauses

VARS, CLAUSES, COUNT = 20, 12, 500


def parts_of(clauses):
    least = list(range(len(clauses)))
    for p, one in enumerate(clauses):
        for q in range(p):
            if {abs(l) for l in one} & {abs(l) for l in clauses[q]}:
                a, b = sorted((least[p], least[q]))
                least = [a if k == b else k for k in least]
    return [[p + 1 for p in range(len(clauses)) if least[p] == first] for first in sorted(set(least))]


def main():
    words = CommandLine(__doc__)
    kind, count = words.one("kind", ("rows", "expected")), words.number("COUNT", COUNT)
    words.end()
    for seed in range(count):
        clauses = sampled_clauses(VARS, seed, CLAUSES)
        print(f"parts {VARS}; " + ", ".join(" ".join(map(str, clause)) for clause in clauses))
        if kind == "expected":
            print("= " + " ".join(map(str, parts_of(clauses))))


if __name__ == "__main__":
    main()
