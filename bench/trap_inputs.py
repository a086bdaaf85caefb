#!/usr/bin/env python3
"""The inputs of traps.py, by a size, and the runs that have a bound of their own. Each input is named by what it is."""
import random
from collections import namedtuple

import formulas
from command_line import CommandLine
from formulas import (colouring, drawn_clause, drawn_clauses, formula_text, implications, pebbles, planted_clauses, random_three,
                      refuted_implications, shuffled, side_by_side, square, squares, two_sums)


def cnf(variables, clauses):
    return formula_text(variables, clauses).decode()


# FORMULAS, by a size


def long_negative_clause(n):
    return cnf(n, [[-i for i in range(1, n + 1)]])


def long_clauses(n):
    return cnf(n, [[-i for i in range(1, n + 1)] for _ in range(3)] + [[i] for i in range(1, n, 2)])


def contradicted_pairs(n):
    return cnf(n, [[s * i] for i in range(1, n + 1) for s in (1, -1)] + [list(range(1, n + 1))])


def joined_squares(n):
    return cnf(2 * n, [*squares(n), *([-a, a + 2] for a in range(1, 2 * n - 2, 2))])


def planted_squares(n):
    """n clauses of three literals, each with a true one in a drawn model, and the squares of n / 2000 pairs of variables."""
    draw = random.Random(1)
    variables = max(n // 4, 4)
    # (figures are of the formula behind the first number)
    draw.random()
    _, rows = planted_clauses(draw, variables, n)
    for _ in range(max(n // 2000, 1)):
        rows += square(*draw.sample(range(1, variables + 1), 2))
    draw.shuffle(rows)
    return cnf(variables, rows)


def implications_up(n):
    return cnf(n, [[1], *implications(n)])


def implications_down(n):
    return cnf(n, [[n]] + [[-i, i - 1] for i in range(n, 1, -1)])


def implications_round(n):
    return cnf(n, [*implications(n), [-n, -1], [1, n], [1, -n]])


def star(n):
    return cnf(n, [[s, t * i] for i in range(2, n + 1) for s, t in ((1, -1), (-1, 1))])


def empty_clauses(n):
    return cnf(1, [[] for _ in range(n)])


def units(n):
    return cnf(n, [[i if i % 2 else -i] for i in range(1, n + 1)])


def same_clause(n):
    return cnf(3, [[1, -2], [-1, 2, 3]] * n)


def wide_clauses(n):
    return cnf(n, [[v if (v * k) % 7 < 3 else -v for v in range(1, n + 1)] for k in range(1, 101)])


def pure_cascade(n):
    return cnf(n, [[i, -(i + 1)] for i in range(1, n)] + [[i, i + 1] for i in range(1, n)])


def alternating_path(n):
    return cnf(n, [[i, i + 1] for i in range(1, n)] + [[n, -1], [1]])


def more_clauses_than_variables(n):
    return cnf(50, [[1 + (k % 50), -(1 + (k * 7 + 3) % 50)] if k % 50 != (k * 7 + 3) % 50 else [1 + k % 50] for k in range(n)])


def most_variables(n):
    return cnf(1000000, [[1000000 - i, -(i + 1)] for i in range(n)])


def many_parts(n):
    return cnf(2 * n, list(squares(n, 3)))


def easy_part_behind(n):
    """Pigeons in n holes, and behind them the square of a pair of variables."""
    return cnf(*side_by_side([turned_pigeons(n), (2, square(1, 2))]))


def equal_neighbours(n):
    return [[s * i, -s * (i + 1)] for i in range(1, n) for s in (1, -1)]


def equivalences(n):
    """Each variable is equal to the next one, and the last one to the complement of the first."""
    return cnf(n, equal_neighbours(n) + [[n, 1], [-n, -1]])


def equal_clauses(n):
    """So many clauses, each many times, and a square that refutes them."""
    rows = [[1 + k % 150, -(2 + k % 150), 3 + k % 150] for k in range(n)]
    return cnf(152, rows + square(1, 2))


def one_in_everything(n):
    """A variable in all clauses, with which the others make squares."""
    rows = [[s, t * i, u * (i + 1)] for i in range(2, n, 2) for s in (1, -1) for t in (1, -1) for u in (1, -1)]
    return cnf(n, rows)


def implications_refuted(n):
    return cnf(n, list(refuted_implications(n)))


def parity_chain(n):
    rows = []
    for i in range(1, n - 1):
        a, b, c = i, i + 1, i + 2
        rows += [[a, b, c], [a, -b, -c], [-a, b, -c], [-a, -b, c]]
    return cnf(n, rows)


def turned_pigeons(n):
    """Pigeons, with the literals of each pair the other way round."""
    variables, rows = formulas.pigeons(n)
    return variables, rows[:n + 1] + [row[::-1] for row in rows[n + 1:]]


def pigeons(n):
    return cnf(*turned_pigeons(n))


def comments(n):
    return "c a line that says nothing\n" * n + "p cnf 1 1\n1 0\n"


def one_line(n):
    return f"p cnf {n} {n}\n" + " ".join(f"{i} 0" for i in range(1, n + 1)) + "\n"


FORMULAS = [
    (long_negative_clause, 250000), (long_clauses, 60000), (contradicted_pairs, 20000), (joined_squares, 15000),
    (planted_squares, 100000),
    (implications_up, 120000), (implications_down, 120000), (implications_round, 120000), (star, 60000),
    (empty_clauses, 900000), (units, 200000), (same_clause, 100000), (wide_clauses, 3000), (pure_cascade, 70000),
    (alternating_path, 120000), (more_clauses_than_variables, 200000), (most_variables, 100000), (many_parts, 40000),
    (parity_chain, 20000), (equivalences, 70000), (equal_clauses, 100000), (one_in_everything, 15000), (pigeons, 40), (comments, 70000), (one_line, 200000),
]


# DOCUMENTS, by a size: a formula and a text for `check`


def unit_of_many_shares(n):
    """A unit that is right, whose shares are of n clauses over nine variables; a second one is missing."""
    rows = [[v if (v + p) % 2 else -v for v in range(1, 10)] for p in range(n - n % 2)] + [[1], [-1]]
    m = len(rows)
    shares = " ".join(f"{p} 1" for p in range(1, m))
    kept = " ".join(str(p) for p in range(1, m + 1))
    head = f"c leank 1 linear\nc formula 9 {m}\nc keep {kept} 0\nc set 0\n"
    duals = "".join(f"c dual {p} 1\n" for p in range(1, m + 1))
    body = "".join(" ".join(map(str, r)) + " 0\n" for r in rows)
    return cnf(9, rows), head + duals + f"c unit 1 1 {shares} 0\np cnf 9 {m}\n" + body


def linear_document(n, rows, units):
    """A formula over n variables of which all clauses are kept, with duals that are all 1."""
    m = len(rows)
    kept = " ".join(str(p) for p in range(1, m + 1))
    head = f"c leank 1 linear\nc formula {n} {m}\nc keep {kept} 0\nc set 0\n"
    duals = "".join(f"c dual {p} 1\n" for p in range(1, m + 1))
    lines = "".join("c unit " + " ".join(map(str, unit)) + " 0\n" for unit in units)
    return cnf(n, rows), head + duals + lines + cnf(n, rows)


def units_over_long_clauses(n):
    """A right unit for each of n variables, with shares of two clauses of n literals that cancel."""
    rows = [list(range(1, n + 1)), list(range(-1, -n - 1, -1))] + [[s * v] for v in range(1, n + 1) for s in (1, -1)]
    return linear_document(n, rows, [(v, 1, 1, 1, 2, 1, 2 * v + 1, 1) for v in range(1, n + 1)])


def few_units_far_apart(n):
    """64 right units, of variables that lie far apart among n."""
    variables = [1 + k * (n // 64) for k in range(64)]
    rows = [[s * v] for v in variables for s in (1, -1)]
    return linear_document(n, rows, [(v, 1, 2 * k + 1, 1) for k, v in enumerate(variables)])


def learned_among_equal_clauses(n):
    """n learned clauses, and 3n equal ones that share a literal with each of them."""
    rows, m, variables = [[1, 2, 3]] * (3 * n), 5 * n, 3 + 2 * n
    for v in range(4, variables, 2):
        rows += [[1, v, v + 1], [1, v, -v - 1]]
    steps = [(m + 1 + k, 1, 4 + 2 * k, 0, 3 * n + 2 * k + 1, 5 + 2 * k, 3 * n + 2 * k + 2) for k in range(n)]
    head = f"c leank 1 unfinished\nc formula {variables} {m}\nc learned {n}\nc round\n"
    return cnf(variables, rows), head + "".join("c step " + " ".join(map(str, s)) + " 0\n" for s in steps) + cnf(variables, rows)


def chain_over_long_clauses(n, copies):
    """A formula with a clause of n literals, so many times, and steps whose chain resolves with these alternately."""
    rows = [list(range(1, n + 2))] * copies + [[-1, n + 1], [-1, -(n + 1)]]
    m = len(rows)
    turns = " ".join(f"-1 {k % copies + 1} {n + 1} {m}" for k in range(n))
    clause = " ".join(map(str, [-1] + list(range(2, n + 1))))
    return cnf(n + 1, rows), f"c round\nc step {m + 1} {clause} 0 {m - 1} {turns} 0\nc step {m + 2} 0 {m + 1} 0\n"


def general_document(formula, rounds):
    """Rounds over a formula of which all clauses are kept."""
    variables, m = map(int, formula.split("\n", 1)[0].split()[2:])
    kept = " ".join(str(p) for p in range(1, m + 1))
    return formula, f"c leank 1 general\nc formula {variables} {m}\nc keep {kept} 0\nc set 0\n" + rounds + formula


def long_clause_joined_often(n):
    """A chain that resolves again and again with one clause of n literals."""
    return general_document(*chain_over_long_clauses(n, 1))


def long_clauses_joined_in_turns(n):
    """A chain that resolves with two clauses of n literals alternately."""
    return general_document(*chain_over_long_clauses(n, 2))


def rounds_of_one_long_clause(n):
    """A round that blocks all of n variables, and n others that name a clause of n literals, of which none is left."""
    rows = [list(range(1, n + 1))] + [[-v] for v in range(1, n + 1)]
    m = len(rows)
    turns = " ".join(f"{v} {v + 1}" for v in range(1, n + 1))
    others = "".join(f"c round\nc step {m + 1 + k} 0 1 0\n" for k in range(1, n + 1))
    return general_document(cnf(n, rows), f"c round\nc step {m + 1} 0 1 {turns} 0\n" + others)


def many_steps_of_one_clause(n):
    rows = [[1, 2], [-1, 2]]
    steps = "".join(f"c step {k} 2 0 1 1 2 0\n" for k in range(3, n + 3))
    head = "c leank 1 general\nc formula 2 2\nc keep 1 2 0\nc set 0\nc round\n"
    return cnf(2, rows), head + steps + f"c step {n + 3} 0 3 0\np cnf 2 2\n1 2 0\n-1 2 0\n"


def wrong_in_line_two(n):
    return cnf(1, [[1]]), "c leank 1 pure\nwrong\n" + "c a line that says nothing\n" * n


def comments_alone(n):
    return cnf(1, [[1]]), "c a line that says nothing\n" * n


DOCUMENTS = [(unit_of_many_shares, 25000), (units_over_long_clauses, 10000), (few_units_far_apart, 1000000),
             (learned_among_equal_clauses, 20000), (long_clause_joined_often, 30000), (long_clauses_joined_in_turns, 20000),
             (rounds_of_one_long_clause, 20000), (many_steps_of_one_clause, 60000),
             (wrong_in_line_two, 70000), (comments_alone, 70000)]


# ANSWERS, by a size: a formula and a text for `verify`


def refutation_joined_often(n):
    """A refutation with such a chain."""
    formula, rounds = chain_over_long_clauses(n, 1)
    return formula, "s UNSATISFIABLE\n" + rounds


def core_of_sign_patterns(n):
    """A core of 2^k clauses, at least n, with all signs of k variables: each leaves out one of all assignments."""
    k = max((n - 1).bit_length(), 1)
    rows = [[v if p >> (v - 1) & 1 == 0 else -v for v in range(1, k + 1)] for p in range(2**k)]
    m = len(rows)
    steps, at, number = "", list(range(1, m + 1)), m
    for v in range(k, 0, -1):
        half, below = len(at) // 2, []
        for i in range(half):
            number += 1
            clause = [l for l in rows[i][:v - 1]]
            steps += f"c step {number} " + "".join(f"{l} " for l in clause) + f"0 {at[i]} {v} {at[i + half]} 0\n"
            below.append(number)
        at = below
    core = " ".join(str(p) for p in range(1, m + 1))
    without = "".join(f"c without {p + 1} " + " ".join(str(-l) for l in rows[p]) + " 0\n" for p in range(m))
    return cnf(k, rows), f"c leank 1 mus\nc formula {k} {m}\nc core {core} 0\nc round\n" + steps + without + cnf(k, rows)


ANSWERS = [(refutation_joined_often, 30000), (core_of_sign_patterns, 4096)]


# EDITS, by a size: a formula and a text for `edits`, whose kernels stay small


def added_over_many_variables(n):
    """No clause over 1,000,000 variables, and n that are added, each with a variable of its own."""
    return cnf(1000000, []), "".join(f"a {i} {i + 1} 0\n" for i in range(1, n + 1))


def path_taken_anew(n):
    """A path of clauses, in which each clause that is added takes a variable from the first one or the last one on."""
    edits = "".join(f"a {n if i % 2 else 1} 0\nd {n + i}\n" for i in range(n))
    return cnf(n, [[i, i + 1] for i in range(1, n)]), edits


def drawn_edits(n):
    """A formula of n clauses of three literals over 2n variables; n edits remove a clause or add one."""
    draw = random.Random(1)
    clause = lambda: drawn_clause(draw, range(1, 2 * n + 1), 3)
    rows, live, held, edits = [clause() for _ in range(n)], list(range(1, n + 1)), n, []
    for _ in range(n):
        if draw.random() < 0.5:
            held += 1
            live.append(held)
            edits.append("a " + " ".join(map(str, clause())) + " 0\n")
        else:
            place = draw.randrange(len(live))
            live[place], live[-1] = live[-1], live[place]
            edits.append(f"d {live.pop()}\n")
    return cnf(2 * n, rows), "".join(edits)


def removed_in_order(n):
    """Clauses that share no variable are removed, the first one first."""
    return cnf(n, [[i] for i in range(1, n + 1)]), "".join(f"d {i}\n" for i in range(1, n + 1))


def removed_in_drawn_order(n):
    """The same clauses, in an order that is drawn."""
    return removed_in_order(n)[0], "".join(f"d {i}\n" for i in random.Random(1).sample(range(1, n + 1), n))


def removed_beside_unmatched(n):
    """One clause stands twice, so that each removal of another one, the last one first, takes a search."""
    rows = [[i] for i in range(1, n + 1)] + [[1]]
    return cnf(n, rows), "".join(f"d {i}\n" for i in range(n, 1, -1))


EDITS = [(added_over_many_variables, 100000), (path_taken_anew, 8000), (drawn_edits, 40000), (removed_in_order, 100000)]


# RUNS WITH A BOUND OF THEIR OWN, by a size: a formula, or the texts that a command reads


def drawn_text(make, *sizes):
    """A formula of formulas.py, drawn by the usual seed."""
    return cnf(*make(random.Random(1), *sizes))


def joined_cubes(n):
    """n times eight clauses over three variables, each tied to the next."""
    rows = [clause for a in range(1, 3 * n, 3) for clause in formulas.sign_patterns((a, a + 1, a + 2))]
    return cnf(3 * n, rows + [[-a, a + 3] for a in range(1, 3 * n - 3, 3)])


def search_beside_a_chain(n):
    """Drawn clauses over 200 variables, tied to n variables that a unit forces one after another."""
    _, rows = random_three(random.Random(1), 200)
    chain = [[201], *implications(200 + n, 201), [-(200 + n), 1, 2, 3]]
    return cnf(200 + n, rows + chain)


def square_over_reasons(n):
    """A square with n more literals in one clause, which n clauses of 100 literals make false."""
    a, b = 101 * n + 1, 101 * n + 2
    rows = [[a, b] + [-(100 * n + i) for i in range(1, n + 1)], [a, -b], [-a, b], [-a, -b]]
    rows += [[100 * n + i] + [-v for v in range(100 * (i - 1) + 1, 100 * i + 1)] for i in range(1, n + 1)]
    return cnf(b, rows + [[v] for v in range(1, 100 * n + 1)])


def sign_patterns(n):
    return cnf(n, formulas.sign_patterns(range(1, n + 1)))


def conflicts_that_jump_far(n):
    """Each of n variables starts two chains of n implications that end in a conflict. What is learned of it names but
    the first variable, so the search goes back over n others. Each clause stands twice, so matching removes none."""
    first, free, start, one, other = 1, 2, n + 2, 2 * n + 2, 3 * n + 2
    rows = [[-first, v, v + 1] for v in range(free, free + n - 1)]
    rows += [[-v, to] for v in range(start, start + n) for to in (one, other)]
    rows += [*implications(one + n - 1, one), *implications(other + n - 1, other)]
    return cnf(4 * n + 1, 2 * (rows + [[-first, -(one + n - 1), -(other + n - 1)]]))


def two_literals(n):
    """Twice as many drawn clauses of two literals as variables."""
    return cnf(n, list(drawn_clauses(random.Random(1), range(1, n + 1), 2 * n, 2)))


def pigeons_many_times(n):
    """Pigeons in six holes, each clause n times."""
    variables, rows = turned_pigeons(6)
    return cnf(variables, rows * n)


def pigeons_behind(n):
    """Pigeons in six holes behind n variables that imply one another around."""
    ring = [[s * i, i % n + 1] for i in range(1, n + 1) for s in (-1, 1)]
    return cnf(*side_by_side([(n, ring), turned_pigeons(6)]))


def sums_contradicted(n):
    return drawn_text(two_sums, n)


def pebbles_shuffled(n):
    return drawn_text(lambda draw: shuffled(draw, *pebbles(n)))


def equalities_refuted(n):
    """All variables are equal, the first one is true, and the last one false."""
    return cnf(n, [[1], *equal_neighbours(n), [-n]])


def long_clause_refuted(n):
    return cnf(n, [list(range(1, n + 1))] + [[-i] for i in range(1, n + 1)])


def far_over_threshold(n):
    return drawn_text(random_three, n, 50)


def over_threshold(n):
    return drawn_text(random_three, n, 8)


def paths_of_all_lengths(n):
    """Paths of 1 to n clauses, and behind each a unit of its first variable: its pair moves along the whole path."""
    rows, v = [], 1
    for length in range(1, n + 1):
        rows += [[v + i, v + i + 1] for i in range(length)] + [[v]]
        v += length + 1
    return cnf(v - 1, rows)


def near_matching_threshold(n):
    return drawn_text(random_three, n, 0.92)


def triangles(n):
    """Triangles of clauses, tied to one another in a row."""
    rows = [[a + i, a + (i + 1) % 3] for a in range(1, 3 * n, 3) for i in range(3)]
    return cnf(3 * n, rows + [[a, a + 3] for a in range(1, 3 * n - 3, 3)])


def dense(n):
    """Clauses of all n variables."""
    return cnf(n, [[v if (v + k) % 3 else -v for v in range(1, n + 1)] for k in range(n)])


def cascade_down(n):
    return cnf(n, [*implications(n), *([i] for i in range(n, 0, -1))])


def one_of_each_length(n):
    return cnf(n, [list(range(1, length + 1)) for length in range(1, n + 1)])


def cycle_of_two_colours(n):
    """Neighbours on a cycle of an even length differ."""
    return cnf(n, [[s * i, s * (i % n + 1)] for i in range(1, n + 1) for s in (1, -1)])


def random_twice(n):
    return drawn_text(random_three, n, 2)


def units_and_long_clause(n):
    return cnf(n, [[-i for i in range(1, n + 1)]] + [[i] for i in range(1, n + 1)])


def three_colours(n):
    return drawn_text(colouring, n, 2)


def blank_lines(n):
    return "p cnf 1 1\n" + "\n" * n + "1 0\n"


def long_number(n):
    return "p cnf 1 1\n" + "0" * n + "1 0\n"


def empty_clauses_come_and_go(n):
    """Over 1,000,000 variables."""
    return cnf(1000000, []), "".join(f"a 0\nd {k}\n" for k in range(1, n + 1))


def units_come_and_go(n):
    """Over one variable."""
    return cnf(1, []), "".join(f"a {1 if k % 2 else -1} 0\nd {k}\n" for k in range(1, n + 1))


def few_edits_of_no_clause(n):
    """Over 1,000,000 variables."""
    return cnf(1000000, []), "".join(f"a {k} {k + 1} 0\n" for k in range(1, n + 1))


def unmatched_units(n):
    """Each edit adds one more equal clause, and all are in the kernel: what is written is a square."""
    return cnf(1, []), "a 1 0\n" * n


def last_of_one_line(n):
    """The last clause of a formula on one line goes and comes."""
    return one_line(n), "".join(f"d {n + k}\na {n} 0\n" for k in range(1000))


def model_with_repeats(n):
    """A document of one clause, and a model that says the same literal again and again."""
    document = "c leank 1 pure\nc formula 1 1\nc keep 0\nc set 1 0\nc order 1 0\np cnf 1 0\n"
    return cnf(1, [[1]]), document, "v" + " 1" * n + " 0\n"


def pigeons_many_ways(n):
    """n parts, each of four pigeons in three holes."""
    return side_by_side([turned_pigeons(3)] * n)


def parts_of_pigeons(n):
    return cnf(*pigeons_many_ways(n))


def joined_pigeons(n):
    """The same, each tied to the next."""
    variables, rows = pigeons_many_ways(n)
    return cnf(variables, rows + [[-v, v + 12] for v in range(1, variables - 12, 12)])


def pigeons_beside_pairs(n):
    """Pigeons in five holes, and n squares of pairs of variables without a clause."""
    return cnf(*side_by_side([turned_pigeons(5), (2 * n, squares(n, 3))]))


def long_clauses_one_by_one(n):
    """Each clause forces its variable, once those before are true; the last one forbids all."""
    return cnf(n, [[-v for v in range(1, i)] + [i] for i in range(1, n + 1)] + [[-v for v in range(1, n + 1)]])


def no_text(_):
    """Nothing is read."""
    return ()


def rows_with_one_escape(n):
    """A unit of each of n variables, and a clause of all of them, the escape of each."""
    rows = [[v] for v in range(1, n + 1)] + [list(range(1, n + 1))]
    kept = " ".join(str(p) for p in range(1, n + 2))
    head = f"c leank 1 matching\nc formula {n} {n + 1}\nc keep {kept} 0\nc set 0\n"
    return cnf(n, rows), head + "".join(f"c row {v} {v} {n + 1} 1\n" for v in range(1, n + 1)) + cnf(n, rows)


def stages_of_one_variable(n):
    head = "c leank 1 linear\nc formula 1 1\nc keep 0\nc set 1 0\nc own 1 1\n"
    return cnf(1, [[1]]), head.replace("c own 1 1\n", "") + "c stage 1 1 0\n" * n + "p cnf 1 0\n"


def rounds_of_contradicted_units(n):
    """A round for each of n variables that two units contradict, among 1,000,000 variables."""
    rows = [[s * v] for v in range(1, n + 1) for s in (1, -1)]
    m = 2 * n
    rounds = "".join(f"c round\nc step {m + v} 0 {2 * v - 1} {v} {2 * v} 0\n" for v in range(1, n + 1))
    return general_document(cnf(1000000, rows), rounds)


def steps_with_long_chains(n):
    """Implications from variable to variable, and steps whose chains go from the first one to each other one."""
    rows = list(refuted_implications(n))
    m, steps = len(rows), ""
    for k in range(1, n - 1):
        turns = " ".join(f"{i} {i + 1}" for i in range(2, k + 2))
        steps += f"c step {m + k} -1 {k + 2} 0 2 {turns} 0\n"
    last = m + n - 2
    return general_document(cnf(n, rows), f"c round\n{steps}c step {last + 1} 0 {last} {n} {m} -1 1 0\n")


def long_model(n):
    """Units, and an answer that is their model."""
    return cnf(n, [[v] for v in range(1, n + 1)]), "s SATISFIABLE\nv " + " ".join(map(str, range(1, n + 1))) + " 0\n"


def core_of_implications(n):
    """A core of n implications between a unit and another one, with a model for each clause that is left out."""
    formula = implications_refuted(n)
    m = n + 1
    turns = " ".join(f"{i} {i + 1}" for i in range(1, n)) + f" {n} {m}"
    without = "".join(f"c without {p} " + " ".join(str(v if v < p else -v) for v in range(1, n + 1)) + " 0\n" for p in range(1, m + 1))
    core = " ".join(map(str, range(1, m + 1)))
    return formula, f"c leank 1 mus\nc formula {n} {m}\nc core {core} 0\nc round\nc step {m + 1} 0 1 {turns} 0\n{without}{formula}"


# As many numbers as one word of a command line may have.
PROTECTED = ",".join(map(str, range(20000, 0, -1)))

# The texts of a run, their size, the command, and what comes behind the names of the texts. Then the most instructions
# for each byte of the texts, or the most bytes of memory for each byte that is read or written.
Bound = namedtuple("Bound", "make size command options instructions memory", defaults=((), None, None))
BOUNDS = [
    Bound(many_parts, 40000, ("mus",), (), 4000),
    Bound(easy_part_behind, 14, ("mus",), (), 1000000),
    Bound(implications_refuted, 4200, ("mus",), (), None, 2.5),
    Bound(implications_refuted, 6000, ("mus",), (), None, 2.5),
    Bound(learned_among_equal_clauses, 20000, ("check",), (), 1000),
    Bound(long_clause_joined_often, 30000, ("check",), (), 1000),
    Bound(refutation_joined_often, 30000, ("verify",), (), 1000),
    Bound(joined_cubes, 1500, ("solve",), (), 600),
    Bound(joined_cubes, 1500, ("mus",), (), 600),
    Bound(joined_cubes, 11000, ("reduce", "general"), (), 1300),
    Bound(two_literals, 10000, ("solve",), (), 700),
    Bound(two_literals, 10000, ("mus",), (), 700),
    Bound(two_literals, 10000, ("reduce", "general"), (), 1000),
    Bound(sign_patterns, 9, ("mus",), (), 15000),
    Bound(sign_patterns, 11, ("mus",), (), 50000),
    Bound(conflicts_that_jump_far, 1000, ("solve",), (), 8000),
    Bound(conflicts_that_jump_far, 4000, ("solve",), (), None, 150),
    Bound(pigeons_many_times, 300, ("solve",), (), 2000),
    Bound(pigeons_behind, 10000, ("solve",), (), 1000),
    Bound(sums_contradicted, 300, ("solve",), ("--conflicts", "2000"), 80000),
    Bound(sums_contradicted, 300, ("solve",), ("--conflicts", "10000"), None, 7),
    Bound(pebbles_shuffled, 15, ("mus",), ("--conflicts", "10000"), 400000),
    Bound(pebbles_shuffled, 20, ("solve",), (), 110000),
    Bound(pebbles_shuffled, 40, ("solve",), (), None, 80),
    Bound(equalities_refuted, 6000, ("mus",), (), None, 2.5),
    Bound(long_clause_refuted, 4000, ("mus",), (), None, 2.5),
    Bound(far_over_threshold, 300, ("mus",), (), 600),
    Bound(over_threshold, 100, ("mus",), (), 7500),
    Bound(paths_of_all_lengths, 150, ("reduce", "matching"), (), 2200),
    Bound(paths_of_all_lengths, 150, ("deficiency",), (), 2200),
    Bound(near_matching_threshold, 20000, ("reduce", "matching"), (), 500),
    Bound(near_matching_threshold, 20000, ("deficiency",), (), 500),
    Bound(near_matching_threshold, 20000, ("report",), (), 500),
    Bound(triangles, 15000, ("reduce", "matching"), (), 400),
    Bound(many_parts, 40000, ("reduce", "matching"), ("--workers", "64"), 500),
    Bound(dense, 500, ("reduce", "matching"), (), 200),
    Bound(cascade_down, 40000, ("reduce", "pure"), (), 300),
    Bound(one_of_each_length, 500, ("reduce", "pure"), (), 250),
    Bound(cycle_of_two_colours, 1000, ("reduce", "linear"), (), 18000),
    Bound(random_twice, 100, ("reduce", "linear"), (), 1100000),
    Bound(units_and_long_clause, 300, ("reduce", "linear"), (), 110000),
    Bound(three_colours, 60, ("reduce", "linear"), (), 100000),
    Bound(implications_up, 80000, ("reduce", "general"), ("--protect", PROTECTED), 800),
    Bound(blank_lines, 1000000, ("report",), (), 120),
    Bound(long_number, 1000000, ("report",), (), 140),
    Bound(empty_clauses_come_and_go, 10000, ("edits",), (), 900),
    Bound(units_come_and_go, 20000, ("edits",), (), 350),
    Bound(few_edits_of_no_clause, 500, ("edits",), (), 8500),
    Bound(removed_in_order, 200000, ("edits",), (), 220),
    Bound(removed_in_drawn_order, 200000, ("edits",), (), 220),
    Bound(removed_beside_unmatched, 150000, ("edits",), (), 500),
    Bound(unmatched_units, 3000, ("edits",), (), None, 1.5),
    Bound(last_of_one_line, 20000, ("edits",), (), 250),
    Bound(model_with_repeats, 500000, ("extend",), (), 170),
    Bound(square_over_reasons, 600, ("reduce", "general"), (), 740),
    Bound(search_beside_a_chain, 100000, ("solve",), ("--conflicts", "3000"), 2200),
    Bound(parts_of_pigeons, 1200, ("reduce", "general"), (), 1300),
    Bound(parts_of_pigeons, 1200, ("mus",), (), 220),
    Bound(parts_of_pigeons, 1200, ("solve",), ("--workers", "1"), 1100),
    Bound(joined_pigeons, 1200, ("reduce", "general"), ("--conflicts", "2000"), 790),
    Bound(pigeons_beside_pairs, 20000, ("solve",), (), 1200),
    Bound(long_clauses_one_by_one, 400, ("mus",), (), 4900),
    Bound(implications_refuted, 80000, ("solve",), (), 690),
    Bound(many_parts, 40000, ("solve",), (), 1100),
    Bound(pigeons, 8, ("reduce", "linear"), (), 11000),
    Bound(parity_chain, 150, ("reduce", "linear"), ("--pivots", "300"), 45000),
    Bound(units_over_long_clauses, 1000, ("check",), (), 3500),
    Bound(few_units_far_apart, 1000000, ("check",), ("--workers", "64"), None, 22000),
    Bound(rounds_of_one_long_clause, 5000, ("check",), (), 2600),
    Bound(rows_with_one_escape, 30000, ("check",), (), 130),
    Bound(stages_of_one_variable, 100000, ("check",), (), 160),
    Bound(rounds_of_contradicted_units, 20000, ("check",), (), 170),
    Bound(steps_with_long_chains, 500, ("check",), (), 140),
    Bound(core_of_sign_patterns, 4096, ("verify",), (), 2100),
    Bound(core_of_implications, 500, ("verify",), (), 120),
    Bound(long_model, 100000, ("verify",), (), 150),
    Bound(path_taken_anew, 8000, ("edits",), (), 52000),
    Bound(drawn_edits, 20000, ("edits",), (), 210),
    Bound(added_over_many_variables, 50000, ("edits",), (), 350),
    Bound(unmatched_units, 2000, ("edits",), (), 85000),
    Bound(no_text, 0, ("demo",), ("20",), 200000000),
]


if __name__ == "__main__":
    CommandLine(__doc__).end()
