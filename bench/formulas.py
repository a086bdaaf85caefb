#!/usr/bin/env python3
"""Formulas, and clauses of which they are made, for the programs of this folder. A formula is the number of variables and the
clauses. What is drawn is drawn with the generator that is given."""
import itertools

from command_line import CommandLine


def write(out, variables, clauses, number=None):
    """Writes a formula as DIMACS, a clause on each line. The number of clauses is needed where they come one by one."""
    out.write(f"p cnf {variables} {len(clauses) if number is None else number}\n")
    for clause in clauses:
        out.write(" ".join(map(str, [*clause, 0])) + "\n")


def formula_text(variables, clauses):
    """The same as bytes."""
    return "".join([f"p cnf {variables} {len(clauses)}\n", *(" ".join(map(str, [*clause, 0])) + "\n" for clause in clauses)]).encode()


def drawn_clause(draw, variables, width):
    """A clause on so many variables out of these, of which each sign is drawn."""
    return [v if draw.random() < 0.5 else -v for v in draw.sample(variables, width)]


def drawn_clauses(draw, variables, number, width=3):
    """So many of these, one by one."""
    return (drawn_clause(draw, variables, width) for _ in range(number))


def mixed_clauses(draw, variables, number, widths):
    """So many clauses whose widths are drawn from these, over so many variables; none is wider than that."""
    names = range(1, variables + 1)
    return [drawn_clause(draw, names, min(draw.choice(widths), variables)) for _ in range(number)]


def random_three(draw, variables, clauses_each=4.26):
    """Clauses of three literals, so many for each variable."""
    return variables, list(drawn_clauses(draw, range(1, variables + 1), int(clauses_each * variables)))


def planted_clauses(draw, variables, number, width=3):
    """A drawn model, and so many clauses, of which each holds a literal that it makes true."""
    model = {v if draw.random() < 0.5 else -v for v in range(1, variables + 1)}
    clauses = []
    while len(clauses) < number:
        clause = drawn_clause(draw, range(1, variables + 1), width)
        if not model.isdisjoint(clause):
            clauses.append(clause)
    return model, clauses


def planted_three(draw, variables, clauses_each=4.26):
    """Clauses of three literals, so many for each variable, that a drawn model satisfies."""
    return variables, planted_clauses(draw, variables, int(clauses_each * variables))[1]


def implications(last, first=1):
    """Each variable, from the first to the one before the last, implies the next: one by one."""
    return ([-v, v + 1] for v in range(first, last))


def refuted_implications(last):
    """The same, with the first variable true and the last one false."""
    return itertools.chain([[1]], implications(last), [[-last]])


def square(one, other):
    """All clauses with two literals on these two variables, which are their own kernel."""
    return [[one, other], [one, -other], [-one, other], [-one, -other]]


def squares(number, clauses_each=4):
    """So many squares that share no variable, or the first clauses of each: one by one."""
    return (clause for v in range(1, 2 * number, 2) for clause in square(v, v + 1)[:clauses_each])


def sign_patterns(variables):
    """All clauses that have each of these variables."""
    return [[v if bits >> i & 1 else -v for i, v in enumerate(variables)] for bits in range(2 ** len(variables))]


def pigeons(holes, number=None):
    """One pigeon more than there are holes, or this number of them."""
    number = holes + 1 if number is None else number
    place = lambda pigeon, hole: holes * pigeon + hole + 1
    clauses = [[place(p, h) for h in range(holes)] for p in range(number)]
    for hole in range(holes):
        for one in range(number):
            clauses += [[-place(other, hole), -place(one, hole)] for other in range(one)]
    return holes * number, clauses


def coloured(points, edges, colours=3, is_one=False):
    """Points of a graph that shall have colours, and other ones at each edge; perhaps no point shall have two."""
    shades = lambda point: range(colours * point + 1, colours * (point + 1) + 1)
    clauses = []
    for point in range(points):
        clauses.append(list(shades(point)))
        if is_one:
            clauses += [[-one, -other] for k, other in enumerate(shades(point)) for one in shades(point)[:k]]
    clauses += [[-shade, -same] for one, other in edges for shade, same in zip(shades(one), shades(other))]
    return colours * points, clauses


def colouring(draw, points, edges_each, colours=3):
    """The same of a drawn graph, with so many edges for each point."""
    return coloured(points, (draw.sample(range(points), 2) for _ in range(int(edges_each * points))), colours)


def parity_clauses(variables, is_odd):
    """The sum of these variables is odd, or even."""
    return [[-v if bits >> i & 1 else v for i, v in enumerate(variables)]
            for bits in range(2 ** len(variables)) if bin(bits).count("1") % 2 != is_odd]


def parity(draw, variables, more=5):
    """Sums of three variables each, drawn, and so many more sums than variables: with more of them, their parities can
    hardly all hold."""
    clauses = []
    for _ in range(variables + more):
        chosen = draw.sample(range(1, variables + 1), 3)
        clauses += parity_clauses(chosen, draw.randrange(2))
    return variables, clauses


def pebbles(rows):
    """A pyramid of stones that are black or white, of which the top one is neither."""
    stone = lambda row, place, colour: row * (row + 1) + 2 * place + colour + 1
    colours = lambda row, place: [stone(row, place, 0), stone(row, place, 1)]
    clauses = [colours(rows - 1, place) for place in range(rows)]
    for row in range(rows - 1):
        for place in range(row + 1):
            for left in colours(row + 1, place):
                for right in colours(row + 1, place + 1):
                    clauses.append(colours(row, place) + [-left, -right])
    clauses += [[-top] for top in colours(0, 0)]
    return rows * (rows + 1), clauses


def sum_clauses(z, x, y):
    """z is the sum of x and y modulo two."""
    return [[-z, x, y], [-z, -x, -y], [z, -x, y], [z, x, -y]]


def product_clauses(z, x, y):
    """z is true where x and y are."""
    return [[-z, x], [-z, y], [z, -x, -y]]


def counter(bits, steps, target=None):
    """A counter from 0 that may count or wait at each step, and shall stand at the target in the end, or one past the steps."""
    names, clauses = {}, []
    target = steps + 1 if target is None else target
    var = lambda *name: names.setdefault(name, len(names) + 1)
    for i in range(bits):
        clauses.append([-var(0, i)])
        clauses.append([var(steps, i) if target >> i & 1 else -var(steps, i)])
    for time in range(steps):
        carry = var(time, "count")
        for i in range(bits):
            old, new = var(time, i), var(time + 1, i)
            clauses += sum_clauses(new, old, carry)
            if i + 1 < bits:
                further = var(time, i, "carry")
                clauses += product_clauses(further, old, carry)
                carry = further
    return len(names), clauses


def carry_clauses(z, x, y, w):
    """z is true where two of the others are."""
    return [clause for a, b in ((x, y), (x, w), (y, w)) for clause in ([-z, a, b], [z, -a, -b])]


def machine(draw, registers, steps):
    """A drawn machine of which half the registers are given in the end. In a step each becomes the sum of one with
    the product of two."""
    wiring = [draw.sample(range(registers), 3) for _ in range(registers)]
    state, count, clauses = list(range(1, registers + 1)), registers, []
    for _ in range(steps):
        following = []
        for a, b, c in ([state[k] for k in places] for places in wiring):
            product, total = count + 1, count + 2
            count += 2
            clauses += product_clauses(product, b, -c if draw.random() < 0.5 else c) + sum_clauses(total, a, product)
            following.append(total)
        state = following
    clauses += [[v if draw.random() < 0.5 else -v] for v in state[: registers // 2]]
    return count, clauses


def adders(bits):
    """(a + b) + c and a + (b + c), which shall differ in a bit."""
    names, clauses = [], []

    def fresh():
        names.append(len(names) + 1)
        return names[-1]

    def added(x, y):
        totals, carry = [], None
        for p, q in zip(x, y):
            half, following = fresh(), fresh()
            clauses.extend(sum_clauses(half, p, q))
            if carry is None:
                totals.append(half)
                clauses.extend(product_clauses(following, p, q))
            else:
                totals.append(fresh())
                clauses.extend(sum_clauses(totals[-1], half, carry) + carry_clauses(following, p, q, carry))
            carry = following
        return totals

    a, b, c = ([fresh() for _ in range(bits)] for _ in range(3))
    differences = []
    for p, q in zip(added(added(a, b), c), added(a, added(b, c))):
        differences.append(fresh())
        clauses.extend(sum_clauses(differences[-1], p, q))
    return len(names), clauses + [differences]


def side_by_side(parts):
    """Formulas that share no variable, as one."""
    variables, clauses = 0, []
    for count, part in parts:
        clauses += [[l + variables if l > 0 else l - variables for l in clause] for clause in part]
        variables += count
    return variables, clauses


def shuffled(draw, variables, clauses):
    """The same formula with its variables renamed and its clauses in another order."""
    names = draw.sample(range(1, variables + 1), variables)
    renamed = [[names[l - 1] if l > 0 else -names[-l - 1] for l in clause] for clause in clauses]
    draw.shuffle(renamed)
    return variables, renamed


def two_sums(draw, variables):
    """The sum of all variables is even, and, in another order, odd."""
    names, clauses = variables, []
    for odd in (False, True):
        total, *others = draw.sample(range(1, variables + 1), variables)
        for other in others:
            names += 1
            clauses += sum_clauses(names, total, other)
            total = names
        clauses.append([total if odd else -total])
    return names, clauses


def regular_graph(draw, points):
    """The edges of a drawn graph with three edges at each point."""
    while True:
        ends = draw.sample([point for point in range(points) for _ in range(3)], 3 * points)
        edges = {frozenset(ends[i:i + 2]) for i in range(0, 3 * points, 2)}
        if len(edges) == 3 * points // 2 and all(len(edge) == 2 for edge in edges):
            return sorted(sorted(edge) for edge in edges)


def parities_of_graph(draw, points):
    """A variable for each edge of a drawn graph: the sum at each point is even, but at the first one odd."""
    edges, clauses = regular_graph(draw, points), []
    for point in range(points):
        clauses += parity_clauses([edge + 1 for edge, ends in enumerate(edges) if point in ends], point == 0)
    return len(edges), clauses


def factors(number, bits):
    """Two factors of so many bits, of which neither is 1, have this product."""
    names, clauses = 2 * bits, []

    def fresh(made):
        nonlocal names
        names += 1
        clauses.extend(made(names))
        return names

    one, other = range(1, bits + 1), range(bits + 1, 2 * bits + 1)
    columns = [[] for _ in range(2 * bits + 1)]
    for i, x in enumerate(one):
        for j, y in enumerate(other):
            columns[i + j].append(fresh(lambda z: product_clauses(z, x, y)))
    for place, column in enumerate(columns):
        while len(column) > 1:
            x, y, *rest = column
            half = fresh(lambda z: sum_clauses(z, x, y))
            if rest:
                w = rest.pop(0)
                columns[place + 1].append(fresh(lambda z: carry_clauses(z, x, y, w)))
                half = fresh(lambda z: sum_clauses(z, half, w))
            elif place + 1 < len(columns):
                columns[place + 1].append(fresh(lambda z: product_clauses(z, x, y)))
            column[:] = rest + [half]
        clauses += [[v if number >> place & 1 else -v] for v in column]
    return names, clauses + [list(one[1:]), list(other[1:])]


def exactly_one(literals):
    return [literals] + [[-a, -b] for i, a in enumerate(literals) for b in literals[:i]]


def filled_square(draw, size, free, box=0):
    """A square of numbers, each once in a row, a column and, for a sudoku, a box, of which so many places are free."""
    at = lambda row, column, number: (row * size + column) * size + number + 1
    span = range(size)
    shift = lambda row: row * box + row // box if box else row
    digits = draw.sample(span, size)
    clauses = [c for a in span for b in span for line in ([at(a, b, k) for k in span], [at(a, k, b) for k in span],
                                                          [at(k, a, b) for k in span]) for c in exactly_one(line)]
    for top in range(0, size if box else 0, box or 1):
        for left in range(0, size, box):
            places = [(top + i, left + j) for i in range(box) for j in range(box)]
            clauses += [c for number in span for c in exactly_one([at(*place, number) for place in places])]
    given = draw.sample([(row, column) for row in span for column in span], size * size - free)
    clauses += [[at(row, column, digits[(shift(row) + column) % size])] for row, column in given]
    return size ** 3, clauses


def queens(draw, size, blocked=0):
    """As many queens as there are rows, with drawn fields blocked."""
    field = lambda row, column: row * size + column + 1
    fields = [(row, column) for row in range(size) for column in range(size)]
    clauses = [[field(row, column) for column in range(size)] for row in range(size)]
    for line in (lambda r, c: r, lambda r, c: c, lambda r, c: r + c, lambda r, c: r - c):
        groups = {}
        for place in fields:
            groups.setdefault(line(*place), []).append(field(*place))
        clauses += [clause for group in groups.values() for clause in exactly_one(group)[1:]]
    return size * size, clauses + [[-field(*place)] for place in draw.sample(fields, blocked)]


def ramsey(one, other, points):
    """Edges between so many points have two colours: no so many points are all joined by the first, or the second."""
    edge = {pair: k + 1 for k, pair in enumerate(itertools.combinations(range(points), 2))}
    return len(edge), [[sign * edge[pair] for pair in itertools.combinations(chosen, 2)]
                       for size, sign in ((one, -1), (other, 1))
                       for chosen in itertools.combinations(range(points), size)]


def progressions(one, other, numbers):
    """The numbers are of two colours, without so many in one progression of the first colour, or of the second."""
    return numbers, [[sign * (first + k * step) for k in range(length)] for length, sign in ((one, -1), (other, 1))
                     for step in range(1, numbers) for first in range(1, numbers - (length - 1) * step + 1)]


def round_trip(draw, points, edges_each):
    """A trip through all points of a drawn graph along its edges, and back."""
    edges = {frozenset(draw.sample(range(points), 2)) for _ in range(int(edges_each * points))}
    at = lambda time, point: time * points + point + 1
    span = range(points)
    lines = [line for a in span for line in ([at(a, p) for p in span], [at(t, a) for t in span])]
    clauses = [clause for line in lines for clause in exactly_one(line)]
    for time in span:
        clauses += [[-at(time, p), -at((time + 1) % points, q)] for p in span for q in span
                    if p != q and frozenset((p, q)) not in edges]
    return points * points, clauses + [[at(0, 0)]]


class Samples:
    """The drawn numbers of the crate lk_samples."""

    def __init__(self, seed):
        self.state = seed

    def below(self, bound):
        self.state = (self.state * 1664525 + 1013904223) % 2**32
        return (self.state >> 16) % bound

    def literal(self, variables):
        v = self.below(variables) + 1
        return v if self.below(2) == 0 else -v


def sampled_clauses(variables, seed, number):
    """So many clauses of that crate, of one to three literals, without those that have a literal twice."""
    draw = Samples(seed)
    drawn = ([draw.literal(variables) for _ in range(draw.below(3) + 1)] for _ in range(number))
    return [clause for clause in drawn if len(set(clause)) == len(clause)]


if __name__ == "__main__":
    CommandLine(__doc__).end()
