#!/usr/bin/env python3
"""Corners of docs/FORMAT.md and of the grammar of formulas, for test_judge.py: small texts of which one word decides."""
from command_line import CommandLine

CLASSES = ["pure", "matching", "linear", "general"]
BIG = 2**127 - 1
SQUARE = (2, [[1, 2], [1, -2], [-1, 2], [-1, -2]])
SQUARE_LINES = ["1 2 0", "1 -2 0", "-1 2 0", "-1 -2 0"]
STEPS = ["c round", "c step 5 1 0 1 2 2 0", "c step 6 0 3 2 4 -1 5 0"]
EMPTY = ["c step 6 1 0 1 2 2 0", "c step 7 0 3 2 4 -1 6 0"]
TAUTOLOGY = "c step 5 1 -1 0 1 2 4 0"


def text(name, n, clauses, *lines, m=None, version=1, kept=()):
    """A formula, and the lines of a document that belongs to it."""
    m = len(clauses) if m is None else m
    return (n, clauses), [f"c leank {version} {name}", f"c formula {n} {m}", *lines, f"p cnf {n} {len(kept)}", *kept]


def square(name, *lines):
    """The same, for the square, of which all is kept."""
    keep = [] if name == "unfinished" else ["c keep 1 2 3 4 0", "c set 0"]
    return text(name, *SQUARE, *keep, *lines, kept=SQUARE_LINES)


def empties():
    """Documents that keep nothing of a formula of nothing, and those of other versions."""
    for name in CLASSES:
        for n in (0, 1, 1_000_000, 1_000_001):
            yield text(name, n, [], "c keep 0", "c set 0", *(["c order 0"] if name == "pure" else []))
    for m in (0, 1, 2):
        yield text("matching", 0, [[]] * m, "c keep 0", "c set 0")
    for m in (4_000_000, 4_000_001):
        yield text("matching", 0, [], "c keep 0", "c set 0", m=m)
    for steps in (["c round"], ["c round", "c step 1 0 1 0"], ["c step 1 0 1 0"]):
        yield text("general", 1, [], "c keep 0", "c set 0", *steps)
    for learned in (0, 1, 2**63 - 1, 2**63):
        for steps in ([], ["c round"], ["c round", "c round"], ["c round", "c step 1 0 1 0"]):
            yield text("unfinished", 1, [], f"c learned {learned}", *steps)
    for name in ("matching", "general"):
        for version in (0, 1, 2, 3):
            for protect in ([], ["c protect 0"], ["c protect 1 2 0"], ["c protect 2 1 0"], ["c protect 1 1 0"], ["c protect 3 0"]):
                yield text(name, 2, [], *protect, "c keep 0", "c set 0", version=version)


def orders():
    """Literals that come twice, that are not in the set line, that are missing, and that come too early."""
    for line in ("1 2 3", "1 3", "2 3"):
        for order in ("3 2 1 ", "3 1 ", "3 2 ", "3 3 2 ", "3 -2 ", "1 3 ", "", "3 2 1 1 ", "2 3 ", "3 "):
            yield text("pure", 3, [[1, 2], [-1, 2, 3], [-2, 3]], "c keep 0", f"c set {line} 0", f"c order {order}0")


def owners():
    """A variable that comes twice, a literal that is false or not there, a line that is missing."""
    for own in (["1 1", "2 1", "3 2"], ["1 2", "2 1", "3 2"], ["1 1", "2 2", "3 2"], ["1 1", "3 2"], ["1 1", "2 1", "3 1"]):
        yield text("matching", 2, [[1, 2], [1, -2], [2]], "c keep 0", "c set 1 2 0", *("c own " + line for line in own))


def rows():
    """Own positions that come twice, escapes to them, and ranks."""
    for m, e, r, k, f, q in [(1, 2, 0, 1, 2, 0), (1, 1, 1, 2, 3, 0), (1, 2, 1, 2, 3, 0), (1, 2, 0, 2, 3, 1), (1, 2, 1, 2, 1, 0),
                             (1, 3, 2**32 - 1, 2, 3, 2**32), (1, 3, 2**32 - 1, 2, 4, 0), (4, 3, 0, 2, 4, 1), (2, 2, 0, 2, 2, 0)]:
        yield square("matching", f"c row 1 {m} {e} {r}", f"c row 2 {k} {f} {q}")
    for a, b, c in ((1, 2, 9), (9, 2, 1), (1, 2, 1), (2, 2, 2), (1, 1, 0)):
        for lines in ([f"c row 1 5 1 {a}", f"c row 2 4 5 {b}", f"c row 3 5 6 {c}"], [f"c row 1 5 6 {a}", f"c row 2 4 5 {b}", f"c row 3 3 5 {c}"]):
            yield text("matching", 3, [[1, 2, 3]] * 6, "c keep 1 2 3 4 5 6 0", "c set 0", *lines, kept=["1 2 3 0"] * 6)


def weights():
    """Sums that are wider than the numbers, numbers at their limits, and clauses with both literals of a variable."""
    for y, z in ((BIG, BIG), (BIG, 1), (1, BIG), (BIG + 1, 1), (-BIG, 1), (1, -BIG - 1)):
        for units in (["1 2 1 1 2 1 0", "2 2 1 1 2 -1 0"], [f"1 2 1 {BIG} 2 {BIG} 3 {BIG} 4 {BIG} 0", "2 1 0"]):
            yield square("linear", *(f"c dual {p} {z if p == 4 else y}" for p in range(1, 5)), *("c unit " + unit for unit in units))
    wide = f"1 {BIG} 2 {BIG} 3 {-BIG} 4 {-BIG} 0"
    for units in (["1 0 0", "2 0 0"], [f"1 {BIG} {wide}", "2 1 0"], [f"1 {4 * BIG} {wide}", "2 1 0"]):
        yield square("linear", *(f"c dual {p} 1" for p in range(1, 5)), *("c unit " + unit for unit in units))
    for stages in (["1 1 2 1 0"], ["1 1 0", "2 1 0"], ["0", "2 1 0", "1 1 0"], [f"1 {BIG} 2 {BIG} 0"], ["2 1 0", "1 -1 0"],
                   [f"1 {BIG} 2 1 0"], [f"1 {BIG + 1} 2 1 0"], ["1 0 0"], ["2 1 1 1 0"], ["1 1 1 1 0"], ["1 1 2 1"], [""],
                   ["1 1 2 1 0", "1 -1 0"], ["1 1 2 1 0", "2 -1 0", "1 -2 0"]):
        yield text("linear", 2, [[1, -1], [1, 2], [2, -1]], "c keep 0", "c set 1 2 0", *("c stage " + stage for stage in stages))
    # The shares of four clauses {1} add up to what no share may be.
    for d in (BIG, BIG + 1, -BIG):
        yield text("linear", 1, [[1]] * 4 + [[-1]] * 4, "c keep 1 2 3 4 5 6 7 8 0", "c set 0", *(f"c dual {p} {BIG}" for p in range(1, 9)),
                   f"c unit 1 {d} 1 {BIG} 2 {BIG} 3 {BIG} 4 {BIG} 5 {BIG} 6 {BIG} 7 {BIG} 0", kept=["1 0"] * 4 + ["-1 0"] * 4)


def partly_kept():
    """Lines that name a position which is not kept, where the clause has what it should have; and two faults at once."""
    for pair in ("2 3 2", "2 1 2", "2 3 4"):
        yield text("pure", 4, [[1, 2], [-2, 3], [2, -3], [-2, 4]], "c keep 2 3 0", "c set 1 4 0", "c order 4 1 0",
                   f"c pair {pair}", "c pair 3 2 3", kept=["-2 3 0", "2 -3 0"])
    n, clauses = 3, [*SQUARE[1], [1, 3]]
    keep = ["c keep 1 2 3 4 0", "c set 3 0"]
    for row in ("1 1 3 0", "1 5 3 0", "1 1 5 0"):
        yield text("matching", n, clauses, *keep, "c own 5 3", f"c row {row}", "c row 2 2 3 0", kept=SQUARE_LINES)
    yield text("matching", n, clauses, *keep, "c own 1 1", "c own 5 3", "c row 1 1 3 0", "c row 2 2 3 0", kept=SQUARE_LINES)
    for unit in ("1 2 1 1 2 1 0", "1 1 5 1 0", "1 2 1 1 2 1 5 1 0", "1 3 1 1 2 1 5 1 0"):
        for more in ([], ["c dual 5 1"]):
            for stage in ("3 1 0", "3 -1 0", "1 -1 3 1 0"):
                yield text("linear", n, clauses, *keep, f"c stage {stage}", *(f"c dual {p} 1" for p in range(1, 5)), *more,
                           f"c unit {unit}", "c unit 2 2 1 1 2 -1 0", kept=SQUARE_LINES)
    for stages in (["1 1 2 1 0"], [f"1 {BIG} 2 1 0"]):
        for more in ([], ["c dual 1 1"], ["c unit 1 1 0"]):
            yield text("linear", 2, [[1, -1], [1, 2], [2, -1]], "c keep 0", "c set 1 2 0", *("c stage " + stage for stage in stages), *more)


def rounds():
    """Steps of another round, steps behind the empty one, steps that are not reached, tautologies, and open rounds."""
    for lines in (STEPS, [*STEPS, "c round", "c step 7 0 1 0"], [*STEPS, "c round", "c step 7 0 6 0"], [*STEPS, "c round", "c step 7 0 5 1 1 0"],
                  [*STEPS, "c step 7 0 1 0"], [*STEPS, "c round"], STEPS[:2], STEPS[:1], STEPS[1:], [], ["c round", *STEPS], ["c round 0"],
                  *(["c round", *steps] for steps in (
                      ["c step 5 0 5 0"], ["c step 5 0 1 1 5 0"], ["c step 5 1 2 0 1 0", "c step 6 0 3 2 4 -1 5 0"], ["c step 5 2 1 0 1 0"],
                      [TAUTOLOGY], [TAUTOLOGY, "c step 6 1 2 0 1 1 5 0"], [TAUTOLOGY, "c step 6 1 2 0 5 1 5 2 5 0"], ["c step 6 0 1 0"],
                      [TAUTOLOGY, "c step 6 1 0 1 2 2 0", "c step 7 0 3 2 4 -1 6 0"], [TAUTOLOGY, "c step 6 1 0 1 2 2 0", "c step 7 0 3 2 4 -1 5 -1 6 0"],
                      ["c step 5 1 2 0 1 1 1 0", *EMPTY], ["c step 5 1 2 0 1 2 1 0", *EMPTY], ["c step 5 2 0 1 1 1 0", *EMPTY], ["c step 5 1 1 0 1 0"], ["c step 5 1 0 1 1"], ["c step 5 1 0 1 2 0"], ["c step 5 1 0"], ["c step 5 1 0 1 2 2 0 0"]))):
        yield square("general", *lines)
    for learned in (0, 1, 2):
        for lines in (STEPS, STEPS[:2], STEPS[:1], [*STEPS, "c round"], [*STEPS, "c round", "c round"], [*STEPS, "c round", "c step 7 0 1 0"],
                      [*STEPS, "c step 7 1 0 1 0"], [*STEPS, "c round", "c step 7 0 1 0", "c round"], [], ["c round", TAUTOLOGY],
                      ["c round", "c step 5 1 2 0 1 0"], [*STEPS[:2], "c step 6 1 0 1 2 2 0"], [*STEPS[:2], "c step 6 1 0 5 0"]):
            yield square("unfinished", f"c learned {learned}", *lines)
    for protect in ("0", "1 0", "2 0", "1 2 0"):
        for lines in (["c step 5 2 0 1 0"], ["c step 5 1 0 1 0"], ["c step 5 1 0 1 2 2 0"], ["c step 5 1 0 1 2 2 0", "c step 6 1 0 5 0"], ["c step 5 0 1 0", "c round"]):
            yield text("unfinished", *SQUARE, f"c protect {protect}", "c learned 1", "c round", *lines, version=2, kept=SQUARE_LINES)


def answers():
    """Each of these for formulas to which it may belong or not."""
    refuted = ["c leank 1 mus", "c formula 1 2", "c core 1 2 0", "c round", "c step 3 0 1 1 2 0"]
    clauses = ["p cnf 1 2", "1 0", "-1 0"]
    for formula in ((0, []), (1, []), (0, [[]]), (1, [[1]]), (1, [[1], [-1]]), (2, [[1, -1]])):
        for model in ("v 0", "v 1 0", "v -1 0", "v 1 2 0", "v 2 1 0", "v 1 1 0", "v 1 -1 0", "v 1", "v"):
            yield formula, ["s SATISFIABLE", model]
        for steps in (["v 0"], [], ["c round"], ["c round", "c step 1 0 1 0"], ["c round", "c step 2 0 1 0"], ["c round", "c step 3 0 1 1 2 0"],
                      ["c round", "c step 3 0 1 1 2 0", "c round"]):
            yield formula, ["s UNSATISFIABLE", *steps]
        for lines in (["s SATISFIABLE"], ["s UNKNOWN"], ["s SATISFIABLE ", "v 0"], ["s"], [], [""], ["c leank 1 mus"], ["c leank 2 mus"],
                      ["c leank 1 mus", "c formula 0 1", "c core 1 0", "c round", "c step 2 0 1 0", "c without 1 0", "p cnf 0 1", "0"],
                      ["c leank 1 mus", "c formula 0 1", "c core 0", "c round", "c step 2 0 1 0", "p cnf 0 0"],
                      [*refuted, "c without 1 -1 0", "c without 2 1 0", *clauses], [*refuted, "c without 1 -1 1 0", "c without 2 1 0", *clauses],
                      [*refuted, "c without 1 1 -1 0", "c without 2 1 0", *clauses], [*refuted, "c without 1 0", "c without 2 0", *clauses],
                      [*refuted, "c without 1 -1 0", "c without 1 -1 0", *clauses], [*refuted, "c without 1 -1 0", *clauses],
                      [*refuted[:4], "c step 3 1 0 1 0", *clauses]):
            yield formula, lines


def cores():
    core = ["c leank 1 mus", "c formula 2 4"]
    for without in (["1 -1 -2", "2 -1 2", "3 1 -2", "4 1 2"], ["1 -1 -2", "2 -1", "3 1 -2", "4 1 2"], ["2 -1 2", "1 -1 -2", "3 1 -2", "4 1 2"],
                    ["1 -2 -1", "2 -1 2", "3 1 -2", "4 1 2"], ["1 -1 -2", "2 -1 2", "3 1 -2", "4 1 3"]):
        yield SQUARE, [*core, "c core 1 2 3 4 0", *STEPS, *(f"c without {line} 0" for line in without), "p cnf 2 4", *SQUARE_LINES]
    yield SQUARE, [*core, "c core 1 2 3 0", *STEPS, "c without 1 0", "c without 2 0", "c without 3 0", "p cnf 2 3", *SQUARE_LINES[:3]]
    yield SQUARE, [*core, "c core 0", *STEPS, "p cnf 2 0"]


TEXTS = [found for corners in (empties, orders, owners, rows, weights, partly_kept, rounds, answers, cores) for found in corners()]

HEADER = "p cnf 1 1\n"
FORMULAS = [
    # Of no variables, or of no clauses.
    "", "\n", "p", "p cnf 0 0", "p cnf 0 0\n", "p cnf 00 00\n", "p cnf 0 1\n", "p cnf 0 1\n0", "p cnf 0 1\n0\n", "p cnf 0 0\n0\n",
    # Numbers.
    *(HEADER + number + " 0\n" for number in ("-01", "-0", "-00", "-001", "001", "+1", "2", "-2", "9" * 50, "--1", "- 1", "1-", "\xb2", "1\x0b", "1\x00")),
    HEADER + "001 000\n", HEADER + "1 1 1 -1 1 0\n",
    # Ends.
    *(HEADER + end for end in ("1\n", "1", "1 % 0\n", "1\n%\n", "% 0\n", "\n\n\n", "\n\n\n1", "1 0\nc", "1 0\n\xb9\n", "1 0\np")),
    "p cnf 1 2\n1 0\n1\n%", "p cnf 1 2\n1 0\n%\n1 0\n", "% p cnf 0 0\n", "c p cnf 0 0\n", "cp cnf 0 0\np cnf 0 0\n",
    # Headers.
    *(header + "\n1 0\n" for header in ("x", "1 0", "p  cnf\t1\r1\r\r", " p cnf 1 1", "p cnf 1 1 ", "pcnf 1 1", "p cnf 1", "p cnf 1 1 1", "p dnf 1 1",
                                        "p cnf -1 1", "p cnf 1 -1", "p cnf -0 0", "p cnf x 0", "p cnf 1 0")),
    *(f"p cnf {numbers}\n" for numbers in ("1000000 0", "1000001 0", "0 4000001", "0 4000000", "9" * 30 + " x", "9" * 30 + " 0")),
    # Words that may not come.
    *(HEADER + words for words in ("p cnf 1 1\n", "1 p 0\n", "1\npx\n", "1 0 1\n", "1 0 2\n", "1 0 x\n", "1 c\n0\n", "1 \nc 0 x\n0\n", "x\np")),
    "p cnf 1 0\nx", "p cnf 1 0\n0", "p cnf 1 0\n%",
]


if __name__ == "__main__":
    CommandLine(__doc__).end()
