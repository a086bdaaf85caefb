#!/usr/bin/env python3
"""Forges answers and cores: texts that are near a right one.

    bench/forging.py answers|cores rows|expected

`rows` prints the forged answers, or cores, of worked formulas as a script for crates/test_commands, and `expected` what the
script must print, by the judge of judge.py. Other programs of this folder draw forged texts. Needs python3.
"""
import judge
from command_line import CommandLine
from formulas import formula_text


def cuts(text):
    """The text up to each byte."""
    for k in range(len(text)):
        yield f"cut after {k} bytes", text[:k]


def forged_lines(lines):
    """Each line changed as a whole: other lines in the place of these."""
    for k, line in enumerate(lines):
        before, behind = lines[:k], lines[k + 1 :]
        yield f"line {k + 1} left out", before + behind
        yield f"line {k + 1} doubled", before + [line, line] + behind
        yield f"an empty line before line {k + 1}", before + [b"", line] + behind
        yield f"a comment before line {k + 1}", before + [b"c", line] + behind
        if behind:
            yield f"line {k + 1} after the next", before + [behind[0], line] + behind[1:]
            yield f"line {k + 1} joined with the next", before + [line + b" " + behind[0]] + behind[1:]
    yield "a line at the end", lines + [lines[-1]]
    yield "an empty line at the end", lines + [b""]
    yield "all lines twice", lines + lines


def forged_bytes(line):
    """The same words with other bytes between them or within."""
    yield "a space at the end", line + b" "
    yield "a space at the beginning", b" " + line
    yield "a return character at the end", line + b"\r"
    yield "another first letter", line[:1].swapcase() + line[1:]
    for k, byte in enumerate(line):
        if byte == 32:
            yield f"two spaces at byte {k + 1}", line[:k] + b" " + line[k:]
            yield f"a tab at byte {k + 1}", line[:k] + b"\t" + line[k + 1 :]


def is_number(word):
    return word.lstrip(b"-").isdigit()


def other_numbers(word):
    """Other words in the place of a number."""
    number = int(word)
    for other in (number + 1, number - 1, -number):
        if other != number:
            yield str(other), b"%d" % other
    for name, other in (("a leading zero", b"0" + word), ("a plus", b"+" + word), ("a far number", b"18446744073709551616")):
        yield name, other
    if number == 0:
        yield "-0", b"-0"


def forged_words(words):
    """Each word changed, left out, doubled and exchanged with the next."""
    for k, word in enumerate(words):
        before, behind = words[:k], words[k + 1 :]
        yield f"word {k + 1} left out", before + behind
        yield f"word {k + 1} doubled", before + [word, word] + behind
        if behind and behind[0] != word:
            yield f"word {k + 1} after the next", before + [behind[0], word] + behind[1:]
        for name, other in other_numbers(word) if is_number(word) else [("x", b"x")]:
            yield f"word {k + 1} is {name}", before + [other] + behind


def forged_turns(words):
    """Turns of a step left out, doubled and exchanged."""
    if words[:2] != [b"c", b"step"] or b"0" not in words[3:]:
        return
    begin = words.index(b"0", 3) + 2
    head, turns = words[:begin], [words[k : k + 2] for k in range(begin, len(words) - 1, 2)]
    together = lambda some: head + [word for turn in some for word in turn] + words[-1:]
    for k, turn in enumerate(turns):
        before, behind = turns[:k], turns[k + 1 :]
        yield f"turn {k + 1} left out", together(before + behind)
        yield f"turn {k + 1} doubled", together(before + [turn, turn] + behind)
        yield f"only {k} turns", together(before)
        if behind:
            yield f"turn {k + 1} after the next", together(before + [behind[0], turn] + behind[1:])


def forged_line(line):
    """Other lines in the place of one, that is near it."""
    yield from forged_bytes(line)
    words = line.split(b" ")
    for name, others in [*forged_words(words), *forged_turns(words)]:
        yield name, b" ".join(others)


def forgeries(text):
    """What was done and the text, for each forged text of an answer's one."""
    lines = text.split(b"\n")[:-1]
    yield from cuts(text)
    for name, others in forged_lines(lines):
        yield name, b"".join(line + b"\n" for line in others)
    for k, line in enumerate(lines):
        for name, other in forged_line(line):
            yield f"line {k + 1}: {name}", b"\n".join([*lines[:k], other, *lines[k + 1 :], b""])


def drawn_forgery(draw, text):
    """One forged text, without the others: of answers that are long."""
    lines = text.split(b"\n")[:-1]
    k = draw.randrange(len(lines))
    kind = draw.randrange(4)
    if kind == 0:
        return text[: draw.randrange(len(text))]
    if kind == 1:
        near = lines[max(k - 1, 0) : k + 2]
        _, others = draw.choice(list(forged_lines(near)))
        return b"".join(line + b"\n" for line in lines[: max(k - 1, 0)] + others + lines[k + 2 :])
    words = lines[k].split(b" ")
    if kind == 2 and len(words) < 300:
        _, other = draw.choice(list(forged_line(lines[k])))
    else:
        place = draw.randrange(len(words))
        _, changed = draw.choice(list(forged_words(words[place : place + 2])))
        other = b" ".join(words[:place] + changed + words[place + 2 :])
    return b"\n".join([*lines[:k], other, *lines[k + 1 :], b""])


def negated(word):
    return b"%d" % -int(word)


def changed_step(draw, line):
    """The line of a step with another literal, turn or number: still one of a step."""
    words = line.split(b" ")
    middle = words.index(b"0", 3)
    clause, numbers = words[3:middle], words[middle + 1 : -1 : 2]
    literals, number = words[middle + 2 : -1 : 2], int(words[2])
    kind, place = draw.randrange(5), draw.randrange(1000000)
    if kind == 0 and clause:
        clause[place % len(clause)] = negated(clause[place % len(clause)])
    elif kind == 1 and len(clause) > 1:
        del clause[place % len(clause)]
    elif kind == 2 and literals:
        literals[place % len(literals)] = negated(literals[place % len(literals)])
    elif kind == 3 and literals:
        gone = place % len(literals)
        del literals[gone], numbers[gone + 1]
    else:
        numbers[place % len(numbers)] = b"%d" % draw.randrange(1, number)
    turns = [word for turn in zip(literals, numbers[1:]) for word in turn]
    return b" ".join([b"c", b"step", words[2], *clause, b"0", numbers[0], *turns, b"0"])


def drawn_change(draw, text):
    """One forged text that is still an answer's, of which mostly a check fails."""
    lines = text.split(b"\n")[:-1]
    if lines[0] == b"s UNSATISFIABLE":
        k = draw.randrange(2, len(lines))
        lines[k] = changed_step(draw, lines[k])
    else:
        words = lines[1].split(b" ")
        if len(words) > 2:
            k = draw.randrange(1, len(words) - 1)
            words[k] = negated(words[k])
        lines[1] = b" ".join(words)
    return b"\n".join([*lines, b""])


SQUARE = (2, [(1, 2), (1, -2), (-1, 2), (-1, -2)])
SQUARE_CORE = b"""c leank 1 mus
c formula 2 4
c core 1 2 3 4 0
c round
c step 5 1 0 1 2 2 0
c step 6 0 3 2 4 -1 5 0
c without 1 -1 -2 0
c without 2 -1 2 0
c without 3 1 -2 0
c without 4 1 2 0
p cnf 2 4
1 2 0
1 -2 0
-1 2 0
-1 -2 0
"""

MODEL = (2, [(1,), (-1, 2)])

UNITS = (2, [(1,), (-1,), (1, 2), (-1, 2)])
UNITS_CORE = b"""c leank 1 mus
c formula 2 4
c core 1 2 0
c round
c step 5 0 1 1 2 0
c without 1 -1 0
c without 2 1 0
p cnf 2 2
1 0
-1 0
"""

EMPTY = (1, [(1,), (), (-1,)])
EMPTY_CORE = b"""c leank 1 mus
c formula 1 3
c core 2 0
c round
c step 4 0 2 0
c without 2 0
p cnf 1 1
0
"""

# Each is the right core with other lines in the place of some: other checks fail than those of one change.
CHANGED = {
    "a core with one clause too many": (UNITS, UNITS_CORE, [
        (b"c core 1 2 0", b"c core 1 2 3 0"), (b"c without 2 1 0", b"c without 2 1 0\nc without 3 -1 -2 0"),
        (b"p cnf 2 2", b"p cnf 2 3"), (b"\n-1 0\n", b"\n-1 0\n1 2 0\n")]),
    "a core with one clause too few": (SQUARE, SQUARE_CORE, [
        (b"c core 1 2 3 4 0", b"c core 1 2 3 0"), (b"c without 4 1 2 0\n", b""), (b"p cnf 2 4", b"p cnf 2 3"),
        (b"\n-1 -2 0\n", b"\n")]),
    "a core of no clause": (UNITS, UNITS_CORE, [
        (b"c core 1 2 0", b"c core 0"), (b"c without 1 -1 0\nc without 2 1 0\n", b""), (b"p cnf 2 2\n1 0\n-1 0\n", b"p cnf 2 0\n")]),
    "literals that leave a clause unsatisfied": (SQUARE, SQUARE_CORE, [(b"c without 2 -1 2 0", b"c without 2 -1 -2 0")]),
    "literals on other variables too": (UNITS, UNITS_CORE, [(b"c without 1 -1 0", b"c without 1 -1 -2 0")]),
    "a clause with its literals the other way round": (SQUARE, SQUARE_CORE, [(b"\n1 2 0\n", b"\n2 1 0\n")]),
    "a clause of another position": (SQUARE, SQUARE_CORE, [(b"\n1 -2 0\n", b"\n1 2 0\n")]),
}


def changed(text, pairs):
    for old, new in pairs:
        if text.count(old) != 1:
            raise ValueError(old)
        text = text.replace(old, new)
    return text


def with_lines_changed(text):
    """The text, and the forged ones of which whole lines were changed or left out at the end."""
    others = [b"\n".join([*lines, b""]) for _, lines in forged_lines(text.split(b"\n")[:-1])]
    return list(dict.fromkeys([text, *others, *(text[: k + 1] for k, byte in enumerate(text) if byte == 10)]))


def with_words_changed(text):
    """The text, and the forged ones of which one line was changed or all behind a byte left out."""
    return list(dict.fromkeys([text, *(other for _, other in forgeries(text))]))


def answers():
    """A remark, a formula, and texts for it."""
    change = "each with one change: lines, words, numbers, turns, spaces; and cut after each byte"
    refutation = b"s UNSATISFIABLE\nc round\nc step 5 1 0 1 2 2 0\nc step 6 0 3 2 4 -1 5 0\n"
    yield f"Forged answers with a model, {change}", MODEL, with_words_changed(b"s SATISFIABLE\nv 1 2 0\n")
    yield f"Forged answers with a refutation, {change}", SQUARE, with_words_changed(refutation)


def cores():
    yield "Forged cores of two clauses, each with one change: lines, words, numbers, spaces", UNITS, with_words_changed(UNITS_CORE)
    yield "Forged cores of four clauses, each with one change of whole lines", SQUARE, with_lines_changed(SQUARE_CORE)
    yield "Forged cores of an empty clause, each with one change of whole lines", EMPTY, with_lines_changed(EMPTY_CORE)
    for name, (formula, text, pairs) in CHANGED.items():
        yield f"Forged cores: {name}", formula, [changed(text, pairs)]
    yield "There is no core of no clauses", (0, []), [b"c leank 1 mus\n", b"c leank 1 mus\nc formula 0 0\n"]


def escaped(text):
    """The text in one line of a script."""
    return text.decode().replace("\n", "\\n").replace("\r", "\\r")


def print_rows(worked):
    for remark, formula, texts in worked:
        print(f"# {remark}.\nnew\ntext f {escaped(formula_text(*formula))}")
        for text in texts:
            print(f"text a {escaped(text)}\nrun verify f a")
        print()


def print_expected(worked):
    for _, formula, texts in worked:
        for text in texts:
            line, fault, status = judge.verify(formula_text(*formula), text)
            written, said = (f"{told}\n" if told else "" for told in (line, fault))
            print(f"== verify f a\nstatus {status}\n{written}-- said\n{said}", end="")


def main():
    worked, printed = {"answers": answers, "cores": cores}, {"rows": print_rows, "expected": print_expected}
    words = CommandLine(__doc__)
    texts, told = words.one("kind of text", worked), words.one("output", printed)
    words.end()
    printed[told](worked[texts]())


if __name__ == "__main__":
    main()
