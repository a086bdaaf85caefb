#!/usr/bin/env python3
"""Makes each mistake of the table "Mistakes, and what they get" in docs/REFERENCE.md, and compares what comes with the page.

    bench/test_mistakes.py LEANK

LEANK is the built program (`dist/leank`). The status is 0 where each row of the page was tried and the program says what the page says.
"""
import gzip
import re
import subprocess
import sys
import tempfile
from pathlib import Path

from command_line import CommandLine

TOP = Path(__file__).resolve().parent.parent
FORMULA = "p cnf 3 3\n1 2 0\n-2 3 0\n2 -3 0\n"

# the mistake, as the page names it: the words, and the files that it takes besides f.cnf and its document d
MISTAKES = {
    "a compressed formula": ("report f.cnf.gz", {"f.cnf.gz": gzip.compress(FORMULA.encode())}),
    "a byte order mark": ("report b", {"b": b"\xef\xbb\xbf" + FORMULA.encode()}),
    "WCNF with a header": ("report w", {"w": b"p wcnf 3 2 10\n10 1 2 0\n3 -1 0\n"}),
    "WCNF without a header": ("report w", {"w": b"h 1 2 0\n3 -1 0\n"}),
    "a formula for incremental solvers": ("report i", {"i": b"p inccnf\n1 2 0\na 1 0\n"}),
    "XOR clauses": ("report x", {"x": b"p cnf 2 1\nx 1 2 0\n"}),
    "QDIMACS": ("report q", {"q": b"p cnf 3 2\na 1 0\ne 2 3 0\n1 2 0\n-2 3 0\n"}),
    "a document with carriage returns": ("check f.cnf r", {"r": None}),
    "the document before the formula": ("check d f.cnf", {}),
    "a solver's output to `verify`": ("verify f.cnf m", {"m": b"c found\ns SATISFIABLE\nv 1 2 3 0\n"}),
    "minisat's result file to `extend`": ("extend f.cnf d s", {"s": b"SAT\n1 2 3 0\n"}),
    "a solver's `s UNSATISFIABLE` to `extend`": ("extend f.cnf d u", {"u": b"s UNSATISFIABLE\n"}),
    "an option before a name": ("reduce pure --workers 2 f.cnf", {}),
    "an option of `solve` or `mus` before the name": ("solve --workers 2 f.cnf", {}),
    "`--workers=2`": ("reduce pure f.cnf --workers=2", {}),
    "`--help` or `--version`": ("--help", {}),
    "a class in capitals": ("reduce PURE f.cnf", {}),
    "no such file, or a folder": ("report .", {}),
    "`/dev/stdin` for two inputs, if it is a pipe": ("check /dev/stdin /dev/stdin", {}),
}


def rows():
    page = (TOP / "docs/REFERENCE.md").read_text()
    table = page.split("## Mistakes, and what they get\n", 1)[1].split("\n## ", 1)[0]
    found = [re.split(r"(?<!\\)\|", line)[1:3] for line in table.splitlines() if line.startswith("| ")]
    return {mistake.strip(): said.strip().strip("`") for mistake, said in found[1:]}


def main(leank):
    told, differ = rows(), 0
    with tempfile.TemporaryDirectory() as room:
        room = Path(room)
        (room / "f.cnf").write_text(FORMULA)
        document = subprocess.run([leank, "reduce", "pure", "f.cnf"], cwd=room, stdout=subprocess.PIPE, check=True).stdout
        (room / "d").write_bytes(document)
        for mistake, line in told.items():
            words, files = MISTAKES.get(mistake, ("is not tried", {}))
            for name, text in files.items():
                (room / name).write_bytes(document.replace(b"\n", b"\r\n") if text is None else text)
            ran = subprocess.run([leank, *words.split()], cwd=room, input=FORMULA.encode(), stdout=subprocess.PIPE, stderr=subprocess.PIPE)
            said = ran.stderr.decode().rstrip("\n")
            if said != line or ran.stdout or ran.returncode not in (1, 2, 3):
                differ += 1
                print(f"{mistake}: the page says {line!r}; {words}: status {ran.returncode}, {said!r}")
    print(f"{len(told)} mistakes tried, {differ} differ from the page")
    return 1 if differ else 0


if __name__ == "__main__":
    asked = CommandLine(__doc__)
    program = asked.program()
    asked.end()
    sys.exit(main(program))
