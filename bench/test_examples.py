#!/usr/bin/env python3
"""Tries the scripts of examples/ with solvers that are made up here: what they tell for each status of a solver, for a
solver that is killed or writes no model, where nothing is kept, for formulas with carriage returns and end marks, through
a symbolic link, and with CDPATH set. It prints each case, and its status is 0 where all are as they should be.

    bench/test_examples.py [LEANK]

The scripts call `bin/leank`, or LEANK, a built program, from a copy of the folder.
"""
import shutil
import subprocess
import sys
import tempfile
from pathlib import Path

from command_line import CommandLine

TOP = Path(__file__).resolve().parent.parent
SQUARE = "p cnf 2 4\n1 2 0\n1 -2 0\n-1 2 0\n-1 -2 0\n"
# (of these the matching kernel keeps the last four)
TWO = "p cnf 3 5\n1 2 0\n2 3 0\n2 -3 0\n-2 3 0\n2 3 0\n"
FREE = "p cnf 2 1\n1 2 0\n"
MODEL = "printf 's SATISFIABLE\\nv 2 3 0\\n'\n"
NO_MODEL = "echo 's UNSATISFIABLE'\n"
# minisat writes to the file that is its last word
BARE = 'for file; do :; done\nprintf "SAT\\n2 3 0\\n" >"$file"\n'
BARE_NONE = 'for file; do :; done\nprintf "SAT\\n 0\\n" >"$file"\n'
HOLDS = "the literals satisfy each clause of the formula"

# name, solver, what it does, its status, the formula, wanted status, a wanted line
CASES = [
    ("a model", "cadical", MODEL, 10, TWO, 0, HOLDS),
    ("no model", "cadical", NO_MODEL, 20, SQUARE, 20, "no model: the kept clauses have none, and so the formula has none"),
    ("the solver does not know", "cadical", "echo 's UNKNOWN'\n", 0, TWO, 1, "cadical ended with status 0"),
    ("the solver refuses the file", "cadical", "", 1, TWO, 1, "cadical ended with status 1"),
    ("the solver is killed", "cadical", "kill -KILL $$\n", 0, TWO, 1, "cadical ended with status 137"),
    ("a model that is none", "cadical", "printf 's SATISFIABLE\\nv -2 -3 0\\n'\n", 10, TWO, 8, "refused model-fails"),
    ("10 without a model", "cadical", "", 10, TWO, 8, "refused model-fails"),
    ("picosat with a model", "picosat", MODEL, 10, TWO, 0, HOLDS),
    ("picosat without an answer", "picosat", "", 0, TWO, 1, "picosat ended with status 0"),
    ("minisat with bare literals", "minisat", BARE, 10, TWO, 0, HOLDS),
    ("minisat where nothing is kept", "minisat", BARE_NONE, 10, FREE, 0, HOLDS),
    ("minisat that fails", "minisat", "", 3, TWO, 1, "minisat ended with status 3"),
    ("carriage returns and blank lines", "cadical", MODEL, 10, TWO.replace("\n", "\r\n") + "\r\n", 0, HOLDS),
    ("an end mark with more behind it", "cadical", MODEL, 10, TWO + "%\n0\n-2 0\n", 0, HOLDS),
    ("an end mark with a carriage return", "cadical", MODEL, 10, TWO + "%\r\n0\r\n", 0, HOLDS),
    ("a last clause without 0", "cadical", MODEL, 10, TWO[:-2], 0, HOLDS),
]


def solvers(folder, name, does, status):
    """A folder of commands in which this solver is the only one."""
    for command in "sh awk sed cat cp rm mktemp mkdir dirname readlink find uname grep env head tail sort xargs sha256sum cut".split():
        (folder / command).symlink_to(shutil.which(command))
    script = folder / name
    script.write_text(f"#!/bin/sh\n{does}exit {status}\n")
    script.chmod(0o755)


def run(script, words, path, at, **more):
    env = {"PATH": str(path), "LANG": "C.UTF-8", **more}
    ran = subprocess.run([script, *words], cwd=at, env=env, stdout=subprocess.PIPE, stderr=subprocess.STDOUT, text=True)
    return ran.returncode, ran.stdout


def tell(name, is_well, said):
    print(f"{'as it should be' if is_well else 'WRONG'}: {name}")
    if not is_well:
        print(*(f"    {line}" for line in said.splitlines()), sep="\n")
    return is_well


def top_of(room, leank):
    """A folder with the examples beside the program, which they find there."""
    if leank is None:
        return TOP
    top = room / "top"
    shutil.copytree(TOP / "examples", top / "examples")
    (top / "bin").mkdir()
    (top / "bin/leank").symlink_to(leank)
    return top


def sessions(room, top):
    for number, (name, solver, does, status, formula, wanted, line) in enumerate(CASES):
        folder = room / f"path{number}"
        folder.mkdir()
        solvers(folder, solver, does, status)
        file = room / f"formula{number}.cnf"
        file.write_bytes(formula.encode())
        ended, said = run(top / "examples/session.sh", [file], folder, room)
        yield tell(name, ended == wanted and line in said, f"status {ended}\n{said}")


def places(room, top):
    """Both scripts through a link from another folder, with CDPATH set and a folder of the same name there."""
    folder = room / "path"
    folder.mkdir()
    solvers(folder, "nosolver", "", 0)
    (room / "elsewhere/examples").mkdir(parents=True)
    for script, wanted, line in (("session.sh", 0, HOLDS), ("answer.sh", 20, "accepted")):
        link = room / script
        link.symlink_to(top / "examples" / script)
        for name, path in (("a symbolic link", link), ("CDPATH", Path("examples") / script)):
            ended, said = run(path, [], folder, top, CDPATH=f"{room}/elsewhere")
            yield tell(f"{script}: {name}", ended == wanted and line in said, f"status {ended}\n{said}")


def main():
    words = CommandLine(__doc__)
    leank = words.program() if words.left else None
    words.end()
    with tempfile.TemporaryDirectory() as room:
        room = Path(room)
        top = top_of(room, leank)
        found = [*sessions(room, top), *places(room, top)]
    print(f"{sum(found)} of {len(found)} as they should be")
    return 0 if all(found) else 1


if __name__ == "__main__":
    sys.exit(main())
