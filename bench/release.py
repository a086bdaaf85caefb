#!/usr/bin/env python3
"""Runs the checks that a release needs and the gate does not make, and prints a line for each.

    bench/release.py PROGRAM [OLD_PROGRAM] [--quick]

PROGRAM is the built program that is to be released, and OLD_PROGRAM the released one, with which versions.py compares it. With
--quick there are only the checks that take less than a minute. A line says whether the check passed, its seconds, and the last
line that it prints; all that a failed one prints is kept in a file that the line names. A check that needs a program which is
not found, such as a solver, fails and names it. The status is 0 exactly if all pass. Needs python3, and Debian's packages
minisat, picosat, cadical and valgrind.
"""
import os
import shutil
import subprocess
import sys
import time
from collections import namedtuple

from command_line import CommandLine
from runs import kept

HERE = os.path.dirname(os.path.abspath(__file__))

# The words of a check, where NEW and OLD stand for the programs; whether it takes less than a minute; and a program without which
# it is made, but tries less.
Check = namedtuple("Check", "words is_quick more", defaults=(None,))
CHECKS = [
    Check("house.py", True),
    Check("route.py", True),
    Check("pages.py NEW", True),
    Check("test_mistakes.py NEW", True),
    Check("test_endings.py NEW", True, "minisat"),
    Check("test_examples.py NEW", True),
    Check("test_answers.py", True),
    Check("test_deficiency.py", True),
    Check("test_lrat.py NEW", True, "lrat-check"),
    Check("test_judge.py NEW", True),
    Check("versions.py NEW OLD", True),
    Check("workers.py NEW", False),
    Check("comparing.py NEW", False),
    Check("traps.py NEW --bounds", False),
]


def last_line(text):
    """The last line that says something, with how many tests ran where unittest tells it."""
    lines = [line.strip() for line in text.splitlines() if line.strip()]
    return ", ".join([*(line for line in lines[-2:-1] if line.startswith("Ran ")), *lines[-1:]])


def passes(check, programs):
    """Makes a check, and prints its line."""
    script, *words = (programs.get(word, word) for word in check.words.split())
    begin = time.monotonic()
    done = subprocess.run([sys.executable, os.path.join(HERE, script), *words], stdin=subprocess.DEVNULL, stdout=subprocess.PIPE,
                          stderr=subprocess.STDOUT, text=True, errors="replace")
    name, seconds, told = script.removesuffix(".py"), time.monotonic() - begin, [last_line(done.stdout)]
    if done.returncode:
        told += [f"status {done.returncode}", kept(name, done.stdout)]
    if check.more and not shutil.which(check.more):
        told.append(f"without {check.more}")
    line = "; ".join(it for it in told if it)
    print(f"{'FAILED' if done.returncode else 'passed'}  {name:16} {seconds:6.0f} s  {line}".rstrip(), flush=True)
    return done.returncode == 0


def main():
    words = CommandLine(__doc__)
    is_quick = words.flag("--quick")
    programs = {"NEW": words.program("PROGRAM")}
    if words.left:
        programs["OLD"] = words.program("OLD_PROGRAM")
    words.end()
    chosen = [check for check in CHECKS if check.is_quick or not is_quick]
    found = [passes(check, programs) for check in chosen if "OLD" in programs or "OLD" not in check.words.split()]
    print(f"{sum(found)} of {len(found)} passed")
    return 0 if all(found) else 1


if __name__ == "__main__":
    sys.exit(main())
