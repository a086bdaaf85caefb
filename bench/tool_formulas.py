#!/usr/bin/env python3
"""Formulas as tools write them: yosys and abc, of the circuits in circuits/.

    bench/tool_formulas.py FOLDER [KIND ...]

writes them into a folder. Needs Debian's packages yosys and berkeley-abc. A formula is satisfiable exactly if a circuit
can do what is asked: two circuits differ, a register or an output has this value, or `bad` is true, within so many steps
from the state of zeros.
"""
import os
import subprocess
import sys

from command_line import CommandLine

CIRCUITS = os.path.join(os.path.dirname(os.path.abspath(__file__)), "circuits")
NEEDS = ("yosys", "berkeley-abc")


def reads(name, top, settings):
    """The commands of yosys that read a circuit, with its parameters, as one module."""
    commands = [f"read_verilog {os.path.join(CIRCUITS, name + '.v')}"]
    commands += [f"chparam -set {setting} {top}" for setting in settings]
    return commands + [f"hierarchy -top {top}", "proc", "flatten", "memory", "opt -full"]


def asked(name, question, *settings):
    """Yosys writes what is asked of its command `sat`."""
    return lambda file: [yosys(reads(name, name, settings) + [f"sat {question} -timeout 1 -dump_cnf {file}"])]


def bad(name, steps, *settings):
    """Yosys writes that `bad` is true at one of so many steps."""
    return asked(name, f"-seq {steps} -set-init-zero -prove bad 0", *settings)


def mapped_bad(name, steps, *settings):
    """The same as abc writes it, from a circuit of gates."""

    def words(file):
        gates = file + ".aig"
        built = ["techmap", "opt", "dffunmap", "abc -g AND", "aigmap", f"write_aiger -zinit {gates}"]
        frames = f"read_aiger {gates}; frames -F {steps} -i; orpos; write_cnf {file}"
        return [yosys(reads(name, name, settings) + built), ["berkeley-abc", "-c", frames]]

    return words


def equal(name, width):
    """Yosys writes that two modules of a circuit, gold and gate, differ."""

    def words(file):
        commands = [f"read_verilog {os.path.join(CIRCUITS, name + '.v')}", f"chparam -set WIDTH {width} gold gate", "proc", "opt"]
        commands += ["miter -equiv -flatten gold gate miter", "hierarchy -top miter", "proc", "opt"]
        return [yosys(commands + [f"sat -prove trigger 0 -timeout 1 -dump_cnf {file} miter"])]

    return words


def yosys(commands):
    return ["yosys", "-q", "-p", "; ".join(commands)]


KINDS = {
    "adders": equal("adders", 16),
    "multipliers": equal("multipliers", 4),
    "ones": equal("ones", 16),
    "sorting": bad("sorting", 1),
    "searching": bad("searching", 1),
    "searching, wrong": bad("searching", 1, "SKIP 2"),
    "root": bad("root", 1),
    "divisor": bad("divisor", 1),
    "factors": asked("factors", "-set product 16'd33389 -set proper 1"),
    "key": asked("cipher", "-set p 16'd4660 -set q 16'd22136 -set c 16'd44189 -set d 16'd56571"),
    "no key": asked("cipher", "-set p 16'd4660 -set q 16'd22136 -set c 16'd1 -set d 16'd2"),
    "locks": bad("locks", 16),
    "locks, wrong": bad("locks", 16, "LOOKS 1"),
    "arbiter": bad("arbiter", 8),
    "queue": bad("queue", 8),
    "locks by abc": mapped_bad("locks", 16),
    "locks by abc, wrong": mapped_bad("locks", 16, "LOOKS 1"),
    "arbiter by abc": mapped_bad("arbiter", 8),
    "queue by abc": mapped_bad("queue", 8),
    "queue by abc, 16 steps": mapped_bad("queue", 16),
}

# Of up to 600,000 clauses.
LARGE_KINDS = {
    "locks by abc, 40 steps": mapped_bad("locks", 40),
    "arbiter by abc, 40 steps": mapped_bad("arbiter", 40),
    "sorting": bad("sorting", 1),
    "queue by abc, 12 steps": mapped_bad("queue", 12),
    "factors": KINDS["factors"],
    "adders, 32 bits": equal("adders", 32),
    "arbiter by abc, 100 steps": mapped_bad("arbiter", 100),
    "ones, 24 bits": equal("ones", 24),
    "adders, 64 bits": equal("adders", 64),
    "no key": KINDS["no key"],
    "key": KINDS["key"],
    "locks, 40 steps": bad("locks", 40),
    "locks, wrong, 60 steps": bad("locks", 60, "LOOKS 1"),
    "searching": bad("searching", 1),
    "root": bad("root", 1),
    "locks, 80 steps": bad("locks", 80),
    "queue, 10 steps": bad("queue", 10),
    "queue, 12 steps": bad("queue", 12),
    "arbiter, 30 steps": bad("arbiter", 30),
    "arbiter, 60 steps": bad("arbiter", 60),
}

# Of at most some thousands of clauses, and without a model.
SMALL_KINDS = {
    "adders, 4 bits": equal("adders", 4),
    "adders, 8 bits": equal("adders", 8),
    "multipliers, 2 bits": equal("multipliers", 2),
    "multipliers, 3 bits": equal("multipliers", 3),
    "ones, 4 bits": equal("ones", 4),
    "ones, 8 bits": equal("ones", 8),
    "locks, 4 steps": bad("locks", 4),
    "locks, 8 steps": bad("locks", 8),
    "queue, 2 steps": bad("queue", 2),
    "arbiter, 2 steps": bad("arbiter", 2),
    "locks by abc, 8 steps": mapped_bad("locks", 8),
    "queue by abc, 4 steps": mapped_bad("queue", 4),
    "arbiter by abc, 4 steps": mapped_bad("arbiter", 4),
}


def written_by(kind, file):
    """Whether the tools have written the formula into the file."""
    for words in {**KINDS, **LARGE_KINDS, **SMALL_KINDS}[kind](file):
        done = subprocess.run(words, stdout=subprocess.PIPE, stderr=subprocess.STDOUT, text=True, cwd=os.path.dirname(file))
    if os.path.exists(file) and os.path.getsize(file) > 0:
        return True
    print(f"{kind}: nothing written, status {done.returncode}\n{done.stdout[-2000:]}", file=sys.stderr)
    return False


def write(kind, file):
    """Writes the formula into the file, whatever stands there, or ends the program."""
    if os.path.exists(file):
        os.unlink(file)
    if not written_by(kind, file):
        sys.exit(f"{kind}: not written")


def main():
    words = CommandLine(__doc__)
    folder = words.folder("FOLDER")
    kinds = words.some("KIND", {**KINDS, **LARGE_KINDS, **SMALL_KINDS}) if words.left else words.some("KIND", KINDS)
    words.needs(*NEEDS)
    for kind in kinds:
        written_by(kind, os.path.join(folder, kind.replace(", ", "-").replace(" ", "-") + ".cnf"))


if __name__ == "__main__":
    main()
