#!/usr/bin/env python3
"""Tries what REFERENCE and FORMAT say of outputs that are cut, of pipes, and of texts that some commands read and others do not.

    bench/test_endings.py LEANK [TEST ...]

LEANK is the built program (`dist/leank`). Needs python3; `minisat`, if it is found, tells of a cut document.
"""
import fcntl
import os
import resource
import shutil
import signal
import subprocess
import tempfile
import unittest
from pathlib import Path

from command_line import CommandLine
from formulas import formula_text, pigeons

LEANK = None
SQUARE, FORMULA = formula_text(2, [[1, 2], [1, -2], [-1, 2], [-1, -2]]), formula_text(3, [[1, 2], [-2, 3], [2, -3]])
DOCUMENT = b"c leank 1 pure\nc formula 3 3\nc keep 2 3 0\nc set 1 0\nc order 1 0\nc pair 2 3 2\nc pair 3 2 3\np cnf 3 2\n-2 3 0\n2 -3 0\n"


class Endings(unittest.TestCase):
    def setUp(self):
        room = tempfile.TemporaryDirectory()
        self.addCleanup(room.cleanup)
        self.room = Path(room.name)
        self.put(f=FORMULA, d=DOCUMENT, m=b"c found\ns SATISFIABLE\nv -1 -2\nv -3 0\n", s=SQUARE)

    def put(self, **texts):
        for name, text in texts.items():
            (self.room / name).write_bytes(text)

    def run_leank(self, words, **more):
        return subprocess.run([LEANK, *words.split()], cwd=self.room, capture_output="stdout" not in more, **more)

    def cut_at(self, words, size):
        """What stands in a file that may not grow past this size, if SIGXFSZ ended the run."""
        with open(self.room / "cut", "wb") as out:
            done = self.run_leank(words, stdout=out, preexec_fn=lambda: resource.setrlimit(resource.RLIMIT_FSIZE, (size, size)))
        self.assertEqual(done.returncode, -signal.SIGXFSZ)
        return (self.room / "cut").read_bytes()

    def test_extend_may_lack_its_last_byte_alone(self):
        whole = self.run_leank("extend f d m").stdout
        self.assertEqual(whole, b"v 1 -2 -3 0\n")
        for size in range(len(whole)):
            self.assertEqual(self.cut_at("extend f d m", size), whole[:size])

    def test_a_cut_document_is_refused_but_a_solver_may_read_it(self):
        for size in range(len(DOCUMENT)):
            self.assertEqual(self.cut_at("reduce pure f", size), DOCUMENT[:size])
            self.assertEqual(self.run_leank("check f cut").returncode, 2)
        if shutil.which("minisat"):
            self.cut_at("reduce pure f", DOCUMENT.index(b"2 -3 0"))
            self.assertEqual(subprocess.run(["minisat", self.room / "cut"], capture_output=True).returncode, 10)

    def test_extend_reads_solvers_and_verify_reads_one_spelling(self):
        self.assertEqual(self.run_leank("extend f d m").returncode, 0)
        self.assertEqual(self.run_leank("verify f m").stderr, b"leank: answer line 1: not an answer\n")
        answer = b"s SATISFIABLE\n" + self.run_leank("extend f d m").stdout
        self.assertEqual(self.run_leank("verify f /dev/stdin", input=answer).stdout, b"accepted\n")

    def test_mus_ends_with_0_where_solve_ends_with_20(self):
        self.assertEqual([self.run_leank(f"{command} s").returncode for command in ("solve", "mus")], [20, 0])

    def test_a_budget_is_told_until_it_is_enough(self):
        self.put(f=formula_text(*pigeons(4)))
        for budget in range(1, 200):
            done = self.run_leank(f"solve f --conflicts {budget}")
            if done.returncode == 20:
                break
            self.assertEqual(done.stderr, b"leank: budget of %d conflicts used\n" % budget)
            self.assertIn(b"c learned %d\n" % budget, done.stdout)
        self.assertEqual(done.returncode, 20)

    def test_a_refused_text_is_read_to_the_end_of_its_piece(self):
        for words in ("report /dev/stdin", "check f /dev/stdin", "extend f d /dev/stdin", "verify f /dev/stdin"):
            self.assertEqual(self.left_in_pipe(words, b"bad\n" * 40000), 160_000 - 65_536, words)
            self.assertEqual(self.left_in_pipe(words, b"c" * 100_000 + b"\nbad\n" + b"c\n" * 40000), 180_005 - 2 * 65_536, words)
        self.assertEqual(self.left_in_pipe("edits f /dev/stdin", b"bad\n" * 40000), 0)

    def left_in_pipe(self, words, text):
        """How many bytes of a refused text are left in the pipe from which it is read."""
        out, into = os.pipe()
        fcntl.fcntl(into, fcntl.F_SETPIPE_SZ, 1 << 20)
        os.write(into, text)
        os.close(into)
        with open(out, "rb") as pipe:
            self.assertEqual(self.run_leank(words, stdin=pipe).returncode, 2)
            return len(pipe.read())

    def test_repeats_count_once_in_edits_and_each_time_in_a_formula(self):
        self.put(f=b"p cnf 1 1\n" + b"1 " * 20_000_000, e=b"a " + b"1 " * 100 + b"0\n")
        self.assertEqual(self.run_leank("report f").returncode, 0)
        self.assertEqual(self.run_leank("edits f e").stdout, b"keep 0\nkeep 1 2 0\n")
        self.put(f=b"p cnf 1 1\n" + b"1 " * 20_000_001)
        self.assertEqual(self.run_leank("report f").stderr, b"leank: formula line 2: past a limit\n")


if __name__ == "__main__":
    asked = CommandLine(__doc__)
    LEANK = asked.program()
    unittest.main(argv=asked.tests(Endings))
