#!/usr/bin/env python3
"""The words of a command line, for the programs of this folder.

`CommandLine(__doc__)` takes the words of the program that has this docstring. With `--help` among them it prints the docstring,
and the program ends with status 0. Its methods take word after word; the last of them is one that says so. A wrong word ends the
program with status 2: what is wrong and the usage, all lines of the docstring that begin as USAGE, stand on standard error. A
file or program that is missing ends it with status 2 too, and one line says so.
"""
import os
import shutil
import signal
import sys

USAGE = "    bench/"
# The program that a release brings.
RELEASED = os.path.join(os.path.dirname(os.path.dirname(os.path.abspath(__file__))), "dist", "leank")


class CommandLine:
    """The words that are left, and the tests that shall follow when all of them are taken."""

    def __init__(self, told):
        self.told, self.left, self.tests_behind = told.strip(), sys.argv[1:], []
        if "--help" in self.left:
            # (a reader of it may stop, as `head` does)
            signal.signal(signal.SIGPIPE, signal.SIG_DFL)
            print(self.told)
            sys.exit(0)

    def fail(self, *lines):
        """Ends the program, which cannot do what it shall."""
        print(f"{os.path.basename(sys.argv[0])}: " + "\n".join(lines), file=sys.stderr)
        sys.exit(2)

    def refuse(self, fault):
        self.fail(fault, *(line for line in self.told.splitlines() if line.startswith(USAGE)))

    def word(self, name, default=None):
        if not self.left:
            return self.refuse(f"no {name}") if default is None else default
        if self.left[0].startswith("-"):
            self.refuse(f"unknown option {self.left[0]}")
        return self.left.pop(0)

    def takes(self, *choices):
        """The next word if it is one of these, or None."""
        return self.left.pop(0) if self.left and self.left[0] in choices else None

    def one(self, name, choices):
        """The next word, which is one of these."""
        word = self.word(name)
        return word if word in choices else self.refuse(f"{word!r} is no {name}; these are: {', '.join(map(repr, choices))}")

    def number(self, name, default=None):
        return self.read(self.word(name, default), name, int)

    def read(self, word, name, kind):
        try:
            return kind(word)
        except ValueError:
            return self.refuse(f"{name} is no number: {word!r}")

    def flag(self, key):
        """Whether this option, which has no value, is among the words."""
        if key not in self.left:
            return False
        self.left.remove(key)
        return True

    def option(self, key, default, kind=int):
        """The value of this option: the word behind it."""
        if key not in self.left:
            return default
        place = self.left.index(key)
        _, *value = self.left[place:place + 2]
        del self.left[place:place + 2]
        return self.read(value[0], key, kind) if value else self.refuse(f"no value of {key}")

    def program(self, name="LEANK", default=None):
        """The path of a program, which is tried when all words are taken."""
        path = os.path.abspath(self.word(name, default))
        self.expect(lambda: os.path.isfile(path) and os.access(path, os.X_OK), f"{path}: no program")
        return path

    def folder(self, name):
        """The path of a folder, in the same way."""
        path = os.path.abspath(self.word(name))
        self.expect(lambda: os.path.isdir(path), f"{path}: no folder")
        return path

    def expect(self, holds, fault):
        self.tests_behind.append((holds, fault))

    def end(self):
        """The words end here."""
        if self.left:
            self.refuse(f"one word too many: {self.left[0]!r}")
        for holds, fault in self.tests_behind:
            if not holds():
                self.fail(fault)

    def some(self, name, choices):
        """The last words, each one of these; all of these if there is none."""
        found = []
        while self.left:
            found.append(self.one(name, choices))
        self.end()
        return found or list(choices)

    def files(self, *names):
        """The bytes of the files that the last words name."""
        paths = [self.word(name) for name in names]
        self.end()
        return [self.bytes_of(path) for path in paths]

    def bytes_of(self, path):
        try:
            with open(path, "rb") as file:
                return file.read()
        except OSError as error:
            return self.fail(f"{path}: {error.strerror}")

    def tests(self, *cases):
        """What unittest takes: its own name, and the last words, the tests `CLASS` or `CLASS.METHOD` of these classes."""
        names = [it.__name__ for it in cases]
        names += [f"{it.__name__}.{method}" for it in cases for method in dir(it) if method.startswith("test_")]
        return [sys.argv[0], *(self.some("TEST", names) if self.left else self.some("TEST", ()))]

    def needs(self, *programs):
        """Ends the program where one of these is not found."""
        missing = [it for it in dict.fromkeys(programs) if not shutil.which(it)]
        if missing:
            self.fail(f"not found: {', '.join(missing)}")


if __name__ == "__main__":
    CommandLine(__doc__).end()
