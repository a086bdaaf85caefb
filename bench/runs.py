#!/usr/bin/env python3
"""Runs of programs: their seconds, memory and status, by turns or alone. And what a program that measures needs around them: a
program that is built of a source of this folder, and a process of its own for what would take memory here."""
import multiprocessing
import os
import resource
import subprocess
import sys
import tempfile
import time
from collections import namedtuple

from command_line import CommandLine

# How often each program runs, and how many seconds of a run are too long for another one.
RUNS = 3
LONG_SECONDS = 5
MOST_BYTES = 10 << 30

# What is run, with the file that its output goes to, the file that it reads as its input, and the statuses that it may have.
Command = namedtuple("Command", "words output given statuses", defaults=(os.devnull, os.devnull, None))
# Seconds of the clock and of the processor, the peak of memory in MB, and the status, which is below 0 of a run that was stopped.
Run = namedtuple("Run", "clock processor memory status")


def limit(most):
    """This process may take so many seconds of the processor, and some memory."""
    resource.setrlimit(resource.RLIMIT_CPU, (most, most + 5))
    resource.setrlimit(resource.RLIMIT_AS, (MOST_BYTES, MOST_BYTES))


def run(command, most=None):
    """A run, with limits if there is a number of seconds. Another status than it may have ends this program."""
    begin = time.monotonic()
    with open(command.output, "wb") as out, open(command.given, "rb") as given:
        process = subprocess.Popen(command.words, stdin=given, stdout=out, stderr=subprocess.DEVNULL,
                                   preexec_fn=(lambda: limit(most)) if most else None)
        _, status, usage = os.wait4(process.pid, 0)
    clock, process.returncode = time.monotonic() - begin, os.waitstatus_to_exitcode(status)
    if command.statuses and process.returncode not in command.statuses:
        sys.exit(f"{' '.join(command.words)}: status {process.returncode}")
    return Run(clock, usage.ru_utime + usage.ru_stime, usage.ru_maxrss / 1024, process.returncode)


def by_turns(commands, most=None, times=RUNS, long=LONG_SECONDS):
    """The least figures of each of some commands, which have names. A run that takes long is the only one. Another status at
    another turn ends this program."""
    found = {name: run(command, most) for name, command in commands.items()}
    for _ in range(times - 1):
        for name, command in commands.items():
            if found[name].clock <= long:
                again = run(command._replace(statuses=(found[name].status,)), most)
                found[name] = Run(*map(min, found[name], again))
    return found


def least(*words, output=os.devnull, status=0, times=RUNS):
    """The least figures of one that has to end with this status."""
    return by_turns({"": Command(words, output, statuses=(status,))}, times=times)[""]


def megabytes(memory):
    """A peak of memory as a text. What this process holds counts for those that it starts, so one that does nothing has the
    least."""
    floor = run(Command(["true"])).memory + 1
    return f"<{floor:.0f}" if memory < floor else f"{memory:,.0f}"


def apart(function, *words):
    """Calls a function in a process of its own, since what this one holds counts as the memory of those that it starts."""
    process = multiprocessing.get_context("fork").Process(target=function, args=words)
    process.start()
    process.join()
    if process.exitcode != 0:
        sys.exit(f"{function.__name__}: status {process.exitcode}")


def built(folder, source, *options):
    """What is built into a folder of a source of this one."""
    program = os.path.join(folder, os.path.splitext(source)[0])
    path = os.path.join(os.path.dirname(os.path.abspath(__file__)), source)
    compiler = ["gcc"] if source.endswith(".c") else ["g++", "-std=c++17"]
    subprocess.run([*compiler, "-O2", "-o", program, path, *options], check=True)
    return program


def size_of(formula):
    """The numbers of variables and clauses that a file states."""
    with open(formula, encoding="utf-8", errors="replace") as lines:
        words = next(line for line in lines if line.startswith("p")).split()
    return int(words[2]), int(words[3])


def kept(name, text):
    """The name of a file in which this text is kept."""
    with tempfile.NamedTemporaryFile("w", prefix=f"{name}-", suffix=".log", delete=False) as file:
        file.write(text)
    return file.name


if __name__ == "__main__":
    CommandLine(__doc__).end()
