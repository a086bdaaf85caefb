#!/usr/bin/env python3
"""Writes the imports of definitions and lemmas in one form: a line has what a file imports of one library.

    bench/imports.py [CRATE..]
    bench/imports.py --check [CRATE..]

The first rewrites the files of these crates, or of all. The second writes nothing: it prints each line that is not in the form,
and its status is 1 if there is one. If a check prints a `use` line that a file lacks, add it below the others, and run the first.

The form is for `use` in .antt files and for `ghost use` in .rt files:

    use Rattle.std.specs.Prelude.{◌≡◌, ℕ}
    use Rattle.lk_model.{specs.{Lists.{among}, Formulas.Literal.{contains, is_literal}}, proofs.Booleans.{and_true}}

- Lines of one library that stand in a row, with nothing but other imports between them, become one, in the place of the first.
- What several paths begin with stands once. Else names and modules keep their order.
- Names stand in the braces of their module, one alone too. So `Literal.{` finds where names of that module are imported.
- A line longer than WIDTHS says goes on in a second one of the same library. A module is in one of them if it has room there.
- Libraries have lines of their own: `rt ci` refuses an operator of std in a line that does not begin with `use Rattle.std.`.
- A module (`use .. as goal`) cannot stand in braces, so it keeps its line. So does what a file passes on (`pub use`).
"""
import os
import re
import sys

from command_line import CommandLine

TOP = os.path.dirname(os.path.dirname(os.path.abspath(__file__)))
WIDTHS = {".antt": 400, ".rt": 120}
# An import: its indentation and marks, its path, and either the list in its braces or the other name of a module.
USE = re.compile(
    r"(?P<head> *(?P<marks>(?:pub |unfoldable |ghost )*)use )"
    r"(?P<path>[^\s{};:]+?)(?:\.\{(?P<list>.*)\}| as (?P<own>\S+))?(?P<end>;?)"
)


def entries(text):
    """The parts of a list between its commas, but for those within inner braces."""
    depth, begin = 0, 0
    for at, sign in enumerate(text):
        depth += (sign == "{") - (sign == "}")
        if sign == "," and not depth:
            yield text[begin:at].strip()
            begin = at + 1
    yield text[begin:].strip()


def listed(path, text):
    """The names of a list behind a path, each with its module, a tuple of words, and with its `as`."""
    for entry in entries(text):
        below, brace, inner = entry.partition(".{")
        if brace:
            yield from listed((*path, *below.split(".")), inner[:-1])
        else:
            name, *own = entry.split(" as ")
            *further, name = name.split(".")
            yield (*path, *further), " as ".join([name, *own])


def names_of(found):
    return listed(tuple(found["path"].split(".")), found["list"])


def brought(line):
    """The module, the name and its name here of each thing that an import brings. Of a module itself the name is None."""
    found = USE.fullmatch(line)
    if found and found["list"] is None:
        path = tuple(found["path"].split("."))
        yield path, None, found["own"] or path[-1]
    elif found:
        for module, name in names_of(found):
            name, _, own = name.partition(" as ")
            yield module, name, own or name


def flattened(text):
    """The same text with a line for each name that is imported, in which its whole path stands."""
    lines = []
    for line in text.split("\n"):
        found = USE.fullmatch(line)
        if found and found["list"] is not None:
            lines += [f"{found['head']}{'.'.join(module)}.{{{name}}}{found['end']}" for module, name in names_of(found)]
        else:
            lines.append(line)
    return "\n".join(lines)


class Place:
    """What is imported from below a part of a path: names, and further parts."""

    def __init__(self, names=()):
        self.names, self.below = [], {}
        for module, name in names:
            self.add(module, name)

    def add(self, module, name):
        if module:
            self.below.setdefault(module[0], Place()).add(module[1:], name)
        elif name not in self.names:
            self.names.append(name)

    def text(self):
        """What stands behind the part and its dot."""
        below = [f"{part}.{place.text()}" for part, place in self.below.items()]
        return below[0] if len(below) == 1 and not self.names else f"{{{', '.join(self.names + below)}}}"

    def modules(self, path=()):
        """For each module its names, with it, in the order of the text."""
        if self.names:
            yield [(path, name) for name in self.names]
        for part, place in self.below.items():
            yield from place.modules((*path, part))


def filled(names, shown, width):
    """These names of one library as the texts of lines, none of which is too long if a name for itself is not."""
    fits = lambda some: len(shown(some)) <= width
    lines = [[]]
    for module in Place(names).modules():
        for part in [module] if fits(module) else [[name] for name in module]:
            if lines[-1] and not fits(lines[-1] + part):
                lines.append([])
            lines[-1] += part
    return [shown(line) for line in lines]


def merged(run, width):
    """The lines of a row of imports, in the form."""
    head, end, libraries, rows = run[0]["head"], run[0]["end"], {}, []
    for found in run:
        if found["list"] is None or "pub" in found["marks"]:
            rows.append(found[0])
            continue
        for module, name in names_of(found):
            at = 2 if module[0] == "Rattle" else 1
            library = ".".join(module[:at])
            if library not in libraries:
                rows.append(library)
            libraries.setdefault(library, []).append((module[at:], name))
    for row in rows:
        shown = lambda names: f"{head}{row}.{Place(names).text()}{end}"
        yield from filled(libraries[row], shown, width) if row in libraries else [row]


def formed(text, ending):
    """A file in the form."""
    lines, run = [], []
    for line in [*text.split("\n"), None]:
        found = line is not None and USE.fullmatch(line)
        if found and ending == ".rt" and "ghost" not in found["marks"]:
            found = None
        if run and not (found and found["head"] == run[0]["head"]):
            lines += merged(run, WIDTHS[ending])
            run = []
        if found:
            run.append(found)
        elif line is not None:
            lines.append(line)
    return "\n".join(lines)


def files_of(crate):
    for folder in ("specs", "proofs", "src"):
        for place, _, names in sorted(os.walk(os.path.join(TOP, "crates", crate, folder))):
            yield from (os.path.join(place, name) for name in sorted(names) if name.endswith(tuple(WIDTHS)))


def crates():
    with open(os.path.join(TOP, "crates.txt"), encoding="utf-8") as it:
        return [line.split(":")[0].split()[0] for line in it if ":" in line and not line.startswith("#")]


def imports(text):
    return {it for line in text.split("\n") for it in brought(line)}


def differing(names):
    """The files of these crates that are not in the form, each with its text and with that in the form."""
    for file in (file for crate in names for file in files_of(crate)):
        ending = os.path.splitext(file)[1]
        with open(file, encoding="utf-8") as it:
            text = it.read()
        new = formed(text, ending)
        if imports(new) != imports(text) or formed(new, ending) != new:
            raise AssertionError(f"{file}: a fault of imports.py, whose lines would import something else")
        if new != text:
            yield file, text, new


def main():
    words = CommandLine(__doc__)
    is_check = words.flag("--check")
    count, fewer = 0, 0
    for file, text, new in differing(words.some("CRATE", crates())):
        count, fewer = count + 1, fewer + text.count("\n") - new.count("\n")
        if is_check:
            right = set(new.split("\n"))
            print("\n".join(f"{os.path.relpath(file, TOP)}: {line}" for line in text.split("\n") if line not in right))
        else:
            with open(file, "w", encoding="utf-8") as out:
                out.write(new)
    print(f"{count} files {'are not in the form, which has' if is_check else 'written, with'} {fewer} lines fewer")
    return 1 if is_check and count else 0


if __name__ == "__main__":
    sys.exit(main())
