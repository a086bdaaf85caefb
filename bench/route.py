#!/usr/bin/env python3
"""How much of the specifications must be read to know what `Headline` and `StatusClaim` say.

    bench/route.py
    bench/route.py QUESTION [--text]

The first prints the number of lines for each question; the second, for one of them, the files to read in their order, with the
lines in each, and with `--text` the definitions themselves. If a field of a record is in no question, the status is 1.
`Headline` and `StatusClaim` (crates/workbench/specs) are the claim of leank, in a record for results and one for statuses.
Each question needs some fields of one of them, and the definitions that these cite, down to the kit's. A definition counts
with its comment; `use` lines and blank lines do not. `IsRun` need not be opened: the records speak of all runs of which it is
true, and `run` ensures it. Other definitions that a question leaves shut are opened by another one. A type of the sources
counts as it is declared there, without derives. Definitions of the kit (std) do not count.
"""
import os
import re
import sys

from command_line import CommandLine
from imports import brought, crates

TOP = os.path.dirname(os.path.dirname(os.path.abspath(__file__)))
SHUT = {"IsRun"}
# what a certificate is: `certificates` opens it, and `certify` for what `reduce` writes
CERTIFICATE = {"Accepts", "IsSound", "HasProgress", "text_of", "DoneDocument", "OpenDocument", "Document", "WritesReduction"}
# which texts are a document, a model, an answer or edits: the questions of the commands open it
GRAMMARS = {"Document", "is_in_form", "text_of", "model_of", "Answer", "IsAnswerText", "Edit", "IsEdits"}
# what a search that stopped shows: `searches` opens it
SEARCHES = {"WantsMore", "CanBeFinished", "StopsIn", "MayStopAt"}
# which check is the first that fails, and which fault of an input: `certificates`, `verify` and the pages of the readers
CHECKS = {"first_failure", "first_failure_to_extend", "first_failure_of_answer"}
FAULTS = {"refusal_of", "StopsAt", "StopsAs", "IsFaultyAt", "IsTextOfAnswer", "fault_text"}
# of each question the record, its fields, and what may stay shut
QUESTIONS = {
    "reduce": ("Headline", ["reduce"], CERTIFICATE),
    "check": ("Headline", ["check"], CERTIFICATE),
    "certificates": ("Headline", ["check"], set()),
    "extend": ("Headline", ["extend"], CERTIFICATE),
    "protect": ("Headline", ["protects", "carries"], CERTIFICATE),
    "report": ("Headline", ["report"], CERTIFICATE),
    "solve": ("Headline", ["solve_10", "solve_20"], CERTIFICATE),
    "verify": ("Headline", ["verify"], CERTIFICATE),
    "mus": ("Headline", ["mus_0", "mus_10"], CERTIFICATE),
    "deficiency": ("Headline", ["deficiency"], CERTIFICATE),
    "edits": ("Headline", ["edits"], CERTIFICATE),
    "agreement": ("Headline", ["accepts", "verifies"], CERTIFICATE),
    "statuses": ("Headline", ["obeys", "refuses", "answers", "keeps", "solves", "extracts"], CERTIFICATE | GRAMMARS),
    "endings": ("StatusClaim", ["every_status", "results_only", "results_come"], CERTIFICATE | GRAMMARS),
    "linear": ("StatusClaim", ["linear_exactly"], CERTIFICATE),
    "verdicts": ("StatusClaim", ["check_exactly", "verify_exactly"], CERTIFICATE | GRAMMARS | CHECKS),
    "extended": ("StatusClaim", ["extend_exactly", "extend_serves"], CERTIFICATE | GRAMMARS | CHECKS | {"IsReduced"}),
    "stopped": ("StatusClaim", ["reduce_5", "solve_5", "mus_5"], CERTIFICATE | SEARCHES),
    "searches": ("StatusClaim", ["reduce_5", "solve_5", "mus_5", "solve_free"], CERTIFICATE),
    "demo": ("StatusClaim", ["demo"], CERTIFICATE | CHECKS | SEARCHES),
    "certify": ("StatusClaim", ["certifies"], CERTIFICATE - {"WritesReduction"}),
    "trimmed": ("StatusClaim", ["reduce_trims", "solve_trims", "mus_trims"], CERTIFICATE),
    "failed": (
        "StatusClaim",
        ["refuses_words", "words_refused", "shelf_failed", "sink_failed", "cuts_short"],
        CERTIFICATE | GRAMMARS | {"Allows"},
    ),
    "said": (
        "StatusClaim",
        ["says_nothing", "writes_nothing", "says_word", "says_input", "says_fault", "says_memory"],
        CERTIFICATE | GRAMMARS | FAULTS,
    ),
}
# all fields of a record, and of both, with nothing shut but `IsRun`
ALL = {"Headline": ["Headline"], "StatusClaim": ["StatusClaim"], "all": ["Headline", "StatusClaim"]}
NAME = r"[A-Za-z_α-ωΑ-Ω][A-Za-z0-9_α-ωΑ-Ω]*"
HEAD = re.compile(rf"(?:(?:pattern|unfoldable|abbrev|pub) )*(?:(?:record|data) )?({NAME})\b")


class Block:
    """A definition: where it stands, and its lines with the comment above it."""

    def __init__(self, where, file, at, lines):
        self.where, self.file, self.at, self.lines = where, file, at, lines

    def words(self, lines=None):
        text = "\n".join(line.split("-- ")[0] for line in lines or self.lines)
        text = re.sub(r'"[^"]*"', "", text)
        return re.findall(rf"{NAME}(?:\.{NAME})?", text)


class Module:
    """A file of definitions, with what its `use` lines bring in."""

    def __init__(self, crate, path, file):
        self.crate, self.path, self.file = crate, path, file
        self.blocks, self.names, self.aliases = {}, {}, {}
        with open(file, encoding="utf-8") as it:
            self.read(it.read().split("\n"))

    def bring(self, line):
        for path, name, own in brought(line):
            if path[0] != "Rattle" or path[1] in ("std", "core") or path[2] != "specs":
                continue
            if name is None:
                self.aliases[own] = (path[1], path[3:])
            else:
                self.names[own] = (path[1], path[3:], name)

    def read(self, lines):
        at, comment = 0, []
        while at < len(lines):
            line = lines[at]
            if re.match(r"(pub )?use ", line):
                self.bring(line)
                comment = []
            elif line.startswith("--"):
                comment.append(line)
            elif not line or line.startswith("pub mod "):
                comment = []
            else:
                at = self.define(lines, at, comment)
                comment = []
                continue
            at += 1

    def define(self, lines, at, comment):
        """A definition goes on to the next line that is empty, unless an indented one stands behind it."""
        name, start, body = HEAD.match(lines[at]).group(1), at + 1, list(comment)
        while at < len(lines):
            behind = next((line for line in lines[at:] if line), "")
            if not lines[at] and not behind.startswith("  "):
                break
            if lines[at]:
                body.append(lines[at])
            at += 1
        self.blocks[name] = Block((self.crate, self.path, name), self.file, start, body)
        return at


class Sources:
    """The types that the sources of a crate declare."""

    def __init__(self, crate):
        self.blocks, self.imports = {}, {}
        top = f"{TOP}/crates/{crate}/src"
        for folder, _, files in os.walk(top):
            for file in sorted(files):
                self.read(crate, f"{folder}/{file}")

    def read(self, crate, file):
        with open(file, encoding="utf-8") as it:
            lines = it.read().split("\n")
        imports = {}
        for found in re.finditer(r"^use (\w+)::([^;]*);", "\n".join(lines), re.M):
            for name in re.findall(r"\b[A-Z]\w*", found.group(2)):
                imports[name] = found.group(1)
        comment = []
        for at, line in enumerate(lines):
            found = re.match(r"pub(?:\([a-z]+\))? (?:struct|enum) (\w+)", line)
            if found:
                end = at if line.endswith((";", "}")) else next(k for k in range(at, len(lines)) if lines[k] == "}")
                body = comment + [own for own in lines[at : end + 1] if own]
                self.blocks[found.group(1)] = Block((crate, ("declared",), found.group(1)), file, at + 1, body)
                self.imports[found.group(1)] = imports
            comment = comment + [line] if line.startswith("///") else comment if line.startswith("#[") else []


class House:
    def __init__(self):
        self.order, self.modules, self.sources = crates(), {}, {}
        for crate in self.order:
            top = f"{TOP}/crates/{crate}/specs"
            for folder, _, files in os.walk(top):
                for file in files:
                    path = tuple(os.path.relpath(f"{folder}/{file}", top)[: -len(".antt")].split("/"))
                    self.modules[crate, path] = Module(crate, path, f"{folder}/{file}")

    def declared(self, crate, name):
        if crate not in self.sources:
            self.sources[crate] = Sources(crate)
        return self.sources[crate].blocks.get(name)

    def named(self, crate, path, name):
        """The definition of a name of a module, or the type of the sources that has it."""
        if path[0] == "declared":
            kind = path[2] if len(path) > 2 else name
            return self.declared(crate, kind)
        module = self.modules.get((crate, path))
        if module is None and (crate, ("Lib",)) in self.modules:
            # a file of a lower crate that this one hands out
            handed = self.modules[crate, ("Lib",)].aliases.get(path[0])
            return handed and self.named(*handed, name)
        if module and name not in module.blocks and name in module.names:
            # a name that this one passes on
            return self.named(*module.names[name])
        return module and module.blocks.get(name)

    def cited(self, block, lines=None):
        """The definitions that a definition cites, in the order of their names there."""
        crate, path, _ = block.where
        if path == ("declared",):
            imports = self.sources[crate].imports[block.where[2]]
            code = [line for line in block.lines if not line.strip().startswith("///")]
            is_enum = any(" enum " in line for line in code)
            # the first word of a line in an enum is the variant's
            text = " ".join(re.sub(r"^    [A-Z]\w*", "", line) if is_enum else line for line in code)
            for name in re.findall(r"\b[A-Z]\w*", text):
                other = imports.get(name, "crate")
                if other in ("crate", *self.order):
                    yield self.declared(crate if other == "crate" else other, name)
            return
        module = self.modules[crate, path]
        for word in block.words(lines):
            first, _, second = word.partition(".")
            if second and first in module.aliases:
                yield self.named(*module.aliases[first], second)
            elif first in module.blocks:
                yield module.blocks[first]
            elif first in module.names:
                yield self.named(*module.names[first])

    def closure(self, claims, shut):
        """All definitions that these claims need, each behind those that it cites."""
        order, seen = [], {claim.where for claim in claims}

        def walk(block):
            if block is None or block.where in seen or block.where[2] in shut:
                return
            seen.add(block.where)
            for other in self.cited(block):
                walk(other)
            order.append(block)

        for claim in claims:
            for other in self.cited(claim, claim.lines):
                walk(other)
        return order

    def claim(self, record, fields):
        """The record with these fields alone."""
        whole = self.modules["workbench", (record,)].blocks[record]
        return Block(whole.where, whole.file, whole.at, fields_of(whole.lines, fields))


def fields_of(lines, fields):
    """The head of the record, and of its fields the wanted ones with the comments above them."""
    shown, comment, wanted = [lines[0]], [], False
    for line in lines[1:]:
        if line.startswith("  --"):
            comment.append(line)
            continue
        found = re.match(rf"  pub ({NAME}) :", line)
        if found:
            wanted = found.group(1) in fields
        if wanted:
            shown += comment + [line]
            comment = []
    return shown


def head_of(file):
    with open(file, encoding="utf-8") as it:
        return next(at for at, line in enumerate(it) if not line.startswith("--"))


def needed(house, question):
    """The definitions of a question, and the records with its fields."""
    if question in ALL:
        records, shut = ALL[question], SHUT
        fields = {record: [name for r, names, _ in QUESTIONS.values() if r == record for name in names] for record in records}
    else:
        record, names, more = QUESTIONS[question]
        records, fields, shut = [record], {record: names}, SHUT | more
    claims = [house.claim(record, fields[record]) for record in records]
    return house.closure(claims, shut), claims


def files_of(house, question):
    order, claims = needed(house, question)
    lines, blocks = {}, {}
    for block in [*order, *claims]:
        lines[block.file] = lines.get(block.file, 0) + len(block.lines)
        blocks.setdefault(block.file, []).append(block.where[2])
    for claim in claims:
        lines[claim.file] += head_of(claim.file)
    files = in_order(house, [*order, *claims], lines)
    return [(file, lines[file], blocks[file]) for file in files]


def in_order(house, blocks, files):
    """The files, each behind those that it cites; of several that may come next, the one of the lowest crate."""
    place = {crate: at for at, crate in enumerate(house.order)}
    crate_of = lambda file: os.path.relpath(file, f"{TOP}/crates").split("/")[0]
    below = {file: set() for file in files}
    for block in blocks:
        others = house.cited(block, block.lines)
        below[block.file] |= {other.file for other in others if other and other.file in below and other.file != block.file}
    left, ordered = list(files), []
    while left:
        ready = [file for file in left if below[file] <= set(ordered)] or left
        ordered.append(min(ready, key=lambda file: (place[crate_of(file)], left.index(file))))
        left.remove(ordered[-1])
    return ordered


def show(house, question):
    """Prints the definitions of a question, file by file."""
    files = files_of(house, question)
    order, claims = needed(house, question)
    for file, _, _ in files:
        print(f"\n==== {os.path.relpath(file, TOP)}")
        for block in [*order, *claims]:
            if block.file == file:
                print("\n" + "\n".join(block.lines))


def forgotten(house):
    """The fields that no question has, and those of questions that no record has."""
    asked = {(record, name) for record, names, _ in QUESTIONS.values() for name in names}
    there = set()
    for record in ALL["all"]:
        lines = house.modules["workbench", (record,)].blocks[record].lines
        there |= {(record, found.group(1)) for line in lines if (found := re.match(rf"  pub ({NAME}) :", line))}
    return sorted(f"{record}.{name}" for record, name in asked ^ there)


def main():
    words, questions = CommandLine(__doc__), [*QUESTIONS, *ALL]
    is_text = words.flag("--text")
    question = words.one("QUESTION", questions) if words.left or is_text else None
    words.end()
    house = House()
    lacking = forgotten(house)
    if lacking:
        print(f"route.py: QUESTIONS and the records differ in {', '.join(lacking)}", file=sys.stderr)
        return 1
    if question is None:
        for name in questions:
            files = files_of(house, name)
            print(f"{sum(count for _, count, _ in files):5} lines in {len(files):2} files  {name}")
        return 0
    if is_text:
        show(house, question)
        return 0
    files = files_of(house, question)
    for file, count, names in files:
        print(f"{count:5}  {os.path.relpath(file, TOP)}: {', '.join(names)}")
    print(f"{sum(count for _, count, _ in files):5}  all")
    return 0


if __name__ == "__main__":
    sys.exit(main())
