#!/usr/bin/env python3
"""The names that crates export and no other crate names, found for bench/house.py by reading the texts of the crates alone."""
import re

from command_line import CommandLine
from imports import flattened

# A comment, and what only proofs see.
UNSEEN = re.compile(r"//.*|ghost use [^;]*;")
EXPORT = re.compile(r"^pub use ((?:\w+::)+)(?:(\w+)|\{([^}]*)\});", re.M)
# A path that begins with the name of a crate, and what it ends with: one name, or several in braces.
PATH = re.compile(r"(?<![\w:])(\w+)::(?:\w+::)*(?:(\w+)|\{([^}]*)\})")
# A type of a crate, named by contracts, definitions or lemmas.
DECLARED = re.compile(r"Rattle\.(\w+)\.specs\.declared\.([\w.]+)")
# What a public function shows before its clauses, and a public field.
SHOWN = re.compile(r"pub fn [^{;]*|pub \w+: [^\n]*")


def names_in(one, several):
    return [one] if one else [name.split()[0] for name in several.split(",") if name.strip()]


def exports_of(texts):
    """For each crate and each name that it exports the crate, or the module of its own, from which it has the name."""
    return {
        (crate, name): path.split("::")[0]
        for crate, text in texts.items()
        for path, one, several in EXPORT.findall(text)
        for name in names_in(one, several)
    }


def way(exports, crate, name):
    """The crates that pass a name on, from this one to the one that declares it."""
    while (crate, name) in exports:
        yield crate
        if exports[crate, name] == crate:
            return
        crate = exports[crate, name]


def named(exports, texts):
    """What crates name of others, in each crate that passes it on."""
    return {
        (place, name)
        for crate, text in texts.items()
        for other, one, several in PATH.findall(EXPORT.sub("", text))
        if other != crate
        for name in names_in(one, several)
        for place in way(exports, other, name)
    }


def unnamed(codes, proofs):
    """The exports that no other crate names, by the code of each crate, and by its definitions and lemmas. A law is for readers. A type
    may also be named by contracts, or be what a public function or a public field shows."""
    texts = {crate: UNSEEN.sub("", code) for crate, code in codes.items()}
    exports = exports_of(texts)
    seen = named(exports, texts)
    for crate in codes:
        for other, path in DECLARED.findall(flattened(codes[crate] + proofs[crate])):
            seen.update((other, name) for name in path.split(".") if other != crate)
    shown = {crate: set(re.findall(r"\w+", " ".join(SHOWN.findall(text)))) for crate, text in texts.items()}
    for crate, name in sorted(exports.keys() - seen):
        *_, origin = way(exports, crate, name)
        if exports[origin, name] != "laws" and not (name[0].isupper() and name in shown[origin]):
            yield crate, name


if __name__ == "__main__":
    CommandLine(__doc__).end()
