#!/usr/bin/env python3
"""Prints the pages that a reader of the top call has to believe.

Usage, from the root of the repository:

    python3 bench/believed.py

They are the pages of `specs/` from which the clauses of `snap_serial` and of the traits that bound it name something,
and those that such pages import, over and over, where they are of this repository. One page a line, crate by crate in
the order of `crates.txt`. Behind them, in the same order, stand the sources of the traits, types and constants that
these clauses and pages name. Imports of std and of the kit's crates are not followed. docs/MAP.md has the pages in the
order in which they are read.
"""

import os
import re

ROOT = os.path.dirname(os.path.dirname(os.path.abspath(__file__)))
TOP = ("snap_commands", "src/serial.rt", "snap_serial")
IMPORT = re.compile(r"^\s*(?:pub |ghost )*use Rattle\.(\w+)\.specs\.([\w.]+?)(?:\.\{(.*)\}|\s+as\s+(\w+))?;?$", re.M)


def crates():
    """The names of the crates, in order."""
    with open(os.path.join(ROOT, "crates.txt"), encoding="utf-8") as file:
        return [line.split(":")[0].split()[0] for line in file if line.strip() and not line.startswith("#")]


def text_of(crate, name):
    """What a file of a crate holds."""
    with open(os.path.join(ROOT, "crates", crate, name), encoding="utf-8") as file:
        return file.read()


def exists(crate, name):
    """Whether a crate has the file."""
    return os.path.isfile(os.path.join(ROOT, "crates", crate, name))


def imports(text):
    """The imports of a file: crate, path, and the names by which the file knows what it imports."""
    for crate, path, listed, alias in IMPORT.findall(text):
        if listed:
            names = [item.split(" as ")[-1].strip() for item in listed.split(",")]
        else:
            names = [alias or path.split(".")[-1]]
        yield crate, path, names


def page_of(crate, path):
    """The file that an import is from: a page, or the source of a type, a constant or a contract."""
    parts = path.split(".")
    folder, end = ("src", ".rt") if parts[0] in ("declared", "contracts") else ("specs", ".antt")
    parts = parts[1:] if folder == "src" else parts
    for count in range(len(parts), 0, -1):
        name = f"{folder}/{'/'.join(parts[:count])}{end}"
        if exists(crate, name):
            return crate, name
    return crate, "src/lib.rt"


def is_named(name, clauses):
    """Whether clauses name it: an operator by its signs, all else as a word of its own."""
    if "◌" in name:
        return all(sign in clauses for sign in name.split("◌") if sign)
    return re.search(rf"(?<![\w.]){re.escape(name)}(?![\w])", clauses) is not None


def named_in(text, clauses):
    """The files from which some clauses of a source name something."""
    for crate, path, names in imports(text):
        if any(is_named(name, clauses) for name in names):
            yield page_of(crate, path)


def head_of(text, name):
    """The signature and the clauses of a function."""
    start = text.index(f"pub fn {name}")
    return text[start : text.index("\n{", start)]


def traits_of(text, head):
    """The sources of the traits of this repository that bound a function."""
    for bound in re.findall(r"\w+: (\w+)", head[: head.index("(")]):
        for crate, listed in re.findall(r"^use (\w+)::\{?([\w, ]+)\}?;$", text, re.M):
            if bound not in listed.split(", "):
                continue
            folder = os.path.join(ROOT, "crates", crate, "src")
            for name in sorted(os.listdir(folder)):
                if name.endswith(".rt") and f"pub trait {bound}" in text_of(crate, f"src/{name}"):
                    yield crate, f"src/{name}"


def believed():
    """The pages and the sources, all that is reached from the top call."""
    crate, name, call = TOP
    text = text_of(crate, name)
    head = head_of(text, call)
    found = set(named_in(text, head))
    for trait in traits_of(text, head):
        found.add(trait)
        source = text_of(*trait)
        found.update(named_in(source, source[source.index("pub trait ") :]))
    own, left = set(crates()), list(found)
    while left:
        page = left.pop()
        if page[0] not in own or not page[1].startswith("specs/"):
            continue
        for crate, path, _ in imports(text_of(*page)):
            reached = page_of(crate, path)
            if crate in own and reached not in found:
                found.add(reached)
                left.append(reached)
    return [page for page in found if page[0] in own]


def main():
    order = {crate: place for place, crate in enumerate(crates())}
    files = sorted(believed(), key=lambda page: (order[page[0]], page[1]))
    for folder in ("specs/", "src/"):
        for crate, name in files:
            if name.startswith(folder):
                print(f"crates/{crate}/{name}")


if __name__ == "__main__":
    main()
