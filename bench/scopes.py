#!/usr/bin/env python3
"""Times how `snap build` judges a script of nested functions with many names, beside reading its tree alone.

Usage, from the root of the repository, once `rt ci` or `rt all verdict` has built the program:

    python3 bench/scopes.py

The script has 0.5 and 1 MiB, a tree without early errors, and is not thin: `snap` reads its tree, finds its
scopes and the place of each name that a node reads, writes or declares, and ends with `not built`. The same
script that declares at its end a name twice is refused for that once its whole tree is read and numbered, since
the names of the script are looked at before any other scope. Both are run in turn. The least seconds of each are
printed, the ratio of the two (bar: at most 1.5), and by what the time grows as the script doubles.
"""

import os
import tempfile

from beside import RUNS, SNAP, print_doubling, run

BYTES = (524_288, 1_048_576)
LEVELS = 20


def nested(number, level):
    """A function of many names, with such functions in it down to the last level."""
    if level == LEVELS:
        return f"return first{number} + third{number};\n"
    names = ", ".join(f"{word}{number}_{level}" for word in ("left", "right", "above", "below"))
    lets = ", ".join(f"name{number}_{level}_{i} = {i}" for i in range(8))
    return (
        f"function inner{number}_{level}({names}) {{\n"
        f"let {lets};\n"
        f"const kept{number}_{level} = name{number}_{level}_0 + left{number}_{level};\n"
        f"for (let i = 0; i < kept{number}_{level}; i++) {{ const twice = i * 2; name{number}_{level}_1 += twice; }}\n"
        f"{nested(number, level + 1)}}}\n"
    )


def script(size, last):
    """A script of exactly so many bytes that ends so."""
    parts, left, number = [], size, 0
    while left > 10_000:
        part = f"function outer{number}(first{number}, second{number}, third{number}) {{\n{nested(number, 0)}}}\n"
        parts.append(part)
        left -= len(part)
        number += 1
    parts.append("//" + "-" * (left - 3 - len(last)) + "\n" + last)
    return "".join(parts)


def measure(size):
    """The least seconds of `snap` on a script of so many bytes."""
    with tempfile.TemporaryDirectory() as folder:
        for name, last in (("right.js", "let a;let b;"), ("twice.js", "let a;let a;")):
            with open(os.path.join(folder, name), "w", encoding="ascii") as file:
                file.write(script(size, last))
        refused = f"source refused: twice.js Duplicate at {size - 2}\n".encode()
        judged, read = [], []
        for _ in range(RUNS):
            judged.append(run([SNAP, "build", "right.js"], folder, b"not built\n", 11))
            read.append(run([SNAP, "build", "twice.js"], folder, refused, 3))
    whole, alone = (tuple(min(seconds) for seconds in zip(*runs)) for runs in (judged, read))
    print(f"script            {size} bytes")
    print(f"judged            {whole[0]:.3f} s, {whole[1]:.3f} s of processors, {whole[2] * 1024 / size:.1f} bytes a byte")
    print(f"read alone        {alone[0]:.3f} s, {alone[1]:.3f} s of processors, {alone[2] * 1024 / size:.1f} bytes a byte")
    print(f"ratio             {whole[0] / alone[0]:.2f}, {whole[1] / alone[1]:.2f} of processors (bar: at most 1.5)")
    return whole


if __name__ == "__main__":
    print_doubling(measure, BYTES)
