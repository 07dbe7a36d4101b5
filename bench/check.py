#!/usr/bin/env python3
"""Times how `snap build` judges a script of 0.5 and 1 MiB, beside `node --check` on the same file.

Usage, from the root of the repository, once `rt ci` or `rt all verdict` has built the program:

    python3 bench/check.py

The script is one as people write them, which has a tree and is not thin: `snap` cuts it into tokens,
reads its tree and ends with `not built`. Both programs are run on it in turn. The least seconds of each
are printed, the ratio to Node.js (bar: at most 1.0), the most memory that `snap` held at one moment (bar:
at most 128 bytes a byte of the script), and by what the time of `snap` grows as the script doubles.
"""

import os
import tempfile

from beside import RUNS, SNAP, least_beside_node, print_doubling, run
from source import script

BYTES = (524_288, 1_048_576)


def measure(size):
    """The least seconds of `snap` and of Node.js on a script of so many bytes."""
    with tempfile.TemporaryDirectory() as folder:
        with open(os.path.join(folder, "script.js"), "w", encoding="ascii") as file:
            file.write(script(size))
        ours, theirs = [], []
        for _ in range(RUNS):
            ours.append(run([SNAP, "build", "script.js"], folder, b"not built\n", 11))
            theirs.append(run(["node", "--check", "script.js"], folder, b""))
    peak = max(kib for _, _, kib in ours) * 1024
    print(f"script            {size} bytes")
    print(f"peak              {peak} bytes, {peak / size:.1f} a byte of the script (bar: at most 128)")
    return least_beside_node("snap build", ours, theirs)


if __name__ == "__main__":
    print_doubling(measure, BYTES)
