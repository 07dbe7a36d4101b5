#!/usr/bin/env python3
"""Times `snap run ENTRY` on blobs of 10,000 and 20,000 names beside Node.js on snapshots of the same.

Usage, from the root of the repository, once `rt ci` or `rt all verdict` has built the program:

    python3 bench/run.py

It makes both scripts and an entry that prints each name in a temporary folder, builds the blobs, runs
both programs on each in turn, and prints the least seconds of each, the ratio to Node.js, and by what
the time of `snap` grows as the blob and the entry double. Node.js is run as
`node --snapshot-blob node.blob entry.js`: a snapshot without a main function runs the file.
"""

import os
import tempfile

from beside import RUNS, SNAP, least_beside_node, print_doubling, run


def text(i):
    """What the name of this number holds."""
    return f"the text of name {i:06d}"


def script(names):
    """An assignment of 52 bytes to each name."""
    return "".join(f"globalThis.name_{i:06d} = '{text(i)}';\n" for i in range(names))


def entry(names):
    """A print of each name."""
    return "".join(f"console.log(globalThis.name_{i:06d});\n" for i in range(names))


def measure(names):
    """The least seconds of `snap run` on a blob and an entry of so many names."""
    with tempfile.TemporaryDirectory() as folder:
        for name, lines in (("script.js", script(names)), ("entry.js", entry(names))):
            with open(os.path.join(folder, name), "w", encoding="ascii") as file:
                file.write(lines)
        wanted = "".join(f"{text(i)}\n" for i in range(names)).encode()
        node = ["node", "--snapshot-blob", "node.blob"]
        run([SNAP, "build", "script.js"], folder, b"")
        run([*node, "--build-snapshot", "script.js"], folder, b"")
        ours, theirs = [], []
        for _ in range(RUNS):
            ours.append(run([SNAP, "run", "entry.js"], folder, wanted))
            theirs.append(run([*node, "entry.js"], folder, wanted))
        blob = os.path.getsize(os.path.join(folder, "snapshot.blob"))
    print(f"entry             {names} names, {len(entry(names))} bytes, a blob of {blob} bytes")
    return least_beside_node("snap run", ours, theirs)


if __name__ == "__main__":
    print_doubling(measure)
