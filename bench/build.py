#!/usr/bin/env python3
"""Times `snap build` on scripts of 10,000 and 20,000 names beside `node --build-snapshot` on the same.

Usage, from the root of the repository, once `rt ci` or `rt all verdict` has built the program:

    python3 bench/build.py

It makes both scripts in a temporary folder, runs both programs on each in turn, and prints the least
seconds of each, the ratio to Node.js, and by what the time of `snap` grows as the script doubles.
"""

import os
import tempfile

from beside import RUNS, SNAP, least_beside_node, print_doubling, run


def script(names):
    """An assignment of 52 bytes to each name, and the print of the last one."""
    lines = [f"globalThis.name_{i:06d} = 'the text of name {i:06d}';\n" for i in range(names)]
    lines.append(f"console.log(globalThis.name_{names - 1:06d});\n")
    return "".join(lines).encode()


def measure(names):
    """The least seconds of `snap` and of Node.js on a script of so many names."""
    with tempfile.TemporaryDirectory() as folder:
        source = script(names)
        with open(os.path.join(folder, "entry.js"), "wb") as file:
            file.write(source)
        wanted = b"the text of name %06d\n" % (names - 1)
        node = ["node", "--snapshot-blob", "node.blob", "--build-snapshot", "entry.js"]
        ours, theirs = [], []
        for _ in range(RUNS):
            ours.append(run([SNAP, "build", "entry.js"], folder, wanted))
            theirs.append(run(node, folder, wanted))
        blob = os.path.getsize(os.path.join(folder, "snapshot.blob"))
    print(f"script            {names} names, {len(source)} bytes, a blob of {blob} bytes")
    return least_beside_node("snap build", ours, theirs)


if __name__ == "__main__":
    print_doubling(measure)
