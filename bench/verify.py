#!/usr/bin/env python3
"""Times `snap verify` on a blob of 2,000,000 strings beside `sha256sum` on the same file.

Usage, from the root of the repository, once `rt ci` or `rt all verdict` has built the program:

    python3 bench/verify.py

It makes the blob in a temporary folder, runs both programs fifteen times in turn, and prints the
median of each, their ratio, and the most memory that `snap` held at one moment.
"""

import hashlib
import os
import statistics
import struct
import subprocess
import sys
import tempfile
import time

RUNS = 15
STRINGS = 2_000_000
ROOT = os.path.dirname(os.path.dirname(os.path.abspath(__file__)))
SNAP = os.path.join(ROOT, "crates", "snap", "out", "snap")


def read_only_section():
    """The strings `property_name_0000000000` and so on, of 24 bytes each, which ascend."""
    length = 24
    ends = struct.pack(f"<{STRINGS}I", *range(length, length * STRINGS + 1, length))
    text = "".join(f"property_name_{i:010d}" for i in range(STRINGS)).encode()
    return struct.pack("<II", STRINGS, 0) + ends + text


def sealed(sections):
    """The container of these sections."""
    end = 52 + 4 * len(sections)
    payload = struct.pack("<I", len(sections))
    for section in sections:
        end += len(section)
        payload += struct.pack("<I", end)
    payload += b"".join(sections)
    header = b"SNAPBLOB" + struct.pack("<II", 1, 48 + len(payload))
    return header + hashlib.sha256(payload).digest() + payload


def run(command, wanted):
    """How many seconds the command takes, and the most KiB that it held."""
    start = time.perf_counter()
    child = subprocess.Popen(command, stdout=subprocess.PIPE)
    printed = child.stdout.read()
    _, status, usage = os.wait4(child.pid, 0)
    seconds = time.perf_counter() - start
    child.returncode = os.waitstatus_to_exitcode(status)
    if child.returncode != 0 or not printed.startswith(wanted):
        sys.exit(f"{command} ended with {child.returncode} and printed {printed!r}")
    return seconds, usage.ru_maxrss


def make(name):
    """Writes the blob into a file."""
    context = bytes([1, 9, 0x10, 0, 7, 0, 0x20, 0, 0, 0, 0, 0])
    blob = sealed([b"\0", read_only_section(), bytes(11), context])
    with open(name, "wb") as file:
        file.write(blob)
    print(hashlib.sha256(blob).hexdigest())


def main():
    if len(sys.argv) == 3 and sys.argv[1] == "--make":
        return make(sys.argv[2])
    with tempfile.TemporaryDirectory() as folder:
        name = os.path.join(folder, "strings.blob")
        # In a process of its own: what a parent holds counts in its children's peaks.
        maker = [sys.executable, os.path.abspath(__file__), "--make", name]
        digest = subprocess.run(maker, stdout=subprocess.PIPE, check=True).stdout.strip()
        size = os.path.getsize(name)
        ours, theirs, peaks = [], [], []
        for _ in range(RUNS):
            seconds, peak = run([SNAP, "verify", name], b"ok %d strings\n" % STRINGS)
            ours.append(seconds)
            peaks.append(peak)
            theirs.append(run(["sha256sum", name], digest)[0])
    mine, yardstick = statistics.median(ours), statistics.median(theirs)
    print(f"blob              {size} bytes, {STRINGS} strings")
    print(f"snap verify       {mine:.3f} s")
    print(f"sha256sum         {yardstick:.3f} s")
    print(f"ratio             {mine / yardstick:.2f} (bar: at most 1.25)")
    over = max(peaks) * 1024 - size
    print(f"peak              {max(peaks)} KiB, {over / 2**20:.1f} MiB over the file (bar: at most 8)")


if __name__ == "__main__":
    main()
