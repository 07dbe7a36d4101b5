"""What the benches beside Node.js share: timing a command, and printing it beside Node.js."""

import os
import subprocess
import sys
import time

RUNS = 15
NAMES = (10_000, 20_000)
ROOT = os.path.dirname(os.path.dirname(os.path.abspath(__file__)))
SNAP = os.path.join(ROOT, "crates", "snap", "out", "snap")


def run(command, folder, wanted, status=0):
    """How many seconds the command takes in the folder, by the clock and of processors, and its peak in KiB."""
    start = time.perf_counter()
    child = subprocess.Popen(command, cwd=folder, stdout=subprocess.PIPE, stderr=subprocess.DEVNULL)
    printed = child.stdout.read()
    _, ended, usage = os.wait4(child.pid, 0)
    seconds = time.perf_counter() - start
    child.returncode = os.waitstatus_to_exitcode(ended)
    if child.returncode != status or printed != wanted:
        sys.exit(f"{command} ended with {child.returncode} and printed {printed[:200]!r}")
    return seconds, usage.ru_utime + usage.ru_stime, usage.ru_maxrss


def least_beside_node(label, ours, theirs):
    """Prints the least seconds of `snap` and of Node.js with their ratios; those of `snap`."""
    mine, node = (tuple(min(seconds) for seconds in zip(*pairs)) for pairs in (ours, theirs))
    print(f"{label:<18}{mine[0]:.3f} s, {mine[1]:.3f} s of processors")
    print(f"node              {node[0]:.3f} s, {node[1]:.3f} s of processors")
    print(f"ratio             {mine[0] / node[0]:.2f}, {mine[1] / node[1]:.2f} of processors")
    return mine


def print_doubling(measure, sizes=NAMES):
    """Prints by what the least seconds grow as the size of what is measured doubles."""
    single, double = (measure(size) for size in sizes)
    growth = double[1] / single[1]
    print(f"doubling          {double[0] / single[0]:.2f}, {growth:.2f} of processors (bar: at most 2.3)")
