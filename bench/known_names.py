#!/usr/bin/env python3
"""Measures reads of a property by a name whose key is known, beside mujs where it is installed.

Usage, from the root of the repository, once `rt ci` or `rt test` in the crate's folder has built the tests of `heap_rows`:

    python3 bench/known_names.py [TIMES]

One test reads the last of three properties of a plain object once, the other a million times; both make the store, the
object and the name. Each runs TIMES times (fifteen where none is given), in turn, and once more behind a few lines of C
(`gcc` makes a library of them) that count the requests for memory. Printed are the difference of the least times for each
further read, and the difference of the requests, beside the bars; the status is 1 where one is missed. The yardstick,
`mujs`, reads the same property of the same object, in a loop less the same loop without the read.
"""

import os
import shutil
import subprocess
import sys
import tempfile
import time

COUNTER = r"""
#define _GNU_SOURCE
#include <dlfcn.h>
#include <stdio.h>

static long asked;
static void *(*next_malloc)(size_t), *(*next_realloc)(void *, size_t);

static void count(void) {
    if (!next_malloc) {
        next_malloc = dlsym(RTLD_NEXT, "malloc");
        next_realloc = dlsym(RTLD_NEXT, "realloc");
    }
    asked++;
}

void *malloc(size_t bytes) { count(); return next_malloc(bytes); }
void *realloc(void *old, size_t bytes) { count(); return next_realloc(old, bytes); }

__attribute__((destructor)) static void tell(void) { dprintf(2, "requests %ld\n", asked); }
"""

READS = 1_000_000
BAR = 30.0
ONCE = "tests::access::known::reads_a_known_name_once"
OFTEN = "tests::access::known::reads_a_known_name_many_times"
OBJECT = "var o = {}; o.a = 1; o.c = 3; o.b = 2; var t = 0; var i;"
LOOPS = {"empty": "t = t + 2;", "read": "t = t + o.b;"}


def seconds(command):
    """How many seconds a command takes by the clock."""
    start = time.perf_counter()
    subprocess.run(command, capture_output=True, check=True)
    return time.perf_counter() - start


def further_read(less, more, times):
    """The nanoseconds of each further read, by the clock: the least of the one command less that of the other."""
    pairs = [(seconds(less), seconds(more)) for _ in range(times)]
    least, most = (min(column) for column in zip(*pairs))
    return (most - least) / (READS - 1) * 1e9


def requests(program, library, test):
    """How many requests for memory a test makes."""
    environment = {**os.environ, "LD_PRELOAD": library}
    done = subprocess.run([program, test], env=environment, capture_output=True, text=True, check=True)
    return int(done.stderr.split("requests ")[1].split()[0])


def yardstick(folder, times):
    """The nanoseconds of a read in mujs."""
    for name, body in LOOPS.items():
        with open(os.path.join(folder, name + ".js"), "w", encoding="ascii") as file:
            file.write(f"{OBJECT} for (i = 0; i < {READS}; i++) {{ {body} }} print(t);\n")
    empty, read = (["mujs", os.path.join(folder, name + ".js")] for name in LOOPS)
    return further_read(empty, read, times)


def main():
    """Measures both tests, and mujs."""
    if len(sys.argv) not in (1, 2):
        sys.exit(__doc__)
    times = int((sys.argv[1:] + ["15"])[0])
    program = os.path.abspath("crates/heap_rows/out/heap_rows_tests")
    with tempfile.TemporaryDirectory() as folder:
        source, library = os.path.join(folder, "counter.c"), os.path.join(folder, "counter.so")
        with open(source, "w", encoding="ascii") as file:
            file.write(COUNTER)
        subprocess.run(["gcc", "-O1", "-shared", "-fPIC", "-o", library, source], check=True)
        read = further_read([program, ONCE], [program, OFTEN], times)
        more = requests(program, library, OFTEN) - requests(program, library, ONCE)
        print(f"a read of a known name   {read:.1f} ns (bar: at most {BAR:.0f}), {more} requests for memory (bar: none)")
        if shutil.which("mujs"):
            theirs = yardstick(folder, times)
            print(f"a read in mujs           {theirs:.1f} ns, a ratio of {read / theirs:.2f}")
        else:
            print("mujs is not installed: no yardstick")
    sys.exit(1 if read > BAR or more else 0)


if __name__ == "__main__":
    main()
