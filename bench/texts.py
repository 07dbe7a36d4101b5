#!/usr/bin/env python3
"""Measures texts that a store holds: how they grow, are read, compared and joined, beside node and mujs where they are installed.

Usage, from the root of the repository, once `rt ci` or `rt test` in the crate's folder has built the tests of `apply_rows`:

    python3 bench/texts.py [TIMES]

Each loop is a test that takes many turns and one that takes one; both make the store and the texts. Each runs TIMES times (seven
where none is given), in turn, and once more behind a few lines of C (`gcc` makes a library of them) that count the requests for
memory and the bytes that are in use. What is told of a turn is the difference of the least times, and of the requests, over the
further turns. The bars are:

- 200,000 units, put one by one behind a text, take at most 2.3 times the time of 100,000, each less the time of one;
- memory in use is at most 16 bytes more at its peak for each of the 200,000 units;
- a read of a unit with a read of the length asks for no memory, and neither does a comparison of two texts of five units;
- a text of two of five units takes at most 60 ns and one request.

The status is 1 where one is missed. The yardsticks are the same loops less an empty one, in each engine that is there.
"""

import os
import shutil
import subprocess
import sys
import tempfile
import time

COUNTER = r"""
#define _GNU_SOURCE
#include <dlfcn.h>
#include <malloc.h>
#include <stdio.h>

static long asked, used, peak;
static void *(*next_malloc)(size_t), *(*next_realloc)(void *, size_t);
static void (*next_free)(void *);

static void find(void) {
    if (!next_malloc) {
        next_malloc = dlsym(RTLD_NEXT, "malloc");
        next_realloc = dlsym(RTLD_NEXT, "realloc");
        next_free = dlsym(RTLD_NEXT, "free");
    }
}

static void more(long bytes) {
    used += bytes;
    if (used > peak)
        peak = used;
}

void *malloc(size_t bytes) {
    find();
    asked++;
    void *given = next_malloc(bytes);
    more(malloc_usable_size(given));
    return given;
}

/* Both blocks count while one is copied to the other, as they may both be there. */
void *realloc(void *old, size_t bytes) {
    find();
    asked++;
    long before = malloc_usable_size(old);
    void *given = next_realloc(old, bytes);
    if (given) {
        more(malloc_usable_size(given));
        used -= before;
    }
    return given;
}

void free(void *old) {
    find();
    used -= malloc_usable_size(old);
    next_free(old);
}

__attribute__((destructor)) static void tell(void) { dprintf(2, "requests %ld peak %ld\n", asked, peak); }
"""

PLACE = "tests::texts::speed::"
MANY = 1_000_000
UNITS = 200_000
GROWTH_BAR = 2.3
BYTES_BAR = 16.0
JOIN_BAR = 60.0
SETUP = (
    "var i; var n; var s = ''; var a = 'hello'; var b = 'hellp'; var r = 0; var h = '';"
    " for (i = 32; i < 132; i++) { h = h + String.fromCharCode(i); }"
    " var show = typeof print === 'function' ? print : console.log;"
)
LOOPS = {
    "growth": (UNITS, f"if (i % {UNITS} === 0) {{ s = ''; }} s = s + 'x';"),
    "reads": (MANY, "r = r + h[i % 100].length + h.length;"),
    "comparisons": (MANY, "if (a < b) { r = r + 1; }"),
    "joins": (MANY, "s = a + b;"),
}
# how many times each loop is taken, so that it is long beside what an engine needs to start
ENGINES = {"node": 20, "mujs": 1}


def seconds(command):
    """How many seconds a command takes by the clock."""
    start = time.perf_counter()
    subprocess.run(command, capture_output=True, check=True)
    return time.perf_counter() - start


def least(commands, times):
    """The least seconds of each of some commands, that are run in turn."""
    rounds = [[seconds(command) for command in commands] for _ in range(times)]
    return [min(column) for column in zip(*rounds)]


def memory(program, library, test):
    """How many requests for memory a test makes, and how many bytes are in use at most."""
    environment = {**os.environ, "LD_PRELOAD": library}
    done = subprocess.run([program, PLACE + test], env=environment, capture_output=True, text=True, check=True)
    words = done.stderr.split("requests ")[1].split()
    return int(words[0]), int(words[2])


def told(name, figure, bar, holds):
    """Prints a figure beside its bar, and says whether it is missed."""
    print(f"{name:34} {figure} (bar: {bar}{'' if holds else '; MISSED'})")
    return not holds


def growth(program, library, times):
    """Whether a bar is missed of texts that grow by one unit."""
    tests = [f"joins_one_unit_{count}" for count in ("once", "100000", str(UNITS))]
    once, half, whole = least([[program, PLACE + test] for test in tests], times)
    ratio = (whole - once) / (half - once)
    peak = (memory(program, library, tests[2])[1] - memory(program, library, tests[0])[1]) / UNITS
    print(f"{'one unit more':34} {(whole - once) / UNITS * 1e9:.1f} ns")
    return [
        told("200,000 units beside 100,000", f"{ratio:.2f} times", f"at most {GROWTH_BAR}", ratio <= GROWTH_BAR),
        told("memory at its peak for each unit", f"{peak:.1f} bytes", f"at most {BYTES_BAR:.0f}", peak <= BYTES_BAR),
    ]


def turns(program, library, name, times):
    """The nanoseconds of each further turn, and the requests of all of them."""
    tests = [name + "_once", name + "_many"]
    once, many = least([[program, PLACE + test] for test in tests], times)
    few, more = (memory(program, library, test)[0] for test in tests)
    return (many - once) / (MANY - 1) * 1e9, more - few


def loops(program, library, times):
    """Whether a bar is missed of reads, of comparisons and of joins."""
    read, reads = turns(program, library, "reads_units", times)
    compared, comparisons = turns(program, library, "compares", times)
    joined, joins = turns(program, library, "joins_fives", times)
    each = joins / (MANY - 1)
    return [
        told("a unit and a length", f"{read:.1f} ns, {reads} requests", "no request", reads == 0),
        told("a comparison", f"{compared:.1f} ns, {comparisons} requests", "no request", comparisons == 0),
        told("a text of two", f"{joined:.1f} ns", f"at most {JOIN_BAR:.0f} ns", joined <= JOIN_BAR),
        told("a text of two", f"{each:.2f} requests", "at most 1", each <= 1),
    ]


def script(folder, name, count, body):
    """The path of a script that runs a loop."""
    path = os.path.join(folder, name + ".js")
    with open(path, "w", encoding="ascii") as file:
        file.write(f"{SETUP} n = {count}; for (i = 0; i < n; i++) {{ {body} }} show(r + s.length);\n")
    return path


def yardstick(engine, folder, times):
    """Prints the nanoseconds of a turn of each loop in an engine."""
    for name, (count, body) in LOOPS.items():
        count *= ENGINES[engine]
        paths = [script(folder, "empty", count, ""), script(folder, name, count, body)]
        empty, full = least([[engine, path] for path in paths], times)
        print(f"{engine + ', ' + name:34} {(full - empty) / count * 1e9:.1f} ns")


def main():
    """Measures the tests, and the engines."""
    if len(sys.argv) not in (1, 2):
        sys.exit(__doc__)
    times = int((sys.argv[1:] + ["7"])[0])
    program = os.path.abspath("crates/apply_rows/out/apply_rows_tests")
    with tempfile.TemporaryDirectory() as folder:
        source, library = os.path.join(folder, "counter.c"), os.path.join(folder, "counter.so")
        with open(source, "w", encoding="ascii") as file:
            file.write(COUNTER)
        subprocess.run(["gcc", "-O1", "-shared", "-fPIC", "-o", library, source], check=True)
        missed = growth(program, library, times) + loops(program, library, times)
        for engine in ENGINES:
            if shutil.which(engine):
                yardstick(engine, folder, times)
            else:
                print(f"{engine} is not installed: no yardstick")
    sys.exit(1 if any(missed) else 0)


if __name__ == "__main__":
    main()
