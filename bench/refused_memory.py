#!/usr/bin/env python3
"""Refuses one request for memory at a time in each test of a crate, and reads what the test says then.

Usage, from the root of the repository, once `rt ci` or `rt test` in the crate's folder has built its tests:

    python3 bench/refused_memory.py CRATE [MOST [WORD]]

The proved tests run as they are, behind a few lines of C (`gcc` makes a library of them) that count the requests
for memory and refuse the one of a number. A test that makes at most MOST of them (10,000 where none is given) runs
once for each; of one that makes more, MOST requests are refused, spread over all. With WORD only the tests run that
have it in their names. Each such run has to tell want of memory, or to pass all the same where the refusal is what
the test is about: no answer may be wrong, and no signal come. A line a test says how many did which, and shows the
first runs that did neither; the status is 1 then.
"""

import os
import subprocess
import sys
import tempfile
from concurrent.futures import ThreadPoolExecutor

REFUSER = r"""
#define _GNU_SOURCE
#include <dlfcn.h>
#include <errno.h>
#include <stdio.h>
#include <stdlib.h>

static long asked, refused;
static void *(*next_malloc)(size_t), *(*next_realloc)(void *, size_t);

static int is_refused(void) {
    if (!next_malloc) {
        next_malloc = dlsym(RTLD_NEXT, "malloc");
        next_realloc = dlsym(RTLD_NEXT, "realloc");
        refused = getenv("REFUSED") ? atol(getenv("REFUSED")) : 0;
    }
    if (++asked != refused) return 0;
    errno = ENOMEM;
    return 1;
}

void *malloc(size_t bytes) { return is_refused() ? NULL : next_malloc(bytes); }
void *realloc(void *old, size_t bytes) { return is_refused() ? NULL : next_realloc(old, bytes); }

__attribute__((destructor)) static void tell(void) {
    if (getenv("COUNTED")) dprintf(2, "requests %ld\n", asked);
}
"""

TOLD = ("error: NoMemory", "error: AllocFailed", "error: AllocError")
SHOWN = 3


def run(program, library, test, **more):
    """What a test ends with and writes, behind the library."""
    environment = {**os.environ, "LD_PRELOAD": library, **more}
    done = subprocess.run([program, test], env=environment, capture_output=True, text=True, check=False)
    return done.returncode, done.stdout + done.stderr


def requests(program, library, test):
    """How many requests a test makes with ample memory, where it passes."""
    status, text = run(program, library, test, COUNTED="1")
    if status != 0:
        sys.exit(f"{test} fails with ample memory:\n{text}")
    return int(text.split("requests ")[1].split()[0])


def chosen(count, most):
    """The numbers of the requests that are refused, ascending."""
    if count <= most:
        return range(1, count + 1)
    return sorted({1 + i * (count - 1) // (most - 1) for i in range(most)})


def is_told(end):
    """Whether a run tells want of memory."""
    return end[0] > 0 and end[1].startswith(TOLD)


def is_passed(end):
    """Whether a run passes."""
    return end[0] == 0


def sweep(program, library, test, most):
    """Refuses requests of a test, prints what came of it, and says whether each was told."""
    count = requests(program, library, test)
    numbers = chosen(count, most)
    with ThreadPoolExecutor(os.cpu_count()) as pool:
        ends = list(pool.map(lambda number: run(program, library, test, REFUSED=str(number)), numbers))
    told, passed = sum(map(is_told, ends)), sum(map(is_passed, ends))
    print(f"{test}: {count} requests, {len(ends)} refused one at a time, {told} told, {passed} passed", flush=True)
    others = [end for end in zip(numbers, ends) if not is_told(end[1]) and not is_passed(end[1])]
    for number, (status, text) in others[:SHOWN]:
        print(f"  request {number}: status {status}, {' '.join(text.split())[:200]}")
    return not others


def main():
    """Sweeps over the tests of the crate that is named."""
    if len(sys.argv) not in (2, 3, 4):
        sys.exit(__doc__)
    crate, most, word = sys.argv[1:] + ["10000", ""][len(sys.argv) - 2 :]
    program = os.path.abspath(f"crates/{crate}/out/{crate}_tests")
    listed = subprocess.run([program, "--list"], capture_output=True, text=True, check=True).stdout
    named = [line.removesuffix(": test") for line in listed.splitlines() if line.endswith(": test")]
    tests = [test for test in named if word in test]
    with tempfile.TemporaryDirectory() as folder:
        source, library = os.path.join(folder, "refuser.c"), os.path.join(folder, "refuser.so")
        with open(source, "w", encoding="ascii") as file:
            file.write(REFUSER)
        subprocess.run(["gcc", "-O1", "-shared", "-fPIC", "-o", library, source], check=True)
        told = [sweep(program, library, test, int(most)) for test in tests]
    sys.exit(0 if all(told) else 1)


if __name__ == "__main__":
    main()
