"""Runs a program behind a small library that counts its growths of memory, and refuses one.

The library stands in front of the C allocator; gcc compiles it.
"""
import concurrent.futures
import functools
import os
import subprocess
import sys
import tempfile

# Stands in front of the C allocator: counts the growths, and refuses that of the number REFUSED.
LIBRARY = r"""
#define _GNU_SOURCE
#include <dlfcn.h>
#include <stddef.h>
#include <stdio.h>
#include <stdlib.h>

static long growths = 0, refused = -1;
static void *(*of_malloc)(size_t);
static void *(*of_realloc)(void *, size_t);
static void *(*of_aligned)(size_t, size_t);
static int (*of_memalign)(void **, size_t, size_t);

static int is_refused(void) {
    if (!of_malloc) {
        of_malloc = dlsym(RTLD_NEXT, "malloc");
        of_realloc = dlsym(RTLD_NEXT, "realloc");
        of_aligned = dlsym(RTLD_NEXT, "aligned_alloc");
        of_memalign = dlsym(RTLD_NEXT, "posix_memalign");
        if (getenv("REFUSED")) refused = atol(getenv("REFUSED"));
    }
    return ++growths == refused;
}

void *malloc(size_t size) { return is_refused() ? NULL : of_malloc(size); }
void *realloc(void *block, size_t size) { return is_refused() ? NULL : of_realloc(block, size); }
void *aligned_alloc(size_t unit, size_t size) { return is_refused() ? NULL : of_aligned(unit, size); }
int posix_memalign(void **block, size_t unit, size_t size) { return is_refused() ? 12 : of_memalign(block, unit, size); }

__attribute__((destructor)) static void tell(void) {
    if (getenv("COUNTED")) fprintf(stderr, "growths %ld\n", growths);
}
"""


def library_in(place):
    """Compiles the library into a folder, and gives its path."""
    source, library = os.path.join(place, "growths.c"), os.path.join(place, "growths.so")
    with open(source, "w", encoding="ascii") as file:
        file.write(LIBRARY)
    subprocess.run(["gcc", "-shared", "-fPIC", "-O1", "-o", library, source, "-ldl"], check=True)
    return library


def run(program, script, library, **words):
    environment = dict(os.environ, LD_PRELOAD=library, **words)
    return subprocess.run([program], input=script, capture_output=True, env=environment, timeout=60)


def run_whole(program, script, library):
    """A run in which no growth is refused, and how many it asks for."""
    whole = run(program, script, library, COUNTED="1")
    if whole.returncode != 0 or b"refused " in whole.stdout:
        raise ValueError(f"with all memory: status {whole.returncode}, {whole.stdout[:99]!r}, {whole.stderr[:99]!r}")
    return whole, int(whole.stderr.split()[-1])


def run_refused(judge, program, script, library, whole, number):
    """How a function says that the run ended in which the growth of a number is refused, and what that run was."""
    one = run(program, script, library, REFUSED=str(number))
    return judge(whole, one), f"growth {number}: status {one.returncode}, {len(one.stdout)} bytes, {one.stderr[:80]!r}"


def refuse_each(judge, program, script, library):
    """How a function says that each run ended in which one growth is refused. As many run at once as there are
    processors; prints of each wrong one what it was."""
    whole, growths = run_whole(program, script, library)
    refused = functools.partial(run_refused, judge, program, script, library, whole)
    with concurrent.futures.ProcessPoolExecutor() as pool:
        runs = list(pool.map(refused, range(1, growths + 1), chunksize=32))
    for ended, what in runs:
        if ended == "wrong":
            print(what)
    return [ended for ended, _ in runs]


def checked(check, program, name, library):
    """Whether a check of a program finds all right, and what it says. One that can't be made doesn't."""
    try:
        return check(program, name, library)
    except Exception as why:
        return False, f"not checked: {why}"


def check_each(check, program, names):
    """Makes a check of each name, and prints what it says. Gives for each whether all is right."""
    rights = []
    with tempfile.TemporaryDirectory() as place:
        library = library_in(place)
        for name in names:
            is_right, said = checked(check, os.path.abspath(program), name, library)
            print(f"{name:11} {said}", flush=True)
            rights.append(is_right)
    return rights


def main(guide, check, names):
    """Checks the program that the first word names, by the names that follow, or by all."""
    if len(sys.argv) < 2 or not set(sys.argv[2:]) <= set(names):
        sys.exit(guide)
    sys.exit(0 if all(check_each(check, sys.argv[1], sys.argv[2:] or names)) else 1)
