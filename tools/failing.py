"""A malloc that fails at its Nth call and at every later one, or at that call alone, for the checks that try want of memory."""
import os
import subprocess

FAILING = r"""
#define _GNU_SOURCE
#include <dlfcn.h>
#include <errno.h>
#include <stdio.h>
#include <stdlib.h>
static long at, calls; static int once;
static void *(*first)(size_t), *(*again)(void *, size_t), *(*zeroed)(size_t, size_t);
static int (*aligned)(void **, size_t, size_t);
__attribute__((constructor)) static void begin(void) {
    first = dlsym(RTLD_NEXT, "malloc"); again = dlsym(RTLD_NEXT, "realloc"); zeroed = dlsym(RTLD_NEXT, "calloc");
    aligned = dlsym(RTLD_NEXT, "posix_memalign");
    const char *n = getenv("FAIL_AT"); at = n ? atol(n) : 0; once = getenv("FAIL_ONCE") != 0;
}
__attribute__((destructor)) static void end(void) {
    const char *name = getenv("COUNT_CALLS"); FILE *f = name ? fopen(name, "w") : 0;
    if (f) { fprintf(f, "%ld", calls); fclose(f); }
}
static int fails(void) { calls++; return at && (once ? calls == at : calls >= at); }
void *malloc(size_t n) { if (first && !fails()) return first(n); if (!first) begin(); else { errno = ENOMEM; return 0; } return first(n); }
void *realloc(void *p, size_t n) { if (!again) begin(); if (fails()) { errno = ENOMEM; return 0; } return again(p, n); }
void *calloc(size_t m, size_t n) { if (!zeroed) return 0; if (fails()) { errno = ENOMEM; return 0; } return zeroed(m, n); }
int posix_memalign(void **p, size_t a, size_t n) { if (!aligned) begin(); if (fails()) return ENOMEM; return aligned(p, a, n); }
"""


def built(folder):
    """The path of the library, made in a folder."""
    source, library = os.path.join(folder, "failing.c"), os.path.join(folder, "failing.so")
    with open(source, "w") as file:
        file.write(FAILING)
    subprocess.run(["cc", "-shared", "-fPIC", "-O1", "-o", library, source, "-ldl"], check=True)
    return library


def environment(library, at=0, once=False, count=None):
    """The environment in which the call with number `at` fails; the calls are counted in a file, if one is given."""
    more = {"FAIL_ONCE": "1"} if once else {}
    return dict(os.environ, LD_PRELOAD=library, FAIL_AT=str(at), **more, **({"COUNT_CALLS": count} if count else {}))
