"""Runs a program with one of its allocations refused.

A library that counts the calls of the C library that give memory (malloc, calloc, realloc, reallocarray, aligned_alloc,
memalign and posix_memalign) or make a thread (pthread_create), and refuses one of them, is loaded before the C library. It is
compiled here, by `cc`.
"""
import contextlib
import itertools
import os
import subprocess
import sys

from programs import run_to_end

# What counts calls, and refuses one of them: in its place the library gives this fault.
PRELUDE = r"""
#define _GNU_SOURCE
#include <dlfcn.h>
#include <errno.h>
#include <fcntl.h>
#include <pthread.h>
#include <stdatomic.h>
#include <stdlib.h>
#include <sys/types.h>
#include <unistd.h>

static atomic_long calls;
static _Thread_local int looks_up;

static int is_refused(int fault) {
    const char *nth = getenv("REFUSED");
    long call = atomic_fetch_add(&calls, 1) + 1;
    if (!nth || call != atol(nth)) return 0;
    close(creat(getenv("REFUSED_MARK"), 0600));
    errno = fault;
    return 1;
}

static void *real(const char *name) {
    looks_up = 1;
    void *found = dlsym(RTLD_NEXT, name);
    looks_up = 0;
    if (!found) abort();
    return found;
}
"""
SOURCE = PRELUDE + r"""
void *malloc(size_t size) {
    void *(*give)(size_t) = real("malloc");
    return is_refused(ENOMEM) ? NULL : give(size);
}

/* Some C libraries ask calloc in dlsym, and do without what it does not give. */
void *calloc(size_t count, size_t size) {
    if (looks_up) return NULL;
    void *(*give)(size_t, size_t) = real("calloc");
    return is_refused(ENOMEM) ? NULL : give(count, size);
}

void *realloc(void *old, size_t size) {
    void *(*give)(void *, size_t) = real("realloc");
    return is_refused(ENOMEM) ? NULL : give(old, size);
}

void *reallocarray(void *old, size_t count, size_t size) {
    size_t bytes;
    if (!__builtin_mul_overflow(count, size, &bytes)) return realloc(old, bytes);
    errno = ENOMEM;
    return NULL;
}

void *aligned_alloc(size_t alignment, size_t size) {
    void *(*give)(size_t, size_t) = real("aligned_alloc");
    return is_refused(ENOMEM) ? NULL : give(alignment, size);
}

void *memalign(size_t alignment, size_t size) {
    void *(*give)(size_t, size_t) = real("memalign");
    return is_refused(ENOMEM) ? NULL : give(alignment, size);
}

int posix_memalign(void **place, size_t alignment, size_t size) {
    int (*give)(void **, size_t, size_t) = real("posix_memalign");
    return is_refused(ENOMEM) ? ENOMEM : give(place, alignment, size);
}

int pthread_create(pthread_t *thread, const pthread_attr_t *how, void *(*start)(void *), void *given) {
    int (*make)(pthread_t *, const pthread_attr_t *, void *(*)(void *), void *) = real("pthread_create");
    return is_refused(ENOMEM) ? EAGAIN : make(thread, how, start, given);
}
"""


def compile_refuser(folder, text=SOURCE):
    """The library, compiled into this folder."""
    source, library = folder / "refuser.c", folder / "refuser.so"
    source.write_text(text)
    done = subprocess.run(["cc", "-shared", "-fPIC", "-o", library, source, "-ldl"])
    if done.returncode != 0:
        sys.exit("cc does not compile the library that refuses calls")
    return library


@contextlib.contextmanager
def refused(library, nth):
    """The environment of a program whose call of this number is refused, and what tells whether one was."""
    mark = library.with_suffix(".refused")
    mark.unlink(missing_ok=True)
    yield {**os.environ, "LD_PRELOAD": str(library), "REFUSED": str(nth), "REFUSED_MARK": str(mark)}, mark.exists


def refuse_each(library, words, what, **how):
    """Runs these words with the first allocation refused, then the second, until there is none left to refuse.

    Gives each run's number, whether an allocation was refused in it (in all but the last), and how it ended.
    """
    for nth in itertools.count(1):
        with refused(library, nth) as (env, marked):
            done = run_to_end(words, f"{what}, allocation {nth}", env=env, **how)
            was_refused = marked()
        yield nth, was_refused, done
        if not was_refused:
            return
