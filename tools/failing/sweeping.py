"""Lets allocations of a program fail, one at a time or all from one on, and gathers how its runs end."""

import itertools
import os
import subprocess
import sys

import built

LAST = 2**62
LIBRARY = r"""
#include <errno.h>
#include <fcntl.h>
#include <stdlib.h>
#include <sys/syscall.h>
#include <unistd.h>

void *__libc_malloc(size_t size);
void *__libc_calloc(size_t count, size_t size);
void *__libc_realloc(void *old, size_t size);

/* The numbers of the allocations that fail, and how many there were since the program's start. */
static unsigned long long first, last, count;

static int fails(void)
{
    unsigned long long number = __atomic_add_fetch(&count, 1, __ATOMIC_SEQ_CST);
    if (number < first || last < number)
        return 0;
    errno = ENOMEM;
    return 1;
}

void *malloc(size_t size) { return fails() ? 0 : __libc_malloc(size); }
void *calloc(size_t items, size_t size) { return fails() ? 0 : __libc_calloc(items, size); }
void *realloc(void *old, size_t size) { return fails() ? 0 : __libc_realloc(old, size); }

static unsigned long long number(const char *name)
{
    const char *text = getenv(name);
    return text ? strtoull(text, 0, 10) : 0;
}

__attribute__((constructor)) static void begin(void)
{
    first = number("FAILING_FIRST");
    last = number("FAILING_LAST");
    count = 0;
}

static void tell(void)
{
    const char *path = getenv("FAILING_COUNT");
    int file = path ? open(path, O_WRONLY | O_CREAT | O_TRUNC, 0600) : -1;
    if (file < 0 || write(file, &count, sizeof count) != sizeof count)
        syscall(SYS_exit_group, 99);
    close(file);
}

__attribute__((destructor)) static void end(void) { tell(); }

/* A program with threads ends by this. */
void _exit(int status)
{
    tell();
    for (;;)
        syscall(SYS_exit_group, status);
}
"""


class Failing:
    """The library that makes allocations fail, in a folder, and what a program run under it asked for."""

    def __init__(self, folder):
        built.need_commands("gcc")
        source, self.library = os.path.join(folder, "failing.c"), os.path.join(folder, "failing.so")
        with open(source, "w") as file:
            file.write(LIBRARY)
        words = ["gcc", "-O1", "-fno-builtin", "-shared", "-fPIC", "-o", self.library, source]
        subprocess.run(words, check=True)
        self.counter = os.path.join(folder, "count")

    def around(self, first, last):
        """The environment of a program whose allocations from `first` to `last` fail."""
        failing = {"FAILING_FIRST": str(first), "FAILING_LAST": str(last), "FAILING_COUNT": self.counter}
        return {**os.environ, "LD_PRELOAD": self.library, **failing}

    def count(self):
        """How many allocations the last run asked for, where it came to its end."""
        if not os.path.exists(self.counter):
            return None
        with open(self.counter, "rb") as file:
            count = int.from_bytes(file.read(), sys.byteorder)
        os.remove(self.counter)
        return count


def sweep(name, runs, reach):
    """Fails the allocations from n to reach(n), for each n up to the first that isn't asked for: how many were wrong.

    `runs.run(first, last)` gives what a run was, what is wrong with it or None, and how many allocations it wanted."""
    seen, wrong = [], 0
    for n in itertools.count(1):
        kind, fault, count = runs.run(n, reach(n))
        seen.append((n, kind))
        if fault is not None:
            wrong += 1
            print(f"{name}, allocation {n}: wrong: {fault}", flush=True)
        if count is not None and count < n:
            break
    print(f"{name}: {told(seen)}", flush=True)
    return wrong


def sweep_both(name, runs):
    """Fails each allocation alone, and each with all behind it."""
    if runs.run(0, 0)[2] is None:
        sys.exit("the program doesn't take its memory through the library")
    return sweep(f"{name}, one fails", runs, lambda n: n) + sweep(f"{name}, all fail from one on", runs, lambda n: LAST)


def kind_of(refused):
    """What a run was in which these commands were refused for want of memory."""
    return ", ".join(f"O {number} refused no-memory" for number in refused) or "as without a failure"


def told(seen):
    """What was seen, as ranges of allocations."""
    parts = []
    for kind, group in itertools.groupby(seen, key=lambda item: item[1]):
        numbers = [n for n, _ in group]
        reach = str(numbers[0]) if len(numbers) == 1 else f"{numbers[0]} to {numbers[-1]}"
        parts.append(f"{reach} {kind}")
    return "; ".join(parts)
