#!/usr/bin/env python3
"""Refuses each growth of the memory of runs over a small application in turn, and looks at what is left.

Usage: tests/growths.py. The program has to be built (examples/first/run.sh).

Growths are refused in two ways. A small library, which gcc makes of the text below and which is loaded before the C library, has the
four functions by which all memory of a program is taken (`malloc`, `calloc`, `realloc`, and `aligned_alloc` with its like). It counts
their calls, and refuses that of one number; each number is tried until a run has no such call. And strace, where it is installed,
refuses the system's calls `brk`, `mmap`, `mremap` and `mprotect`: one alone, and all from one on. Those that load the program,
before it begins, aren't counted.

A run must end with the status 10 and its line, or go on without that memory, as where a thread can't be started, and end as a run
with ample memory does. Then each row of the ledger must be true, and a run to the end must make the target folder of a run with
ample memory. The runs start from nothing, by 1 worker, and from a whole run over older files, by 4. A run that must not begin, since
its target is a link to its source, must not begin either where a growth is refused, and leaves the source. It prints the counts,
and ends with 1 unless those of what must not be are 0.
"""

import os
import re
import shutil
import subprocess
import sys
import tempfile

from kills import FEW, PROGRAM, begin, clear, finish, prepare, settle, words
from ledgers import tree, untrue

# Whether a run starts from a whole run over older files, and by how many workers it goes.
STARTS = ((False, 1), (True, 4))
LINE = b"migrate: 10 out of memory\n"
# How each call of the system by which memory grows says that it doesn't.
GROWTHS = {"brk": "retval=0", "mmap": "error=ENOMEM", "mremap": "error=ENOMEM", "mprotect": "error=ENOMEM"}
# The library. It is told by GROWTH_REFUSED which call is refused, and writes to GROWTH_COUNT how many there were. What loads the
# program isn't counted.
LIBRARY = r"""
#include <errno.h>
#include <fcntl.h>
#include <stdatomic.h>
#include <stddef.h>
#include <stdio.h>
#include <stdlib.h>
#include <sys/syscall.h>
#include <unistd.h>

extern void *__libc_malloc(size_t size);
extern void *__libc_calloc(size_t count, size_t size);
extern void *__libc_realloc(void *block, size_t size);
extern void *__libc_memalign(size_t alignment, size_t size);

static atomic_long calls;
static atomic_int is_counted;
static long refused;

static int is_refused(void) {
    if (!is_counted || atomic_fetch_add(&calls, 1) + 1 != refused) {
        return 0;
    }
    errno = ENOMEM;
    return 1;
}

void *malloc(size_t size) {
    return is_refused() ? NULL : __libc_malloc(size);
}

void *calloc(size_t count, size_t size) {
    return is_refused() ? NULL : __libc_calloc(count, size);
}

void *realloc(void *block, size_t size) {
    return size != 0 && is_refused() ? NULL : __libc_realloc(block, size);
}

void *aligned_alloc(size_t alignment, size_t size) {
    return is_refused() ? NULL : __libc_memalign(alignment, size);
}

void *memalign(size_t alignment, size_t size) {
    return is_refused() ? NULL : __libc_memalign(alignment, size);
}

int posix_memalign(void **block, size_t alignment, size_t size) {
    if (is_refused()) {
        return ENOMEM;
    }
    *block = __libc_memalign(alignment, size);
    return *block == NULL ? ENOMEM : 0;
}

__attribute__((constructor)) static void begin(void) {
    const char *number = getenv("GROWTH_REFUSED");
    refused = number == NULL ? 0 : strtol(number, NULL, 10);
    is_counted = 1;
}

/* By this call the program ends. */
void _exit(int status) {
    const char *path = getenv("GROWTH_COUNT");
    int file = path == NULL ? -1 : open(path, O_WRONLY | O_CREAT | O_TRUNC, 0600);
    if (file >= 0) {
        dprintf(file, "%ld\n", (long)calls);
        close(file);
    }
    for (;;) {
        syscall(SYS_exit_group, status);
    }
}
"""


class Refusing:
    """The library, made in this folder, and the count that it writes."""

    def __init__(self):
        self.library = os.path.abspath("refusing.so")
        self.count = os.path.abspath("growths")
        words = ["gcc", "-O1", "-shared", "-fPIC", "-x", "c", "-", "-o", self.library]
        subprocess.run(words, input=LIBRARY, text=True, check=True)

    def environment(self, number):
        """The environment of a run whose growth of this number is refused; of the number 0, none is."""
        told = {"LD_PRELOAD": self.library, "GROWTH_REFUSED": str(number), "GROWTH_COUNT": self.count}
        return {**os.environ, **told}

    def growths(self):
        """How many growths the last run had. One that didn't come to its end says nothing."""
        if not os.path.exists(self.count):
            sys.exit("a run whose memory was refused didn't come to its end")
        with open(self.count, encoding="ascii") as file:
            count = int(file.read())
        os.remove(self.count)
        return count


class Counts:
    """What was seen after growths that were refused."""

    def __init__(self):
        self.memory = self.whole = self.other = self.untrue = self.differences = 0

    def look(self, run, images, report):
        """Looks at how a run ended, at the ledger and the target that it left, and has it brought to its end."""
        if run.returncode == 10 and run.stdout == LINE:
            self.memory += 1
        elif run.returncode == 0 and run.stdout == report and tree("out") == images:
            self.whole += 1
        else:
            self.other += 1
            print(f"ended with {run.returncode}: {run.stdout[-200:]} {run.stderr[-400:]}", flush=True)
        self.untrue += bool(untrue("app", "out", "ledger", images))
        finish("out", "ledger")
        self.differences += tree("out") != images

    def look_at_unbegun(self, run, is_same):
        """Looks at how a run ended that must not begin: with want of memory, or as nested."""
        if run.returncode == 10 and run.stdout == LINE:
            self.memory += 1
        elif run.returncode == 21:
            self.whole += 1
        else:
            self.other += 1
        self.untrue += os.path.exists("ledger")
        self.differences += not is_same

    def is_bad(self):
        return self.other or self.untrue or self.differences

    def __str__(self):
        return (
            f"refused={self.memory + self.whole + self.other} memory={self.memory} whole={self.whole} other={self.other} "
            f"untrue={self.untrue} differences={self.differences}"
        )


def run(program, environment, to, workers):
    """A run that may end in any way; the program stands behind the words that start it."""
    started = [*program, *words(to, "ledger", workers)[1:]]
    return subprocess.run(started, env=environment, stdout=subprocess.PIPE, stderr=subprocess.PIPE)


class Start:
    """How runs start: from nothing, or from a whole run over older files; by how many workers; what they make and say."""

    def __init__(self, is_old, workers, images):
        self.is_old = is_old
        self.workers = workers
        self.images = images
        self.report = self.run([PROGRAM], None).stdout

    def run(self, program, environment):
        begin(self.is_old)
        return run(program, environment, "out", self.workers)

    def look_at(self, program, environment, counts):
        counts.look(self.run(program, environment), self.images, self.report)


class Unbegun:
    """A run that must not begin, since its target is a link to its source."""

    def __init__(self):
        os.symlink("app", "linked")
        shutil.copytree("app", "source")
        self.source = tree("source")

    def run(self, program, environment):
        clear("app", "ledger")
        shutil.copytree("source", "app")
        return run(program, environment, "linked", 1)

    def look_at(self, program, environment, counts):
        ended = self.run(program, environment)
        counts.look_at_unbegun(ended, tree("app") == self.source)


def in_the_program(start, counts):
    """Refuses each growth of the program's own, until a run has none of that number."""
    refusing = Refusing()
    number, is_refused = 0, True
    while is_refused:
        number += 1
        start.look_at([PROGRAM], refusing.environment(number), counts)
        is_refused = refusing.growths() >= number


def system_growths(start):
    """The calls of the system by which memory of the first thread grows, in their order, and how many of them load the program."""
    start.run(["strace", "-f", "-qq", "-o", "trace", PROGRAM], None)
    with open("trace", encoding="ascii", errors="replace") as file:
        found = re.findall(r"^([0-9]+) +([a-z_0-9]+)\(", file.read(), re.MULTILINE)
    calls = [call for thread, call in found if thread == found[0][0]]
    # The last that loads the program lets go of the list of libraries.
    loaded = calls.index("munmap")
    return [call for call in calls if call in GROWTHS], sum(call in GROWTHS for call in calls[:loaded])


def under_strace(injected):
    """The program under strace, which refuses these calls."""
    options = [option for call in injected for option in ("-e", f"inject={call}")]
    return ["strace", "-f", "-qq", "-o", "/dev/null", "-e", "trace=" + ",".join(GROWTHS), *options, PROGRAM]


def in_the_system(start, counts):
    """Refuses each call by which the system gives memory, alone, and with all that follow. Numbers are counted in each thread."""
    calls, loading = system_growths(start)
    for at in range(loading, len(calls)):
        refusals = {call: f"{call}:{refusal}:when={calls[:at].count(call) + 1}" for call, refusal in GROWTHS.items()}
        start.look_at(under_strace([refusals[calls[at]]]), None, counts)
        start.look_at(under_strace([refusal + "+" for refusal in refusals.values()]), None, counts)


def tried(name, refuse, starts):
    """Tries a way to refuse growths over all starts, and prints the counts."""
    counts = Counts()
    for start in starts:
        refuse(start, counts)
    print(f"{name}: {counts}", flush=True)
    return counts


def main():
    if not os.access(PROGRAM, os.X_OK):
        sys.exit("build the program first: examples/first/run.sh")
    with tempfile.TemporaryDirectory() as place:
        settle(place)
        images, _ = prepare(FEW, True)
        starts = [Start(is_old, workers, images) for is_old, workers in STARTS]
        seen = []
        if shutil.which("gcc"):
            seen.append(tried("growths in the program", in_the_program, starts))
            seen.append(tried("growths of a run that must not begin", in_the_program, [Unbegun()]))
        if shutil.which("strace"):
            seen.append(tried("growths in the system", in_the_system, starts))
        os.chdir("/")
    failed = sum(counts.is_bad() for counts in seen)
    print(f"{len(seen) - failed} passed, {failed} failed, {3 - len(seen)} skipped")
    sys.exit(1 if failed else 0)


if __name__ == "__main__":
    main()
