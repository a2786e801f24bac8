#!/usr/bin/env python3
"""Each growth of memory refused, once and for good: the built program over a few runs, with the first call for memory refused,
then the second, and so on until a run makes fewer calls; and the same with every call from the first on refused, from the
second on, and so on. It is no part of the gate, and wants a C compiler.

    allocations.py PROGRAM      prints a line for each run: what it is, how many calls it makes, how many runs with one of them
                                refused ended with status 8, how many with all from one on refused, and how many did not end as
                                they should

A run with a refused call has to end with status 8, with a front of the whole output, and with a front of `out of memory` on
standard error; a run whose refused call was not needed ends as if nothing had failed. A certificate may then have another text
than in the whole output, but has to be valid: its text is described and not fixed."""

import os
import re
import struct
import subprocess
import sys
import tempfile

ROOT = os.path.dirname(os.path.dirname(os.path.abspath(__file__)))
TOLD = b"out of memory\n"
CERTIFICATE = re.compile(rb"^certificate \w+\n(?:.*\n)*?end\n", re.MULTILINE)

# Laid before the program: it counts the calls for memory in a file, and refuses the one of a given number.
REFUSING = r"""
#define _GNU_SOURCE
#include <dlfcn.h>
#include <errno.h>
#include <fcntl.h>
#include <stddef.h>
#include <stdint.h>
#include <stdlib.h>
#include <sys/mman.h>
#include <unistd.h>

static uint64_t here, *count = &here, refused, for_good;

__attribute__((constructor)) static void begin(void) {
    const char *file = getenv("COUNTED"), *number = getenv("REFUSED");
    int fd = file ? open(file, O_RDWR | O_CREAT, 0600) : -1;
    if (fd >= 0 && ftruncate(fd, sizeof *count) == 0) {
        void *room = mmap(NULL, sizeof *count, PROT_READ | PROT_WRITE, MAP_SHARED, fd, 0);
        if (room != MAP_FAILED) count = room;
    }
    if (fd >= 0) close(fd);
    *count = 0;
    refused = number ? strtoull(number, NULL, 10) : 0;
    for_good = getenv("FOR_GOOD") != NULL;
}

static int refuses(void) {
    *count += 1;
    if (refused == 0 || *count < refused || (*count > refused && !for_good)) return 0;
    errno = ENOMEM;
    return 1;
}

#define NEXT(type, name) \
    static __typeof__(type) next; \
    if (!next) next = (__typeof__(type))dlsym(RTLD_NEXT, name)

void *malloc(size_t size) {
    NEXT(void *(*)(size_t), "malloc");
    return refuses() ? NULL : next(size);
}

void *realloc(void *old, size_t size) {
    NEXT(void *(*)(void *, size_t), "realloc");
    return refuses() ? NULL : next(old, size);
}

int posix_memalign(void **out, size_t alignment, size_t size) {
    NEXT(int (*)(void **, size_t, size_t), "posix_memalign");
    return refuses() ? ENOMEM : next(out, alignment, size);
}

void *aligned_alloc(size_t alignment, size_t size) {
    NEXT(void *(*)(size_t, size_t), "aligned_alloc");
    return refuses() ? NULL : next(alignment, size);
}
"""

SEEN = "command v.cmd = open\nobserve o v.out = zero\ndiagnose\nconflicts\n"
AIMED = "goal g v.out = some\nrecover\nconflicts\n"
BUDGET = "budget 2\ncommand v.cmd = open\nobserve o v.out = zero\ndiagnose\nmore 1\nmore 1\nmore 1\n"
GONE_ON = SEEN + "commit\nstates\nlabels 1\n" + AIMED + "drop g\nreset\n" + BUDGET

# Three lanes: two with turns that go on with both, one with nothing unsettled, and lines that are refused.
LANED = """\
@a budget 1
@a command v.cmd = open
@b budget 2
@b command v.cmd = open
@a observe o v.out = zero
@b observe o v.out = zero
@a diagnose
turn 1
@b diagnose
turn 1
@c goal g v.out = some
@c recover
turn 0
turn 2
turn
@c conflicts
@b conflicts
@a commit
turn 1
@a states
"""

# A plant that fails, is diagnosed and recovers, and lines that are refused.
SCRIPT = """\
track 2
goal g v.out = some
recover
apply
step
fault v 5
step
fault v 3
apply
states
observe o v.out = zero
recover
conflicts
drop g
budget 1
step
step
"""

SERIES = "tests/sessions/series.lv"


def runs():
    """Each run's name, its words, and the text of its second file."""
    def valve(name):
        with open(os.path.join(ROOT, "examples", name), "rb") as file:
            return file.read()

    def read(name):
        with open(os.path.join(ROOT, name), "rb") as file:
            return file.read()

    yield "a diagnosis with conflicts", "run", valve("valve.lv"), SEEN.encode()
    yield "a recovery with conflicts", "run", valve("valve.lv"), AIMED.encode()
    yield "a budget that is used up three times", "run", valve("valve.lv"), BUDGET.encode()
    yield "a certificate of a diagnosis, written", "run", valve("valve.lv"), (SEEN + "certificate\n").encode()
    yield "a certificate of a recovery, written", "run", valve("valve.lv"), (AIMED + "certificate\n").encode()
    yield "a certificate that is valid", "check", valve("valve.lv"), valve("valve.cert")
    yield "a long session", "run", valve("valve.lv"), GONE_ON.encode()
    yield "two valves in a row", "run", read(SERIES), read("tests/sessions/series.ses")
    yield "lanes with turns", "lanes", valve("valve.lv"), LANED.encode()
    yield "a plant in the loop", "plant", valve("valve.lv"), SCRIPT.encode()
    yield "a model printed", "print", read(SERIES), None
    yield "a certificate of a recovery that is valid", "check", *recovery_certificate()


def recovery_certificate():
    """A model and a valid certificate of a recovery, of those that the mutants are made of."""
    folder = os.path.join(ROOT, "tests", "mutants")
    for name in sorted(os.listdir(folder)):
        if name.endswith(".cert"):
            with open(os.path.join(folder, name), "rb") as file:
                text = file.read()
            model = os.path.join(folder, name.split("-")[0] + ".lv")
            if text.startswith(b"certificate recovery") and b"\nrecovery" in text and os.path.exists(model):
                with open(model, "rb") as file:
                    return file.read(), text
    raise SystemExit("no certificate of a recovery")


def call(words, library, counted, refused, for_good=False):
    """Status, output and standard error of a run with the call of this number refused, or all from it on, and how many calls
    it made."""
    environment = {"LD_PRELOAD": library, "COUNTED": counted, "REFUSED": str(refused)}
    if for_good:
        environment["FOR_GOOD"] = "1"
    done = subprocess.run(words, stdin=subprocess.DEVNULL, capture_output=True, env=environment, timeout=60)
    with open(counted, "rb") as file:
        return done.returncode, done.stdout, done.stderr, struct.unpack("=Q", file.read())[0]


def is_transcript(words, out, whole, room):
    """The output is the whole one, or differs from it in valid certificates alone."""
    if out == whole:
        return True
    certificates = CERTIFICATE.findall(out)
    if words[1] != "run" or CERTIFICATE.sub(b"", out) != CERTIFICATE.sub(b"", whole) or len(certificates) != len(CERTIFICATE.findall(whole)):
        return False
    for text in certificates:
        with open(room, "wb") as file:
            file.write(text)
        done = subprocess.run([words[0], "check", words[2], room], stdin=subprocess.DEVNULL, capture_output=True, timeout=60)
        if (done.returncode, done.stdout) != (0, b"valid\n"):
            return False
    return True


def sweep(words, library, counted, for_good):
    """How many calls were refused, how many of the runs ended with status 8, and how many not as they should."""
    _, whole, _, calls = call(words, library, counted, 0)
    refused = ended = wrong = 0
    while refused < calls:
        refused += 1
        status, out, err, _ = call(words, library, counted, refused, for_good)
        if status == 8 and whole.startswith(out) and TOLD.startswith(err):
            ended += 1
        elif (status, err) != (0, b"") or not is_transcript(words, out, whole, counted + ".cert"):
            wrong += 1
            print(f"FAILED: {words[1:]} with call {refused} refused{' for good' * for_good}: status {status}, {err!r}")
    return refused, ended, wrong


def main(program):
    failed = 0
    with tempfile.TemporaryDirectory() as folder:
        source, library = os.path.join(folder, "refusing.c"), os.path.join(folder, "refusing.so")
        with open(source, "w") as file:
            file.write(REFUSING)
        subprocess.run(["cc", "-O2", "-shared", "-fPIC", "-o", library, source, "-ldl"], check=True)
        for name, word, *texts in runs():
            words = [program, word]
            for i, text in enumerate(texts):
                if text is not None:
                    words.append(os.path.join(folder, f"file{i}"))
                    with open(words[-1], "wb") as file:
                        file.write(text)
            refused, ended, wrong = sweep(words, library, os.path.join(folder, "count"), False)
            _, ended_for_good, wrong_for_good = sweep(words, library, os.path.join(folder, "count"), True)
            print(f"| {name} | {refused} | {ended} | {ended_for_good} | {wrong + wrong_for_good} |", flush=True)
            failed += wrong + wrong_for_good or refused == 0 or ended == 0 or ended_for_good == 0
    return 1 if failed else 0


if __name__ == "__main__":
    if len(sys.argv) != 2:
        sys.exit(__doc__)
    sys.exit(main(os.path.abspath(sys.argv[1])))
