#!/usr/bin/env python3
"""Texts of models, sessions and certificates changed at random, with lines and tokens kept in mind, and what the built
program makes of them.

    mutants.py fuzz PROGRAM SEED COUNT          runs the program over COUNT mutants; each has to end within a second, with a
                                                status of the table and a line that goes with it, and never by a signal
    mutants.py compare PROGRAM TABLE POOL       runs it over the mutants of a table and compares status, line and output
    mutants.py table REFERENCE COUNT POOL       prints the table of the first COUNT mutants of seed 1, as another program answers

A pool is what mutants are made of: `first`, or `all`, which knows windows, probes and tests too; `fuzz` takes all.

A mutant is told by its seed and its number: the numbers are drawn by a generator of this file's own, so that a table stays
true of every later Python. A line of a table: the number, the status, a digest of the output, the line on standard error."""

import hashlib
import os
import subprocess
import sys
import tempfile

TESTS = os.path.dirname(os.path.abspath(__file__))
WORDS = {
    "model": b"model domain type end var control observable dependent mode in good fault step cost when part law price "
             b"true false mode version -> = != & | ! => <=> ( ) { } . , : # ' 0 1 2 64 65 1000000 1000001 4294967296".split(),
    "session": b"track budget command release observe retract goal drop diagnose recover more commit conflicts labels states "
               b"reset quit true false mode = . & | ! => <=> ( ) # 0 1 2 4 64 65 10000 1000000 1000001 "
               b"9223372036854775807 18446744073709551616".split(),
    "certificate": b"certificate diagnosis recovery model k state control fact now next listed conflict clause split end good "
                   b"proof counter goal 0 1 2 3 64 65 4294967296 18446744073709551616 1000000000000000000000000000000 "
                   b"1000000000000000000000000000001 -1 -0 +1 00".split(),
}
FOLDERS = ("random", "searches", "recoveries")

# With what came to the language of sessions later. The first table's mutants know nothing of it, so that it stays true.
LATER = dict(
    WORDS,
    session=b"track distinct budget command release observe next now retract at goal drop diagnose window recover more commit "
            b"conflicts labels states probe test reset quit true false mode = . & | ! => <=> ( ) # 0 1 2 3 4 5 64 65 10000 "
            b"1000000 1000001 9223372036854775807 18446744073709551616".split(),
)
POOLS = {"first": (WORDS, FOLDERS), "all": (LATER, FOLDERS + ("windows",))}


class Draws:
    """Numbers in a fixed order for each seed."""

    def __init__(self, seed, number):
        self.state = (seed * 1000003 + number * 7919 + 12345) % 2**64
        for _ in range(4):
            self.below(2)

    def below(self, bound):
        self.state = (self.state * 6364136223846793005 + 1442695040888963407) % 2**64
        return (self.state >> 33) % bound

    def one_of(self, items):
        return items[self.below(len(items))]


def read(path):
    with open(path, "rb") as file:
        return file.read()


def corpus(folders):
    """Pairs of a model and a session, and pairs of a model and a certificate, in a fixed order."""
    sessions = []
    for folder in folders:
        base = os.path.join(TESTS, folder)
        for name in sorted(os.listdir(base)):
            if name.endswith(".lv") and os.path.exists(os.path.join(base, name[:-3] + ".ses")):
                sessions.append((os.path.join(base, name), os.path.join(base, name[:-3] + ".ses")))
    base = os.path.join(TESTS, "mutants")
    certificates = []
    for name in sorted(os.listdir(base)) if os.path.isdir(base) else []:
        if name.endswith(".cert"):
            certificates.append((os.path.join(base, name.split("-")[0] + ".lv"), os.path.join(base, name)))
    return sessions, certificates


def change_bytes(text, draws):
    at = draws.below(len(text) + 1)
    how = draws.below(4)
    if how == 0:
        return text[:at] + bytes([draws.below(256)]) + text[at:]
    if how == 1:
        return text[:at] + text[at + 1 + draws.below(3):]
    if how == 2:
        return text[:at]
    return text[:at] + bytes([draws.one_of(b"\r\n\t \0\x7f#-.'(")]) + text[at:]


def change_lines(lines, draws):
    at = draws.below(len(lines))
    how = draws.below(5)
    if how == 0:
        return lines[:at] + lines[at + 1:]
    if how == 1:
        return lines[:at] + [lines[at]] * (2 + draws.below(3)) + lines[at + 1:]
    if how == 2:
        line = lines[at]
        rest = lines[:at] + lines[at + 1:]
        to = draws.below(len(rest) + 1)
        return rest[:to] + [line] + rest[to:]
    if how == 3:
        return lines[:at] + [lines[at] + b" " + draws.one_of(lines)] + lines[at + 1:]
    return lines[:at] + [draws.one_of(lines)] + lines[at:]


def change_tokens(lines, known, draws):
    at = draws.below(len(lines))
    words = lines[at].split(b" ")
    place = draws.below(len(words))
    how = draws.below(5)
    if how == 0:
        del words[place]
    elif how == 1:
        words.insert(place, draws.one_of(known))
    elif how == 2:
        words[place] = draws.one_of(known)
    elif how == 3:
        other = draws.one_of(lines).split(b" ")
        words[place] = draws.one_of(other)
    else:
        number = words[place]
        words[place] = str(int(number) + draws.below(3) - 1).encode() if number.isdigit() and len(number) < 40 else number + number
    return lines[:at] + [b" ".join(words)] + lines[at + 1:]


def mutate(text, known, draws):
    for _ in range(1 + draws.below(3)):
        how = draws.below(8)
        if how < 2 or b"\n" not in text:
            text = change_bytes(text, draws)
        else:
            lines = text.split(b"\n")
            lines = change_lines(lines, draws) if how < 4 else change_tokens(lines, known, draws)
            text = b"\n".join(lines)
    return text


def texts_of(pool):
    """The words of each language, and the texts that are changed."""
    known, folders = POOLS[pool]
    return known, corpus(folders)


def mutant(seed, number, texts):
    """The words of a call, and the two files that it reads."""
    draws = Draws(seed, number)
    known, (sessions, certificates) = texts
    kind = draws.one_of(["model", "session", "session", "certificate"] if certificates else ["model", "session"])
    model, second = draws.one_of(certificates if kind == "certificate" else sessions)
    model, second = read(model), read(second)
    if kind == "model":
        model = mutate(model, known[kind], draws)
        if draws.below(3) == 0:
            return ["print"], model, None
    else:
        second = mutate(second, known[kind], draws)
    return ["check" if kind == "certificate" else "run"], model, second


def call(program, words, model, second, folder, seconds=600):
    with open(os.path.join(folder, "m"), "wb") as file:
        file.write(model)
    arguments = program + words + ["m"]
    if second is not None:
        with open(os.path.join(folder, "s"), "wb") as file:
            file.write(second)
        arguments.append("s")
    done = subprocess.run(arguments, cwd=folder, stdin=subprocess.DEVNULL, capture_output=True, timeout=seconds)
    return done.returncode, done.stdout, done.stderr


def is_told(status, out, err):
    """The status is one of the table, and its line goes with it."""
    line = err.decode("utf-8", "replace")
    if status == 0:
        return line == ""
    if status == 3:
        words = line.rstrip("\n").split(" ")
        return out == b"" and len(words) == 3 and words[0] == "model" and words[1].isdigit() and words[2][:1] == "M" and line.endswith("\n")
    if status == 9:
        return line == "" and out.startswith(b"invalid ") and out.endswith(b"\n")
    return False


def fuzz(program, seed, count):
    texts = texts_of("all")
    failed = 0
    slow = 0
    statuses = {}
    with tempfile.TemporaryDirectory() as folder:
        for number in range(count):
            words, model, second = mutant(seed, number, texts)
            try:
                status, out, err = call([program], words, model, second, folder, 1)
            except subprocess.TimeoutExpired:
                slow += 1
                print("SLOW: seed %d number %d: %s" % (seed, number, words[0]))
                continue
            statuses[words[0], status] = statuses.get((words[0], status), 0) + 1
            if not is_told(status, out, err):
                failed += 1
                print("FAILED: seed %d number %d: %s: status %d, %r" % (seed, number, words[0], status, err[:80]))
    for (word, status), times in sorted(statuses.items()):
        print("%s: status %d, %d times" % (word, status, times))
    print("%d passed, %d failed" % (count - failed - slow, failed + slow))
    return failed + slow == 0 and count > 0


def digest(out):
    return hashlib.sha256(out).hexdigest()[:16]


def row(number, status, out, err):
    return "%d %d %s %s" % (number, status, digest(out), err.decode("utf-8", "replace").rstrip("\n"))


def table(reference, count, pool):
    texts = texts_of(pool)
    with tempfile.TemporaryDirectory() as folder:
        for number in range(count):
            words, model, second = mutant(1, number, texts)
            print(row(number, *call(reference, words, model, second, folder)), flush=True)


def compare(program, path, pool):
    texts = texts_of(pool)
    passed = failed = 0
    with tempfile.TemporaryDirectory() as folder, open(path, encoding="utf-8") as rows:
        for wanted in rows:
            wanted = wanted.rstrip("\n")
            number = int(wanted.split(" ")[0])
            words, model, second = mutant(1, number, texts)
            got = row(number, *call([program], words, model, second, folder))
            if got == wanted:
                passed += 1
            else:
                failed += 1
                print("FAILED: %s: wanted %s, got %s" % (words[0], wanted, got))
    print("%d passed, %d failed" % (passed, failed))
    return failed == 0 and passed > 0


def main(words):
    if len(words) == 4 and words[0] == "fuzz":
        return 0 if fuzz(words[1], int(words[2]), int(words[3])) else 1
    if len(words) == 4 and words[0] == "compare" and words[3] in POOLS:
        return 0 if compare(words[1], words[2], words[3]) else 1
    if len(words) == 4 and words[0] == "table" and words[3] in POOLS:
        table(words[1].split(" "), int(words[2]), words[3])
        return 0
    print(__doc__, file=sys.stderr)
    return 2


if __name__ == "__main__":
    sys.exit(main(sys.argv[1:]))
