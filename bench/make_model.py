#!/usr/bin/env python3
"""Writes a model text of the kind and size given to standard output; each is accepted.

    series LINES   a series of up to 256 valves, then laws over them, in so many lines
    types LINES    types of 16 modes and 64 moves, in about so many lines, and a part of the first
    short LINES    the same in the second version: types of 16 modes and 64 moves, three lines of faults from each other mode and a repair
    laws LINES     two parts and so many laws, each of nearly 4,000 bytes
    shared LINES   a type with so many laws, each of nearly 4,000 bytes, and 256 parts of it
    domains LINES  so many domains, each of a name of its own, and a part
    variables LINES   a type with so many variables, and a part of another type
    names LINES    so many types, each of a name of its own, and a part of the last
    prices LINES   a part with as many controls as it takes, and so many prices of theirs: at most 61,425
    bytes BYTES    a series whose text has exactly so many bytes, the last of them a comment
    clauses PARTS  parts of a type with 4,093 clauses each, and laws behind 256 of them up to the limit of 1,048,576 clauses
"""

import sys

DOMAINS = ["domain flow zero some", "domain order none open close"]
VALVE = ["type valve", "control cmd order", "variable inn flow", "observable out flow",
         "mode closed", "mode open", "mode stuck_closed", "mode stuck_open",
         "in closed out = zero", "in open out = inn", "in stuck_closed out = zero", "in stuck_open out = inn",
         "step closed -> open when cmd = open", "step open -> closed when cmd = close",
         "fault closed -> stuck_closed cost 3", "fault open -> stuck_open cost 5", "fault open -> stuck_closed cost 4",
         "fault closed -> stuck_open cost 8", "end"]
MOST_PARTS = 256
LAW_BYTES = 4000


def series(parts):
    """The lines of a series of valves, and then laws over it without end."""
    yield from DOMAINS + VALVE
    yield from ("part v%d valve closed" % i for i in range(1, parts + 1))
    while True:
        yield "law v1.inn = some"
        yield from ("law v%d.inn = v%d.out" % (i, i - 1) for i in range(2, parts + 1))


def crowded_type(number):
    """A type of 16 modes and 64 moves: the stay of each, three more from each."""
    lines = ["type t%d" % number, "control cmd order", "variable inn flow"]
    lines += ["mode m%d" % m for m in range(1, 17)]
    for m in range(1, 17):
        target = m % 16 + 1
        lines.append("step m%d -> m%d when cmd = open & !(inn = zero) | mode = m%d" % (m, target, target))
        lines.append("fault m%d -> m%d cost %d" % (m, target, m))
        lines.append("fault m%d -> m%d cost %d when cmd = close => inn = some" % (m, target, m))
    return lines + ["end"]


def types(lines):
    out = list(DOMAINS)
    number = 1
    while len(out) < lines:
        out += crowded_type(number)
        number += 1
    return out + ["part p t1 m1"]


def short_type(number):
    """16 stays, 3 times 15 faults, a fault with its step back, and a step: 64 moves of five lines."""
    modes = ["m%d" % i for i in range(1, 17)]
    return (["type t%d" % number, "control c order"] + ["mode " + mode for mode in modes]
            + ["in %s c = none" % " | ".join(modes)]
            + ["fault -> m%d cost %d when c = open" % (i, i) for i in (1, 2, 3)]
            + ["fault m1 -> m4 cost 5 repair c = close when c = open", "step m1 -> m2 when c = open", "end"])


def short(lines):
    out = ["version 2"] + list(DOMAINS)
    number = 1
    while len(out) < lines:
        out += short_type(number)
        number += 1
    return out + ["part p t1 m1"]


def long_law(equations):
    """A law of nearly as many bytes as that; it has one clause."""
    law = "law " + equations[0]
    i = 1
    while len(law) + 40 < LAW_BYTES:
        law += " | (%s)" % equations[i % len(equations)]
        i += 1
    return law


def laws(lines):
    front = DOMAINS + VALVE + ["part v1 valve closed", "part v2 valve closed"]
    return front + [long_law(["v1.out = zero", "v2.out = zero", "v2.inn = some"])] * lines


def shared(lines):
    law = long_law(["inn = some", "out = zero", "cmd = none", "mode = open"])
    parts = ["part v%d valve closed" % i for i in range(1, MOST_PARTS + 1)]
    return DOMAINS + VALVE[:-1] + [law] * lines + ["end"] + parts


def domains(lines):
    return ["domain d%d a b" % i for i in range(lines)] + ["type t", "variable x d%d" % (lines - 1), "mode m", "end", "part p t m"]


def variables(lines):
    return ["domain d a b", "type t"] + ["variable x%d d" % i for i in range(lines)] + ["mode m", "end", "type u", "mode m", "end", "part p u m"]


def names(lines):
    out = []
    for i in range(lines):
        out += ["type t%d" % i, "mode m", "end"]
    return out + ["part p t%d m" % (lines - 1)]


def prices(lines):
    """Of 16 values each has a price but the first; more values would have fewer prices within the limit on clauses."""
    controls = -(-lines // 15)
    out = ["domain d " + " ".join("v%d" % v for v in range(16)), "type t"]
    out += ["control c%d d" % i for i in range(controls)]
    out += ["mode m", "end", "part p t m"]
    return out + ["price p.c%d = v%d 2" % (i // 15, i % 15 + 1) for i in range(lines)]


def series_of_bytes(size):
    """Laws until the next would not leave room for a comment."""
    out = []
    left = size
    for line in series(MOST_PARTS):
        if left - len(line) - 1 < 40:
            return out + ["#" * (left - 1)]
        out.append(line)
        left -= len(line) + 1


def most_clauses(parts):
    """16 modes, 64 moves without guards, and variables of 32, 20, 18, 4 and 3 values."""
    sizes = {"many": 32, "twenty": 20, "eighteen": 18, "four": 4, "three": 3}
    lines = ["domain %s %s" % (name, " ".join("%s%d" % (name[:2], v) for v in range(size))) for name, size in sizes.items()]
    lines.append("type t")
    lines += ["variable %s_one %s" % (name, name) for name in sizes]
    lines += ["mode m%d" % m for m in range(16)]
    lines += ["fault m%d -> m%d cost %d" % (m, (m + step) % 16, step) for m in range(16) for step in (1, 2, 3)]
    lines += ["end"] + ["part p%d t m0" % p for p in range(parts)]
    return lines + ["law p0.four_one = fo0"] * (384 if parts == MOST_PARTS else 0)


def main():
    kind, size = sys.argv[1], int(sys.argv[2])
    if kind == "series":
        lines = [line for line, _ in zip(series(min(MOST_PARTS, size // 4)), range(size))]
    else:
        kinds = {"types": types, "short": short, "laws": laws, "shared": shared, "domains": domains, "variables": variables, "names": names,
                 "prices": prices, "bytes": series_of_bytes, "clauses": most_clauses}
        lines = kinds[kind](size)
    sys.stdout.write("".join(line + "\n" for line in lines))


if __name__ == "__main__":
    main()
