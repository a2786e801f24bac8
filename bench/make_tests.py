#!/usr/bin/env python3
"""Writes the plants and sessions that bench/probe.sh times tests over: two dials, each in one of eight modes, a meter that
shows where they are once it is switched on, and N switches that cost as much and show nothing, of which each is tried
before the meter. `make_tests.py N FOLDER` writes dials.lv and, for 2, 8 and 64 tracked states, dials.K.before and dials.K.ses there. The meter has 32 values, so that
64 tracked states can't be told apart."""
import sys

TYPES = """domain order no yes
domain word %s
type dial
%s
%s
end
type meter
control look order
observable seen word
mode off
mode on
in off seen = w0
step off -> on when look = yes
end
type switch
control set order
mode off
mode on
step off -> on when set = yes
end
"""

MODES, WORDS = 8, 32


def plant(n):
    modes = "\n".join("mode m%d" % i for i in range(MODES))
    faults = "\n".join("fault m0 -> m%d cost %d" % (i, i) for i in range(1, MODES))
    lines = ["part a dial m0", "part b dial m0", "part m meter off"] + ["part s%d switch off" % i for i in range(1, n + 1)]
    lines += ["price m.look = yes 1"] + ["price s%d.set = yes 1" % i for i in range(1, n + 1)]
    for i in range(MODES):
        for j in range(MODES):
            lines.append("law m.mode = on & a.mode = m%d & b.mode = m%d => m.seen = w%d" % (i, j, (MODES * i + j) % WORDS))
    return "model dials\n" + TYPES % (" ".join("w%d" % i for i in range(WORDS)), modes, faults) + "\n".join(lines) + "\n"


def main():
    n, folder = int(sys.argv[1]), sys.argv[2]
    with open("%s/dials.lv" % folder, "w") as out:
        out.write(plant(n))
    for k in (2, 8, 64):
        session = ["track %d" % k, "budget 1000", "diagnose", "commit"]
        for name, more in (("before", []), ("ses", ["test m.seen", "conflicts"])):
            with open("%s/dials.%d.%s" % (folder, k, name), "w") as out:
                out.write("\n".join(session + more) + "\n")


if __name__ == "__main__":
    main()
