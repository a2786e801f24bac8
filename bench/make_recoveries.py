#!/usr/bin/env python3
"""Writes the plants and sessions that bench/recover.sh and bench/certificate.sh time: rows of valves, each of which lets
through what the one before does, with the goal that something comes out of the last. `make_recoveries.py KIND N FOLDER`
writes KIND.lv and, for 1, 8 and 64 tracked states, KIND.K.ses there; with a number of goals behind, as many of the last
valves have one each. KIND is `equal` (opening costs 1 each), `unequal` (it costs 1 to 7) or
`none` (a valve may be stuck closed, so that there is no recovery from several states)."""
import sys

from make_plants import VALVE, row

TYPE = VALVE + """mode stuck
in closed out = zero
in open out = inn
in stuck out = %s
step closed -> open when cmd = open
step open -> closed when cmd = close
fault closed -> stuck cost 3
fault open -> stuck cost 5
end
"""


def main():
    kind, n, folder = sys.argv[1], int(sys.argv[2]), sys.argv[3]
    goals = int(sys.argv[4]) if len(sys.argv) > 4 else 1
    lines = row(n)
    for i in range(1, n + 1):
        lines.append("price v%d.cmd = open %d" % (i, 1 + (i * 3) % 7 if kind == "unequal" else 1))
    with open("%s/%s.lv" % (folder, kind), "w") as out:
        out.write("model %s\n" % kind + TYPE % ("zero" if kind == "none" else "inn") + "\n".join(lines) + "\n")
    for k in (1, 8, 64):
        session = ["track %d" % k, "budget 1000000", "diagnose", "commit"]
        session += ["goal g%d v%d.out = some" % (i, i) for i in range(n, n - goals, -1)]
        for name, more in (("before", []), ("ses", ["recover", "conflicts"])):
            with open("%s/%s.%d.%s" % (folder, kind, k, name), "w") as out:
                out.write("\n".join(session + more) + "\n")


if __name__ == "__main__":
    main()
