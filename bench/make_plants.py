#!/usr/bin/env python3
"""Writes the plants and sessions that bench/diagnose.sh times: plants of valves like that of examples/valve.lv, in a
row, in a fan behind one, in a ladder of two rows, and in a propulsion branch, two such ladders that feed an engine.
`make_plants.py KIND N FOLDER` writes KIND.lv and, for 1, 4 and 64 candidates, KIND.K.ses there."""
import sys

# what each valve has, up to the mode open
VALVE = """domain flow zero some
domain order none open close
type valve
control cmd order
variable inn flow
observable out flow
mode closed
mode open
"""

TYPE = VALVE + """mode stuck_closed
mode stuck_open
in closed out = zero
in open out = inn
in stuck_closed out = zero
in stuck_open out = inn
step closed -> open when cmd = open
step open -> closed when cmd = close
fault closed -> stuck_closed cost 3
fault open -> stuck_open cost 5
fault open -> stuck_closed cost 4
fault closed -> stuck_open cost 8
end
"""

ENGINE = """type engine
observable thrust flow
variable fuel flow
variable oxidizer flow
mode works
mode failed
in works thrust = some <=> fuel = some & oxidizer = some
in failed thrust = zero
fault works -> failed cost 20
end
"""


def parts(n):
    return ["part v%d valve closed" % i for i in range(1, n + 1)]


def row(n):
    """one behind the other: each lets through what the one before does"""
    return parts(n) + ["law v1.inn = some"] + ["law v%d.inn = v%d.out" % (i, i - 1) for i in range(2, n + 1)]


def fan(n):
    """all behind the first"""
    return parts(n) + ["law v1.inn = some"] + ["law v%d.inn = v1.out" % i for i in range(2, n + 1)]


def pairs(first, last):
    """two rows, each valve behind both of the pair before"""
    laws = ["law v%d.inn = some" % first, "law v%d.inn = some" % (first + 1)]
    for i in range(first + 2, last + 1, 2):
        for j in (i, i + 1):
            laws.append("law v%d.inn = some <=> v%d.out = some | v%d.out = some" % (j, i - 2, i - 1))
    return laws


def ladder(n):
    return parts(n) + pairs(1, n)


def branch(n):
    """two ladders of (n - 4) / 2 valves, at least two, each of which lets through one of an engine's propellants"""
    n = valves_of("branch", n)
    laws = pairs(1, n // 2) + pairs(n // 2 + 1, n)
    for propellant, last in (("fuel", n // 2), ("oxidizer", n)):
        laws.append("law e.%s = some <=> v%d.out = some | v%d.out = some" % (propellant, last - 1, last))
    return parts(n) + ["part e engine works"] + laws


def valves_of(kind, n):
    return n - 4 if kind.startswith("branch") else n


def commanded(kind, n):
    """the valves that are commanded to open: the last of a row, the first of each pair of a branch, else all"""
    if kind == "row":
        return [n]
    return range(1, valves_of(kind, n) + 1, 2 if kind == "branch" else 1)


def silent(kind, n):
    """the valves out of which nothing comes"""
    if kind.startswith("branch"):
        return []
    return [n // 2, n] if kind == "twofaults" else [n]


def session(kind, n):
    lines = ["command v%d.cmd = open" % i for i in commanded(kind, n)]
    lines += ["observe o%d v%d.out = zero" % (i, i) for i in silent(kind, n)]
    return lines + (["observe o e.thrust = zero"] if kind.startswith("branch") else [])


PLANTS = {"row": row, "opened": row, "fan": fan, "twofaults": fan, "ladder": ladder, "branch": branch, "branches": branch}


def main():
    kind, n, folder = sys.argv[1], int(sys.argv[2]), sys.argv[3]
    types = TYPE + (ENGINE if kind.startswith("branch") else "")
    with open("%s/%s.lv" % (folder, kind), "w") as out:
        out.write("model %s\n" % kind + types + "\n".join(PLANTS[kind](n)) + "\n")
    for k in (1, 4, 64):
        with open("%s/%s.%d.ses" % (folder, kind, k), "w") as out:
            out.write("\n".join(["track %d" % k] + session(kind, n) + ["diagnose", "conflicts"]) + "\n")


if __name__ == "__main__":
    main()
