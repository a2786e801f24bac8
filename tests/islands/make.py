#!/usr/bin/env python3
"""Writes the random models and sessions NNN.lv and NNN.ses beside this file, from the fixed seeds 1 to 300: plants of two to
six islands, of two to five valves each, that share nothing, so that the faults of one tell nothing of those of another.
Faults have few different costs, so that many candidates cost the same. Most sessions look at some ends that should have
flow and have none; some change commands, commit, go on with a diagnosis in small pieces, or list no two of one target.

The files NNN.out hold what an independent reference program, which is not part of this repository, answers to them. A
model or session that is changed here needs new ones.
"""

import os
import random

HERE = os.path.dirname(os.path.abspath(__file__))

SEEDS = range(1, 301)


def make_types(rng):
    """Two kinds of valve: one that commands open and close, and a joint that is open unless it broke."""
    costs = rng.choice([[1, 2], [2, 3, 4], [1], [3, 5, 8], [2, 2, 3]])
    lines = ["domain flow zero some", "domain order none open close"]
    lines += ["type valve", "control cmd order", "variable inn flow", "observable out flow"]
    lines += ["mode closed", "mode open", "mode stuck_closed", "mode stuck_open"]
    lines += ["in closed out = zero", "in open out = inn", "in stuck_closed out = zero", "in stuck_open out = inn"]
    lines += ["step closed -> open when cmd = open", "step open -> closed when cmd = close"]
    faults = [("closed", "stuck_closed"), ("open", "stuck_closed")] + rng.sample([("open", "stuck_open"), ("closed", "stuck_open")], rng.choice([0, 1, 2]))
    rng.shuffle(faults)
    lines += ["fault %s -> %s cost %d" % (a, b, rng.choice(costs)) for a, b in faults]
    if rng.random() < 0.4:
        lines.append("fault open -> stuck_closed cost %d" % rng.choice(costs))
    lines += ["end", "type joint", "variable inn flow", "observable out flow", "mode whole", "mode cut", "mode blind"]
    lines += ["in whole out = inn", "in cut out = zero"]
    lines += ["fault whole -> cut cost %d" % rng.choice(costs), "fault whole -> blind cost %d" % (rng.choice(costs) + 1), "end"]
    return lines


def make_island(rng, number):
    """The parts of an island, in a row or in two rows that end in one: lines, names of valves, names of all parts."""
    size = rng.choice([2, 2, 3, 3, 4, 5])
    names = ["i%d_%d" % (number, n) for n in range(size)]
    valves = [name for n, name in enumerate(names) if n == 0 or rng.random() < 0.6]
    lines = ["part %s %s %s" % (name, "valve" if name in valves else "joint", rng.choice(["closed", "closed", "open"]) if name in valves else "whole") for name in names]
    laws = ["law %s.inn = some" % names[0]]
    if size >= 3 and rng.random() < 0.4:
        laws.append("law %s.inn = some" % names[1])
        laws.append("law %s.inn = some <=> (%s.out = some | %s.out = some)" % (names[2], names[0], names[1]))
        begin = 3
    else:
        begin = 1
    laws += ["law %s.inn = %s.out" % (names[n], names[n - 1]) for n in range(begin, size)]
    return lines, laws, valves, names


def make_pair(seed):
    rng = random.Random(seed)
    model = ["model islands%d" % seed] + make_types(rng)
    islands = [make_island(rng, n) for n in range(rng.choice([2, 3, 3, 4, 5, 6]))]
    for lines, _, _, _ in islands:
        model += lines
    for _, laws, _, _ in islands:
        model += laws
    session = ["track %d%s" % (rng.choice([1, 2, 4, 8, 20]), rng.choice(["", "", "", " distinct"]))]
    for _, _, valves, _ in islands:
        session += ["command %s.cmd = open" % valve for valve in valves if rng.random() < 0.9]
    ends = [names[-1] for _, _, _, names in islands]
    for n, end in enumerate(ends):
        if rng.random() < 0.8:
            session.append("observe o%d %s.out = %s" % (n, end, rng.choice(["zero", "zero", "zero", "some"])))
    if rng.random() < 0.3:
        session += ["budget %d" % rng.choice([1, 3, 7]), "diagnose", "more %d" % rng.choice([1, 5]), "more 10000", "budget 10000"]
    session += ["diagnose", "conflicts"]
    if rng.random() < 0.5:
        session += ["commit", "states"]
        for n, end in enumerate(ends):
            if rng.random() < 0.3:
                session.append("observe p%d %s.out = %s" % (n, end, rng.choice(["zero", "some"])))
        session += ["track %d" % rng.choice([1, 4, 9]), "diagnose", "conflicts"]
    return model, session


def main():
    for seed in SEEDS:
        model, session = make_pair(seed)
        for ending, lines in ((".lv", model), (".ses", session)):
            with open(os.path.join(HERE, "%03d%s" % (seed, ending)), "w", encoding="ascii") as f:
                f.write("\n".join(lines) + "\n")


main()
