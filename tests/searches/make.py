#!/usr/bin/env python3
"""Writes the models and sessions NNN.lv and NNN.ses beside this file, from the fixed seeds 1 to 160: plants of 2 to 12
parts, of which half have formulas that propagation alone can't decide, and sessions that diagnose with small and large
budgets, go on, show conflicts and commit.

The files NNN.out hold what an independent reference program, which is not part of this repository, answers to them. A
model that is changed here needs new ones.
"""

import os
import random

HERE = os.path.dirname(os.path.abspath(__file__))
SEEDS = range(1, 161)
BITS = ["x", "y", "z"]


def equation(rng, names):
    return "%s = %s" % (rng.choice(names), rng.choice(["off", "on"]))


def clauses(rng, names):
    """Formulas that some values satisfy, each over two or three of the variables."""
    values = {n: rng.choice(["off", "on"]) for n in names}
    out = []
    for _ in range(rng.choice([2, 3, 4])):
        some = rng.sample(names, rng.choice([2, 3]) if len(names) > 2 else 2)
        true = rng.choice(some)
        sides = ["%s = %s" % (n, values[n] if n == true else rng.choice(["off", "on"])) for n in some]
        out.append(" | ".join(sides))
    return out


def box(rng, name, splits):
    """A type: a control, what comes in, what goes out, and bits between them."""
    bits = BITS[:rng.choice([2, 3]) if splits else 1]
    names = ["inn", "out"] + bits
    lines = ["type " + name, "control cmd order", "variable inn bit", "observable out bit"]
    lines += ["variable %s bit" % b for b in bits]
    modes = ["idle", "busy", "bad"] + (["worse"] if rng.random() < 0.5 else [])
    lines += ["mode " + m for m in modes]
    lines.append("in idle out = off")
    lines.append("in busy out = inn")
    for m in modes[2:]:
        if splits:
            lines += ["in %s %s" % (m, c) for c in clauses(rng, ["out"] + bits)]
        elif rng.random() < 0.6:
            lines.append("in %s %s" % (m, equation(rng, ["out"])))
    if splits:
        lines += ["law " + c for c in clauses(rng, names)[:2]]
        for m in rng.sample(modes[:2], 1):
            lines += ["in %s %s" % (m, c) for c in clauses(rng, bits + ["out"])[:3]]
    lines += ["step idle -> busy when cmd = start", "step busy -> idle when cmd = halt"]
    if rng.random() < 0.4:
        lines.append("step idle -> bad when cmd = start & inn = off")
    for a in modes:
        for b in rng.sample(modes[2:], 1) + ([rng.choice(modes)] if rng.random() < 0.3 else []):
            guard = " when " + equation(rng, ["inn", "out"]) if rng.random() < 0.2 else ""
            lines.append("fault %s -> %s cost %d%s" % (a, b, rng.choice([1, 2, 2, 3, 3, 5, 8]), guard))
    return lines + ["end"]


def make_model(rng, number):
    splits = number % 2 == 0
    count = rng.choice([2, 3, 4, 5]) if splits else rng.choice([4, 6, 8, 12])
    types = ["box", "crate"][:rng.choice([1, 2])]
    lines = ["model m%d" % number, "domain bit off on", "domain order rest start halt"]
    for t in types:
        lines += box(rng, t, splits)
    parts = ["p%d" % i for i in range(1, count + 1)]
    lines += ["part %s %s %s" % (p, rng.choice(types), rng.choice(["idle", "idle", "busy"])) for p in parts]
    if rng.random() < 0.8:
        lines.append("law p1.inn = on")
    for i in range(1, count):
        before = rng.choice(parts[:i]) if rng.random() < 0.3 else parts[i - 1]
        lines.append("law %s.inn = %s.out" % (parts[i], before))
    return lines, parts


def make_session(rng, parts):
    lines = ["track %d" % rng.choice([1, 2, 4, 8, 16])]
    for turn in range(rng.choice([1, 2, 3])):
        if rng.random() < 0.7:
            lines.append("budget %d" % rng.choice([1, 2, 3, 5, 8, 20, 1000000]))
        for p in parts:
            order = rng.choice(["start", "start", "halt", None])
            if order:
                lines.append("command %s.cmd = %s" % (p, order))
        for seen in range(rng.choice([0, 1, 1, 2])):
            lines.append("observe o%d_%d %s.out = %s" % (turn, seen, rng.choice(parts), rng.choice(["off", "on"])))
        lines += ["diagnose", "conflicts"]
        for _ in range(rng.choice([0, 1, 2, 3])):
            lines.append("more %d" % rng.choice([1, 1, 2, 4, 50]))
        lines += ["conflicts", "commit"]
        if rng.random() < 0.5:
            lines += ["budget 1000000", "diagnose", "commit"]
        lines.append("states")
        if rng.random() < 0.3:
            lines += ["retract o%d_0" % turn, "diagnose"]
    return lines


def main():
    for number in SEEDS:
        rng = random.Random(number)
        model, parts = make_model(rng, number)
        session = make_session(rng, parts)
        for kind, lines in (("lv", model), ("ses", session)):
            with open(os.path.join(HERE, "%03d.%s" % (number, kind)), "w") as out:
                out.write("\n".join(lines) + "\n")


main()
