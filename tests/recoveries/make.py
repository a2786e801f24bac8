#!/usr/bin/env python3
"""Writes the models and sessions NNN.lv and NNN.ses beside this file, from the fixed seeds 1 to 160: plants of 1 to 4
parts with prices, of which a third have formulas that propagation alone can't decide, and sessions that hold goals and
drop them, ask for recoveries with small and large budgets, go on, show conflicts, and ask what propagation finds.

The files NNN.out hold what an independent reference program, which is not part of this repository, answers to them. A
model that is changed here needs new ones.
"""

import os
import random

HERE = os.path.dirname(os.path.abspath(__file__))
SEEDS = range(1, 161)
ORDERS = ["rest", "start", "halt"]
BITS = ["off", "on"]


def equation(rng, names):
    return "%s = %s" % (rng.choice(names), rng.choice(BITS))


def formula(rng, atom, depth):
    """A formula over the equations that `atom` makes."""
    kind = rng.randrange(7) if depth else 0
    if kind in (0, 1):
        return atom()
    if kind == 2:
        return "!(%s)" % formula(rng, atom, depth - 1)
    sign = {3: " & ", 4: " | ", 5: " => ", 6: " <=> "}[kind]
    return "(%s%s%s)" % (formula(rng, atom, depth - 1), sign, formula(rng, atom, depth - 1))


def box(rng, name, splits):
    """A type: a control or two, what comes in, what goes out, and a bit between them."""
    controls = ["cmd"] + (["aux"] if rng.random() < 0.4 else [])
    lines = ["type " + name] + ["control %s order" % c for c in controls]
    lines += ["variable inn bit", "observable out bit", "variable x bit", "variable y bit"]
    modes = ["idle", "busy", "bad"] + (["worse"] if rng.random() < 0.4 else [])
    lines += ["mode " + m for m in modes]
    lines += ["in idle out = off", "in busy out = inn"]
    for m in modes[2:]:
        if rng.random() < 0.6:
            lines.append("in %s %s" % (m, equation(rng, ["out"])))
    if splits:
        lines += ["in busy x = on | y = on", "in busy x = off | y = on", "in busy x = on | y = off"]
        lines += ["in %s %s | %s" % (rng.choice(modes), equation(rng, ["x", "y"]), equation(rng, ["inn", "out"]))]
    else:
        lines.append("law x = inn")
    lines += ["step idle -> busy when cmd = start", "step busy -> idle when cmd = halt"]
    if "aux" in controls:
        lines.append("step %s -> %s when aux = start" % (rng.choice(modes), rng.choice(modes[:2])))
    if rng.random() < 0.5:
        lines.append("step idle -> bad when cmd = start & %s" % equation(rng, ["inn", "y"]))
    for a in modes[:2]:
        lines.append("fault %s -> %s cost %d" % (a, rng.choice(modes[2:]), rng.choice([1, 2, 3, 5])))
    return lines + ["end"], controls


def make_model(rng, number):
    splits = number % 3 == 0
    count = rng.choice([1, 2, 2, 3, 3, 4, 5]) if not splits else rng.choice([1, 2, 2, 3])
    lines = ["model r%d" % number, "domain bit off on", "domain order rest start halt"]
    types = {}
    for t in ["box", "crate"][:rng.choice([1, 2])]:
        text, types[t] = box(rng, t, splits)
        lines += text
    parts = [("p%d" % i, rng.choice(sorted(types))) for i in range(1, count + 1)]
    while sum(len(types[t]) for _, t in parts) > 4:
        parts.pop()
    count = len(parts)
    lines += ["part %s %s %s" % (p, t, rng.choice(["idle", "idle", "busy"])) for p, t in parts]
    if rng.random() < 0.8:
        lines.append("law p1.inn = on")
    for i in range(1, count):
        before = rng.choice(parts[:i]) if rng.random() < 0.3 else parts[i - 1]
        lines.append("law %s.inn = %s.out" % (parts[i][0], before[0]))
    for p, t in parts:
        for c in types[t]:
            for order in ORDERS[1:]:
                if rng.random() < 0.5:
                    lines.append("price %s.%s = %s %d" % (p, c, order, rng.choice([0, 1, 1, 2, 3, 7])))
    return lines, parts, types


def goal_atom(rng, parts):
    def atom():
        p = rng.choice(parts)[0]
        kind = rng.randrange(6)
        if kind == 0:
            return "%s.mode = %s" % (p, rng.choice(["idle", "busy", "bad"]))
        if kind == 1 and len(parts) > 1:
            return "%s.out = %s.out" % (p, rng.choice(parts)[0])
        if kind == 2 and rng.random() < 0.3:
            return rng.choice(["true", "false", "%s.zzz = on" % p, "%s.out = red" % p])
        return "%s.%s = %s" % (p, rng.choice(["out", "out", "x", "y"]), rng.choice(BITS))
    return atom


def make_session(rng, parts, types):
    lines = ["track %d" % rng.choice([1, 2, 4, 8])]
    atom = goal_atom(rng, parts)
    for turn in range(rng.choice([1, 2, 3])):
        if rng.random() < 0.6:
            lines.append("budget %d" % rng.choice([1, 2, 3, 5, 20, 1000000]))
        for p, t in parts:
            for c in types[t]:
                order = rng.choice(["start", "halt", None, None])
                if order:
                    lines.append("command %s.%s = %s" % (p, c, order))
        for seen in range(rng.choice([0, 1, 1, 2])):
            lines.append("observe o%d_%d %s.out = %s" % (turn, seen, rng.choice(parts)[0], rng.choice(BITS)))
        lines.append("labels")
        for n in range(rng.choice([1, 1, 2])):
            lines.append("goal g%d %s" % (rng.choice([n, n, turn + 2]), formula(rng, atom, rng.choice([0, 1, 2]))))
        lines += ["recover", "conflicts"]
        for _ in range(rng.choice([0, 1, 2, 3])):
            lines.append("more %d" % rng.choice([1, 1, 2, 4, 1000000]))
        lines += ["conflicts", "commit"]
        if rng.random() < 0.4:
            lines.append("drop g%d" % rng.choice([0, 1, 2]))
        lines += ["budget 1000000", "diagnose", "labels 1", "commit", "states"]
        lines += ["labels", "labels %d" % rng.choice([1, 2, 3, 64]), "recover", "conflicts"]
        if rng.random() < 0.3:
            lines += ["retract o%d_0" % turn, "labels", "recover"]
    return lines


def main():
    for number in SEEDS:
        rng = random.Random(1000 + number)
        model, parts, types = make_model(rng, number)
        session = make_session(rng, parts, types)
        for kind, lines in (("lv", model), ("ses", session)):
            with open(os.path.join(HERE, "%03d.%s" % (number, kind)), "w") as out:
                out.write("\n".join(lines) + "\n")


main()
