#!/usr/bin/env python3
"""Writes the random models and sessions NN.lv and NN.ses beside this file, from the fixed seeds 1 to 144. The sessions of
the seeds from 65 on have lines of every word, and tracked states, budgets and observations that come and go.

The files NN.out hold what an independent reference program, which is not part of this repository,
answers to them; NN.err stands beside a model that is to be refused. A model that is changed here
needs new ones.
"""

import os
import random
import sys

sys.path.insert(0, os.path.join(os.path.dirname(os.path.abspath(__file__)), ".."))
sys.dont_write_bytecode = True
import texts  # noqa: E402

SEEDS = range(1, 145)

# The first seed whose session has lines of every word.
FIRST_WIDE = 65

# The most assignments of values to all variables that a model may have, so that a search over them is quick.
MOST_ASSIGNMENTS = 4096
MOST_WIDE_ASSIGNMENTS = 600

DOMAINS = [("level", ["low", "high", "full"]), ("flow", ["zero", "some", "much"]), ("order", ["none", "start", "halt"]),
           ("power", ["off", "on", "mode"])]
TYPES = ["pump", "tank", "relay", "mode"]
PARTS = ["p", "q", "r", "s"]
MODES = ["idle", "busy", "stuck", "on", "mode"]
CONTROLS = ["cmd", "sel"]
OTHERS = ["x", "y", "on", "low"]


class Type:
    """A type of parts: its name, its variables as (kind, name, domain), its modes and its statements."""

    def __init__(self, name, variables, modes):
        self.name = name
        self.variables = variables
        self.modes = modes
        self.body = []

    def size(self):
        size = len(self.modes)
        for _, _, domain in self.variables:
            size *= len(domain[1])
        return size


def make_type(rng, name, domains, tiny):
    modes = rng.sample(MODES, 2 if tiny else rng.choice([2, 2, 3]))
    controls = CONTROLS[:1 if tiny else rng.choice([1, 1, 2])]
    others = rng.sample(OTHERS, 1 if tiny else rng.choice([1, 2, 2]))
    variables = [("control", c, rng.choice(domains)) for c in controls]
    variables += [(rng.choice(["variable", "observable"]), v, rng.choice(domains)) for v in others]
    rng.shuffle(variables)
    return Type(name, variables, modes)


def equation(rng, variables, held):
    """A mode formula over a type's variables that every assignment in `held` satisfies, or None."""
    for _ in range(20):
        v = rng.choice(variables)
        same = [w for w in variables if w is not v and w[2] is v[2] and w[1] not in v[2][1]]
        if same and rng.random() < 0.4:
            w = rng.choice(same)
            if all(a[v[1]] == a[w[1]] for a in held):
                return "%s = %s" % (v[1], w[1])
        else:
            value = rng.choice(v[2][1])
            if all(a[v[1]] == value for a in held):
                return "%s = %s" % (v[1], value)
    return None


def fill_type(rng, t, held):
    """The type's mode formulas, steps and faults; `held` has the assignments that are to be feasible, by mode."""
    others = [v for v in t.variables if v[0] != "control"]
    for m in t.modes:
        for _ in range(rng.choice([0, 1, 1, 2])):
            pool = others if rng.random() < 0.85 else t.variables
            f = equation(rng, pool, held.get(m, []))
            if f:
                t.body.append("in %s %s" % (m, f))
    moves = []
    still = rng.choice(t.modes) if rng.random() < 0.4 else None
    for m in t.modes:
        if m == still:
            continue
        count = rng.choice([1, 1, 2, 2, 3])
        guard = None
        for _ in range(count):
            pool = t.variables if rng.random() < 0.25 else [v for v in t.variables if v[0] == "control"]
            if guard is None or rng.random() < 0.5:
                guard = equation(rng, pool, [])
                if rng.random() < 0.05:
                    guard = "mode = %s" % rng.choice(t.modes)
            moves.append("step %s -> %s when %s" % (m, rng.choice(t.modes), guard))
    for m in t.modes:
        for _ in range(rng.choice([0, 1, 1, 2])):
            moves.append("fault %s -> %s cost %d" % (m, rng.choice(t.modes), rng.choice([1, 2, 2, 3, 3, 5, 1000000])))
    rng.shuffle(moves)
    t.body += moves


def make_model(rng, number):
    """The lines of a model, and its parts as (name, type)."""
    while True:
        most = rng.choice([1, 2, 2, 2, 3, 3]) if number % 11 or number >= FIRST_WIDE else 4
        domains = []
        for name, values in rng.sample(DOMAINS, rng.choice([1, 2, 2, 3])):
            domains.append((name, values[:rng.choice([2, 2, 3])]))
        tiny = most == 4 or rng.random() < (0.2 if number < FIRST_WIDE else 0.6)
        names = rng.sample(TYPES, 1 if tiny and most == 4 else rng.choice([1, 2, 2]))
        types = [make_type(rng, n, domains, tiny) for n in names]
        size = 1
        parts = []
        for name in PARTS[:most]:
            t = rng.choice(types)
            parts.append((name, t, rng.choice(t.modes)))
            size *= t.size()
        if size <= (MOST_ASSIGNMENTS if number < FIRST_WIDE else MOST_WIDE_ASSIGNMENTS):
            break
    # One assignment that the laws and the formulas of the starting modes hold in: the controls rest.
    held = {}
    whole = {}
    for name, t, start in parts:
        a = {}
        for kind, v, domain in t.variables:
            a[v] = domain[1][0] if kind == "control" else rng.choice(domain[1])
            whole[name, v] = a[v]
        whole[name, "mode"] = start
        held.setdefault(t.name, {}).setdefault(start, []).append(a)
    for t in types:
        fill_type(rng, t, held.get(t.name, {}) if rng.random() < 0.95 else {})

    lines = []
    if rng.random() < 0.7:
        lines.append("model m%d" % number)
    lines += ["domain %s %s" % (n, " ".join(vs)) for n, vs in domains]
    for t in types:
        lines.append("type " + t.name)
        head = ["%s %s %s" % (kind, v, domain[0]) for kind, v, domain in t.variables]
        head.insert(rng.randrange(len(head) + 1), "mode " + t.modes[0])
        lines += head + ["mode " + m for m in t.modes[1:]] + t.body + ["end"]
    lines += ["part %s %s %s" % (name, t.name, start) for name, t, start in parts]
    lines += make_laws(rng, parts, whole)
    return lines, [(name, t) for name, t, _ in parts]


def make_laws(rng, parts, whole):
    """Laws over the parts, nearly all of which hold in the assignment `whole`."""
    places = [(name, v[1], v[2][1], v[2]) for name, t, _ in parts for v in t.variables if v[0] != "control"]
    laws = []
    for _ in range(rng.choice([0, 1, 1, 2, 2, 3])):
        for _ in range(20):
            name, v, values, domain = rng.choice(places)
            same = [w for w in places if w[3] is domain and w[:2] != (name, v)]
            throw = rng.random()
            if throw < 0.45 and same:
                w = rng.choice(same)
                if whole[name, v] == whole[w[0], w[1]] or rng.random() < 0.03:
                    laws.append("law %s.%s = %s.%s" % (name, v, w[0], w[1]))
                    break
            elif throw < 0.9:
                value = rng.choice(values)
                if whole[name, v] == value or rng.random() < 0.03:
                    laws.append("law %s.%s = %s" % (name, v, value))
                    break
            else:
                part, t, start = rng.choice(parts)
                twins = [p for p, u, _ in parts if u is t and whole[p, "mode"] == start and p != part]
                if rng.random() < 0.5 and twins:
                    laws.append("law %s.mode = %s.mode" % (part, rng.choice(twins)))
                    break
                if len(parts) > 1 and rng.random() < 0.4:
                    laws.append("law %s.mode = %s" % (part, start))
                    break
    return laws


def spoil(rng, lines):
    """A model that is to be refused: one line more, or one line less."""
    lines = list(lines)
    throw = rng.randrange(4)
    if throw == 0:
        lines.append("law p.mode = absent")
    elif throw == 1:
        lines.append("price p.cmd = start 3")
    elif throw == 2:
        lines.remove("end")
    else:
        del lines[next(i for i, l in enumerate(lines) if l.startswith("domain"))]
    return lines


def make_session(rng, parts):
    places = [(name, v[1], v[2][1]) for name, t in parts for v in t.variables if v[0] == "control"]
    other = [(name, v[1], v[2][1]) for name, t in parts for v in t.variables if v[0] != "control"]
    lines = []
    for _ in range(rng.choice([2, 3, 3, 4])):
        for _ in range(rng.choice([0, 1, 2, 2, 3])):
            name, v, values = rng.choice(places)
            value = rng.choice(values[1:] if rng.random() < 0.8 else values)
            lines.append(rng.choice(["command %s.%s = %s"] * 4 + ["command %s.%s=%s", "\tcommand  %s . %s\t= %s "])
                         % (name, v, value))
        if rng.random() < 0.6:
            name, v, values = rng.choice(places)
            lines.append(rng.choice([
                "command nobody.%s = %s" % (v, values[0]), "command %s.absent = %s" % (name, values[0]),
                "command %s.%s = absent" % (name, v), "command %s.mode = idle" % name,
                "command %s.%s = %s.%s" % (name, v, name, v), "command %s.%s = 1" % (name, v),
                "command %s = %s" % (v, values[0]), "command %s.%s" % (name, v), "command",
                "command %s.%s = %s %s" % (name, v, values[0], values[0]), "diagnose 2", "diagnose diagnose",
                "Diagnose", "quit", "track 2", "observe o %s.%s = %s" % other[0], "= diagnose", "1", "diagnose;",
                "diagnose\r", "\xe9", "command %s.%s = %s" % rng.choice(other)]))
        if rng.random() < 0.5:
            lines.append(rng.choice(["", "# a comment", "   ", "\t# tab, then \xe9 and \r in a comment", "#diagnose"]))
        lines.append(rng.choice(["diagnose"] * 4 + [" diagnose\t", "diagnose # why"]))
    return lines


def wrong_line(rng, controls, others):
    """A line that is refused in most states, each kind of refusal in its turn."""
    p, v, values = rng.choice(controls)
    q, w, seen = rng.choice(others)
    return rng.choice([
        "jump", "= track", "track", "track 0", "track 65", "track x", "budget 0", "budget 1000001", "budget",
        "more 0", "more 1000001", "more", "track %d" % 10 ** 40, "diagnose 1", "commit 1", "states states", "quit x",
        "command nobody.%s = %s" % (v, values[0]), "command %s.absent = %s" % (p, values[0]),
        "command %s.mode = %s" % (p, values[0]), "command %s.%s = absent" % (p, v), "command %s.%s" % (p, v),
        "command %s.%s = 1" % (p, v), "command true.%s = %s" % (v, values[0]), "command %s.%s = %s" % (q, w, seen[0]),
        "release %s" % p, "release nobody.%s" % v, "release %s.mode" % p, "release %s.%s" % (q, w),
        "observe true %s.%s = %s" % (q, w, seen[0]), "observe a %s.%s = absent" % (q, w),
        "observe a %s.%s = %s" % (p, v, values[0]), "observe a %s.mode = idle" % p, "observe a %s.absent = x" % q,
        "observe %s %s.%s = %s" % ("n" * 65, q, w, seen[0]), "observe a %s.%s" % (q, w), "observe a b %s = x" % w,
        "retract nothing_of_that_name", "retract mode", "retract", "retract a b", "retract " + "n" * 65,
        "diagnose;", "\xe9", "commit\r", "#" + "x" * 4096, "track 1 # " + "x" * 4090, "conflicts conflicts", "release"])


def make_wide_session(rng, parts):
    controls = [(name, v[1], v[2][1]) for name, t in parts for v in t.variables if v[0] == "control"]
    others = [(name, v[1], v[2][1]) for name, t in parts for v in t.variables if v[0] != "control"]
    observables = [(name, v[1], v[2][1]) for name, t in parts for v in t.variables if v[0] == "observable"]
    lines = []
    for _ in range(rng.choice([14, 18, 24, 30])):
        throw = rng.random()
        p, v, values = rng.choice(controls)
        if throw < 0.14:
            lines.append("command %s.%s = %s" % (p, v, rng.choice(values)))
        elif throw < 0.18:
            lines.append("release %s.%s" % (p, v))
        elif throw < 0.34 and observables:
            q, w, seen = rng.choice(observables)
            lines.append("observe %s %s.%s = %s" % (rng.choice("abcde"), q, w, rng.choice(seen)))
        elif throw < 0.42:
            lines.append("retract " + rng.choice("abcde"))
        elif throw < 0.56:
            lines.append("diagnose")
        elif throw < 0.62:
            lines.append("more %d" % rng.choice([1, 1, 2, 3, 10000]))
        elif throw < 0.74:
            lines += ["diagnose", rng.choice(["commit", "commit", "conflicts"]), "states"]
        elif throw < 0.78:
            lines.append("conflicts")
        elif throw < 0.82:
            lines.append("track %d" % rng.choice([1, 2, 3, 4, 6]))
        elif throw < 0.87:
            lines.append("budget %d" % rng.choice([1, 1, 2, 3, 5, 10000]))
        elif throw < 0.89:
            lines.append(rng.choice(["reset", "states", "commit", "states"]))
        elif throw < 0.9:
            lines.append("quit")
        else:
            lines.append(wrong_line(rng, controls, others))
    return lines


def layout(rng, lines, plain):
    """The bytes of the lines: some have comments, tabs, empty lines between them, CR ends or no last LF."""
    out = []
    for line in lines:
        if not plain and rng.random() < 0.05:
            out.append(rng.choice(["", "# note", "\t", "  # \xff"]))
        if not plain and rng.random() < 0.1:
            line = line.replace(" ", rng.choice(["\t", "  ", " "]))
        if not plain and rng.random() < 0.05:
            line += rng.choice([" # note", "#", "\t"])
        out.append(line)
    return texts.joined(rng, out)


def main():
    here = os.path.dirname(os.path.abspath(__file__))
    for seed in SEEDS:
        rng = random.Random(seed)
        lines, parts = make_model(rng, seed)
        session = make_session(rng, parts) if seed < FIRST_WIDE else make_wide_session(rng, parts)
        if seed % 16 == 7 and seed < FIRST_WIDE:
            lines = spoil(rng, lines)
        for kind, text in (("lv", layout(rng, lines, seed % 3 == 0)), ("ses", layout(rng, session, False))):
            with open(os.path.join(here, "%02d.%s" % (seed, kind)), "wb") as f:
                f.write(text)


if __name__ == "__main__":
    main()
