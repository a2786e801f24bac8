#!/usr/bin/env python3
"""Writes the random model texts 01.lv to 60.lv beside this file, from fixed seeds. They have statements of every kind and
formulas of every connective, with more parentheses than they need, numbers with leading zeros, tabs, comments, empty
lines and CR ends. Two of five texts are then spoilt in one or two places.

Beside each an independent reference program, which is not part of this repository, wrote NN.out, the canonical text that
`print` is to answer, or NN.err, the line of standard error where the text is refused. A text that is changed here needs a
new one. The texts with names for numbers are written by hand.
"""

import os
import random
import sys

sys.path.insert(0, os.path.join(os.path.dirname(os.path.abspath(__file__)), ".."))
sys.dont_write_bytecode = True
import texts  # noqa: E402

SEEDS = range(1, 61)
DOMAINS = [("flow", ["zero", "some"]), ("order", ["none", "open", "close"]), ("bit", ["off", "on"]), ("mode", ["true", "mode"])]
TYPES = ["valve", "tank", "mode", "bit"]
MODES = ["idle", "busy", "stuck", "mode", "true"]
NAMES = ["cmd", "inn", "out", "idle", "some", "bit", "when", "law"]
PARTS = ["p", "q", "r", "s", "valve", "part"]


class Type:
    """A type of parts: its name, its variables as (kind, name, domain) and its modes."""

    def __init__(self, name, variables, modes):
        self.name = name
        self.variables = variables
        self.modes = modes


def equation(rng, places):
    """An equation over places (path, values, domain's name): with a value, or with another place of the domain."""
    path, values, domain = rng.choice(places)
    same = [p for p, _, d in places if d == domain and p not in values]
    if same and rng.random() < 0.35:
        return "%s = %s" % (path, rng.choice(same))
    return "%s = %s" % (path, rng.choice(values))


def formula(rng, places, depth):
    """A formula as text, with parentheses wherever chance puts them, so that precedence decides the rest."""
    throw = rng.random()
    if depth == 0 or throw < 0.2:
        text = rng.choice(["true", "false"]) if rng.random() < 0.1 else equation(rng, places)
    elif throw < 0.35:
        text = "! " + rng.choice(["%s", "(%s)", "(%s)", "!(%s)"]) % formula(rng, places, depth - 1)
    else:
        sign = rng.choice(["&", "&", "|", "|", "=>", "<=>"])
        members = [formula(rng, places, depth - 1) for _ in range(rng.choice([2, 2, 2, 3]))]
        text = (" %s " % sign).join(members)
    if rng.random() < 0.45:
        text = "(%s)" % text
    return text


def number(rng, least):
    return rng.choice(["", "", "0", "000"]) + str(rng.choice([least, 1, 2, 3, 10, 999, 1000000]))


def type_lines(rng, t):
    """The statements of a type, in an order in which each name stands below its line."""
    lines = ["type " + t.name]
    places = []
    declared = []
    left = [("variable", v) for v in t.variables] + [("mode", m) for m in t.modes]
    rng.shuffle(left)
    for what, v in left:
        if what == "mode":
            lines.append("mode " + v)
            declared.append(v)
            places = [p for p in places if p[0] != "mode"] + [("mode", list(declared), "")]
        else:
            lines.append("%s %s %s" % (v[0], v[1], v[2][0]))
            places.append((v[1], v[2][1], v[2][0]))
        if places and rng.random() < 0.2:
            lines.append("law " + formula(rng, places, 2))
    for _ in range(rng.randrange(1, 7)):
        a, b = rng.choice(t.modes), rng.choice(t.modes)
        condition = formula(rng, places, rng.choice([0, 1, 2, 3]))
        lines.append(rng.choice([
            "in %s %s" % (a, condition), "step %s -> %s when %s" % (a, b, condition), "law " + condition,
            "fault %s -> %s cost %s" % (a, b, number(rng, 1)),
            "fault %s -> %s cost %s when %s" % (a, b, number(rng, 1), condition)]))
    return lines + ["end"]


def make_lines(rng):
    domains = rng.sample(DOMAINS, rng.choice([1, 2, 3]))
    lines = ["model m%d" % rng.randrange(100)] if rng.random() < 0.6 else []
    lines += ["domain %s %s" % (name, " ".join(values)) for name, values in domains]
    types = []
    for name in rng.sample(TYPES, rng.choice([1, 1, 2])):
        variables = [(rng.choice(["control", "control", "variable", "observable"]), v, rng.choice(domains))
                     for v in rng.sample(NAMES, rng.choice([1, 2, 3]))]
        types.append(Type(name, variables, rng.sample(MODES, rng.choice([1, 2, 3]))))
        lines += type_lines(rng, types[-1])
    places = []
    prices = []
    for name in rng.sample(PARTS, rng.choice([1, 2, 3])):
        t = rng.choice(types)
        lines.append("part %s %s %s" % (name, t.name, rng.choice(t.modes)))
        places.append((name + ".mode", t.modes, "modes of " + t.name))
        for kind, v, domain in t.variables:
            places.append(("%s.%s" % (name, v), domain[1], domain[0]))
            if kind == "control":
                prices += ["price %s.%s = %s %s" % (name, v, value, number(rng, 0)) for value in domain[1][1:]]
        if rng.random() < 0.7:
            lines.append("law " + formula(rng, places, rng.choice([1, 2, 3, 4])))
    rng.shuffle(prices)
    return lines + prices[:rng.randrange(4)]


def spoil(rng, lines):
    """The lines with one place changed."""
    lines = list(lines)
    i = rng.randrange(len(lines))
    throw = rng.randrange(8)
    if throw == 0:
        del lines[i]
    elif throw == 1:
        lines.insert(rng.randrange(len(lines) + 1), lines[i])
    elif throw == 2:
        j = rng.randrange(len(lines))
        lines[i], lines[j] = lines[j], lines[i]
    elif throw == 3:
        words = lines[i].split(" ")
        del words[rng.randrange(len(words))]
        lines[i] = " ".join(words)
    elif throw == 4:
        words = lines[i].split(" ")
        words[rng.randrange(len(words))] = rng.choice(["red", "end", "mode", "true", "0", "(", "=", "&", "n" * 65])
        lines[i] = " ".join(words)
    elif throw == 5:
        place = rng.randrange(len(lines[i]) + 1)
        lines[i] = lines[i][:place] + rng.choice("()!=|&.$<>-1x ") + lines[i][place:]
    elif throw == 6:
        lines.insert(i, rng.choice(["end", "type new", "mode new", "law red.green = blue", "price p.cmd = open 3", "jump"]))
    else:
        lines = lines[:i]
    return lines


def layout(rng, lines):
    """The bytes of the lines: some with tabs, comments, no spaces where none are needed, CR ends or no last LF."""
    out = []
    for line in lines:
        while rng.random() < 0.1:
            out.append(rng.choice(["", "# note", "\t", "  # \xff\r "]))
        throw = rng.random()
        if throw < 0.2:
            for sign in ["<=>", "=>", "->", " = ", "&", "|", "!"]:
                line = line.replace(" %s " % sign.strip(), sign.strip())
        elif throw < 0.4:
            line = line.replace(" ", rng.choice(["\t", "  ", " \t "]))
        elif throw < 0.5:
            line = rng.choice([" ", "\t"]) + line + rng.choice(["\t", " # note", "#"])
        out.append(line)
    return texts.joined(rng, out)


def main():
    here = os.path.dirname(os.path.abspath(__file__))
    for seed in SEEDS:
        rng = random.Random(seed)
        lines = make_lines(rng)
        for _ in range(rng.choice([0, 0, 0, 1, 2])):
            lines = spoil(rng, lines)
        with open(os.path.join(here, "%02d.lv" % seed), "wb") as f:
            f.write(layout(rng, lines))


if __name__ == "__main__":
    main()
