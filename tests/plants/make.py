#!/usr/bin/env python3
"""Writes the random scripts NNN.script beside this file, from the fixed seeds 1 to 100, each for a plant in the loop over
the model recoveries/NNN.lv: steps with and without faults that are named, commands, goals that come and go, recoveries that
are asked for and applied, and lines of every kind that are refused.

The files NNN.out hold what an independent reference program, which is not part of this repository, answers to them. A
script that is changed here needs new ones.
"""

import os
import random
import sys

HERE = os.path.dirname(os.path.abspath(__file__))
sys.path.insert(0, os.path.join(HERE, ".."))
sys.dont_write_bytecode = True
import texts  # noqa: E402

SEEDS = range(1, 101)
BITS = ["off", "on"]
ORDERS = ["rest", "start", "halt"]


class Model:
    """What a script names of a model: its parts with their controls, and the lines of the moves of each part's type."""

    def __init__(self, text):
        controls, moves, current = {}, {}, None
        self.parts = []
        for line in text.splitlines():
            words = line.split()
            if words[0] == "type":
                current = words[1]
                controls[current], moves[current] = [], []
            elif words[0] == "control":
                controls[current].append(words[1])
            elif words[0] in ("step", "fault"):
                moves[current].append(words[0])
            elif words[0] == "part":
                faults = [i for i, kind in enumerate(moves[words[2]], 1) if kind == "fault"]
                self.parts.append((words[1], controls[words[2]], faults))


def equation(rng, model):
    part = rng.choice(model.parts)[0]
    if rng.random() < 0.25:
        return "%s.mode = %s" % (part, rng.choice(["idle", "busy", "bad"]))
    if rng.random() < 0.1:
        return rng.choice(["true", "false", "%s.zzz = on" % part, "%s.out = red" % part, "nobody.out = on"])
    return "%s.%s = %s" % (part, rng.choice(["out", "out", "out", "x", "y"]), rng.choice(BITS))


def goal(rng, model):
    one = equation(rng, model)
    throw = rng.random()
    if throw < 0.6:
        return one
    return rng.choice(["%s & %s", "%s | %s", "%s => %s", "%s <=> %s"]) % (one, equation(rng, model)) if throw < 0.9 else "!(%s)" % one


def fault(rng, model):
    part, _, faults = rng.choice(model.parts)
    return "fault %s %d" % (part, rng.choice(faults) if faults and rng.random() < 0.85 else rng.choice([0, 1, 2, 9]))


def command(rng, model):
    part, controls, _ = rng.choice(model.parts)
    if rng.random() < 0.15:
        return "release %s.%s" % (part, rng.choice(controls))
    return "command %s.%s = %s" % (part, rng.choice(controls), rng.choice(ORDERS + ["start", "halt"]))


def recovery(rng, model):
    """Goals, what reaches them, and mostly that applied."""
    lines = ["drop g"] if rng.random() < 0.5 else []
    lines += ["goal g " + goal(rng, model), "recover"]
    if rng.random() < 0.15:
        lines.append(rng.choice(["track 3", "conflicts", "drop nothing_of_that_name", command(rng, model)]))
    if rng.random() < 0.85:
        lines.append("apply")
    if rng.random() < 0.15:
        lines.append(rng.choice(["apply", "conflicts", fault(rng, model)]))
    return lines + ["step"] * rng.choice([1, 1, 2])


def wrong(rng, model):
    """A line that is refused in most states, each kind of refusal in its turn."""
    part, controls, _ = rng.choice(model.parts)
    return rng.choice([
        "observe o %s.out = on" % part, "diagnose", "commit", "more 5", "labels", "certificate", "reset", "quit", "retract o1",
        "turn 1", "window 2", "jump", "Step", "step step", "step 1", "apply now", "= step", "7", "fault", "fault %s" % part,
        "fault %s x" % part, "fault 1 %s" % part, "fault %s 1 1" % part, "fault %s.cmd 1" % part, "fault nobody 1",
        "fault %s 0" % part, "fault %s %d" % (part, 10 ** 40), "fault true 1", "\xe9", "step;", "step\r", "#" + "x" * 4096,
        "step # " + "x" * 4090, "track 0", "track 65", "track", "budget 0", "budget x", "command %s.absent = start" % part,
        "command %s.%s = absent" % (part, controls[0]), "command %s.out = on" % part, "command nobody.cmd = rest", "release %s.mode" % part,
        "goal", "goal true %s.out = on" % part, "goal g", "goal %s true" % ("n" * 65), "goal h " + "(" * 65, "drop", "drop absent",
        "conflicts conflicts", "recover now", "states 1"])


def make_script(rng, model):
    lines = ["track %d" % rng.choice([1, 2, 3, 8, 64])] if rng.random() < 0.9 else []
    for _ in range(rng.choice([6, 8, 10, 12, 14])):
        throw = rng.random()
        if throw < 0.22:
            lines.append("step")
        elif throw < 0.4:
            lines += [fault(rng, model)] * rng.choice([1, 1, 2]) + ["step"]
        elif throw < 0.55:
            lines += [command(rng, model) for _ in range(rng.choice([1, 2, 2, 3]))] + ["step"]
        elif throw < 0.75:
            lines += recovery(rng, model)
        elif throw < 0.8:
            lines.append(rng.choice(["states", "conflicts", "recover", "apply"]))
        elif throw < 0.86:
            lines.append("budget %d" % rng.choice([1, 1, 2, 3, 5, 20, 1000000, 1000000, 1000000]))
        elif throw < 0.9:
            lines.append("track %d" % rng.choice([1, 2, 4, 8]))
        else:
            lines.append(wrong(rng, model))
    return lines + ["states", "step"]


def layout(rng, lines):
    """The bytes of the lines: some have comments, tabs, empty lines between them, CR ends or no last LF."""
    out = []
    for line in lines:
        if rng.random() < 0.05:
            out.append(rng.choice(["", "# note", "\t", "  # \xff"]))
        if rng.random() < 0.1:
            line = line.replace(" ", rng.choice(["\t", "  ", " "]))
        if rng.random() < 0.05:
            line += rng.choice([" # note", "#", "\t"])
        out.append(line)
    return texts.joined(rng, out)


def main():
    for number in SEEDS:
        rng = random.Random(19000 + number)
        with open(os.path.join(HERE, "..", "recoveries", "%03d.lv" % number)) as f:
            model = Model(f.read())
        with open(os.path.join(HERE, "%03d.script" % number), "wb") as f:
            f.write(layout(rng, make_script(rng, model)))


if __name__ == "__main__":
    main()
