#!/usr/bin/env python3
"""Writes the random model texts 001.lv to 300.lv beside this file, from fixed seeds: those of ../prints/make.py with lines
of the second version of the language among them. Two of three texts begin with a line `version`, most of these with the
second; two of five are then spoilt in one or two places.

Beside each an independent reference program, which is not part of this repository, wrote NNN.out, the canonical text that
`print` is to answer, and NNN.run, the replies to session.ses, or NNN.err, the line of standard error where the text is
refused. A text that is changed here needs new ones.
"""

import importlib.util
import os
import random
import sys

HERE = os.path.dirname(os.path.abspath(__file__))
sys.dont_write_bytecode = True
spec = importlib.util.spec_from_file_location("prints", os.path.join(HERE, "..", "prints", "make.py"))
prints = importlib.util.module_from_spec(spec)
spec.loader.exec_module(prints)

SEEDS = range(1, 301)


def shorter(rng, lines):
    """The lines with some of their formulas of modes and their faults in forms of the second version."""
    out = []
    modes = []
    controls = []
    for line in lines:
        words = line.split(" ")
        if words[0] == "type":
            modes, controls = [], []
        elif words[0] == "mode":
            modes.append(words[1])
        elif words[0] == "control":
            controls.append((words[1], dict(prints.DOMAINS).get(words[2], ["off"])))
        throw = rng.random()
        if words[0] == "in" and throw < 0.7:
            more = rng.sample(modes, rng.randrange(len(modes) + 1)) if modes else []
            if rng.random() < 0.9:
                more = [mode for mode in more if mode != words[1]]
            words[1] = " | ".join([words[1]] + more)
        elif words[0] == "fault" and throw < 0.35:
            del words[1]
        elif words[0] == "fault" and throw < 0.8 and (controls or rng.random() < 0.2):
            control, values = rng.choice(controls or [("mode", modes)])
            value = rng.choice(values) if rng.random() < 0.95 else "red"
            words[6:6] = ["repair", control, "=", value]
        out.append(" ".join(words))
    return out


def main():
    for seed in SEEDS:
        rng = random.Random(1000 + seed)
        lines = prints.make_lines(rng)
        version = rng.choice([None, 1, 2, 2, 2, 2])
        if version == 2 or rng.random() < 0.15:
            lines = shorter(rng, lines)
        if version is not None:
            lines.insert(0, "version " + rng.choice(["", "", "0", "00"]) + str(version))
        for _ in range(rng.choice([0, 0, 0, 1, 2])):
            lines = prints.spoil(rng, lines)
        with open(os.path.join(HERE, "%03d.lv" % seed), "wb") as f:
            f.write(prints.layout(rng, lines))


if __name__ == "__main__":
    main()
