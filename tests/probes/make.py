#!/usr/bin/env python3
"""Writes the random models and sessions NNN.lv and NNN.ses beside this file, from the fixed seeds 1 to 150: models as those
of ../random/make.py, and sessions that probe their diagnoses, with everything that changes what a diagnosis lists between.

The files NNN.out hold what an independent reference program, which is not part of this repository, answers to them. A
model or session that is changed here needs new ones.
"""

import importlib.util
import os
import random
import sys

HERE = os.path.dirname(os.path.abspath(__file__))
sys.dont_write_bytecode = True
spec = importlib.util.spec_from_file_location("models", os.path.join(HERE, "..", "random", "make.py"))
models = importlib.util.module_from_spec(spec)
spec.loader.exec_module(models)

SEEDS = range(1, 151)

# The number of a small model, as ../random/make.py counts them.
NUMBER = 70


def telling(rng, lines, parts):
    """The lines with formulas that give an observable its value in each mode, another one in the next mode where its
    domain has one, in place of what was said of it, so that what is seen tells which moves were made. Of the laws some
    are left out."""
    types = {t.name: t for _, t in parts}
    out = []
    current = None
    told = {}
    for line in lines:
        words = line.split(" ")
        if words[0] == "type":
            current = types.get(words[1])
            told = {name: domain[1] for kind, name, domain in (current.variables if current else [])
                    if kind == "observable" and rng.random() < 0.8}
        if words[0] == "in" and any(name in told for name in words[2:]):
            continue
        if words[0] == "law" and rng.random() < 0.5:
            continue
        if words[0] == "end":
            for name, values in told.items():
                shift = rng.randrange(len(values))
                for i, mode in enumerate(current.modes):
                    out.append("in %s %s = %s" % (mode, name, values[(i + shift) % len(values)]))
        out.append(line)
    return out


def make_session(rng, parts):
    controls = [(name, v[1], v[2][1]) for name, t in parts for v in t.variables if v[0] == "control"]
    others = [(name, v[1], v[2][1]) for name, t in parts for v in t.variables if v[0] != "control"]
    observables = [(name, v[1], v[2][1]) for name, t in parts for v in t.variables if v[0] == "observable"]
    lines = []
    names = 0
    for _ in range(rng.choice([8, 12, 16, 20])):
        throw = rng.random()
        p, v, values = rng.choice(controls)
        if throw < 0.16:
            lines.append("command %s.%s = %s" % (p, v, rng.choice(values)))
        elif throw < 0.26 and observables:
            q, w, seen = rng.choice(observables)
            lines.append("observe %s %s.%s = %s" % (rng.choice("abc"), q, w, rng.choice(seen)))
        elif throw < 0.46:
            lines += ["diagnose", "probe"]
        elif throw < 0.62 and observables:
            # A probe, one of the observations that it speaks of, and what is listed then.
            names += 1
            q, w, seen = rng.choice(observables)
            lines += ["diagnose", "probe", "observe n%d %s.%s = %s" % (names, q, w, rng.choice(seen)), "probe", "diagnose", "probe"]
        elif throw < 0.72:
            lines += ["diagnose", "commit", "probe", "diagnose", "probe"]
        elif throw < 0.78:
            lines += ["track %d" % rng.choice([1, 2, 3, 6, 20, 64]), "diagnose", "probe"]
        elif throw < 0.84:
            lines += ["budget %d" % rng.choice([1, 2, 3, 5, 10000]), "diagnose", "probe", "more %d" % rng.choice([1, 2, 10000]), "probe"]
        elif throw < 0.88:
            lines += ["retract " + rng.choice("abc"), "probe"]
        elif throw < 0.91:
            lines.append(rng.choice(["conflicts", "states", "reset"]))
        elif throw < 0.95:
            lines.append(rng.choice(["probe", "probe 1", "probe probe", "probe v.x", "Probe", "probe # what for", "\tprobe "]))
        else:
            lines.append(models.wrong_line(rng, controls, others))
    return lines


def main():
    for seed in SEEDS:
        rng = random.Random(7000 + seed)
        lines, parts = models.make_model(rng, NUMBER)
        lines = telling(rng, lines, parts)
        session = make_session(rng, parts)
        for kind, text in (("lv", models.layout(rng, lines, seed % 3 == 0)), ("ses", models.layout(rng, session, False))):
            with open(os.path.join(HERE, "%03d.%s" % (seed, kind)), "wb") as f:
                f.write(text)


if __name__ == "__main__":
    main()
