#!/usr/bin/env python3
"""Writes the random models and sessions NNN.lv and NNN.ses beside this file, from the fixed seeds 1 to 200: models as those
of ../random/make.py, in which more moves lead from one mode to the same one, and sessions whose diagnoses list no two
candidates that lead to one state, with `track K distinct`, or all of them, with `track K`, in turns.

The files NNN.out hold what an independent reference program, which is not part of this repository, answers to them. A
model or session that is changed here needs new ones.
"""

import importlib.util
import os
import random
import sys

HERE = os.path.dirname(os.path.abspath(__file__))
sys.dont_write_bytecode = True
spec = importlib.util.spec_from_file_location("models", os.path.join(HERE, "..", "random", "make.py"))
models = importlib.util.module_from_spec(spec)
spec.loader.exec_module(models)

SEEDS = range(1, 201)

# The number of a small model, as ../random/make.py counts them.
NUMBER = 70

# Lines that are refused wherever they stand, and the last one, which isn't.
WRONG = ["track 0 distinct", "track 65 distinct", "track distinct", "track 4 distinct x", "track 4 distinctly", "track 4 Distinct",
         "track distinct 4", "track x distinct", "track 4 = distinct", "budget 4 distinct", "more 4 distinct", "labels 1 distinct",
         "track %d distinct" % 10 ** 40, "track 0065 distinct", "diagnose distinct", "distinct", "track 004  distinct"]


def doubled(rng, lines):
    """The lines with some faults twice, at another cost, and some of their targets those of others, so that several moves
    lead from one mode to the same one."""
    out = []
    for line in lines:
        words = line.split(" ")
        out.append(line)
        if words[0] == "fault" and "cost" in words and rng.random() < 0.6:
            again = list(words)
            again[again.index("cost") + 1] = str(rng.choice([1, 2, 3, 5, 8]))
            out.append(" ".join(again))
    return out


def make_session(rng, parts):
    controls = [(name, v[1], v[2][1]) for name, t in parts for v in t.variables if v[0] == "control"]
    others = [(name, v[1], v[2][1]) for name, t in parts for v in t.variables if v[0] != "control"]
    observables = [(name, v[1], v[2][1]) for name, t in parts for v in t.variables if v[0] == "observable"]
    lines = []
    for _ in range(rng.choice([10, 14, 18, 22])):
        throw = rng.random()
        p, v, values = rng.choice(controls)
        k = rng.choice([1, 2, 3, 4, 6, 20, 64])
        if throw < 0.12:
            lines.append("command %s.%s = %s" % (p, v, rng.choice(values)))
        elif throw < 0.2 and observables:
            q, w, seen = rng.choice(observables)
            lines.append("observe %s %s.%s = %s" % (rng.choice("abcd"), q, w, rng.choice(seen)))
        elif throw < 0.36:
            lines += ["track %d distinct" % k, "diagnose"]
        elif throw < 0.48:
            # The same question with the flag and without it.
            pair = ["track %d distinct" % k, "track %d" % k]
            rng.shuffle(pair)
            lines += [pair[0], "diagnose", "conflicts", pair[1], "diagnose", "conflicts"]
        elif throw < 0.6:
            lines += ["diagnose", "commit", "states", "diagnose"]
        elif throw < 0.7:
            # A diagnosis that is taken up in small pieces.
            lines += ["budget %d" % rng.choice([1, 2, 3]), "diagnose"]
            lines += ["more %d" % rng.choice([1, 1, 2, 3]) for _ in range(rng.choice([1, 2, 3, 4]))]
            lines += ["conflicts", "budget 10000"]
        elif throw < 0.76:
            lines += ["reset", "diagnose"]
        elif throw < 0.8:
            lines.append("retract " + rng.choice("abcd"))
        elif throw < 0.84:
            lines.append(rng.choice(["conflicts", "states", "diagnose", "more 2"]))
        elif throw < 0.94:
            lines += [rng.choice(WRONG), rng.choice(["diagnose", "conflicts"])]
        else:
            lines.append(models.wrong_line(rng, controls, others))
    return lines


def main():
    for seed in SEEDS:
        rng = random.Random(9000 + seed)
        lines, parts = models.make_model(rng, NUMBER)
        lines = doubled(rng, lines)
        session = make_session(rng, parts)
        for kind, text in (("lv", models.layout(rng, lines, seed % 3 == 0)), ("ses", models.layout(rng, session, False))):
            with open(os.path.join(HERE, "%03d.%s" % (seed, kind)), "wb") as f:
                f.write(text)


if __name__ == "__main__":
    main()
