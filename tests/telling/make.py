#!/usr/bin/env python3
"""Writes the random models and sessions NNN.lv and NNN.ses beside this file, from the fixed seeds 1 to 150: models as those
of ../probes/make.py, and sessions that ask for commands whose outcome at an observable tells the tracked states apart, behind
commits and observations, with budgets, and with every other query and word between.

The files NNN.out hold what an independent reference program, which is not part of this repository, answers to them. A
model or session that is changed here needs new ones.
"""

import importlib.util
import os
import random
import sys

HERE = os.path.dirname(os.path.abspath(__file__))
sys.dont_write_bytecode = True
spec = importlib.util.spec_from_file_location("probes", os.path.join(HERE, "..", "probes", "make.py"))
probes = importlib.util.module_from_spec(spec)
spec.loader.exec_module(probes)
models = probes.models

SEEDS = range(1, 151)


def make_session(rng, parts):
    controls = [(name, v[1], v[2][1]) for name, t in parts for v in t.variables if v[0] == "control"]
    others = [(name, v[1], v[2][1]) for name, t in parts for v in t.variables if v[0] != "control"]
    observables = [(name, v[1], v[2][1]) for name, t in parts for v in t.variables if v[0] == "observable"]
    lines = []
    names = 0

    def test():
        q, w, _ = rng.choice(observables if observables and rng.random() < 0.95 else others)
        return "test %s.%s" % (q, w)

    for _ in range(rng.choice([8, 12, 16, 20])):
        throw = rng.random()
        p, v, values = rng.choice(controls)
        if throw < 0.12:
            lines.append("command %s.%s = %s" % (p, v, rng.choice(values)))
        elif throw < 0.20 and observables:
            names += 1
            q, w, seen = rng.choice(observables)
            lines.append("observe n%d %s.%s = %s" % (names, q, w, rng.choice(seen)))
        elif throw < 0.34:
            lines += [test(), "conflicts"]
        elif throw < 0.56:
            # Some states are tracked, and then told apart, also by what is seen now.
            lines += ["track %d" % rng.choice([2, 2, 3, 4]), "diagnose", "commit", test(), "conflicts"]
        elif throw < 0.64 and observables:
            names += 1
            q, w, seen = rng.choice(observables)
            lines += ["observe n%d %s.%s = %s" % (names, q, w, rng.choice(seen)), "diagnose", "commit", test(), "conflicts"]
        elif throw < 0.76:
            lines += ["budget %d" % rng.choice([1, 2, 3, 10000]), test(), "more %d" % rng.choice([1, 2, 10000]), "conflicts", "more 1"]
        elif throw < 0.84:
            lines += [test(), rng.choice(["commit", "certificate", "probe", "diagnose", "recover", "states", "conflicts"]), "more 1"]
        elif throw < 0.90:
            q, w, values = rng.choice(others)
            lines += ["goal g%d %s.%s = %s" % (names, q, w, rng.choice(values)), "recover", test(), "conflicts"]
        elif throw < 0.93:
            lines.append(rng.choice(["diagnose", "states", "reset"]))
        elif throw < 0.96:
            lines.append(rng.choice(["test", "test v", "test v.", "test v.x", "test v.x y", "test v = x", "Test v.x", "test 1.x", "test nopart.x"]))
        else:
            lines.append(models.wrong_line(rng, controls, others))
    return lines


def main():
    for seed in SEEDS:
        rng = random.Random(9000 + seed)
        lines, parts = models.make_model(rng, probes.NUMBER)
        lines = probes.telling(rng, lines, parts)
        session = make_session(rng, parts)
        for kind, text in (("lv", models.layout(rng, lines, seed % 3 == 0)), ("ses", models.layout(rng, session, False))):
            with open(os.path.join(HERE, "%03d.%s" % (seed, kind)), "wb") as f:
                f.write(text)


if __name__ == "__main__":
    main()
