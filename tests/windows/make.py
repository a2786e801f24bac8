#!/usr/bin/env python3
"""Writes the random models and sessions NNN.lv and NNN.ses beside this file, from the fixed seeds 1 to 150: models as those
of ../probes/make.py, and sessions that go on over several steps, take observations of earlier times back and ask for the
trajectories over the last steps, with every other query and word between.

The files NNN.out hold what an independent reference program, which is not part of this repository, answers to them. A
model or session that is changed here needs new ones.
"""

import importlib.util
import os
import random
import sys

HERE = os.path.dirname(os.path.abspath(__file__))
sys.dont_write_bytecode = True
spec = importlib.util.spec_from_file_location("probes", os.path.join(HERE, "..", "probes", "make.py"))
probes = importlib.util.module_from_spec(spec)
spec.loader.exec_module(probes)
models = probes.models

SEEDS = range(1, 151)

# Lines that are refused wherever they stand, or, some of the last ones, only here and there.
WRONG = ["window", "window 0", "window 5", "window x", "window 1 2", "window = 2", "Window 2", "window -1", "window %d" % 10 ** 40,
         "window 1 distinct", "retract a at", "retract at 1", "retract a at x", "retract a 1", "retract a at 1 2", "retract a by 1",
         "retract 1 at 1", "retract a at 9", "retract a at %d" % 10 ** 40, "retract nothere at 0", "retract mode at 0", "window 004",
         "window 2 # two steps", "\twindow 1", "retract a at 00"]


class Sessions:
    """The lines of a session, and how many steps and names there were so far."""

    def __init__(self, rng, parts):
        self.rng = rng
        self.controls = [(name, v[1], v[2][1]) for name, t in parts for v in t.variables if v[0] == "control"]
        self.others = [(name, v[1], v[2][1]) for name, t in parts for v in t.variables if v[0] != "control"]
        self.observables = [(name, v[1], v[2][1]) for name, t in parts for v in t.variables if v[0] == "observable"]
        self.lines = []
        self.time = 0

    def command(self):
        p, v, values = self.rng.choice(self.controls)
        return "command %s.%s = %s" % (p, v, self.rng.choice(values))

    def observe(self):
        if not self.observables:
            return "states"
        q, w, seen = self.rng.choice(self.observables)
        return "observe %s %s.%s = %s" % (self.rng.choice("abc"), q, w, self.rng.choice(seen))

    def step(self):
        """What is commanded and seen at one time, and the commit of a diagnosis or a window."""
        for _ in range(self.rng.choice([0, 1, 1, 2])):
            self.lines.append(self.command() if self.rng.random() < 0.5 else self.observe())
        query = "diagnose" if self.rng.random() < 0.8 else "window %d" % self.rng.choice([1, 1, 2, 3])
        self.lines += [query, "commit"]
        self.time += 1

    def retract(self):
        back = self.rng.choice([-1, 0, 0, 1, 1, 2, 3, 4])
        return "retract %s at %d" % (self.rng.choice("abc"), max(0, self.time - back))

    def window(self):
        return "window %d" % self.rng.choice([1, 2, 2, 2, 3, 3, 4])

    def group(self):
        rng = self.rng
        throw = rng.random()
        if throw < 0.24:
            self.step()
        elif throw < 0.36:
            # Two steps, what one of them rests on taken back, and both ranked anew.
            self.step()
            self.step()
            self.lines += [self.observe(), self.retract(), "window 2", "conflicts"]
        elif throw < 0.48:
            self.lines += [self.retract(), self.window(), "conflicts"]
        elif throw < 0.58:
            self.lines += [self.window(), "commit", "states"]
            self.time += 1
        elif throw < 0.66:
            self.lines += ["budget %d" % rng.choice([1, 2, 3, 5]), self.window(), "more %d" % rng.choice([1, 2, 4]), "conflicts", "commit",
                           "more %d" % rng.choice([3, 10000]), "budget 10000"]
        elif throw < 0.71:
            # Over one step a window replies as a diagnosis does.
            self.lines += ["diagnose", "conflicts", "window 1", "conflicts"]
        elif throw < 0.75:
            k = rng.choice([1, 2, 6, 20])
            self.lines += ["track %d%s" % (k, rng.choice(["", " distinct"])), self.window(), "track %d" % rng.choice([3, 4])]
        elif throw < 0.80:
            self.lines += [self.window(), rng.choice(["certificate", "probe", "diagnose", "states", "retract a", "more 2", "release"])]
        elif throw < 0.84:
            self.lines += [self.observe(), self.observe()]
        elif throw < 0.87:
            self.lines += ["retract " + rng.choice("abc"), self.window()]
        elif throw < 0.89:
            self.lines += ["reset", "window 2", "window 1"]
            self.time = 0
        elif throw < 0.96:
            self.lines.append(rng.choice(WRONG))
        else:
            self.lines.append(models.wrong_line(rng, self.controls, self.others))


def make_session(rng, parts):
    session = Sessions(rng, parts)
    for _ in range(rng.choice([7, 10, 13, 16])):
        session.group()
    return session.lines


def main():
    for seed in SEEDS:
        rng = random.Random(11000 + seed)
        lines, parts = models.make_model(rng, probes.NUMBER)
        lines = probes.telling(rng, lines, parts)
        session = make_session(rng, parts)
        for kind, text in (("lv", models.layout(rng, lines, seed % 3 == 0)), ("ses", models.layout(rng, session, False))):
            with open(os.path.join(HERE, "%03d.%s" % (seed, kind)), "wb") as f:
                f.write(text)


if __name__ == "__main__":
    main()
