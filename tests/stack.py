#!/usr/bin/env python3
"""stack.py PROGRAM KB: the least stack with which the program answers as it does with 8 MB, for formulas nested as deep as
the limits allow, at each place where one may stand. A row for each: the place, the form, and the least stack in KB. The
status is 0 where none takes more than so many."""

import os
import subprocess
import sys
import tempfile

AMPLE = 8192
STEP = 4
MODEL = """model deep
domain flow zero some
domain order none go
type t
control c order
observable o flow
mode ok
mode bad
in ok %s
step ok -> ok when c = go
fault ok -> bad cost 3
end
part p t ok
%s"""
DIAGNOSED = "diagnose\n"


def nested(before, equation, behind):
    """64 parentheses, each behind and before these."""
    return before * 64 + equation + behind * 64


def forms(equation):
    """64 parentheses and 256 signs that nest are the limits; a disjunction of conjunctions makes two levels more in each."""
    operands = "%s|%s&" % (equation, equation)
    yield "64 (", nested("(", equation, ")")
    yield "256 !", "!" * 256 + equation
    yield "256 =>", "=>".join([equation] * 257)
    yield "64 !!!!(", nested("!!!!(", equation, ")")
    yield "64 !!!!( &", nested("!!!!(", equation, "&%s)" % equation)
    yield "64 !!!!( | &", nested("!!!!(" + operands, equation, ")")
    yield "64 ( => => => => | &", nested("(" + (equation + "=>") * 4 + operands, equation, ")")


def as_goal(formula):
    return "run", MODEL % ("o = some", ""), "goal g %s\nrecover\n" % formula


def as_law(formula):
    return "run", MODEL % ("o = some", "law %s\n" % formula), DIAGNOSED


def as_mode_formula(formula):
    return "run", MODEL % (formula, ""), DIAGNOSED


def as_print(formula):
    return "print", MODEL % ("o = some", "law %s\n" % formula), None


PLACES = (("goal", "p.o=some", as_goal), ("law", "p.o=some", as_law), ("mode", "o=some", as_mode_formula), ("print", "p.o=some", as_print))


def answer(program, words, folder, stack):
    done = subprocess.run(["bash", "-c", 'ulimit -s "$0" && exec "$@"', str(stack), program] + words, cwd=folder,
                          stdin=subprocess.DEVNULL, capture_output=True, timeout=600, check=False)
    return done.returncode, done.stdout, done.stderr


def least(program, words, folder):
    """The least stack with which the answer is that of ample stack, or None where that is no answer."""
    wanted = answer(program, words, folder, AMPLE)
    if wanted[0] != 0 or b"error" in wanted[1]:
        return None
    low, high = STEP, AMPLE
    while high - low > STEP:
        middle = (low + high) // 2 // STEP * STEP
        if answer(program, words, folder, middle) == wanted:
            high = middle
        else:
            low = middle
    return high


def main(program, bound):
    failed = 0
    for place, equation, made in PLACES:
        for name, formula in forms(equation):
            with tempfile.TemporaryDirectory() as folder:
                command, model, session = made(formula)
                words = [command, "m"]
                with open(os.path.join(folder, "m"), "w", encoding="ascii") as file:
                    file.write(model)
                if session is not None:
                    words.append("s")
                    with open(os.path.join(folder, "s"), "w", encoding="ascii") as file:
                        file.write(session)
                found = least(program, words, folder)
            failed += found is None or found > bound
            print("%-6s %-22s %s" % (place, name, found), flush=True)
    print("%d take more than %d KB" % (failed, bound))
    return failed == 0


if __name__ == "__main__":
    if len(sys.argv) != 3:
        print(__doc__, file=sys.stderr)
        sys.exit(2)
    sys.exit(0 if main(os.path.abspath(sys.argv[1]), int(sys.argv[2])) else 1)
