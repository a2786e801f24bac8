#!/usr/bin/env python3
"""A program that breaks off as the model's file says, for tests of what no proved program does.

The model's first word says what comes: `die` ends at the first line, `cut` in the middle of a reply, `babble`
replies in no known form, `slow` takes a while for each diagnosis, `refuse` ends before any line with a line on
standard error.
"""

import os
import sys
import time


def say(text: str) -> None:
    os.write(1, text.encode())


def main() -> int:
    words = [word for word in sys.argv[1:] if word != "--"]
    with open(words[1], encoding="ascii") as stream:
        kind = stream.read().strip()
    if words[0] == "print":
        say("model fake\ntype t\nmode m\nend\npart p t m\n")
        return 0
    if kind == "refuse":
        os.write(2, b"cannot read model\n")
        return 4
    trials = 0
    for line in sys.stdin:
        if kind == "die":
            return 7
        if kind == "cut":
            say("settled 2\n1 cost 0 from 1: -\n2 cost")
            os.write(2, b"out of memory\n")
            return 8
        if kind == "babble":
            say("what?\n")
        elif line.startswith(("diagnose", "more")):
            trials += 1
            say(f"unsettled 1 trials {trials}\n1 cost 0")
            time.sleep(0.5)
            say(" from 1: -\n")
        elif line.startswith("states"):
            say("time 0 tracked 1\n1 cost 0: p=m\n")
        else:
            say("ok\n")
    return 0


if __name__ == "__main__":
    sys.exit(main())
