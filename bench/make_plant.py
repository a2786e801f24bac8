#!/usr/bin/env python3
"""Writes what bench/plant.sh times, on standard output, over a ladder of N valves as make_plants.py makes it.

`make_plant.py script N STEPS`: a script in which an open valve fails before each tenth step, and a recovery is asked for and
applied behind it: the first valve of each pair is stuck closed in turn, and when all pairs have one that is, the other ones
are stuck open.

`make_plant.py session SCRIPT REPLIES`: the session that is told what the plant's session was told in that script with these
replies, and is asked the same."""
import sys

OPEN = ("open", "stuck_open")


def script(valves, steps):
    pairs = valves // 2
    lines = ["track 1", "goal far v%d.out = some | v%d.out = some" % (valves - 1, valves), "recover", "apply"]
    for step in range(1, steps + 1):
        fault = step // 10
        fails = step % 10 == 0 and fault <= 2 * pairs
        if fails:
            lines.append("fault v%d 5" % (2 * fault) if fault <= pairs else "fault v%d 4" % (2 * (fault - pairs) - 1))
        lines.append("step")
        if step % 10 == 0:
            lines += ["recover", "apply"]
    return lines


def observed(modes, odd):
    """What is observed of the valves in these modes: each pair lets through what comes in if one of it is open."""
    lines = []
    comes = True
    for first in range(0, len(modes), 2):
        outs = [comes and mode in OPEN for mode in modes[first:first + 2]]
        for i, out in enumerate(outs, first + 1):
            lines.append("observe %s%d v%d.out = %s" % ("o" if odd else "e", i, i, "some" if out else "zero"))
        comes = any(outs)
    return lines


def session(lines, replies):
    """A reply of a step is six lines, as one candidate is tracked; any other is one line."""
    replies = iter(replies)
    out = []
    found = ""
    for line in lines:
        reply = next(replies)
        if line == "step":
            told = reply.split(": ", 1)
            modes = [part.split("=")[1] for part in told[1].split(", ")]
            out += observed(modes, int(told[0].split()[-1]) % 2 == 1) + ["diagnose", "commit"]
            for _ in range(5):
                next(replies)
        elif line == "apply":
            commands = found.split(": ", 1)[1]
            out += ["command " + one.replace("=", " = ") for one in commands.split(", ") if one != "-"]
        elif not line.startswith("fault "):
            out.append(line)
        found = reply
    return out


def main():
    if sys.argv[1] == "script":
        lines = script(int(sys.argv[2]), int(sys.argv[3]))
    else:
        with open(sys.argv[2]) as asked, open(sys.argv[3]) as told:
            lines = session(asked.read().splitlines(), told.read().splitlines())
    print("\n".join(lines))


if __name__ == "__main__":
    main()
