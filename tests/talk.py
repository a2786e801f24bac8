"""Talks with the program: sends a line only once the reply to the line before was read, and fails where none comes.

usage: talk.py PROGRAM MODEL terminal|pipe
"""

import os
import pty
import select
import subprocess
import sys

# What is sent, and the reply that has to come before the next line is sent.
TALK = [
    ("command v.cmd = open\n", "ok\n"),
    ("observe o v.out = zero\n", "ok\n"),
    ("diagnose\n", "settled 1\n1 cost 3 from 1: v closed>stuck_closed #3\n"),
    ("jump\n", "error S01\n"),
    ("quit\n", "ok\n"),
]


def read_reply(stream, wanted):
    """Reads as much as is wanted, for ten seconds at most."""
    got = b""
    while len(got) < len(wanted):
        ready, _, _ = select.select([stream], [], [], 10)
        if not ready:
            break
        piece = os.read(stream, len(wanted) - len(got))
        if not piece:
            break
        got += piece
    return got.decode()


def main():
    program, model, way = sys.argv[1:]
    if way == "terminal":
        ours, theirs = pty.openpty()
    else:
        theirs, ours = os.pipe()
    with subprocess.Popen([program, "run", model, "stdin"], stdin=theirs, stdout=subprocess.PIPE) as running:
        os.close(theirs)
        for line, wanted in TALK:
            os.write(ours, line.encode())
            got = read_reply(running.stdout.fileno(), wanted)
            if got != wanted:
                running.kill()
                sys.exit(f"to {line!r} came {got!r} and not {wanted!r}")
        status = running.wait(timeout=10)
    if status != 0:
        sys.exit(f"ended with status {status}")
    print("answered line by line")


main()
