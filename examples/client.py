"""A client of the program: starts it over a model, sends lines, and reads each reply whole by the counts that it tells.

usage: client.py PROGRAM MODEL

Reads lines of a session from standard input and prints each with its reply. `Plant` is for use in programs of your own.
"""

import subprocess
import sys


def lines_behind(word, first):
    """How many lines follow the first of a reply to a line that begins with this word; None: up to one that is the last."""
    parts = first.split()
    if parts[0] in ("certificate", "probe"):
        return None
    if parts[0] in ("settled", "conflicts", "labels") or first.startswith("unsettled ") and parts[1] != "trials":
        return int(parts[1])
    if parts[0] == "time" and word == "states":
        return int(parts[3])
    return 0


def is_last(line):
    """Whether this line ends a certificate or a probe."""
    return line == "end" or line.startswith("best ")


class Plant:
    """A session of its own, served by a process of its own."""

    def __init__(self, program, model):
        words = [program, "run", model, "stdin"]
        self.process = subprocess.Popen(words, stdin=subprocess.PIPE, stdout=subprocess.PIPE, text=True, bufsize=1)

    def ask(self, line):
        """Sends a line and gives back the lines of its reply; none for a blank line or a comment."""
        words = line.split("#")[0].split()
        self.process.stdin.write(line + "\n")
        self.process.stdin.flush()
        if not words:
            return []
        reply = [self.read_line()]
        behind = lines_behind(words[0], reply[0])
        while behind is None and not is_last(reply[-1]) or behind is not None and len(reply) <= behind:
            reply.append(self.read_line())
        return reply

    def read_line(self):
        """The next line of a reply; the program's end is an error."""
        line = self.process.stdout.readline()
        if not line:
            raise EOFError(f"the program ended with status {self.process.wait()}")
        return line.rstrip("\n")

    def close(self):
        """Ends the session and gives back the program's exit status."""
        self.process.stdin.close()
        return self.process.wait()


def main():
    plant = Plant(*sys.argv[1:])
    for line in sys.stdin.read().splitlines():
        print(">", line)
        for told in plant.ask(line):
            print(told)
    sys.exit(plant.close())


if __name__ == "__main__":
    main()
