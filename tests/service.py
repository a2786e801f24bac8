"""Serves sessions over a socket, as docs/PROTOCOL.md says, by systemd-socket-activate where there is one: two connections at
once, each a session of its own.

usage: service.py PROGRAM
"""

import pathlib
import shutil
import socket
import subprocess
import sys
import time

ROOT = pathlib.Path(__file__).resolve().parent.parent


def free_port():
    """A port that nothing listens on."""
    with socket.socket() as probe:
        probe.bind(("127.0.0.1", 0))
        return probe.getsockname()[1]


def connect(port):
    """A connection, once the service listens."""
    for _ in range(100):
        try:
            return socket.create_connection(("127.0.0.1", port), timeout=30)
        except ConnectionRefusedError:
            time.sleep(0.1)
    sys.exit("FAILED: nothing listens")


def ask(connection, line, replies):
    """Sends a line and reads as many lines of reply as are due."""
    stream = connection.makefile("rw", newline="\n")
    stream.write(line + "\n")
    stream.flush()
    return [stream.readline().rstrip("\n") for _ in range(replies)]


def main():
    if not shutil.which("systemd-socket-activate"):
        print("no systemd-socket-activate: the service wasn't tried")
        return
    port = free_port()
    words = ["systemd-socket-activate", "-l", f"127.0.0.1:{port}", "--inetd", "-a"]
    words += [sys.argv[1], "run", str(ROOT / "examples/valve.lv"), "stdin"]
    with subprocess.Popen(words, stdout=subprocess.DEVNULL, stderr=subprocess.DEVNULL) as service:
        try:
            first, second = connect(port), connect(port)
            got = [
                ask(first, "command v.cmd = open", 1),
                ask(second, "diagnose", 4),
                ask(first, "diagnose", 4),
                ask(first, "quit", 1),
                ask(second, "jump", 1),
            ]
        finally:
            service.terminate()
    wanted = [
        ["ok"],
        ["settled 3", "1 cost 0 from 1: -", "2 cost 3 from 1: v closed>stuck_closed #3", "3 cost 8 from 1: v closed>stuck_open #6"],
        [
            "settled 3",
            "1 cost 0 from 1: v closed>open #1",
            "2 cost 3 from 1: v closed>stuck_closed #3",
            "3 cost 8 from 1: v closed>stuck_open #6",
        ],
        ["ok"],
        ["error S01"],
    ]
    if got != wanted:
        sys.exit(f"FAILED: {got}")
    print("two sessions over a socket")


main()
