"""Runs the program over each row of a table of certificates, and compares what it writes and how it ends.

usage: run.py PROGRAM TABLE..
"""

import os
import subprocess
import sys
from concurrent.futures import ThreadPoolExecutor

from table import rows

TOP = os.path.dirname(os.path.dirname(os.path.dirname(os.path.abspath(__file__))))


def failure(program, row):
    """Why a row fails, or nothing."""
    model, text, edits, wanted = row
    words = [program, "check", os.path.join(TOP, model), "stdin"]
    ended = subprocess.run(words, input=text.encode(), capture_output=True, timeout=60)
    got = (ended.returncode, ended.stdout.decode(), ended.stderr.decode())
    if got == (0 if wanted == "valid\n" else 9, wanted, ""):
        return None
    return "FAILED: over %s, %r: %r (wanted %r)" % (model, edits, got, wanted)


def main():
    program = sys.argv[1]
    passed = failed = 0
    with ThreadPoolExecutor(os.cpu_count()) as workers:
        for table in sys.argv[2:]:
            for why in workers.map(lambda row: failure(program, row), rows(table)):
                if why is None:
                    passed += 1
                else:
                    failed += 1
                    print(why)
    print("%d certificates passed, %d failed" % (passed, failed))
    sys.exit(0 if passed > 0 and failed == 0 else 1)


main()
