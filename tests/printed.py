#!/usr/bin/env python3
"""printed.py PROGRAM FOLDER..: certificates that sessions print.

For each pair NN.lv and NN.ses of the folders that a reference program answered with NN.out, and for each NAME.ses with
NAME.out that asks for no certificate itself, over the model that its name begins with or else the valve: behind each line `diagnose`,
`recover` and `more N` the line `certificate` is put in. Of what the program then writes each reply to such a line must be
`error S10` or the lines of a certificate; what is left must be NN.out; a certificate must be of the last diagnosis or
recovery that was told, with as many candidates listed, or a command set exactly where one was told; and `check` must find
it valid. With LV_ORACLE in the environment, the path of a reference program, that must find so too.
"""

import os
import re
import subprocess
import sys
import tempfile
from pathlib import Path

ASKS = re.compile(rb"\s*(diagnose|recover|more\s+[0-9]+)\s*")
REFUSED = b"error S10"


def with_certificates(session):
    """The session with its questions followed by `certificate`, and how many they are."""
    lines, count, ended = [], 0, False
    for line in session.split(b"\n"):
        lines.append(line)
        ended = ended or line.strip() == b"quit"
        if not ended and ASKS.fullmatch(line):
            lines.append(b"certificate")
            count += 1
    return b"\n".join(lines), count


def parted(output):
    """The certificates, each with the last question's reply before it, and the other lines."""
    blocks, others, told, block = [], [], None, None
    for line in output.split(b"\n"):
        if block is not None:
            block.append(line)
            if line == b"end":
                blocks.append((told, block))
                block = None
        elif line.startswith(b"certificate "):
            block = [line]
        else:
            others.append(line)
            if re.match(rb"(un)?settled |recovery |no recovery", line):
                told = line
    return blocks, others, block is None


def left_over(others, wanted):
    """How many refusals stand beside what is wanted; None where something else does."""
    count, at = 0, 0
    for line in others:
        if at < len(wanted) and line == wanted[at]:
            at += 1
        elif line == REFUSED:
            count += 1
        else:
            return None
    return count if at == len(wanted) else None


def states(told, block):
    """The certificate is of this reply."""
    words = told.split() if told else []
    if words[:1] == [b"settled"]:
        listed = sum(line.startswith(b"listed ") for line in block)
        return block[0] == b"certificate diagnosis" and listed == int(words[1])
    given = any(line.split()[:1] == [b"recovery"] for line in block)
    return block[0] == b"certificate recovery" and given == (words[:1] == [b"recovery"])


def is_valid(command, model, text):
    with tempfile.NamedTemporaryFile(suffix=".cert") as file:
        file.write(text)
        file.flush()
        done = subprocess.run([*command, "check", model, file.name], capture_output=True, stdin=subprocess.DEVNULL, timeout=600)
    return done.returncode == 0 and done.stdout == b"valid\n"


def judged(program, model, lines):
    """What is wrong of a session over a model, or None, and how many certificates were checked."""
    wanted = lines.with_suffix(".out").read_bytes()
    session, count = with_certificates(lines.read_bytes())
    done = subprocess.run([program, "run", model, "stdin"], input=session, capture_output=True, timeout=600)
    blocks, others, whole = parted(done.stdout)
    if done.returncode != 0 or not whole:
        return f"status {done.returncode}", 0
    refused = left_over(others, wanted.split(b"\n"))
    if refused is None or refused + len(blocks) != count:
        return "other replies changed", 0
    for told, block in blocks:
        text = b"\n".join(block) + b"\n"
        if not states(told, block):
            return f"a certificate of another answer than {told!r}", 0
        if not is_valid([program], model, text):
            return "a certificate that isn't valid", 0
        if "LV_ORACLE" in os.environ and not is_valid(["python3", os.environ["LV_ORACLE"]], model, text):
            return "a certificate that the reference program refuses", 0
    return None, len(blocks)


def model_of(session):
    """The model of a session: of its own number, or of the name that it begins with, here or in examples/; else the valve."""
    examples = session.parent.parent.parent / "examples"
    name = re.match(r"[0-9]+|[^0-9_]+", session.stem)[0]
    found = (session.with_suffix(".lv"), session.with_name(f"{name}.lv"), examples / f"{name}.lv", examples / "valve.lv")
    return next(model for model in found if model.exists())


def main():
    program, folders = sys.argv[1], sys.argv[2:]
    passed = failed = certificates = 0
    for folder in folders:
        for session in sorted(Path(folder).glob("*.ses")):
            is_refused = session.with_suffix(".err").exists()
            if is_refused or not session.with_suffix(".out").exists() or b"certificate" in session.read_bytes():
                continue
            fault, checked = judged(program, model_of(session), session)
            certificates += checked
            if fault is None:
                passed += 1
            else:
                failed += 1
                print(f"FAILED: {session.parent.name}/{session.stem}: {fault}")
    print(f"{certificates} certificates checked")
    print(f"{passed} passed, {failed} failed")
    return 0 if passed and certificates and not failed else 1


sys.exit(main())
