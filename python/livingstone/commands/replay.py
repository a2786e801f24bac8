"""Serves a recorded conversation again, to where it stopped: each line of the log is asked anew, and its reply
compared with the one recorded. The model is the log's own, or the one given. Status 1 where a reply differs. With
--go-on the session then takes lines from standard input, and with --show the conversation is written without the
program."""

from __future__ import annotations

import argparse
import json
import sys
from pathlib import Path
from typing import Dict, List

from ..recording import Log, read_log
from ..session import Model, Session
from .run import lines_of, serve

HELP = "serve a recorded conversation again"


def add_arguments(parser: argparse.ArgumentParser) -> None:
    parser.add_argument("log", metavar="LOG")
    parser.add_argument("--model", metavar="MODEL", help="serve it over this model, not over the one in the log")
    parser.add_argument("--go-on", action="store_true", help="then serve lines from standard input")
    parser.add_argument("--show", action="store_true", help="write what was said, and ask nothing")
    parser.add_argument("--json", action="store_true", help="write a JSON object: how many lines, and what differs")


def run(arguments: argparse.Namespace) -> int:
    log = read_log(Path(arguments.log).read_bytes())
    if arguments.show:
        return _show(log)
    if arguments.model:
        model = Model(arguments.model, arguments.program)
    else:
        model = Model.from_text(log.model, arguments.program)
    with model.session() as session:
        differences = replay(session, log)
        _report(arguments, log, differences)
        status = 1 if differences else 0
        if arguments.go_on and not session.ended:
            status = max(status, serve(session, lines_of(sys.stdin.buffer), arguments.json))
    return status


def replay(session: Session, log: Log) -> List[Dict[str, object]]:
    """Asks each line again; what differs is told by its number, from 1."""
    differences: List[Dict[str, object]] = []
    for number, (line, recorded) in enumerate(log.said, 1):
        asked = line.decode("utf-8", "surrogateescape")
        if session.ended:
            break
        reply = session.ask(asked, refusals=False).text
        was = recorded.decode("utf-8", "surrogateescape").rstrip("\n")
        if reply != was and not (reply.startswith("certificate ") and was.startswith("certificate ")):
            differences.append({"number": number, "line": asked, "recorded": was, "now": reply})
    return differences


def _report(arguments: argparse.Namespace, log: Log, differences: List[Dict[str, object]]) -> None:
    stopped = None if log.unanswered is None else log.unanswered.decode("utf-8", "replace")
    if arguments.json:
        print(json.dumps({"lines": len(log.said), "unanswered": stopped, "differences": differences}), flush=True)
        return
    for one in differences:
        print(f"line {one['number']}, {one['line']!r}, was answered\n{one['recorded']}\nand now\n{one['now']}")
    print(f"{len(log.said)} lines served again, {len(differences)} answered otherwise", flush=True)
    if stopped is not None:
        print(f"the conversation stopped at {stopped!r}, which had no reply", flush=True)


def _show(log: Log) -> int:
    for line, reply in log.said:
        sys.stdout.buffer.write(b"> " + line + b"\n" + reply)
    if log.unanswered is not None:
        sys.stdout.buffer.write(b"> " + log.unanswered + b"\n")
    return 0
