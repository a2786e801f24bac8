"""Runs a session and writes its replies as they come, like the program itself; with --log it records the conversation,
and `lv replay` serves it again. SESSION may be `stdin`. Status 1 where a line was refused."""

from __future__ import annotations

import argparse
import sys
from pathlib import Path
from typing import IO, Iterator

from ..recording import RecordingTransport
from ..replies import Refusal, Silence
from ..session import Model, Session
from ..transport import PipeTransport, Transport

HELP = "run a session, and record it"


def add_arguments(parser: argparse.ArgumentParser) -> None:
    parser.add_argument("model", metavar="MODEL")
    parser.add_argument("session", metavar="SESSION")
    parser.add_argument("--log", metavar="LOG", help="record the conversation in this file")
    parser.add_argument("--json", action="store_true", help="write each reply as a line of JSON")


def run(arguments: argparse.Namespace) -> int:
    model = Model(arguments.model, arguments.program)
    given = sys.stdin.buffer if arguments.session == "stdin" else open(arguments.session, "rb")
    with given, open_session(model, arguments.log) as session:
        return serve(session, lines_of(given), arguments.json)


def open_session(model: Model, log: str) -> Session:
    """A session over a model, which is recorded where a log is named."""
    if not log:
        return model.session()
    stream = open(log, "w", encoding="ascii")
    transport: Transport = PipeTransport(model.program, model.path)
    return Session(RecordingTransport(transport, stream, Path(model.path).read_bytes()), model)


def lines_of(stream: IO[bytes]) -> Iterator[bytes]:
    for line in stream:
        yield line[:-1] if line.endswith(b"\n") else line


def serve(session: Session, lines: Iterator[bytes], as_json: bool) -> int:
    """Asks line by line, and writes what is replied."""
    status = 0
    for line in lines:
        reply = session.ask(line.decode("utf-8", "surrogateescape"), refusals=False)
        if not isinstance(reply, Silence):
            print(reply.to_json() if as_json else reply.text, flush=True)
        if isinstance(reply, Refusal):
            status = 1
        if session.ended:
            break
    return status
