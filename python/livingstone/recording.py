"""Conversations in files: a record of each line when it is sent and of each reply when it has come.

A log is lines of JSON. The first has the model's text, so that a log stands for itself; then come {"line": ..} and
{"reply": ..} by turns. A log that ends behind a line, or in the middle of a record, shows where a conversation
stopped.
"""

from __future__ import annotations

import json
from dataclasses import dataclass, field
from typing import IO, List, Optional, Tuple

from .errors import LivingstoneError
from .transport import Transport

VERSION = 1


class BadLog(LivingstoneError):
    """A file that is no log."""


def _text(data: bytes) -> str:
    return data.decode("utf-8", "surrogateescape")


def _bytes(text: str) -> bytes:
    return text.encode("utf-8", "surrogateescape")


class RecordingTransport(Transport):
    """Passes lines on to another transport, and writes down what was said."""

    def __init__(self, inner: Transport, log: IO[str], model: bytes) -> None:
        self._inner = inner
        self._log = log
        self._write({"livingstone-log": VERSION, "model": _text(model)})

    def exchange(self, line: bytes) -> bytes:
        self._write({"line": _text(line)})
        reply = self._inner.exchange(line)
        self._write({"reply": _text(reply)})
        return reply

    def _write(self, record: object) -> None:
        self._log.write(json.dumps(record) + "\n")
        self._log.flush()

    def close(self) -> None:
        self._inner.close()
        self._log.close()


@dataclass
class Log:
    """What a log holds: the model's text, the lines with their replies, and a line whose reply never came."""

    model: bytes
    said: List[Tuple[bytes, bytes]] = field(default_factory=list)
    unanswered: Optional[bytes] = None


def read_log(data: bytes) -> Log:
    """A log from its bytes; a last record that is cut off is left out."""
    whole = data[: data.rfind(b"\n") + 1].splitlines()
    try:
        records = [json.loads(line) for line in whole]
        if records[0]["livingstone-log"] != VERSION:
            raise BadLog("the log is of another version")
        log = Log(_bytes(records[0]["model"]))
        for record in records[1:]:
            if "line" in record and log.unanswered is None:
                log.unanswered = _bytes(record["line"])
            elif log.unanswered is not None:
                log.said.append((log.unanswered, _bytes(record["reply"])))
                log.unanswered = None
            else:
                raise BadLog("a line of the log has neither a line nor its reply")
        return log
    except (ValueError, LookupError, TypeError, AttributeError) as fault:
        raise BadLog("the file is no log of a conversation") from fault
