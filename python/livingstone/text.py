"""Lines and tokens, which models and sessions have in common."""

from __future__ import annotations

import re
from dataclasses import dataclass
from typing import List

MAX_LINE = 4096

_TOKEN = re.compile(
    rb"(?P<word>[A-Za-z_][A-Za-z0-9_]*)|(?P<number>[0-9]+)(?![A-Za-z_0-9])|(?P<symbol><=>|=>|->|[=!&|().])"
)


@dataclass(frozen=True)
class Token:
    """A word, a number or a symbol, and where it stands in its line, in bytes from 0."""

    kind: str
    text: str
    start: int
    end: int


class LongLine(Exception):
    """The line has more than 4,096 bytes, its comment counted."""


class BadByte(Exception):
    """A byte outside comments begins no token."""

    def __init__(self, place: int) -> None:
        super().__init__(place)
        self.place = place


def cut_lines(data: bytes) -> List[bytes]:
    """The lines of a text, without their line feeds and one carriage return before each end."""
    return [without_end(line) for line in cut_session(data)]


def cut_session(data: bytes) -> List[bytes]:
    """The lines of a session as they are sent, without their line feeds alone."""
    lines = data.split(b"\n")
    if not lines[-1]:
        lines.pop()
    return lines


def without_end(line: bytes) -> bytes:
    """A line without the one carriage return that belongs to its end."""
    return line[:-1] if line.endswith(b"\r") else line


def tokens(line: bytes) -> List[Token]:
    """The tokens of a line without its end; raises LongLine or BadByte."""
    if len(line) > MAX_LINE:
        raise LongLine()
    content = line.split(b"#", 1)[0]
    found = []
    place = 0
    while place < len(content):
        if content[place] in b" \t":
            place += 1
            continue
        match = _TOKEN.match(content, place)
        if match is None:
            digits = re.compile(rb"[0-9]+").match(content, place)
            raise BadByte(digits.end() if digits else place)
        found.append(Token(str(match.lastgroup), match.group().decode("ascii"), place, match.end()))
        place = match.end()
    return found


def first_word(line: bytes) -> str:
    """The word that a session line begins with, or nothing where it begins with none."""
    match = re.compile(rb"[ \t]*([A-Za-z_][A-Za-z0-9_]*)").match(line)
    return match.group(1).decode("ascii") if match else ""


def is_silent(line: bytes) -> bool:
    """Whether a session line, without its line feed, gets no reply: it is blank or a comment."""
    line = without_end(line)
    return len(line) <= MAX_LINE and not line.split(b"#", 1)[0].strip(b" \t")
