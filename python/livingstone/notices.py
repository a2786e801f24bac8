"""What is told about a place in a file: as a person reads it, and as a program does."""

from __future__ import annotations

from dataclasses import asdict, dataclass
from typing import Any, Dict, List, Optional

from .codes import explain, hint_of
from .declarations import read_plant
from .plant import Plant
from .session_lines import fault_column
from .syntax import ModelFault
from .text import cut_lines


@dataclass(frozen=True)
class Notice:
    file: str
    line: int
    column: int
    code: str
    message: str
    hint: str = ""
    source: str = ""

    def to_dict(self) -> Dict[str, Any]:
        return asdict(self)

    def __str__(self) -> str:
        text = f"{self.file}:{self.line}:{self.column}: {self.code}: {self.message}"
        if self.source.strip():
            # A tab stays one, so that the mark stands below its place.
            before = "".join("\t" if character == "\t" else " " for character in self.source[: self.column - 1])
            text += f"\n    {shown(self.source)}\n    {before}^"
        return text + (f"\n    hint: {self.hint}" if self.hint else "")


def shown(text: str) -> str:
    """A line as a terminal may show it: with a question mark for what can't be printed, and cut where it is long."""
    safe = "".join(character if character.isprintable() or character == "\t" else "?" for character in text)
    return safe if len(safe) <= 200 else safe[:200] + " .."


def source_line(lines: List[bytes], number: int) -> str:
    return lines[number - 1].decode("latin-1") if 1 <= number <= len(lines) else ""


def model_refusal(file: str, data: bytes, line: int, code: str) -> Notice:
    """Why the program refused a model's text, and where in the line."""
    column = 1
    try:
        read_plant(data)
    except ModelFault as fault:
        if (fault.line, fault.code) == (line, code):
            column = fault.column
    source = source_line(cut_lines(data), line)
    return Notice(file, line, column, code, explain(code), hint_of(code), source if column <= 200 else "")


def session_refusal(file: str, plant: Optional[Plant], lines: List[bytes], number: int, code: str) -> Notice:
    """Why a session refused a line, and where in it."""
    column = fault_column(plant, lines[number - 1], code)
    source = source_line(lines, number)
    return Notice(file, number, column, code, explain(code), hint_of(code), source if column <= 200 else "")
