"""The statements of a model's text: from lines to names, numbers and formulas, by the form of each statement.

The verdict on a text is the program's alone. This reader stands beside it to know what stands where: it reads what the
program accepted, and in a text that the program refused it finds the place in the line.
"""

from __future__ import annotations

from dataclasses import dataclass, field
from typing import Dict, List, Optional, Tuple

from .formula import FormFault, Formula, Reader, nesting_fault
from .text import BadByte, LongLine, MAX_LINE, Token, cut_lines, tokens

MAX_TEXT = 4_194_304
RESERVED = ("true", "false", "mode")

# What stands behind a statement's first word: `word` any word, `own` one that isn't reserved, `words` one or more,
# `number`, `number?` one or none, `formula`, `distinct?` that word or nothing, `guard` a formula behind `when` or nothing, otherwise the token itself.
FORMS: Dict[str, Tuple[str, ...]] = {
    "model": ("word",),
    "domain": ("word", "words"),
    "type": ("word",),
    "control": ("own", "word"),
    "variable": ("own", "word"),
    "observable": ("own", "word"),
    "mode": ("word",),
    "law": ("formula",),
    "in": ("word", "formula"),
    "step": ("word", "->", "word", "when", "formula"),
    "fault": ("word", "->", "word", "cost", "number", "guard"),
    "end": (),
    "part": ("own", "word", "word"),
    "price": ("word", ".", "word", "=", "word", "number"),
    "version": ("number",),
}

# The same in a text of the second version, where they differ: `alternatives` one word or more with `|` between them.
ALTERNATIVES_FORM = ("alternatives", "formula")
FROM_OTHERS_FORM = ("->", "word", "cost", "number", "guard")
REPAIR_FORM = ("word", "->", "word", "cost", "number", "repair", "word", "=", "word", "guard")

# The limits of the numbers of statements.
LIMITS = {"price": (0, 1_000_000), "fault": (1, 1_000_000), "version": (1, 2)}


class ModelFault(Exception):
    """What is wrong with a text: the code, the line from 1 (0 for the whole text), and the byte in it from 1."""

    def __init__(self, code: str, line: int, column: int = 1) -> None:
        super().__init__(f"model {line} {code}")
        self.code = code
        self.line = line
        self.column = column


@dataclass
class Statement:
    """One statement: its word, the words behind it, its number and its formula as written. A fault from each other mode
    has one name, one with a repair four."""

    line: int
    word: str
    tokens: List[Token]
    names: List[Token] = field(default_factory=list)
    number: int = 0
    formula: Optional[Formula] = None
    formula_index: int = 0

    @property
    def column(self) -> int:
        return self.tokens[0].start + 1


def read_statements(data: bytes) -> Tuple[List[Statement], int]:
    """The statements of a text, its version among them, and its number of lines; raises the first fault of reading."""
    if len(data) > MAX_TEXT:
        raise ModelFault("M01", 0)
    lines = cut_lines(data)
    statements: List[Statement] = []
    version = 1
    for number, line in enumerate(lines, 1):
        found = _tokens(line, number)
        if found:
            statement = _statement(found, number, version)
            if statement.word == "version" and not statements:
                version = statement.number
            statements.append(statement)
    return statements, len(lines)


def _tokens(line: bytes, number: int) -> List[Token]:
    try:
        return tokens(line)
    except LongLine:
        raise ModelFault("M03", number, MAX_LINE + 1) from None
    except BadByte as fault:
        raise ModelFault("M02", number, fault.place + 1) from None


def _form(found: List[Token], version: int) -> Tuple[str, ...]:
    """What has to stand behind the first word in a text of the version."""
    word = found[0].text
    if version == 2 and word == "in":
        return ALTERNATIVES_FORM
    if version == 2 and word == "fault":
        if len(found) > 1 and found[1].text == "->":
            return FROM_OTHERS_FORM
        if len(found) > 6 and found[6].text == "repair":
            return REPAIR_FORM
    return FORMS[word]


def _statement(found: List[Token], line: int, version: int) -> Statement:
    statement = Statement(line, found[0].text, found)
    if statement.word not in FORMS:
        raise ModelFault("M04", line, statement.column)
    deep = nesting_fault(found)
    if deep is not None:
        raise ModelFault("M13", line, found[deep].start + 1)
    number = None
    reader = Reader(found, 1)
    try:
        for item in _form(found, version):
            number = read_item(reader, item, statement) or number
        reader.end()
    except FormFault as fault:
        raise ModelFault("M05", line, place_of(found, fault.index)) from None
    if number is not None:
        statement.number = _value(number)
        least, most = LIMITS[statement.word]
        if not least <= statement.number <= most:
            raise ModelFault("M06", line, number.start + 1)
    return statement


def _value(number: Token) -> int:
    digits = number.text.lstrip("0")
    return int(digits or "0") if len(digits) < 40 else 10**40


def place_of(found: List[Token], index: int) -> int:
    """The column of a token, or the one behind the last."""
    return found[index].start + 1 if index < len(found) else found[-1].end + 1


def read_item(reader: Reader, item: str, statement: Statement) -> Optional[Token]:
    """Reads one item of a form; answers the token of a number."""
    if item == "number" or (item == "number?" and reader.index < len(reader.tokens)):
        return reader.take("number")
    if item in ("word", "own"):
        if item == "own" and reader.peek() in RESERVED:
            raise FormFault(reader.index)
        statement.names.append(reader.take("word"))
    elif item == "words":
        statement.names.append(reader.take("word"))
        while reader.index < len(reader.tokens):
            statement.names.append(reader.take("word"))
    elif item == "alternatives":
        statement.names.append(reader.take("word"))
        while reader.peek() == "|":
            reader.expect("|")
            statement.names.append(reader.take("word"))
    elif item == "formula" or (item == "guard" and reader.index < len(reader.tokens)):
        if item == "guard":
            reader.expect("when")
        statement.formula_index = reader.index
        statement.formula = reader.formula()
    elif item == "time?":
        if reader.index < len(reader.tokens):
            reader.expect("at")
            return reader.take("number")
    elif item == "distinct?":
        if reader.index < len(reader.tokens):
            reader.expect("distinct")
    elif item not in ("guard", "number?"):
        reader.expect(item)
    return None
