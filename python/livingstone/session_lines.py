"""The lines of a session: their form, and where in a refused one the fault is."""

from __future__ import annotations

from typing import Dict, List, Optional, Tuple

from .formula import Equation, FormFault, Formula, Reader, leaves, nesting_fault
from .plant import MODE, Plant
from .syntax import Statement, place_of, read_item
from .text import BadByte, LongLine, MAX_LINE, Token, tokens, without_end

_PATH = ("word", ".", "word")

# The forms of lines, as those of a model's statements.
FORMS: Dict[str, Tuple[str, ...]] = {
    "track": ("number", "distinct?"),
    "budget": ("number",),
    "command": (*_PATH, "=", "word"),
    "release": _PATH,
    "observe": ("own", *_PATH, "=", "word"),
    "retract": ("own", "time?"),
    "goal": ("own", "formula"),
    "drop": ("own",),
    "diagnose": (),
    "window": ("number",),
    "recover": (),
    "more": ("number",),
    "conflicts": (),
    "certificate": (),
    "commit": (),
    "labels": ("number?",),
    "states": (),
    "reset": (),
    "quit": (),
    "probe": (),
    "test": _PATH,
}


def fault_column(plant: Optional[Plant], line: bytes, code: str) -> int:
    """The column from 1 of what a refused line was refused for, as far as the code and the model tell it."""
    try:
        found = tokens(without_end(line))
    except LongLine:
        return MAX_LINE + 1
    except BadByte as fault:
        return fault.place + 1
    index = _fault_index(plant, found, code)
    return place_of(found, index) if found else 1


def read_line(found: List[Token]) -> Statement:
    """A session line as a statement; raises FormFault."""
    statement = Statement(0, found[0].text, found)
    if statement.word not in FORMS:
        raise FormFault(0)
    reader = Reader(found, 1)
    for item in FORMS[statement.word]:
        read_item(reader, item, statement)
    reader.end()
    return statement


def _fault_index(plant: Optional[Plant], found: List[Token], code: str) -> int:
    if code == "S17":
        deep = nesting_fault(found)
        return 2 if deep is None else deep
    try:
        statement = read_line(found)
    except (FormFault, IndexError) as fault:
        return fault.index if isinstance(fault, FormFault) else 0
    if code == "S09" and statement.word == "retract":
        return len(found) - 1
    if code in ("S07", "S08", "S09", "S14"):
        return min(1, len(found) - 1)
    if statement.formula is not None and plant is not None:
        return _equation_index(plant, found, statement.formula)
    return _path_index(plant, statement, code)


def _path_index(plant: Optional[Plant], statement: Statement, code: str) -> int:
    """Behind `command`, `release` or `observe NAME`: the part, its variable, or the value."""
    part = 2 if statement.word == "observe" else 1
    if code == "S03":
        known = plant is not None and statement.tokens[part].text in plant.parts
        return part + 2 if known else part
    return {"S04": part + 2, "S05": part + 2, "S06": part + 4}.get(code, 0)


def _equation_index(plant: Plant, found: List[Token], formula: Formula) -> int:
    """The first side of an equation of a goal that fails."""
    names = plant.variables()
    for leaf in leaves(formula):
        if not isinstance(leaf, Equation):
            continue
        left, right = ".".join(leaf.left), ".".join(leaf.right)
        if left not in names:
            return _at(found, leaf.left_place)
        if right not in plant.values(left) and not (right in names and _domain(plant, left) == _domain(plant, right)):
            return _at(found, leaf.right_place)
    return 2


def _domain(plant: Plant, variable: str) -> Tuple[str, str]:
    """What tells whether two variables have one domain."""
    part, name = variable.split(".")
    kind = plant.parts[part].type
    return ("modes of", kind.name) if name == MODE else ("domain", kind.variables[name].domain.name)


def _at(found: List[Token], start: int) -> int:
    return next(index for index, token in enumerate(found) if token.start == start)
