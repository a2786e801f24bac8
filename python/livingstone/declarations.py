"""From the statements of a text to the plant that they declare, each judged over those above it."""

from __future__ import annotations

from typing import Callable, Iterable, List, Optional, Tuple

from .formula import (
    Equation,
    Formula,
    Is,
    Same,
    TooManyClauses,
    clause_count,
    replaced,
)
from .plant import MODE, Domain, Law, Mode, Move, Part, PartType, Plant, Rule, Variable
from .syntax import ModelFault, Statement, place_of, read_statements
from .text import Token

MAX_NAME = 64
MAX_VALUES = 32
MAX_MODES = 16
MAX_MOVES = 64
MAX_PARTS = 256
MAX_VARIABLES = 4096
MAX_MODEL_CLAUSES = 1_048_576

# A word on the left of an equation, or on its right: the variable that it names and the domain that this has.
Scope = Callable[[Tuple[str, ...]], Optional[Tuple[str, object]]]
Values = Callable[[str], List[str]]


def read_plant(data: bytes) -> Plant:
    """The plant of a text; raises ModelFault with the code and the place of the first fault."""
    statements, lines = read_statements(data)
    builder = _Builder()
    versioned = bool(statements) and statements[0].word == "version"
    for index, statement in enumerate(statements[versioned:]):
        builder.declare(statement, index)
    if builder.open is not None:
        raise ModelFault("M11", lines + 1)
    if not builder.plant.parts:
        raise ModelFault("M15", lines + 1)
    return builder.plant


class _Builder:
    def __init__(self) -> None:
        self.plant = Plant()
        self.open: Optional[PartType] = None
        self.variables = 0
        self.clauses = 0
        # How many step and fault lines the open type has.
        self.lines = 0

    def declare(self, statement: Statement, index: int) -> None:
        inside = self.open is not None
        outside_only = statement.word in ("domain", "type", "part", "price")
        inside_only = statement.word in ("control", "variable", "observable", "mode", "in", "step", "fault", "end")
        if statement.word == "version" or (statement.word == "model" and index > 0) or (inside and outside_only) or (not inside and inside_only):
            raise ModelFault("M10", statement.line, statement.column)
        handler = "variable" if statement.word in ("control", "observable") else statement.word
        getattr(self, f"_{handler}")(statement)

    def _model(self, statement: Statement) -> None:
        _limit_names(statement, statement.names)
        self.plant.name = statement.names[0].text

    def _domain(self, statement: Statement) -> None:
        name, *values = statement.names
        _new(statement, name, self.plant.domains)
        seen: List[str] = []
        for value in values:
            _new(statement, value, seen)
            seen.append(value.text)
        if len(values) > MAX_VALUES:
            raise ModelFault("M12", statement.line, values[MAX_VALUES].start + 1)
        _limit_names(statement, statement.names)
        self.plant.domains[name.text] = Domain(name.text, seen, statement.line)

    def _type(self, statement: Statement) -> None:
        name = statement.names[0]
        _new(statement, name, self.plant.types)
        _limit_names(statement, [name])
        self.open = PartType(name.text, statement.line)
        self.plant.types[name.text] = self.open
        self.lines = 0

    def _variable(self, statement: Statement) -> None:
        assert self.open is not None
        name, domain = statement.names
        _known(statement, domain, self.plant.domains)
        _new(statement, name, self.open.variables)
        _limit_names(statement, [name])
        variable = Variable(name.text, statement.word, self.plant.domains[domain.text], statement.line)
        self.open.variables[name.text] = variable

    def _mode(self, statement: Statement) -> None:
        assert self.open is not None
        name = statement.names[0]
        _new(statement, name, self.open.modes)
        if len(self.open.modes) == MAX_MODES or self._move_total() == MAX_MOVES:
            raise ModelFault("M12", statement.line, statement.column)
        _limit_names(statement, [name])
        self.open.modes[name.text] = Mode(name.text, statement.line)

    def _move_total(self) -> int:
        assert self.open is not None
        return len(self.open.modes) + len(self.open.written)

    def _law(self, statement: Statement) -> None:
        if self.open is not None:
            self.open.rules.append(Rule(None, self._type_formula(statement, (True,)), statement.line))
            return
        formula = _resolved(statement, self._plant_scope, self.plant.values)
        share = 2 * _counts(statement, formula, (True,), lambda name: len(self.plant.values(name)))
        self._grow(statement, share)
        self.plant.laws.append(Law(formula, statement.line))

    def _in(self, statement: Statement) -> None:
        assert self.open is not None
        for mode in statement.names:
            _known(statement, mode, self.open.modes)
        formula = _resolved(statement, self._type_scope, self.open.values)
        seen: List[str] = []
        for mode in statement.names:
            _new(statement, mode, seen)
            seen.append(mode.text)
        self._type_counts(statement, formula, (True,))
        self.open.rules.extend(Rule(mode, formula, statement.line) for mode in seen)

    def _step(self, statement: Statement) -> None:
        assert self.open is not None
        source, target = statement.names
        _known(statement, source, self.open.modes)
        _known(statement, target, self.open.modes)
        guard = self._type_formula(statement, (True, False))
        self._add(statement, [("step", source.text, target.text, guard)])

    def _fault(self, statement: Statement) -> None:
        assert self.open is not None
        ends = statement.names[:2]
        for mode in ends:
            _known(statement, mode, self.open.modes)
        target = ends[-1].text
        back = self._repair(statement, *statement.names[2:]) if len(statement.names) == 4 else None
        guard = self._type_formula(statement, (True,)) if statement.formula is not None else None
        sources = [ends[0].text] if len(ends) == 2 else [mode for mode in self.open.modes if mode != target]
        moves = [("fault", source, target, guard) for source in sources]
        if back is not None:
            moves.append(("step", target, sources[0], back))
        self._add(statement, moves)

    def _repair(self, statement: Statement, control: Token, value: Token) -> Formula:
        """The guard of the step by which a fault is repaired."""
        assert self.open is not None
        _known(statement, control, (MODE, *self.open.variables))
        if control.text == MODE or self.open.variables[control.text].kind != "control":
            raise ModelFault("M09", statement.line, control.start + 1)
        if value.text not in self.open.values(control.text):
            raise ModelFault("M09", statement.line, value.start + 1)
        return Is(control.text, value.text)

    def _add(self, statement: Statement, moves: List[Tuple[str, str, str, Optional[Formula]]]) -> None:
        """The moves of one line, which share its number; each by its kind, its ends and its guard."""
        assert self.open is not None
        if self._move_total() + len(moves) > MAX_MOVES:
            raise ModelFault("M12", statement.line, statement.column)
        self.lines += 1
        for kind, source, target, guard in moves:
            cost = statement.number if kind == "fault" else 0
            self.open.written.append(Move(kind, source, target, cost, guard, self.lines, statement.line))

    def _end(self, statement: Statement) -> None:
        assert self.open is not None
        if not self.open.modes:
            raise ModelFault("M11", statement.line, statement.column)
        self.open = None

    def _part(self, statement: Statement) -> None:
        name, type_name, mode = statement.names
        _known(statement, type_name, self.plant.types)
        kind = self.plant.types[type_name.text]
        _known(statement, mode, kind.modes)
        _new(statement, name, self.plant.parts)
        self.variables += 1 + len(kind.variables)
        if len(self.plant.parts) == MAX_PARTS or self.variables > MAX_VARIABLES:
            raise ModelFault("M12", statement.line, statement.column)
        self._grow(statement, clause_share(kind))
        _limit_names(statement, [name])
        self.plant.parts[name.text] = Part(name.text, kind, mode.text, statement.line)

    def _price(self, statement: Statement) -> None:
        part, control, value = statement.names
        _known(statement, part, self.plant.parts)
        kind = self.plant.parts[part.text].type
        _known(statement, control, (MODE, *kind.variables))
        if control.text == MODE or kind.variables[control.text].kind != "control":
            raise ModelFault("M09", statement.line, control.start + 1)
        if value.text not in kind.values(control.text)[1:]:
            raise ModelFault("M09", statement.line, value.start + 1)
        key = (f"{part.text}.{control.text}", value.text)
        if key in self.plant.prices:
            raise ModelFault("M07", statement.line, value.start + 1)
        self.plant.prices[key] = statement.number

    def _grow(self, statement: Statement, share: int) -> None:
        self.clauses += share
        if self.clauses > MAX_MODEL_CLAUSES:
            raise ModelFault("M12", statement.line, statement.column)

    def _type_formula(self, statement: Statement, signs: Tuple[bool, ...]) -> Formula:
        assert self.open is not None
        kind = self.open
        formula = _resolved(statement, self._type_scope, kind.values)
        self._type_counts(statement, formula, signs)
        return formula

    def _type_counts(self, statement: Statement, formula: Formula, signs: Tuple[bool, ...]) -> None:
        assert self.open is not None
        kind = self.open
        _counts(statement, formula, signs, lambda name: type_size(kind, name))

    def _type_scope(self, path: Tuple[str, ...]) -> Optional[Tuple[str, object]]:
        assert self.open is not None
        if path == (MODE,):
            return MODE, self.open.name
        if len(path) == 1 and path[0] in self.open.variables:
            return path[0], id(self.open.variables[path[0]].domain)
        return None

    def _plant_scope(self, path: Tuple[str, ...]) -> Optional[Tuple[str, object]]:
        if len(path) != 2 or path[0] not in self.plant.parts:
            return None
        kind = self.plant.parts[path[0]].type
        if path[1] == MODE:
            return ".".join(path), kind.name
        if path[1] in kind.variables:
            return ".".join(path), id(kind.variables[path[1]].domain)
        return None


def _new(statement: Statement, name: Token, taken: Iterable[str]) -> None:
    if name.text in taken:
        raise ModelFault("M07", statement.line, name.start + 1)


def _known(statement: Statement, name: Token, names: Iterable[str]) -> None:
    if name.text not in names:
        raise ModelFault("M08", statement.line, name.start + 1)


def _limit_names(statement: Statement, names: Iterable[Token]) -> None:
    for name in names:
        if len(name.text) > MAX_NAME:
            raise ModelFault("M12", statement.line, name.start + 1)


def _resolved(statement: Statement, scope: Scope, values: Values) -> Formula:
    """The statement's formula, its names looked up from left to right."""

    def leaf(equation: Formula) -> Formula:
        if not isinstance(equation, Equation):
            return equation
        left = scope(equation.left)
        if left is None:
            raise ModelFault("M08", statement.line, equation.left_place + 1)
        if len(equation.right) == 1 and equation.right[0] in values(left[0]):
            return Is(left[0], equation.right[0])
        right = scope(equation.right)
        if right is None or right[1] != left[1]:
            raise ModelFault("M09", statement.line, equation.right_place + 1)
        return Same(left[0], right[0])

    assert statement.formula is not None
    return replaced(statement.formula, leaf)


def _counts(statement: Statement, formula: Formula, signs: Tuple[bool, ...], size: Callable[[str], int]) -> int:
    try:
        return sum(clause_count(formula, sign, size) for sign in signs)
    except TooManyClauses:
        place = place_of(statement.tokens, statement.formula_index)
        raise ModelFault("M14", statement.line, place) from None


def type_size(kind: PartType, name: str) -> int:
    """As how many values a variable counts in a formula of its type: the mode as 16, whatever modes there are."""
    return MAX_MODES if name == MODE else len(kind.variables[name].domain.values)


def _pairs(values: int) -> int:
    return 1 + values * (values - 1) // 2


def clause_share(kind: PartType) -> int:
    """How many clauses each part of a type brings."""

    def count(formula: Optional[Formula], sign: bool) -> int:
        return 0 if formula is None else clause_count(formula, sign, lambda name: type_size(kind, name))

    total = 2 * sum(_pairs(len(kind.values(name))) for name in (MODE, *kind.variables))
    total += 2 * sum(count(rule.formula, True) for rule in kind.rules)
    moves = kind.moves()
    total += _pairs(len(moves)) + 2 * len(moves) + sum(count(move.guard, True) for move in moves)
    for mode in kind.modes:
        steps = [move for move in moves if move.source == mode and move.kind == "step"]
        # The n-th of k steps is denied by the later steps and by the stay.
        total += sum(count(step.guard, False) * (len(steps) - place) for place, step in enumerate(steps))
    return total


def read_goal(plant: Plant, text: str) -> Formula:
    """A formula over a whole plant, as in a goal; raises ModelFault where it is none."""
    statement = read_statements(f"law {text}".encode("ascii", "replace"))[0][0]
    builder = _Builder()
    builder.plant = plant
    return _resolved(statement, builder._plant_scope, plant.values)
