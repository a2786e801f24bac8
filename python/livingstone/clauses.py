"""The clauses of a model, numbered as certificates number them, each with the statement that it comes from."""

from __future__ import annotations

from dataclasses import dataclass
from typing import Dict, Iterator, List, Optional, Sequence, Tuple

from .formula import And, Constant, Formula, Iff, Implies, Is, Not, Or, Same, renamed, text_of
from .plant import MODE, Move, Part, Plant

Clause = Tuple[int, ...]
NOW, NEXT = "now", "next"


@dataclass(frozen=True)
class Origin:
    """What a clause says: in words, and the line of the canonical text that says it, 0 where none does."""

    text: str
    line: int = 0


class Booleans:
    """The numbers of booleans, from 1: a variable has a value before or after the step, a part makes a move."""

    def __init__(self, plant: Plant) -> None:
        self.plant = plant
        self.names: List[str] = [""]
        self.of_value: Dict[Tuple[str, str, str], int] = {}
        self.of_move: Dict[Tuple[str, int], int] = {}
        for when in (NOW, NEXT):
            for variable in plant.variables():
                for value in plant.values(variable):
                    self.of_value[when, variable, value] = len(self.names)
                    self.names.append(f"{when} {variable}={value}")
        for part in plant.parts.values():
            for number, move in enumerate(part.type.moves(), 1):
                self.of_move[part.name, number] = len(self.names)
                self.names.append(f"{part.name} {move.text}")

    def text(self, literal: int) -> str:
        return self.names[literal] if literal > 0 else f"not {self.names[-literal]}"


def formula_clauses(booleans: Booleans, formula: Formula, sign: bool, when: str) -> List[Clause]:
    """The clauses of a formula over the plant's variables, in a sign and at a time."""
    return _Compiler(booleans, when).clauses(formula, sign)


class _Compiler:
    """Makes the clauses of each formula once in each sign: an equivalence asks for both signs of both its sides."""

    def __init__(self, booleans: Booleans, when: str) -> None:
        self.booleans = booleans
        self.when = when
        self.known: Dict[Tuple[int, bool], List[Clause]] = {}

    def clauses(self, formula: Formula, sign: bool) -> List[Clause]:
        key = (id(formula), sign)
        if key not in self.known:
            self.known[key] = self._made(formula, sign)
        return self.known[key]

    def _value(self, variable: str, name: str) -> int:
        return self.booleans.of_value[self.when, variable, name]

    def _made(self, formula: Formula, sign: bool) -> List[Clause]:
        if isinstance(formula, Constant):
            return [] if formula.value == sign else [()]
        if isinstance(formula, Is):
            number = self._value(formula.variable, formula.value)
            return [(number if sign else -number,)]
        if isinstance(formula, Same):
            names = self.booleans.plant.values(formula.left)
            pairs = [(self._value(formula.left, name), self._value(formula.right, name)) for name in names]
            return [(-left, right if sign else -right) for left, right in pairs]
        if isinstance(formula, Not):
            return self.clauses(formula.inner, not sign)
        if isinstance(formula, (And, Or)):
            lists = [self.clauses(member, sign) for member in formula.members]
            return sum(lists, []) if sign == isinstance(formula, And) else _product(lists)
        assert isinstance(formula, (Implies, Iff))
        left, right = formula.left, formula.right
        if isinstance(formula, Implies):
            if sign:
                return _product([self.clauses(left, False), self.clauses(right, True)])
            return self.clauses(left, True) + self.clauses(right, False)
        if sign:
            forward = _product([self.clauses(left, False), self.clauses(right, True)])
            return forward + _product([self.clauses(left, True), self.clauses(right, False)])
        both = _product([self.clauses(left, True), self.clauses(right, True)])
        return both + _product([self.clauses(left, False), self.clauses(right, False)])


def _product(lists: Sequence[List[Clause]]) -> List[Clause]:
    result: List[Clause] = [()]
    for clauses in lists:
        result = [before + clause for before in result for clause in clauses]
    return result


def cleaned(clause: Clause) -> Optional[Clause]:
    """The clause with each literal once, or None where it is always true."""
    kept = tuple(dict.fromkeys(clause))
    return None if any(-literal in kept for literal in kept) else kept


class ModelClauses:
    """All clauses of a model; the n-th, from 1, is `clauses[n - 1]`."""

    def __init__(self, plant: Plant) -> None:
        self.plant = plant
        self.booleans = Booleans(plant)
        self.clauses: List[Tuple[Clause, Origin]] = []
        for when in (NOW, NEXT):
            self._values(when)
            self._rules(when)
        for part in plant.parts.values():
            self._moves(part)

    def _add(self, clauses: Sequence[Clause], origin: Origin) -> None:
        for clause in clauses:
            kept = cleaned(clause)
            if kept is not None:
                self.clauses.append((kept, origin))

    def _one_of(self, literals: List[int], origin: Origin) -> None:
        pairs = [(-one, -other) for place, one in enumerate(literals) for other in literals[place + 1:]]
        self._add([tuple(literals), *pairs], origin)

    def _values(self, when: str) -> None:
        for variable in self.plant.variables():
            literals = [self.booleans.of_value[when, variable, value] for value in self.plant.values(variable)]
            self._one_of(literals, Origin(f"{variable} has one value"))

    def _rules(self, when: str) -> None:
        for part in self.plant.parts.values():
            for rule in sorted(part.type.rules, key=lambda rule: rule.mode is not None):
                clauses = formula_clauses(self.booleans, _of(part, rule.formula), True, when)
                if rule.mode is None:
                    text = f"{part.name}: law {text_of(rule.formula)}"
                else:
                    mode = self.booleans.of_value[when, f"{part.name}.{MODE}", rule.mode]
                    clauses = [(-mode, *clause) for clause in clauses]
                    text = f"{part.name}: in {rule.mode} {text_of(rule.formula)}"
                self._add(clauses, Origin(text, rule.line))
        for law in self.plant.laws:
            clauses = formula_clauses(self.booleans, law.formula, True, when)
            self._add(clauses, Origin(f"law {text_of(law.formula)}", law.line))

    def _moves(self, part: Part) -> None:
        moves = part.type.moves()
        literals = [self.booleans.of_move[part.name, number] for number in range(1, len(moves) + 1)]
        self._one_of(literals, Origin(f"{part.name} makes one move"))
        for literal, move in zip(literals, moves):
            mode = f"{part.name}.{MODE}"
            origin = Origin(f"{part.name}: what {move.text} goes from and leads to", move.line)
            self._add([(-literal, self.booleans.of_value[NOW, mode, move.source])], origin)
            self._add([(-literal, self.booleans.of_value[NEXT, mode, move.target])], origin)
            self._guards(part, moves, literal, move)

    def _guards(self, part: Part, moves: List[Move], literal: int, move: Move) -> None:
        if move.guard is not None:
            origin = Origin(f"{part.name}: {move.text} when {text_of(move.guard)}", move.line)
            self._add(self._given(part, literal, move.guard, True), origin)
        for other in moves:
            if move.kind == "fault" or other is move:
                break
            if other.source == move.source and other.kind == "step" and other.guard is not None:
                text = f"{part.name}: {other.text} goes before {move.text} when {text_of(other.guard)}"
                self._add(self._given(part, literal, other.guard, False), Origin(text, other.line))

    def _given(self, part: Part, literal: int, guard: Formula, sign: bool) -> List[Clause]:
        clauses = formula_clauses(self.booleans, _of(part, guard), sign, NOW)
        return [(-literal, *clause) for clause in clauses]


def _of(part: Part, formula: Formula) -> Formula:
    return renamed(formula, lambda name: f"{part.name}.{name}")


def faults_of(plant: Plant) -> Iterator[Tuple[str, int]]:
    """The faults of all parts, part by part, by their numbers among the moves."""
    for part in plant.parts.values():
        for number, move in enumerate(part.type.moves(), 1):
            if move.kind == "fault":
                yield part.name, number
