"""What a model's text declares, by names: domains, types, parts, laws and prices."""

from __future__ import annotations

from dataclasses import dataclass, field
from typing import Dict, List, Optional, Tuple

from .formula import Formula

MODE = "mode"


@dataclass
class Domain:
    name: str
    values: List[str]
    line: int


@dataclass
class Variable:
    """A control, variable or observable of a type."""

    name: str
    kind: str
    domain: Domain
    line: int


@dataclass
class Mode:
    name: str
    line: int


@dataclass
class Rule:
    """A law of a type, or a formula of one of its modes."""

    mode: Optional[str]
    formula: Formula
    line: int


@dataclass
class Move:
    """A step, stay or fault; `number` counts the step and fault lines of the type, and a stay has none."""

    kind: str
    source: str
    target: str
    cost: int
    guard: Optional[Formula]
    number: Optional[int]
    line: int

    @property
    def text(self) -> str:
        return f"{self.source} stay" if self.number is None else f"{self.source}>{self.target} #{self.number}"


@dataclass
class PartType:
    name: str
    line: int
    variables: Dict[str, Variable] = field(default_factory=dict)
    modes: Dict[str, Mode] = field(default_factory=dict)
    rules: List[Rule] = field(default_factory=list)
    written: List[Move] = field(default_factory=list)

    def moves(self) -> List[Move]:
        """The moves in the order of the model: mode by mode its steps, its stay and its faults."""
        found = []
        for mode in self.modes.values():
            own = [move for move in self.written if move.source == mode.name]
            found += [move for move in own if move.kind == "step"]
            found.append(Move("stay", mode.name, mode.name, 0, None, None, mode.line))
            found += [move for move in own if move.kind == "fault"]
        return found

    def values(self, variable: str) -> List[str]:
        """The values of a variable of the type, or its modes."""
        return list(self.modes) if variable == MODE else self.variables[variable].domain.values


@dataclass
class Part:
    name: str
    type: PartType
    start: str
    line: int


@dataclass
class Law:
    formula: Formula
    line: int


@dataclass
class Plant:
    """A model; variables of the whole plant have names as `v.out` and `v.mode`."""

    name: str = "model"
    domains: Dict[str, Domain] = field(default_factory=dict)
    types: Dict[str, PartType] = field(default_factory=dict)
    parts: Dict[str, Part] = field(default_factory=dict)
    laws: List[Law] = field(default_factory=list)
    prices: Dict[Tuple[str, str], int] = field(default_factory=dict)

    def variables(self) -> List[str]:
        """All variables, part by part: the mode, then the others as written."""
        return [f"{part.name}.{name}" for part in self.parts.values() for name in (MODE, *part.type.variables)]

    def values(self, variable: str) -> List[str]:
        part, name = variable.split(".")
        return self.parts[part].type.values(name)

    def of_kind(self, kind: str) -> List[str]:
        """The variables of all parts that are declared as controls, variables or observables."""
        return [
            f"{part.name}.{variable.name}"
            for part in self.parts.values()
            for variable in part.type.variables.values()
            if variable.kind == kind
        ]

    def price(self, control: str, value: str) -> int:
        if value == self.values(control)[0]:
            return 0
        return self.prices.get((control, value), 1)
