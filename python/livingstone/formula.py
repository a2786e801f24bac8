"""Formulas: reading them from tokens, their canonical text, their truth, and how many clauses they count as."""

from __future__ import annotations

import math
from dataclasses import dataclass
from typing import Callable, Dict, Iterator, List, Mapping, Optional, Sequence, Tuple

from .text import Token

MAX_CLAUSES = 4096
MAX_PARENTHESES = 64
MAX_OPERATORS = 256


class Formula:
    """One of the forms below."""


@dataclass(frozen=True)
class Constant(Formula):
    value: bool


@dataclass(frozen=True)
class Equation(Formula):
    """An equation as written: the words of both sides, and where each side begins in its line."""

    left: Tuple[str, ...]
    right: Tuple[str, ...]
    left_place: int
    right_place: int


@dataclass(frozen=True)
class Is(Formula):
    """A variable has a value."""

    variable: str
    value: str


@dataclass(frozen=True)
class Same(Formula):
    """Two variables of one domain have the same value."""

    left: str
    right: str


@dataclass(frozen=True)
class Not(Formula):
    inner: Formula


@dataclass(frozen=True)
class And(Formula):
    members: Tuple[Formula, ...]


@dataclass(frozen=True)
class Or(Formula):
    members: Tuple[Formula, ...]


@dataclass(frozen=True)
class Implies(Formula):
    left: Formula
    right: Formula


@dataclass(frozen=True)
class Iff(Formula):
    left: Formula
    right: Formula


class FormFault(Exception):
    """The tokens have not the form that they should have; `index` is the first that doesn't fit."""

    def __init__(self, index: int) -> None:
        super().__init__(index)
        self.index = index


class TooManyClauses(Exception):
    """A formula, or a part of it, counts as more than 4,096 clauses."""


class Reader:
    """Reads tokens from left to right, and formulas by the grammar of the language."""

    def __init__(self, tokens: Sequence[Token], index: int = 0) -> None:
        self.tokens = tokens
        self.index = index

    def peek(self) -> str:
        return self.tokens[self.index].text if self.index < len(self.tokens) else ""

    def take(self, kind: str) -> Token:
        if self.index == len(self.tokens) or self.tokens[self.index].kind != kind:
            raise FormFault(self.index)
        self.index += 1
        return self.tokens[self.index - 1]

    def expect(self, text: str) -> Token:
        if self.peek() != text:
            raise FormFault(self.index)
        self.index += 1
        return self.tokens[self.index - 1]

    def end(self) -> None:
        if self.index != len(self.tokens):
            raise FormFault(self.index)

    def formula(self) -> Formula:
        left = self._implication()
        if self.peek() != "<=>":
            return left
        self.index += 1
        return Iff(left, self.formula())

    def _implication(self) -> Formula:
        left = self._disjunction()
        if self.peek() != "=>":
            return left
        self.index += 1
        return Implies(left, self._implication())

    def _disjunction(self) -> Formula:
        members = self._members("|", self._conjunction)
        return members[0] if len(members) == 1 else Or(tuple(members))

    def _conjunction(self) -> Formula:
        members = self._members("&", self._unary)
        return members[0] if len(members) == 1 else And(tuple(members))

    def _members(self, symbol: str, member: Callable[[], Formula]) -> List[Formula]:
        members = [member()]
        while self.peek() == symbol:
            self.index += 1
            members.append(member())
        return members

    def _unary(self) -> Formula:
        text = self.peek()
        if text == "!":
            self.index += 1
            return Not(self._unary())
        if text == "(":
            self.index += 1
            inner = self.formula()
            self.expect(")")
            return inner
        if text in ("true", "false"):
            self.index += 1
            return Constant(text == "true")
        return self._equation()

    def _equation(self) -> Formula:
        left_place = self.index
        left = self._path()
        self.expect("=")
        right_place = self.index
        right = self._path()
        return Equation(left, right, self.tokens[left_place].start, self.tokens[right_place].start)

    def _path(self) -> Tuple[str, ...]:
        first = self.take("word").text
        if self.peek() != ".":
            return (first,)
        self.index += 1
        return (first, self.take("word").text)


def nesting_fault(tokens: Sequence[Token]) -> Optional[int]:
    """The first token with which a line passes the nesting limits, or None."""
    depth = operators = 0
    for index, token in enumerate(tokens):
        depth += {"(": 1, ")": -1}.get(token.text, 0)
        operators += token.text in ("!", "=>", "<=>")
        if depth > MAX_PARENTHESES or operators > MAX_OPERATORS:
            return index
    return None


def text_of(formula: Formula) -> str:
    """The canonical text."""
    if isinstance(formula, Constant):
        return "true" if formula.value else "false"
    if isinstance(formula, Equation):
        return ".".join(formula.left) + "=" + ".".join(formula.right)
    if isinstance(formula, Is):
        return f"{formula.variable}={formula.value}"
    if isinstance(formula, Same):
        return f"{formula.left}={formula.right}"
    if isinstance(formula, Not):
        return "!" + _wrapped(formula.inner, (And, Or, Implies, Iff))
    if isinstance(formula, And):
        return "&".join(_wrapped(member, (And, Or, Implies, Iff)) for member in formula.members)
    if isinstance(formula, Or):
        return "|".join(_wrapped(member, (Or, Implies, Iff)) for member in formula.members)
    if isinstance(formula, Implies):
        return _wrapped(formula.left, (Implies, Iff)) + "=>" + _wrapped(formula.right, (Iff,))
    assert isinstance(formula, Iff)
    return _wrapped(formula.left, (Iff,)) + "<=>" + text_of(formula.right)


def _wrapped(formula: Formula, kinds: Tuple[type, ...]) -> str:
    text = text_of(formula)
    return f"({text})" if isinstance(formula, kinds) else text


def parts_of(formula: Formula) -> Tuple[Formula, ...]:
    """The formulas directly in a formula."""
    if isinstance(formula, Not):
        return (formula.inner,)
    if isinstance(formula, (And, Or)):
        return formula.members
    if isinstance(formula, (Implies, Iff)):
        return (formula.left, formula.right)
    return ()


def leaves(formula: Formula) -> Iterator[Formula]:
    """The equations and constants in a formula, from left to right."""
    parts = parts_of(formula)
    if not parts:
        yield formula
    for part in parts:
        yield from leaves(part)


def variables_of(formula: Formula) -> List[str]:
    """The variables that a formula reads, each once, in the order of their first places."""
    found: List[str] = []
    for leaf in leaves(formula):
        if isinstance(leaf, Is):
            found.append(leaf.variable)
        elif isinstance(leaf, Same):
            found += [leaf.left, leaf.right]
    return list(dict.fromkeys(found))


def replaced(formula: Formula, leaf: Callable[[Formula], Formula]) -> Formula:
    """The formula with another in the place of each equation and constant."""
    if isinstance(formula, Not):
        return Not(replaced(formula.inner, leaf))
    if isinstance(formula, And):
        return And(tuple(replaced(member, leaf) for member in formula.members))
    if isinstance(formula, Or):
        return Or(tuple(replaced(member, leaf) for member in formula.members))
    if isinstance(formula, Implies):
        return Implies(replaced(formula.left, leaf), replaced(formula.right, leaf))
    if isinstance(formula, Iff):
        return Iff(replaced(formula.left, leaf), replaced(formula.right, leaf))
    return leaf(formula)


def renamed(formula: Formula, name: Callable[[str], str]) -> Formula:
    """The formula with another name for each variable."""

    def leaf(equation: Formula) -> Formula:
        if isinstance(equation, Is):
            return Is(name(equation.variable), equation.value)
        if isinstance(equation, Same):
            return Same(name(equation.left), name(equation.right))
        return equation

    return replaced(formula, leaf)


def truth(formula: Formula, values: Mapping[str, str]) -> Optional[bool]:
    """Whether a formula is true where some variables have values, or None where that isn't settled by them."""
    if isinstance(formula, Constant):
        return formula.value
    if isinstance(formula, Is):
        return values[formula.variable] == formula.value if formula.variable in values else None
    if isinstance(formula, Same):
        if formula.left == formula.right:
            return True
        known = formula.left in values and formula.right in values
        return values[formula.left] == values[formula.right] if known else None
    if isinstance(formula, Not):
        inner = truth(formula.inner, values)
        return None if inner is None else not inner
    if isinstance(formula, And):
        return _all(truth(member, values) for member in formula.members)
    if isinstance(formula, Or):
        return _negated(_all(_negated(truth(member, values)) for member in formula.members))
    assert isinstance(formula, (Implies, Iff))
    left, right = truth(formula.left, values), truth(formula.right, values)
    if isinstance(formula, Implies):
        return _negated(_all(iter((left, _negated(right)))))
    return None if left is None or right is None else left == right


def _negated(value: Optional[bool]) -> Optional[bool]:
    return None if value is None else not value


def _all(values: Iterator[Optional[bool]]) -> Optional[bool]:
    seen = set(values)
    return False if False in seen else None if None in seen else True


def clause_count(formula: Formula, sign: bool, size: Callable[[str], int]) -> int:
    """How many clauses a formula counts as in a sign, where `size` tells how many values a variable has.

    Raises TooManyClauses where the formula, or one on the way down, counts more than 4,096.
    """
    return _Counter(size).count(formula, sign)


class _Counter:
    """Counts each formula once in each sign: an equivalence asks for both signs of both its sides."""

    def __init__(self, size: Callable[[str], int]) -> None:
        self.size = size
        self.known: Dict[Tuple[int, bool], int] = {}

    def count(self, formula: Formula, sign: bool) -> int:
        key = (id(formula), sign)
        if key not in self.known:
            self.known[key] = self._row(formula, sign)
        if self.known[key] > MAX_CLAUSES:
            raise TooManyClauses()
        return self.known[key]

    def _row(self, formula: Formula, sign: bool) -> int:
        if isinstance(formula, Constant):
            return int(formula.value != sign)
        if isinstance(formula, Is):
            return 1
        if isinstance(formula, Same):
            return self.size(formula.left)
        if isinstance(formula, Not):
            return self.count(formula.inner, not sign)
        if isinstance(formula, (And, Or)):
            counts = [self.count(member, sign) for member in formula.members]
            return sum(counts) if sign == isinstance(formula, And) else math.prod(counts)
        assert isinstance(formula, (Implies, Iff))
        left, right = formula.left, formula.right
        if isinstance(formula, Implies):
            if sign:
                return self.count(left, False) * self.count(right, True)
            return self.count(left, True) + self.count(right, False)
        forward = self.count(left, False) * self.count(right, sign)
        return forward + self.count(left, True) * self.count(right, not sign)
