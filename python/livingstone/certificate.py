"""A certificate's lines as things with names. Only what `check` called valid is read: its form isn't judged again."""

from __future__ import annotations

from dataclasses import dataclass, field
from typing import Dict, Iterator, List, Optional, Set, Tuple, Union

from .clauses import NEXT, NOW, ModelClauses, Origin, cleaned, faults_of, formula_clauses
from .declarations import read_goal
from .plant import MODE, Plant

Numbers = List[int]


@dataclass
class Block:
    """Something shown to be impossible: what is given, and the clauses that follow, the last of them empty."""

    kind: str
    state: int
    given: Numbers
    goal: int = 0
    lines: List[Tuple[Numbers, Numbers]] = field(default_factory=list)


@dataclass
class Shown:
    """Values before and after a step that show something to be possible."""

    kind: str
    state: int
    choices: Numbers
    now: Numbers = field(default_factory=list)
    next: Numbers = field(default_factory=list)


@dataclass
class CertificateText:
    about: str
    limit: int = 0
    states: List[Tuple[int, Numbers]] = field(default_factory=list)
    controls: Numbers = field(default_factory=list)
    facts: List[Tuple[str, int, int]] = field(default_factory=list)
    goals: List[str] = field(default_factory=list)
    recovery: Optional[Numbers] = None
    shown: List[Shown] = field(default_factory=list)
    proofs: List[Block] = field(default_factory=list)
    conflicts: List[Union[Block, Shown]] = field(default_factory=list)
    splits: List[Tuple[int, str, int]] = field(default_factory=list)


def read_certificate(text: str) -> CertificateText:
    """The lines of a valid certificate; conflicts and counters are counted together."""
    lines = [line.split(" ") for line in text.splitlines()]
    found = CertificateText(lines[0][1])
    block: Optional[Block] = None
    shown: Optional[Shown] = None
    for word, *rest in lines[2:-1]:
        if word == "clause":
            numbers = [int(item) for item in rest]
            end = numbers.index(0)
            assert block is not None
            block.lines.append((numbers[:end], numbers[end + 1:-1]))
        elif word in (NOW, NEXT):
            setattr(shown, word, [int(item) for item in rest])
        elif word in ("conflict", "proof"):
            block = _block(found, word, [int(item) for item in rest])
        elif word in ("listed", "good", "counter"):
            numbers = [int(item) for item in rest]
            shown = Shown(word, numbers[0], numbers[1:])
            if word == "counter":
                found.conflicts.append(shown)
            else:
                found.shown.append(shown)
        else:
            _stated(found, word, rest)
    return found


def _block(found: CertificateText, word: str, numbers: Numbers) -> Block:
    if word == "proof":
        block = Block(word, numbers[0], [], numbers[1])
        found.proofs.append(block)
    else:
        has_state = found.about == "recovery"
        block = Block(word, numbers[0] if has_state else 0, numbers[1 if has_state else 0:])
        found.conflicts.append(block)
    return block


def _stated(found: CertificateText, word: str, rest: List[str]) -> None:
    if word == "k":
        found.limit = int(rest[0])
    elif word == "state":
        found.states.append((int(rest[0]), [int(item) for item in rest[1:]]))
    elif word == "control":
        found.controls = [int(item) for item in rest]
    elif word == "fact":
        found.facts.append((rest[0], int(rest[1]), int(rest[2])))
    elif word == "goal":
        found.goals.append(rest[0])
    elif word == "recovery":
        found.recovery = [int(item) for item in rest]
    elif word == "split":
        found.splits.append((int(rest[0]), rest[1], int(rest[2]) if len(rest) > 2 else 1))


def pairs_of(numbers: Numbers) -> List[Tuple[int, int]]:
    return list(zip(numbers[::2], numbers[1::2]))


class Namer:
    """The numbers of a certificate told in names."""

    def __init__(self, plant: Plant, text: CertificateText) -> None:
        self.plant = plant
        self.text = text
        self.parts = list(plant.parts.values())
        self.variables = plant.variables()
        self.controls = plant.of_kind("control")
        self.compiled = ModelClauses(plant)

    def modes(self, state: int) -> Dict[str, str]:
        numbers = self.text.states[state - 1][1]
        return {part.name: list(part.type.modes)[mode - 1] for part, mode in zip(self.parts, numbers)}

    def move(self, part: int, number: int) -> str:
        return f"{self.parts[part - 1].name} {self.parts[part - 1].type.moves()[number - 1].text}"

    def value(self, variable: str, number: int) -> str:
        return self.plant.values(variable)[number - 1]

    def fact(self, fact: Tuple[str, int, int]) -> Tuple[str, str, str]:
        variable = self.variables[fact[1] - 1]
        return fact[0], variable, self.value(variable, fact[2])

    def settings(self, numbers: Numbers) -> Dict[str, str]:
        return {control: self.value(control, value) for control, value in zip(self.controls, numbers)}

    def values(self, numbers: Numbers) -> Dict[str, str]:
        return {variable: self.value(variable, value) for variable, value in zip(self.variables, numbers)}

    def choice(self, pair: Tuple[int, int]) -> str:
        """A move of a part, or for a recovery the value of a control."""
        if self.text.about == "diagnosis":
            return self.move(*pair)
        control = self.controls[pair[0] - 1]
        return f"{control}={self.value(control, pair[1])}"

    def cost(self, shown: Shown) -> int:
        moves = [part.type.moves()[number - 1] for part, number in zip(self.parts, shown.choices)]
        return self.text.states[shown.state - 1][0] + sum(move.cost for move in moves)

    def numbered(self, block: Block) -> Tuple[List[Tuple[int, ...]], List[Origin]]:
        """The clauses of a block in the order of their numbers, and where each comes from."""
        pairs = self.compiled.clauses + list(self._given(block))
        clauses = [clause for clause, _ in pairs] + [tuple(literals) for literals, _ in block.lines]
        return clauses, [origin for _, origin in pairs]

    def _given(self, block: Block) -> Iterator[Tuple[Tuple[int, ...], Origin]]:
        numbers = self.compiled.booleans
        if self.text.about == "diagnosis":
            for control, value in self.settings(self.text.controls).items():
                yield (numbers.of_value[NOW, control, value],), Origin(f"commanded or resting: {control}={value}")
        else:
            for part, mode in self.modes(block.state).items():
                yield (numbers.of_value[NOW, f"{part}.{MODE}", mode],), Origin(f"state {block.state}: {part}={mode}")
            for part, move in faults_of(self.plant):
                yield (-numbers.of_move[part, move],), Origin("no part fails")
        for when, variable, value in map(self.fact, self.text.facts):
            seen = "before" if when == NOW else "after"
            yield (numbers.of_value[when, variable, value],), Origin(f"observed {seen}: {variable}={value}")
        yield from self._choices(block)

    def _choices(self, block: Block) -> Iterator[Tuple[Tuple[int, ...], Origin]]:
        numbers = self.compiled.booleans
        if self.text.about == "diagnosis":
            for part, move in pairs_of(block.given):
                yield (numbers.of_move[self.parts[part - 1].name, move],), Origin(f"given: {self.move(part, move)}")
            return
        pairs = pairs_of(block.given)
        if block.kind == "proof":
            pairs = list(enumerate(self.text.recovery or [], 1))
        for control, value in pairs:
            name = self.controls[control - 1]
            literal = numbers.of_value[NOW, name, self.value(name, value)]
            yield (literal,), Origin(f"given: {name}={self.value(name, value)}")
        yield from self._goals(block)

    def _goals(self, block: Block) -> Iterator[Tuple[Tuple[int, ...], Origin]]:
        proof = block.kind == "proof"
        for goal in [self.text.goals[block.goal - 1]] if proof else self.text.goals:
            formula = read_goal(self.plant, goal)
            for clause in formula_clauses(self.compiled.booleans, formula, not proof, NEXT):
                kept = cleaned(clause)
                if kept is not None:
                    yield kept, Origin(f"the goal {goal} " + ("fails" if proof else "is met"))

    def reasons(self, block: Block) -> List[Origin]:
        """The statements and facts that a refutation rests on, each once, in the order of their clauses."""
        clauses, origins = self.numbered(block)
        first = len(origins) + 1
        used: Set[int] = set()
        todo = [len(clauses)]
        while todo:
            number = todo.pop()
            if number not in used:
                used.add(number)
                todo += block.lines[number - first][1] if number >= first else []
        return list(dict.fromkeys(origins[number - 1] for number in sorted(used) if number < first))


Zone = Tuple[int, List[Set[int]]]


def zones_of(namer: Namer) -> Tuple[Dict[int, Zone], List[Tuple[int, Zone]]]:
    """The zones that are open at the end, and each zone that was split, in order: its source and its choices."""
    text = namer.text
    zones: Dict[int, Zone] = {}
    if text.about == "diagnosis":
        for number, (_, modes) in enumerate(text.states, 1):
            slots = []
            for part, mode in zip(namer.parts, modes):
                name = list(part.type.modes)[mode - 1]
                slots.append({n for n, move in enumerate(part.type.moves(), 1) if move.source == name})
            zones[number] = (number, slots)
    else:
        zones[1] = (0, [set(range(1, len(namer.plant.values(name)) + 1)) for name in namer.controls])
    split, count = [], len(zones)
    for zone, by, place in text.splits:
        source, slots = zones.pop(zone)
        split.append((zone, (source, slots)))
        for pair in _split_pairs(text, by, place):
            count += 1
            rest = [set(slot) for slot in slots]
            rest[pair[0] - 1] -= {pair[1]}
            zones[count] = (source, rest)
            slots = [set(slot) for slot in slots]
            slots[pair[0] - 1] &= {pair[1]}
    return zones, split


def _split_pairs(text: CertificateText, by: str, place: int) -> List[Tuple[int, int]]:
    if by == "recovery":
        return list(enumerate(text.recovery or [], 1))
    if by == "listed":
        return list(enumerate(text.shown[place - 1].choices, 1))
    other = text.conflicts[place - 1]
    if isinstance(other, Shown):
        return list(enumerate(other.choices, 1))
    return pairs_of(other.given)
