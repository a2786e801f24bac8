"""What is accepted in a model and likely wrong. Each check is a function from a plant to findings."""

from __future__ import annotations

import itertools
import math
from dataclasses import dataclass
from typing import Callable, Dict, Iterator, List, Optional, Set, Tuple

from .declarations import MAX_MODEL_CLAUSES, clause_share, type_size
from .formula import MAX_CLAUSES, Formula, Is, Not, Same, clause_count, leaves, text_of, truth, variables_of
from .plant import MODE, Move, Part, PartType, Plant
from .search import satisfiable

# A formula is near the limit of clauses from three quarters of it on.
NEAR = 3, 4
# A repair whose guard reads controls with more settings than this is passed over.
MOST_SETTINGS = 1_000


@dataclass(frozen=True)
class Finding:
    """`line` counts in the canonical text; `word`, where there is one, is what the finding is about in the line."""

    line: int
    code: str
    message: str
    hint: str
    word: str = ""


Check = Callable[[Plant], Iterator[Finding]]


def findings(plant: Plant) -> List[Finding]:
    found = [finding for check in CHECKS for finding in check(plant)]
    return sorted(dict.fromkeys(found), key=lambda finding: (finding.line, finding.code, finding.word))


def controls_read(plant: Plant) -> Iterator[Finding]:
    """A law holds before and after a step, and only before it has a control the value that was commanded."""
    message = "{} is a control, and a law that reads it holds after the step too, where the control is free"
    hint = "read controls in guards alone, or let a mode remember what was commanded"
    for kind in plant.types.values():
        for rule in kind.rules:
            for name in variables_of(rule.formula):
                if name != MODE and kind.variables[name].kind == "control":
                    yield Finding(rule.line, "control-read", message.format(name), hint, name)
    controls = set(plant.of_kind("control"))
    for law in plant.laws:
        for name in variables_of(law.formula):
            if name in controls:
                yield Finding(law.line, "control-read", message.format(name), hint, name.split(".")[0])


def unreachable_modes(plant: Plant) -> Iterator[Finding]:
    """A mode in which no part starts, and to which no moves lead from where one does."""
    for kind in plant.types.values():
        starts = {part.start for part in plant.parts.values() if part.type is kind}
        if not starts:
            yield Finding(kind.line, "unused-type", f"no part is of type {kind.name}", "", kind.name)
            continue
        reached = _reached(kind, starts)
        for mode in kind.modes.values():
            if mode.name not in reached:
                message = f"no part starts in {mode.name}, and no move leads there from where one starts"
                yield Finding(mode.line, "unreachable-mode", message, "is a step or fault missing?", mode.name)


def _reached(kind: PartType, starts: Set[str]) -> Set[str]:
    reached = set(starts)
    while True:
        more = {move.target for move in kind.written if move.source in reached} - reached
        if not more:
            return reached
        reached |= more


def unmet_guards(plant: Plant) -> Iterator[Finding]:
    """A guard that nothing meets in its mode, or that is met only where an earlier step goes first."""
    for kind in plant.types.values():
        for move in kind.written:
            if move.guard is None:
                continue
            context = [rule.formula for rule in kind.rules if rule.mode in (None, move.source)]
            known = [Is(MODE, move.source), move.guard]
            if satisfiable(known + context, kind.values) is False:
                alone = satisfiable([move.guard], kind.values) is False
                why = "" if alone else " that the mode and the type's laws allow"
                message = f"no values{why} meet the guard {text_of(move.guard)}"
                yield Finding(move.line, "unmet-guard", message, "this move is never made", "when")
            elif move.kind == "step":
                yield from _shadowed(kind, move, known + context)


def _shadowed(kind: PartType, move: Move, known: List[Formula]) -> Iterator[Finding]:
    earlier = itertools.takewhile(lambda other: other is not move, kind.written)
    before = [other for other in earlier if other.kind == "step" and other.source == move.source and other.guard]
    denied: List[Formula] = [Not(other.guard) for other in before if other.guard is not None]
    if before and satisfiable(known + denied, kind.values) is False:
        numbers = ", ".join(f"#{other.number}" for other in before)
        message = f"wherever this guard is met, an earlier step of {move.source} goes first ({numbers})"
        yield Finding(move.line, "shadowed-step", message, "the first step whose guard is true is taken", "when")


def unread_variables(plant: Plant) -> Iterator[Finding]:
    """A variable that no formula of its type and no law of the system reads."""
    read: Dict[str, Set[str]] = {name: set() for name in plant.types}
    for kind in plant.types.values():
        formulas = [rule.formula for rule in kind.rules] + [move.guard for move in kind.written if move.guard]
        for formula in formulas:
            read[kind.name].update(variables_of(formula))
    for law in plant.laws:
        for variable in variables_of(law.formula):
            part, name = variable.split(".")
            read[plant.parts[part].type.name].add(name)
    for kind in plant.types.values():
        for one in kind.variables.values():
            if one.name not in read[kind.name]:
                message = f"no formula reads the {one.kind} {one.name} of type {kind.name}"
                hints = {"control": "commanding it changes nothing", "observable": "observing it tells nothing"}
                yield Finding(one.line, "unread-variable", message, hints.get(one.kind, "it can go"), one.name)


def dear_repairs(plant: Plant) -> Iterator[Finding]:
    """A fault that costs less than the way back from it by one move."""
    for part in plant.parts.values():
        for fault in part.type.written:
            if fault.kind != "fault" or fault.source == fault.target:
                continue
            backs = [move for move in part.type.written if (move.source, move.target) == (fault.target, fault.source)]
            prices = [price for price in (_price_back(plant, part, move) for move in backs) if price is not None]
            if prices and min(prices) > fault.cost:
                message = f"the fault costs {fault.cost}, and the way back from {fault.target} costs {min(prices)}"
                hint = f"of part {part.name}; are the numbers the right way round?"
                yield Finding(fault.line, "dear-repair", message, hint, "cost")


def _price_back(plant: Plant, part: Part, move: Move) -> Optional[int]:
    """What a move costs: a fault its number, a step the least price of controls' values that may meet its guard."""
    if move.kind == "fault":
        return move.cost
    guard = move.guard
    assert guard is not None
    kind = part.type
    controls = [name for name in variables_of(guard) if name != MODE and kind.variables[name].kind == "control"]
    if math.prod(len(kind.values(name)) for name in controls) > MOST_SETTINGS:
        return None
    least: Optional[int] = None
    for values in itertools.product(*(kind.values(name) for name in controls)):
        given = dict(zip(controls, values))
        price = sum(plant.price(f"{part.name}.{name}", value) for name, value in given.items())
        met = truth(guard, {**given, MODE: move.source})
        if met is not False and (least is None or price < least):
            least = price
    return least


def large_formulas(plant: Plant) -> Iterator[Finding]:
    """A formula that counts nearly as many clauses as it may, and a model that does."""
    for line, formula, signs, size in _counted(plant):
        most = max(clause_count(formula, sign, size) for sign in signs)
        if most * NEAR[1] >= MAX_CLAUSES * NEAR[0]:
            message = f"the formula counts as {most} clauses, of {MAX_CLAUSES} that it may"
            yield Finding(line, "clause-limit", message, "part it, or name its parts by variables")
    total = sum(clause_share(part.type) for part in plant.parts.values())
    total += sum(2 * clause_count(law.formula, True, lambda name: len(plant.values(name))) for law in plant.laws)
    if total * NEAR[1] >= MAX_MODEL_CLAUSES * NEAR[0]:
        message = f"the model counts as {total} clauses, of {MAX_MODEL_CLAUSES} that it may"
        yield Finding(1, "clause-limit", message, "")


def _counted(plant: Plant) -> Iterator[Tuple[int, Formula, Tuple[bool, ...], Callable[[str], int]]]:
    """Each formula with its line, the signs in which it counts, and the sizes of its variables."""
    for kind in plant.types.values():

        def own(name: str, of: PartType = kind) -> int:
            return type_size(of, name)

        for rule in kind.rules:
            yield rule.line, rule.formula, (True,), own
        for move in kind.written:
            if move.guard is not None:
                yield move.line, move.guard, (True, False) if move.kind == "step" else (True,), own
    for law in plant.laws:
        yield law.line, law.formula, (True,), lambda name: len(plant.values(name))


def constant_comparisons(plant: Plant) -> Iterator[Finding]:
    """A variable compared with itself."""
    rules = [(rule.line, rule.formula) for kind in plant.types.values() for rule in kind.rules]
    moves = [(move.line, move.guard) for kind in plant.types.values() for move in kind.written if move.guard]
    for line, formula in rules + moves + [(law.line, law.formula) for law in plant.laws]:
        for leaf in leaves(formula):
            if isinstance(leaf, Same) and leaf.left == leaf.right:
                message = f"{leaf.left} is compared with itself, which is always true"
                yield Finding(line, "same-sides", message, "", leaf.left.split(".")[0])


CHECKS: Tuple[Check, ...] = (
    controls_read,
    unreachable_modes,
    unmet_guards,
    unread_variables,
    dear_repairs,
    large_formulas,
    constant_comparisons,
)
