"""A minimal set of laws, mode formulas and observations that can't be true together, found by deletion over the
engine.

The question of a diagnosis that lists nothing is asked anew over a model of one's own, in which each formula of
each part is a law of the system, so that it can be left out by itself. What was observed before the step becomes a
law too: an added part tells the time, as it is in its first mode before the step and in its second after it.
"""

from __future__ import annotations

import tempfile
from dataclasses import dataclass
from pathlib import Path
from typing import Callable, Dict, List, Optional, Sequence, Tuple

from .errors import LivingstoneError, ModelRefused
from .formula import Formula, Implies, Is, renamed, text_of
from .history import Seen
from .plant import MODE, Part, Plant
from .replies import Diagnosis, Reply
from .session import Model, Session
from .text import first_word
from .transport import PipeTransport

MOST_TRIALS = 1_000_000


@dataclass(frozen=True)
class Element:
    """Something that can be left out: a law of the system, a law or a mode's formula for one part, or an observation.

    `line` counts in the canonical text of the model, or for an observation in the session.
    """

    kind: str
    line: int
    part: str
    text: str
    law: str


@dataclass(frozen=True)
class Question:
    """What a diagnosis was asked: the modes of each tracked state, the values commanded, and what was observed."""

    states: Tuple[Dict[str, str], ...]
    commands: Dict[str, str]
    observations: Tuple[Seen, ...]


def elements_of(plant: Plant, question: Question) -> List[Element]:
    found = []
    for part in plant.parts.values():
        for rule in part.type.rules:
            formula = _over_plant(part, rule.formula)
            kind, text = "law", f"law {text_of(rule.formula)}"
            if rule.mode is not None:
                formula = Implies(Is(f"{part.name}.{MODE}", rule.mode), formula)
                kind, text = "mode formula", f"in {rule.mode} {text_of(rule.formula)}"
            found.append(Element(kind, rule.line, part.name, text, f"law {text_of(formula)}"))
    for law in plant.laws:
        text = f"law {text_of(law.formula)}"
        found.append(Element("system law", law.line, "", text, text))
    clock = clock_name(plant)
    for seen in question.observations:
        mode = "after" if seen.after else "before"
        text = f"{seen.name} {seen.variable} = {seen.value}"
        law_text = f"law {clock}.mode={mode}=>{seen.variable}={seen.value}"
        found.append(Element("observation", seen.line, seen.variable.split(".")[0], text, law_text))
    return found


def _over_plant(part: Part, formula: Formula) -> Formula:
    return renamed(formula, lambda name: f"{part.name}.{name}")


def clock_name(plant: Plant) -> str:
    """A name that is free for the added part and its type."""
    name = "clock"
    while name in plant.parts or name in plant.types:
        name += "_"
    return name


def skeleton(canonical: str, plant: Plant, state: Dict[str, str]) -> str:
    """The model without laws and mode formulas, its parts in the modes of a state, and the part that tells the time."""
    lines = []
    for line in canonical.splitlines():
        word = first_word(line.encode())
        if word == "part":
            _, name, kind, _ = line.split(" ")
            line = f"part {name} {kind} {state[name]}"
        if word not in ("law", "in"):
            lines.append(line)
    clock = clock_name(plant)
    lines += [f"type {clock}", "mode before", "mode after", "step before->after when true", "end"]
    lines.append(f"part {clock} {clock} before")
    return "\n".join(lines) + "\n"


class Prober:
    """Asks the engine whether a question has no answer where only some of the elements hold."""

    def __init__(self, model: Model, question: Question, on_try: Callable[[int, int], None]) -> None:
        canonical = model.canonical.decode("ascii")
        self.program = model.program
        self.texts = [skeleton(canonical, model.plant, state) for state in question.states]
        self.commands = question.commands
        self.on_try = on_try
        self.tries = 0

    def contradicts(self, elements: Sequence[Element]) -> bool:
        """Whether from no tracked state a transition is possible."""
        self.tries += 1
        self.on_try(self.tries, len(elements))
        laws = "".join(element.law + "\n" for element in elements)
        return not any(self._possible(text + laws) for text in self.texts)

    def _possible(self, text: str) -> bool:
        with tempfile.TemporaryDirectory(prefix="livingstone-") as folder:
            path = Path(folder) / "model.lv"
            path.write_text(text, encoding="ascii")
            try:
                with Session(PipeTransport(self.program, str(path))) as session:
                    return self._asked(session)
            except ModelRefused as fault:
                raise CannotExplain(f"the model is too near a limit to be asked in parts ({fault.code})") from fault

    def _asked(self, session: Session) -> bool:
        session.track(1)
        session.budget(MOST_TRIALS)
        for control, value in self.commands.items():
            session.command(control, value)
        reply: Reply = session.diagnose()
        while isinstance(reply, Diagnosis) and not reply.settled:
            reply = session.more(MOST_TRIALS)
        return isinstance(reply, Diagnosis) and bool(reply.candidates)


def minimal(elements: Sequence[Element], contradicts: Callable[[Sequence[Element]], bool]) -> Optional[List[Element]]:
    """A part of the elements that contradicts, and of which none can be left out; None where the whole doesn't.

    Blocks are left out first, half of the elements and then smaller ones; at the end each is tried by itself. Fewer
    elements never contradict where more don't, so one round of single ones is enough.
    """
    if not contradicts(elements):
        return None
    kept = list(elements)
    size = max(1, len(kept) // 2)
    while True:
        start = 0
        while start < len(kept):
            rest = kept[:start] + kept[start + size:]
            if contradicts(rest):
                kept = rest
            else:
                start += size
        if size == 1:
            return kept
        size = max(1, min(size // 2, len(kept) // 2))


class CannotExplain(LivingstoneError):
    """The question can't be asked in parts."""
