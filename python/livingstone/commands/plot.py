"""Draws a model as SVG: parts as boxes in their modes, joined by the laws that speak of them. With a session there
is one picture for each of its cycles, which end with a commit: what the last diagnosis or recovery changes is
coloured, and the parts of the conflicts have outlines. The files are PREFIX.svg, or PREFIX-1.svg and so on, and
their names are written."""

from __future__ import annotations

import argparse
import json
import sys
from dataclasses import dataclass
from pathlib import Path
from typing import Any, Dict, Iterator, List, Optional

from ..history import Held
from ..pictures import Box, Scene, draw
from ..plant import Plant
from ..replies import Candidate, Committed, Conflicts, Diagnosis, Move, Recovery, Reply, State, Test
from ..session import Model, Session
from ..text import cut_session, first_word

HELP = "draw a model, or the cycles of a session"


def add_arguments(parser: argparse.ArgumentParser) -> None:
    parser.add_argument("model", metavar="MODEL")
    parser.add_argument("session", metavar="SESSION", nargs="?")
    parser.add_argument("--out", metavar="PREFIX", help="where the pictures go; else the model's name without .lv")
    parser.add_argument("--candidate", type=int, default=1, metavar="N", help="the candidate to show (1)")
    parser.add_argument("--json", action="store_true", help="write what was drawn as a JSON list")


def run(arguments: argparse.Namespace) -> int:
    if arguments.candidate < 1:
        print("lv plot: candidates are counted from 1", file=sys.stderr)
        return 2
    model = Model(arguments.model, arguments.program)
    prefix = arguments.out or str(Path(arguments.model).with_suffix(""))
    if arguments.session:
        lines = cut_session(Path(arguments.session).read_bytes())
        scenes = [scene_of(model.plant, cycle, arguments.candidate) for cycle in cycles(model, lines)]
        names = [f"{prefix}-{number}.svg" for number in range(1, len(scenes) + 1)]
    else:
        scenes, names = [start_scene(model.plant)], [f"{prefix}.svg"]
    for name, scene in zip(names, scenes):
        Path(name).write_text(draw(model.plant, scene), encoding="utf-8")
        if not arguments.json:
            print(name)
    if arguments.json:
        print(json.dumps([{"file": name, "title": scene.title} for name, scene in zip(names, scenes)]))
    return 0


@dataclass
class Cycle:
    """What stands at the end of a cycle: the tracked states, what is held, and the last answer with its conflicts."""

    time: int
    states: List[State]
    held: Held
    answer: Optional[Reply]
    conflicts: Optional[Conflicts]


def cycles(model: Model, lines: List[bytes]) -> Iterator[Cycle]:
    """Runs a session, and stops before each commit that is accepted, and at the end."""
    held, answer = Held(), None
    with model.session() as session:
        for number, line in enumerate(lines, 1):
            if session.ended:
                return
            word = first_word(line)
            now = _look(session, held, answer) if word in ("commit", "quit") else None
            reply = session.ask(line.decode("utf-8", "surrogateescape"), refusals=False)
            if now is not None and (isinstance(reply, Committed) or session.ended):
                yield now
            held.take(number, line, reply)
            if isinstance(reply, (Diagnosis, Recovery)):
                answer = reply
            elif isinstance(reply, Committed) or (word == "reset" and reply.text == "ok"):
                answer = None
        if not session.ended:
            yield _look(session, held, answer)


def _look(session: Session, held: Held, answer: Optional[Reply]) -> Cycle:
    states = session.states()
    conflicts = session.ask("conflicts", refusals=False)
    copy = Held(dict(held.commands), dict(held.observations), dict(held.goals))
    # Where a later line took the query away, the answer is still what the cycle came to.
    known = conflicts if isinstance(conflicts, Conflicts) else None
    return Cycle(states.time, list(states.states), copy, answer, known)


def start_scene(plant: Plant) -> Scene:
    boxes = {part.name: Box([part.start]) for part in plant.parts.values()}
    return Scene(f"{plant.name}: as it starts", boxes)


def scene_of(plant: Plant, cycle: Cycle, wanted: int) -> Scene:
    """The picture of a cycle."""
    answer = cycle.answer
    shown: Optional[Candidate] = None
    if isinstance(answer, Diagnosis) and len(answer.candidates) >= wanted:
        shown = answer.candidates[wanted - 1]
    state = cycle.states[shown.source - 1 if shown else 0]
    boxes = {part: Box([mode]) for part, mode in state.modes.items()}
    if shown is not None:
        _colour_moves(plant, boxes, shown)
    commands = cycle.held.commands
    if isinstance(answer, Recovery) and answer.settings is not None:
        commands = {setting.control: setting.value for setting in answer.settings}
    for control, value in commands.items():
        part, name = control.split(".")
        boxes[part].lines.append(f"{name} := {value}")
        if isinstance(answer, Recovery):
            boxes[part].colour = "command"
    for seen in cycle.held.observations.values():
        part, name = seen.variable.split(".")
        boxes[part].lines.append(f"{name} {'seen' if seen.after else 'was'} {seen.value}")
    conflicts = []
    for number, items in enumerate(cycle.conflicts.conflicts if cycle.conflicts else (), 1):
        text = f"conflict {number}: " + (", ".join(str(item) for item in items) or "rules out everything")
        conflicts.append((text, frozenset(_part(item) for item in items)))
    # Few conflicts have an outline: first those that speak of what changes.
    conflicts.sort(key=lambda conflict: all(boxes[part].colour == "still" for part in conflict[1]))
    title = f"{plant.name}, time {cycle.time}: {_title(answer, shown, wanted)}"
    goals = ", ".join(f"{name} {text}" for name, text in cycle.held.goals.items())
    several = len(cycle.states) > 1
    note = f"from tracked state {state.number} of {len(cycle.states)}" if several else "from the one tracked state"
    return Scene(title, boxes, conflicts, note + (f"; goals: {goals}" if goals else ""))


def _part(item: Any) -> str:
    """The part of a conflict's item, which is a move or a control's value."""
    name: str = item.part if isinstance(item, Move) else item.control.split(".")[0]
    return name


def _colour_moves(plant: Plant, boxes: Dict[str, Box], shown: Candidate) -> None:
    # Of a window the last step is shown, which is the one to come.
    for move in (shown.moves, *shown.later)[-1]:
        box = boxes[move.part]
        box.lines = [f"{move.source} > {move.target}"]
        shown_as = (move.number, move.source, move.target)
        written = plant.parts[move.part].type.written
        # The moves of one line share its number; a fault from a mode to itself and its repair look alike.
        box.colour = next(m.kind for m in written if (m.number, m.source, m.target) == shown_as)


def _title(answer: Optional[Reply], shown: Optional[Candidate], wanted: int) -> str:
    if isinstance(answer, Recovery):
        what = "test" if isinstance(answer, Test) else "recovery"
        if answer.settings is None:
            return f"no {what}" if answer.settled else f"no {what} yet"
        return f"a {what} of cost {answer.cost}"
    if isinstance(answer, Diagnosis):
        if shown is None:
            return f"the diagnosis lists {len(answer.candidates)}" + ("" if answer.settled else " so far")
        return f"candidate {wanted} of {len(answer.candidates)}, cost {shown.cost}"
    return "nothing was asked"
