"""Says why a diagnosis of a session lists nothing: a minimal set of laws, mode formulas and observations that
contradict each other, given the tracked states and the values that are commanded. Any of them left out, the rest
does not. It is found by deletion: the engine is asked again and again. Status 1 where no diagnosis of the session
is `settled 0`."""

from __future__ import annotations

import argparse
import json
import sys
from pathlib import Path
from typing import Any, Dict, List, Optional, Tuple

from ..contradiction import CannotExplain, Element, Prober, Question, elements_of, minimal
from ..history import Held
from ..origins import Origins
from ..replies import Diagnosis
from ..session import Model
from ..text import cut_session, first_word

HELP = "say why a diagnosis lists nothing"


def add_arguments(parser: argparse.ArgumentParser) -> None:
    parser.add_argument("model", metavar="MODEL")
    parser.add_argument("session", metavar="SESSION")
    parser.add_argument("--line", type=int, help="the diagnosis of that line; else the first that is settled 0")
    parser.add_argument("--json", action="store_true", help="write a JSON object")


def run(arguments: argparse.Namespace) -> int:
    model = Model(arguments.model, arguments.program)
    lines = cut_session(Path(arguments.session).read_bytes())
    found = question_of(model, lines, arguments.line)
    if found is None:
        print("no diagnosis of the session is settled 0: there is nothing to explain", file=sys.stderr)
        return 1
    number, question = found
    terminal = sys.stderr.isatty()

    def on_try(tries: int, left: int) -> None:
        if terminal:
            print(f"\rasked {tries} times, {left} left ", end="", file=sys.stderr, flush=True)

    kept = minimal(elements_of(model.plant, question), Prober(model, question, on_try).contradicts)
    if terminal:
        print(file=sys.stderr)
    if kept is None:
        raise CannotExplain("asked anew, the diagnosis lists something: the session and this answer disagree")
    report(arguments, model, number, question, kept)
    return 0


def question_of(model: Model, lines: List[bytes], wanted: Optional[int]) -> Optional[Tuple[int, Question]]:
    """The line of the diagnosis that lists nothing, and what it was asked."""
    held = Held()
    with model.session() as session:
        for number, line in enumerate(lines, 1):
            if session.ended:
                break
            reply = session.ask(line.decode("utf-8", "surrogateescape"), refusals=False)
            held.take(number, line, reply)
            empty = isinstance(reply, Diagnosis) and reply.settled and not reply.candidates
            if empty and first_word(line) in ("diagnose", "more") and wanted in (None, number):
                states = tuple(state.modes for state in session.states().states)
                return number, Question(states, dict(held.commands), tuple(held.observations.values()))
    return None


def places(arguments: argparse.Namespace, model: Model, kept: List[Element]) -> List[Dict[str, Any]]:
    """What is told of each element, as a program reads it."""
    origins = Origins(Path(model.path).read_bytes())
    told = []
    for element in kept:
        seen = element.kind == "observation"
        file = arguments.session if seen else arguments.model
        line, column = [element.line, 1] if seen else origins.place(element.line)
        told.append({"kind": element.kind, "file": file, "line": line, "column": column, "part": element.part,
                     "text": element.text})
    return told


def report(arguments: argparse.Namespace, model: Model, number: int, question: Question, kept: List[Element]) -> None:
    told = places(arguments, model, kept)
    if arguments.json:
        answer = {"session": arguments.session, "line": number, "states": list(question.states),
                  "commands": question.commands, "contradiction": told}
        print(json.dumps(answer))
        return
    print(f"{arguments.session}:{number}: the diagnosis lists nothing")
    for state in question.states:
        print("from the tracked state " + ", ".join(f"{part}={mode}" for part, mode in state.items()))
    for control, value in question.commands.items():
        print(f"commanded is {control}={value}")
    if not told:
        print("no move of the parts is possible, even with no law, mode formula or observation at all")
        return
    print("these contradict each other, and without any one of them the rest does not:")
    for one in told:
        of = f"  ({one['kind']} of {one['part']})" if one["part"] else f"  ({one['kind']})"
        print(f"  {one['file']}:{one['line']}:{one['column']}: {one['text']}{of}")
