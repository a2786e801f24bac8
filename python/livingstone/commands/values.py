"""Tells a certificate in names: what was asked, why each listed answer is possible (values before and after the
step), what excludes the rest and from which tracked state, and which statements each refutation rests on. The
program checks it first; of one that isn't valid the first bad line is told, with status 9."""

from __future__ import annotations

import argparse
import json
import sys
from pathlib import Path
from typing import Any, Dict, List

from ..certificate import Block, Namer, Shown, pairs_of, read_certificate, zones_of
from ..clauses import Origin
from ..origins import Origins
from ..session import Model

HELP = "tell a certificate's values and refutations in names"


def add_arguments(parser: argparse.ArgumentParser) -> None:
    parser.add_argument("model", metavar="MODEL")
    parser.add_argument("certificate", metavar="CERT")
    parser.add_argument("--steps", action="store_true", help="tell each clause of the refutations too")
    parser.add_argument("--json", action="store_true", help="write a JSON object")


def run(arguments: argparse.Namespace) -> int:
    model = Model(arguments.model, arguments.program)
    text = Path(arguments.certificate).read_bytes()
    bad = model.check(text)
    if bad is not None:
        print(f"{arguments.certificate}:{bad}: the certificate isn't valid", file=sys.stderr)
        return 9
    namer = Namer(model.plant, read_certificate(text.decode("ascii", "replace")))
    origins = Origins(Path(model.path).read_bytes())
    told = tell(namer, arguments.model, origins, arguments.steps)
    print(json.dumps(told) if arguments.json else "\n".join(lines_of(told)))
    return 0


def tell(namer: Namer, file: str, origins: Origins, steps: bool) -> Dict[str, Any]:
    """The certificate as a program reads it."""
    text = namer.text

    def reason(origin: Origin) -> Dict[str, Any]:
        place = {"file": file, "line": origins.place(origin.line)[0]} if origin.line else {}
        return {"text": origin.text, **place}

    def block(one: Block) -> Dict[str, Any]:
        told: Dict[str, Any] = {"given": [namer.choice(pair) for pair in pairs_of(one.given)]}
        told["because"] = [reason(origin) for origin in namer.reasons(one)]
        if steps:
            told["steps"] = _steps(namer, one)
        return told

    told: Dict[str, Any] = {"about": text.about, "model": namer.plant.name}
    told["states"] = [{"cost": cost, "modes": namer.modes(n)} for n, (cost, _) in enumerate(text.states, 1)]
    told["facts"] = [dict(zip(("when", "variable", "value"), namer.fact(fact))) for fact in text.facts]
    if text.about == "diagnosis":
        told["limit"] = text.limit
        told["commands"] = namer.settings(text.controls)
    else:
        told["goals"] = text.goals
        told["recovery"] = None if text.recovery is None else namer.settings(text.recovery)
        told["proofs"] = [{"state": p.state, "goal": text.goals[p.goal - 1], **block(p)} for p in text.proofs]
    told["listed"] = [_shown(namer, shown) for shown in text.shown]
    told["excluded"] = []
    for one in text.conflicts:
        told["excluded"].append(_shown(namer, one) if isinstance(one, Shown) else block(one))
        if text.about == "recovery":
            told["excluded"][-1]["state"] = one.state
    told["splits"], told["left"] = _splits(namer)
    return told


def _shown(namer: Namer, shown: Shown) -> Dict[str, Any]:
    told: Dict[str, Any] = {"state": shown.state, "now": namer.values(shown.now), "next": namer.values(shown.next)}
    if shown.kind == "listed":
        moves = [namer.move(part, number) for part, number in enumerate(shown.choices, 1)]
        told.update(cost=namer.cost(shown), moves=[move for move in moves if not move.endswith(" stay")])
    elif shown.kind == "counter":
        told["settings"] = namer.settings(shown.choices)
    return told


def _steps(namer: Namer, block: Block) -> List[str]:
    clauses, origins = namer.numbered(block)
    told = []
    for literals, hints in block.lines:
        clause = " or ".join(namer.compiled.booleans.text(literal) for literal in literals) or "a contradiction"
        used = [origins[hint - 1].text if hint <= len(origins) else f"clause {hint - len(origins)}" for hint in hints]
        told.append(f"{clause}, by: " + "; ".join(dict.fromkeys(used)))
    return told


def _splits(namer: Namer) -> Any:
    """What excludes members of which tracked state, and of which states something is left that ranks behind."""
    zones, split = zones_of(namer)
    told: List[Dict[str, Any]] = []
    for (_, (state, slots)), (_, by, place) in zip(split, namer.text.splits):
        one = {"state": state, "by": by, "number": place}
        if all(slots) and one not in told:
            told.append(one)
    left = sorted({state for state, slots in zones.values() if all(slots)})
    return told, left


def lines_of(told: Dict[str, Any]) -> List[str]:
    """The same for a person."""
    lines = [f"a certificate of a {told['about']} over the model {told['model']}: valid"]
    for number, state in enumerate(told["states"], 1):
        lines.append(f"tracked state {number}, cost {state['cost']}: {_pairs(state['modes'])}")
    for fact in told["facts"]:
        when = "before" if fact["when"] == "now" else "after"
        lines.append(f"observed {when} the step: {fact['variable']}={fact['value']}")
    if told["about"] == "diagnosis":
        lines.append(f"commanded, or resting: {_pairs(told['commands'])}")
        lines.append(f"asked: the first {told['limit']} transitions that are possible")
    else:
        lines += [f"goal: {goal}" for goal in told["goals"]]
        found = told["recovery"]
        lines.append("answer: no recovery" if found is None else f"answer: recover by {_pairs(found)}")
    for number, shown in enumerate(told["listed"], 1):
        lines += _shown_lines(number, shown)
    for proof in told.get("proofs", []):
        lines.append(f"from state {proof['state']} the goal {proof['goal']} can't be missed:")
        lines += _because(proof)
    for number, block in enumerate(told["excluded"], 1):
        lines += _excluded_lines(told["about"], number, block)
    return lines + _left_lines(told)


def _pairs(values: Dict[str, str]) -> str:
    return ", ".join(f"{name}={value}" for name, value in values.items()) or "-"


def _shown_lines(number: int, shown: Dict[str, Any]) -> List[str]:
    if "moves" in shown:
        moves = ", ".join(shown["moves"]) or "all parts stay"
        head = f"listed {number}, cost {shown['cost']}, from state {shown['state']}: {moves}"
    else:
        head = f"from state {shown['state']} a step without faults reaches the goals"
    return [head, f"  possible with, before: {_pairs(shown['now'])}", f"  and after: {_pairs(shown['next'])}"]


def _excluded_lines(about: str, number: int, block: Dict[str, Any]) -> List[str]:
    if "settings" in block:
        head = f"excluded {number}: from state {block['state']} these can miss a goal: {_pairs(block['settings'])}"
        return [head, f"  before: {_pairs(block['now'])}", f"  and after: {_pairs(block['next'])}"]
    given = ", ".join(block["given"]) or "anything at all"
    where = f" from state {block['state']}" if about == "recovery" else ""
    return [f"excluded {number}:{where} impossible is {given}, because of", *_because(block)]


def _because(block: Dict[str, Any]) -> List[str]:
    lines = [
        f"  {one['file']}:{one['line']}: {one['text']}" if "line" in one else f"  {one['text']}"
        for one in block["because"]
    ]
    return lines + [f"    step: {step}" for step in block.get("steps", [])]


def _left_lines(told: Dict[str, Any]) -> List[str]:
    lines = []
    for split in told["splits"]:
        what = f"excluded {split['number']}" if split["by"] == "conflict" else f"listed {split['number']}"
        if split["by"] == "recovery":
            what = "the recovery"
        where = f"of state {split['state']}" if split["state"] else "of all command sets"
        lines.append(f"{where}: {what} takes its share out")
    if not told["left"]:
        return lines + ["nothing else is left"]
    where = " from state " + ", ".join(str(state) for state in told["left"]) if told["left"] != [0] else ""
    return lines + [f"what is left{where} ranks behind what is listed"]
