"""Writes an ISCAS bench netlist as a model, each gate with the modes ok, stuck0 and stuck1, and with --vector a
session in which test vectors were put in. A vector is INPUTS or INPUTS:OUTPUTS in zeros and ones, in the order of
the file; outputs left out are those of the circuit with the gates stuck that --stuck names. Status 1 where the
netlist is refused."""

from __future__ import annotations

import argparse
import json
import re
import sys
from pathlib import Path
from typing import Dict, List, Tuple

from ..netlists import Netlist, NetlistFault, evaluate, model_text, part_names, read_bench, session_text

HELP = "write a netlist as a model and a session"
Vector = Tuple[List[int], List[int]]


def add_arguments(parser: argparse.ArgumentParser) -> None:
    parser.add_argument("bench", metavar="FILE.bench")
    parser.add_argument("--vector", action="append", default=[], metavar="INPUTS[:OUTPUTS]", help="may be repeated")
    parser.add_argument("--stuck", action="append", default=[], metavar="NET=BIT", help="may be repeated")
    parser.add_argument("--track", type=int, default=8, metavar="K", help="candidates to list (8)")
    parser.add_argument("--model", dest="model_out", metavar="OUT", help="the model's file; else standard output")
    parser.add_argument("--session", dest="session_out", metavar="OUT", help="the session's file; it needs --vector")
    parser.add_argument("--json", action="store_true", help="write what was made as a JSON object, and no model")


def run(arguments: argparse.Namespace) -> int:
    if bool(arguments.session_out) != bool(arguments.vector) and not arguments.json:
        print("lv netlist: --session and --vector go together", file=sys.stderr)
        return 2
    text = Path(arguments.bench).read_text(encoding="utf-8", errors="replace")
    try:
        netlist = read_bench(text)
        netlist.in_order()
        vectors = [_vector(netlist, word, _stuck(netlist, arguments.stuck)) for word in arguments.vector]
    except NetlistFault as fault:
        print(f"{arguments.bench}: {fault}", file=sys.stderr)
        return 1
    name = re.sub(r"[^A-Za-z0-9_]", "_", Path(arguments.bench).stem)
    model = model_text(netlist, name if re.match(r"[A-Za-z_]", name) else f"n{name}")
    if arguments.model_out:
        Path(arguments.model_out).write_text(model, encoding="ascii")
    elif not arguments.json:
        sys.stdout.write(model)
    if arguments.session_out:
        Path(arguments.session_out).write_text(session_text(netlist, vectors, arguments.track), encoding="ascii")
    if arguments.json:
        print(json.dumps(_summary(netlist, vectors)))
    return 0


def _summary(netlist: Netlist, vectors: List[Vector]) -> Dict[str, object]:
    return {
        "inputs": netlist.inputs, "outputs": netlist.outputs, "gates": len(netlist.gates),
        "parts": part_names(netlist), "vectors": [{"inputs": given, "outputs": seen} for given, seen in vectors],
    }


def _stuck(netlist: Netlist, words: List[str]) -> Dict[str, int]:
    stuck = {}
    for word in words:
        net, _, bit = word.rpartition("=")
        if net not in netlist.gates or bit not in ("0", "1"):
            raise NetlistFault(0, f"--stuck {word} names no gate and bit")
        stuck[net] = int(bit)
    return stuck


def _vector(netlist: Netlist, word: str, stuck: Dict[str, int]) -> Vector:
    given, _, seen = word.partition(":")
    if not re.fullmatch("[01]+", given) or len(given) != len(netlist.inputs):
        raise NetlistFault(0, f"the vector {word} doesn't give {len(netlist.inputs)} inputs")
    if seen and (not re.fullmatch("[01]+", seen) or len(seen) != len(netlist.outputs)):
        raise NetlistFault(0, f"the vector {word} doesn't give {len(netlist.outputs)} outputs")
    bits = [int(bit) for bit in given]
    return bits, [int(bit) for bit in seen] if seen else evaluate(netlist, bits, stuck)
