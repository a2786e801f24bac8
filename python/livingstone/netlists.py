"""Gate-level netlists in the ISCAS bench format, as models and sessions.

A gate is a part with the modes ok, stuck0 and stuck1; an input is a part that can't fail. Its value is observed, as
are the values of the outputs, so that a test vector is a step: what was put in and what came out.
"""

from __future__ import annotations

import re
from dataclasses import dataclass
from typing import Dict, Iterator, List, Sequence, Tuple

from .declarations import MAX_PARTS

# The cost of a gate that gets stuck; both ways are as likely.
STUCK_COST = 10
_GATES = ("AND", "NAND", "OR", "NOR", "XOR", "XNOR", "NOT", "BUFF", "BUF")
_LINE = re.compile(r"(?:(INPUT|OUTPUT)\s*\(\s*(\S+)\s*\)|(\S+)\s*=\s*([A-Za-z]+)\s*\(([^()]*)\))\s*")


class NetlistFault(Exception):
    """What is wrong with a netlist, and in which line."""

    def __init__(self, line: int, message: str) -> None:
        super().__init__(f"line {line}: {message}" if line else message)
        self.line = line


@dataclass(frozen=True)
class Gate:
    output: str
    kind: str
    inputs: Tuple[str, ...]


@dataclass
class Netlist:
    inputs: List[str]
    outputs: List[str]
    gates: Dict[str, Gate]

    def in_order(self) -> List[Gate]:
        """The gates, each behind those that it takes its inputs from; raises NetlistFault at a loop."""
        done = dict.fromkeys(self.inputs)
        order: List[Gate] = []
        todo = list(self.gates.values())
        while todo:
            ready = [gate for gate in todo if all(name in done for name in gate.inputs)]
            if not ready:
                raise NetlistFault(0, f"the gates form a loop: {', '.join(gate.output for gate in todo[:8])}")
            order += ready
            done.update(dict.fromkeys(gate.output for gate in ready))
            todo = [gate for gate in todo if gate.output not in done]
        return order


def read_bench(text: str) -> Netlist:
    """A netlist from its text; raises NetlistFault."""
    netlist = Netlist([], [], {})
    for number, line in enumerate(text.splitlines(), 1):
        content = line.split("#", 1)[0].strip()
        if content:
            _read_line(netlist, number, content)
    for name in [*netlist.outputs, *(name for gate in netlist.gates.values() for name in gate.inputs)]:
        if name not in netlist.gates and name not in netlist.inputs:
            raise NetlistFault(0, f"nothing gives the net {name}")
    if not netlist.gates:
        raise NetlistFault(0, "there is no gate")
    if len(netlist.gates) + len(netlist.inputs) > MAX_PARTS:
        raise NetlistFault(0, f"a model has at most {MAX_PARTS} parts, and this needs "
                              f"{len(netlist.gates) + len(netlist.inputs)}")
    return netlist


def _read_line(netlist: Netlist, number: int, content: str) -> None:
    match = _LINE.fullmatch(content)
    if match is None:
        raise NetlistFault(number, "the line is neither INPUT(..), OUTPUT(..) nor NET = GATE(..)")
    word, name, output, kind, inputs = match.groups()
    if word == "OUTPUT":
        netlist.outputs.append(name)
        return
    defined = name or output
    if defined in netlist.inputs or defined in netlist.gates:
        raise NetlistFault(number, f"the net {defined} is given twice")
    if word == "INPUT":
        netlist.inputs.append(name)
        return
    kind = "BUFF" if kind.upper() == "BUF" else kind.upper()
    names = tuple(item.strip() for item in inputs.split(","))
    if kind not in _GATES:
        raise NetlistFault(number, f"no gate is called {kind}; there are {', '.join(_GATES)}, and no flip-flops")
    single = kind in ("NOT", "BUFF")
    if "" in names or (len(names) == 1) != single or len(names) > 8:
        raise NetlistFault(number, f"{kind} has {'one input' if single else 'two to eight inputs'}")
    netlist.gates[output] = Gate(output, kind, names)


def part_names(netlist: Netlist) -> Dict[str, str]:
    """A part's name for each net: its own where the model language takes that, and else one made from it."""
    names: Dict[str, str] = {}
    taken = set()
    for net in [*netlist.inputs, *netlist.gates]:
        fits = re.fullmatch(r"[A-Za-z_][A-Za-z0-9_]*", net) and net not in ("true", "false", "mode")
        name = net if fits else "n" + re.sub(r"[^A-Za-z0-9_]", "_", net)
        # Two names that came to the same, or were cut to it, are told apart by a number.
        stem, number = name[:60], 1
        name = stem
        while name in taken:
            number += 1
            name = f"{stem}_{number}"
        taken.add(name)
        names[net] = name
    return names


def _inputs_of(gate: Gate) -> List[str]:
    return [f"in{number}" for number in range(1, len(gate.inputs) + 1)]


def _rule(gate: Gate) -> str:
    """What holds of a sound gate's output."""
    ones = [f"{name} = one" for name in _inputs_of(gate)]
    if gate.kind in ("XOR", "XNOR"):
        # The output is one where an odd number of inputs is: `a <=> b` is denied once for each input.
        formula = ones[0]
        for one in ones[1:]:
            formula = f"!({formula} <=> {one})"
        return f"out = one <=> {formula}" if gate.kind == "XOR" else f"out = zero <=> {formula}"
    joined = (" & " if gate.kind in ("AND", "NAND") else " | ").join(ones)
    value = "zero" if gate.kind in ("NAND", "NOR", "NOT") else "one"
    return f"out = {value} <=> {joined}"


def _type_name(gate: Gate) -> str:
    return gate.kind.lower() + ("" if len(gate.inputs) == 1 else str(len(gate.inputs)))


def model_text(netlist: Netlist, name: str) -> str:
    """The model: a type for each kind of gate, the parts, and laws that join them."""
    parts = part_names(netlist)
    lines = [f"model {name}", "domain bit zero one"]
    lines += ["type input", "observable out bit", "mode given", "end"]
    for gate in {_type_name(gate): gate for gate in netlist.gates.values()}.values():
        lines += _gate_type(gate)
    lines += [f"part {parts[net]} input given" for net in netlist.inputs]
    lines += [f"part {parts[gate.output]} {_type_name(gate)} ok" for gate in netlist.gates.values()]
    for gate in netlist.gates.values():
        for own, net in zip(_inputs_of(gate), gate.inputs):
            lines.append(f"law {parts[gate.output]}.{own} = {parts[net]}.out")
    return "\n".join(lines) + "\n"


def _gate_type(gate: Gate) -> Iterator[str]:
    yield f"type {_type_name(gate)}"
    for name in _inputs_of(gate):
        yield f"variable {name} bit"
    yield "observable out bit"
    yield from ("mode ok", "mode stuck0", "mode stuck1")
    yield f"in ok {_rule(gate)}"
    yield "in stuck0 out = zero"
    yield "in stuck1 out = one"
    yield f"fault ok -> stuck0 cost {STUCK_COST}"
    yield f"fault ok -> stuck1 cost {STUCK_COST}"
    yield "end"


def evaluate(netlist: Netlist, bits: Sequence[int], stuck: Dict[str, int]) -> List[int]:
    """What the outputs are for bits at the inputs, where some gates are stuck."""
    values = dict(zip(netlist.inputs, bits))
    for gate in netlist.in_order():
        given = [values[name] for name in gate.inputs]
        result = {
            "AND": min(given), "NAND": 1 - min(given), "OR": max(given), "NOR": 1 - max(given),
            "XOR": sum(given) % 2, "XNOR": 1 - sum(given) % 2, "NOT": 1 - given[0], "BUFF": given[0],
        }[gate.kind]
        values[gate.output] = stuck.get(gate.output, result)
    return [values[name] for name in netlist.outputs]


def session_text(netlist: Netlist, vectors: Sequence[Tuple[Sequence[int], Sequence[int]]], track: int) -> str:
    """A session: each vector is a step with its inputs and outputs observed, a diagnosis, and a commit between two."""
    parts = part_names(netlist)
    lines = [f"track {track}"]
    for number, (given, seen) in enumerate(vectors, 1):
        if number > 1:
            lines.append("commit")
        lines += [f"# vector {number}: {_digits(given)} gave {_digits(seen)}"]
        for place, (net, bit) in enumerate([*zip(netlist.inputs, given), *zip(netlist.outputs, seen)], 1):
            lines.append(f"observe s{number}_{place} {parts[net]}.out = {'one' if bit else 'zero'}")
        lines.append("diagnose")
    return "\n".join(lines) + "\n"


def _digits(bits: Sequence[int]) -> str:
    return "".join(str(bit) for bit in bits)
