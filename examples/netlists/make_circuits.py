#!/usr/bin/env python3
"""make_circuits.py adder N or multiplier N: writes that circuit for N bits as a bench netlist, to standard output.

The adder is a ripple-carry adder with a carry in; the multiplier an array of half and full adders over the products of
single bits. Bits are numbered from 0, the lowest.
"""

import sys


def half_adder(name, a, b):
    """The gates of a half adder, and the nets of its sum and its carry."""
    gates = [f"{name}_s = XOR({a}, {b})", f"{name}_c = AND({a}, {b})"]
    return gates, f"{name}_s", f"{name}_c"


def full_adder(name, a, b, c):
    """The gates of a full adder, and the nets of its sum and its carry."""
    gates = [
        f"{name}_p = XOR({a}, {b})",
        f"{name}_g = AND({a}, {b})",
        f"{name}_s = XOR({name}_p, {c})",
        f"{name}_t = AND({name}_p, {c})",
        f"{name}_c = OR({name}_g, {name}_t)",
    ]
    return gates, f"{name}_s", f"{name}_c"


def adder(bits):
    inputs = [f"{name}{bit}" for name in "ab" for bit in range(bits)] + ["cin"]
    outputs, gates, carry = [], [], "cin"
    for bit in range(bits):
        more, total, carry = full_adder(f"f{bit}", f"a{bit}", f"b{bit}", carry)
        gates += more
        outputs.append(total)
    return inputs, outputs + [carry], gates


def multiplier(bits):
    """Row by row: the product so far, and the next row of single-bit products added to its upper bits."""
    inputs = [f"{name}{bit}" for name in "ab" for bit in range(bits)]
    gates = [f"p{i}_{j} = AND(a{i}, b{j})" for j in range(bits) for i in range(bits)]
    row, outputs = [f"p{i}_0" for i in range(bits)], []
    for j in range(1, bits):
        outputs.append(row[0])
        upper, total, carry = row[1:], [], None
        for i in range(bits):
            terms = [f"p{i}_{j}"] + upper[i:i + 1] + ([carry] if carry else [])
            name = f"m{i}_{j}"
            if len(terms) == 1:
                total.append(terms[0])
                carry = None
                continue
            more, one, carry = half_adder(name, *terms) if len(terms) == 2 else full_adder(name, *terms)
            gates += more
            total.append(one)
        row = total + ([carry] if carry else [])
    return inputs, outputs + row, gates


def main(words):
    kinds = {"adder": adder, "multiplier": multiplier}
    if len(words) != 2 or words[0] not in kinds or not words[1].isdigit() or int(words[1]) < 1:
        print("usage: make_circuits.py adder N, make_circuits.py multiplier N", file=sys.stderr)
        return 2
    inputs, outputs, gates = kinds[words[0]](int(words[1]))
    print(f"# {' '.join(words)}: made by make_circuits.py")
    for name in inputs:
        print(f"INPUT({name})")
    for name in outputs:
        print(f"OUTPUT({name})")
    for gate in gates:
        print(gate)
    return 0


if __name__ == "__main__":
    sys.exit(main(sys.argv[1:]))
