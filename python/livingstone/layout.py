"""Where the parts of a plant stand in a picture: in columns, so that laws join neighbours."""

from __future__ import annotations

from dataclasses import dataclass
from typing import Dict, FrozenSet, List, Set, Tuple

from .formula import Same, text_of, variables_of
from .plant import Plant

# So many columns stand side by side; further ones begin a new band below.
MOST_COLUMNS = 12
_SWEEPS = 6


@dataclass(frozen=True)
class Place:
    """A column from the left, and a row in it; bands of columns stand one below the other."""

    band: int
    column: int
    row: float


def joints(plant: Plant) -> Dict[FrozenSet[str], List[str]]:
    """The sets of two or more parts that laws of the system join, each with the texts of its laws."""
    found: Dict[FrozenSet[str], List[str]] = {}
    for law in plant.laws:
        parts = frozenset(variable.split(".")[0] for variable in variables_of(law.formula))
        if len(parts) > 1:
            found.setdefault(parts, []).append(text_of(law.formula))
    return found


def flows(plant: Plant) -> Dict[str, List[str]]:
    """Which parts stand to the right of which: behind an equation of two parts' variables the one whose variable's name
    begins with `in` where the other's doesn't, or doesn't begin with `out` where the other's does. This is a guess from
    names, for the picture alone."""
    found: Dict[str, List[str]] = {part: [] for part in plant.parts}
    for law in plant.laws:
        if not isinstance(law.formula, Same):
            continue
        sides = [tuple(side.split(".")) for side in (law.formula.left, law.formula.right)]
        for (part, name), (other, other_name) in (sides, sides[::-1]):
            gives = name.startswith("out") and not other_name.startswith("out")
            takes = other_name.startswith("in") and not name.startswith("in")
            if part != other and (gives or takes) and part not in found[other]:
                found[part].append(other)
    return found


def places(plant: Plant) -> Dict[str, Place]:
    """A place for each part: joined parts stand in the same column or in neighbouring ones, as far as that can be."""
    near: Dict[str, List[str]] = {part: [] for part in plant.parts}
    for parts in joints(plant):
        for part in sorted(parts, key=list(plant.parts).index):
            near[part] += [other for other in plant.parts if other in parts and other != part]
    flow = flows(plant)
    columns: List[List[str]] = []
    lone = [part for part in plant.parts if not near[part]]
    seen: Set[str] = set(lone)
    for part in plant.parts:
        if part not in seen:
            own = _columns(near, part)
            seen.update(name for column in own for name in column)
            members = [name for name in plant.parts if any(name in column for column in own)]
            flowing = any(flow[name] for name in members)
            own = _flow_columns(near, flow, members) if flowing else _columns(near, _end_of(near, part))
            for place, column in enumerate(own):
                columns[place:place + 1] = [(columns[place] if place < len(columns) else []) + column]
    _untangle(columns, near)
    found = _placed(columns)
    bands = 1 + max((place.band for place in found.values()), default=-1)
    for number, part in enumerate(lone):
        found[part] = Place(bands, number % MOST_COLUMNS, number // MOST_COLUMNS)
    return found


def _flow_columns(near: Dict[str, List[str]], flow: Dict[str, List[str]], members: List[str]) -> List[List[str]]:
    """The parts of a plant behind those that they take from; where that goes round, one of the ways is left out."""
    level: Dict[str, int] = {}
    order = _in_order(flow, members)
    place = {part: number for number, part in enumerate(order)}
    for part in order:
        before = [other for other in members if part in flow[other] and place[other] < place[part]]
        level[part] = 1 + max((level[other] for other in before), default=-1)
    given = {other for part in members for other in flow[part]}
    sources = [part for part in order if part not in given]
    # What takes from nothing stands next to the first that takes from it, or else that it is joined with.
    for behind in (flow, near):
        for part in sources:
            if behind is flow and flow[part] or behind is near and not flow[part]:
                level[part] = min(level[other] for other in behind[part]) - 1
    least = min(level.values())
    columns: List[List[str]] = [[] for _ in range(1 + max(level.values()) - least)]
    for part in members:
        columns[level[part] - least].append(part)
    return [column for column in columns if column]


def _in_order(flow: Dict[str, List[str]], members: List[str]) -> List[str]:
    """The parts, each before those that take from it as far as that can be."""
    order: List[str] = []
    seen: Set[str] = set()
    for first in members:
        stack = [(first, iter(flow[first]))] if first not in seen else []
        seen.add(first)
        while stack:
            part, rest = stack[-1]
            following = next((other for other in rest if other not in seen), None)
            if following is None:
                order.append(part)
                stack.pop()
            else:
                seen.add(following)
                stack.append((following, iter(flow[following])))
    return order[::-1]


def _columns(near: Dict[str, List[str]], first: str) -> List[List[str]]:
    """The parts that are joined with one, by how many steps away they are."""
    columns, seen = [[first]], {first}
    while columns[-1]:
        behind = [other for part in columns[-1] for other in near[part]]
        columns.append([part for part in dict.fromkeys(behind) if part not in seen])
        seen.update(columns[-1])
    return columns[:-1]


def _end_of(near: Dict[str, List[str]], part: str) -> str:
    """A part at one end: as far away as any from the one that is farthest from the part given."""
    return _columns(near, _columns(near, part)[-1][0])[-1][0]


def _untangle(columns: List[List[str]], near: Dict[str, List[str]]) -> None:
    """Orders each column by the middle of its neighbours in the column before, and then behind, again and again."""
    for sweep in range(_SWEEPS):
        order = range(1, len(columns)) if sweep % 2 == 0 else range(len(columns) - 2, -1, -1)
        for place in order:
            other = columns[place - 1 if sweep % 2 == 0 else place + 1]
            rows = {part: row / max(1, len(other) - 1) for row, part in enumerate(other)}
            own = columns[place]
            middle: Dict[str, Tuple[float, int]] = {}
            for row, part in enumerate(own):
                around = [rows[name] for name in near[part] if name in rows]
                middle[part] = (sum(around) / len(around) if around else row / max(1, len(own) - 1), row)
            own.sort(key=lambda part: middle[part])


def _placed(columns: List[List[str]]) -> Dict[str, Place]:
    found = {}
    for start in range(0, len(columns), MOST_COLUMNS):
        band = columns[start:start + MOST_COLUMNS]
        most = max(len(column) for column in band)
        turned = start // MOST_COLUMNS % 2 == 1
        for number, column in enumerate(band):
            # Every other band goes from the right to the left, so that neighbours stay near.
            place = MOST_COLUMNS - 1 - number if turned else number
            for row, part in enumerate(column):
                found[part] = Place(start // MOST_COLUMNS, place, row + (most - len(column)) / 2)
    return found
