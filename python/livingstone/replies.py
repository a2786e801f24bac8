"""The replies of a session as objects, read from their text."""

from __future__ import annotations

import dataclasses
import json
import re
from dataclasses import dataclass
from typing import Any, Dict, List, Optional, Tuple

from .codes import explain
from .errors import BadReply
from .text import first_word


@dataclass(frozen=True)
class Move:
    """What a part does in a step: it goes from mode to mode by a numbered line of its type, or stays."""

    part: str
    source: str
    target: str
    number: Optional[int]
    # In the conflicts of a window: the time that its step goes from.
    time: Optional[int] = None

    @property
    def is_stay(self) -> bool:
        return self.number is None

    def __str__(self) -> str:
        when = "" if self.time is None else f"at {self.time} "
        if self.number is None:
            return f"{when}{self.part} {self.source} stay"
        return f"{when}{self.part} {self.source}>{self.target} #{self.number}"


@dataclass(frozen=True)
class Setting:
    """A control and its value."""

    control: str
    value: str

    def __str__(self) -> str:
        return f"{self.control}={self.value}"


@dataclass(frozen=True)
class Candidate:
    """A transition of the plant from a tracked state; the parts that aren't among its moves stay. Of a window of several
    steps `moves` are those of the first, and `later` those of each step behind it."""

    number: int
    cost: int
    source: int
    moves: Tuple[Move, ...]
    later: Tuple[Tuple[Move, ...], ...] = ()


@dataclass(frozen=True)
class State:
    """A tracked state: its cost, and the mode of each part."""

    number: int
    cost: int
    modes: Dict[str, str]


@dataclass(frozen=True)
class Label:
    """A value that a variable has `now`, before the step, or `next`, after it."""

    when: str
    variable: str
    value: str


def _told(pairs: List[Tuple[str, Any]]) -> Dict[str, Any]:
    """What a window alone tells is left out elsewhere."""
    return {name: value for name, value in pairs if (name, value) not in (("time", None), ("later", ()))}


@dataclass(frozen=True)
class Reply:
    """A reply; `text` is what the program wrote, without the last line feed."""

    text: str

    def to_dict(self) -> Dict[str, Any]:
        return {"reply": type(self).__name__.lower(), **dataclasses.asdict(self, dict_factory=_told)}

    def to_json(self) -> str:
        return json.dumps(self.to_dict())


@dataclass(frozen=True)
class Silence(Reply):
    """A blank line or a comment gets no reply."""


@dataclass(frozen=True)
class Accepted(Reply):
    """`ok`"""


@dataclass(frozen=True)
class Refusal(Reply):
    """A refused line, which left everything as it was."""

    code: str
    meaning: str


@dataclass(frozen=True)
class Diagnosis(Reply):
    """The candidates listed; `trials` are told where it isn't settled."""

    settled: bool
    candidates: Tuple[Candidate, ...]
    trials: Optional[int] = None


@dataclass(frozen=True)
class Recovery(Reply):
    """The settings of the controls that don't rest; None where there is no recovery, or none yet."""

    settled: bool
    cost: Optional[int] = None
    settings: Optional[Tuple[Setting, ...]] = None
    trials: Optional[int] = None


@dataclass(frozen=True)
class Test(Recovery):
    """The same of settings that test an observable. The text of one that isn't settled is that of a recovery."""


@dataclass(frozen=True)
class Conflicts(Reply):
    """What rules candidates out: for a diagnosis moves, for a recovery settings. An empty one rules out everything."""

    trials: int
    conflicts: Tuple[Tuple[Any, ...], ...]


@dataclass(frozen=True)
class Labels(Reply):
    """What propagation alone finds."""

    contradiction: bool
    labels: Tuple[Label, ...]


@dataclass(frozen=True)
class Committed(Reply):
    """The time after a commit, and how many states are tracked."""

    time: int
    tracked: int


@dataclass(frozen=True)
class States(Reply):
    """The time and the tracked states."""

    time: int
    states: Tuple[State, ...]


@dataclass(frozen=True)
class Probe(Reply):
    """How many of the candidates listed go with each value of each observable; `best` is the observable that is best looked
    at, None where none tells anything."""

    listed: int
    observables: Dict[str, Dict[str, int]]
    best: Optional[str] = None


@dataclass(frozen=True)
class Certificate(Reply):
    """The text of a certificate, of a `diagnosis` or a `recovery`; in a file each line ends with a line feed."""

    about: str


_COUNTED = re.compile(r"(?:settled|labels) (\d+)$|(?:unsettled|conflicts) (\d+) trials \d+$")
_TRACKED = re.compile(r"time (\d+) tracked (\d+)$")


def lines_behind(word: str, first: str) -> Optional[int]:
    """How many lines follow the first of the reply to a line of that word; None: up to one that `is_last`."""
    counted = _COUNTED.match(first)
    if counted:
        return int(counted.group(1) or counted.group(2))
    if word == "states":
        tracked = _TRACKED.match(first)
        return int(tracked.group(2)) if tracked else 0
    return None if first.startswith(("certificate ", "probe ")) else 0


def is_last(line: str) -> bool:
    """Whether a reply whose lines aren't counted ends with this line: `end` a certificate, `best ..` a probe."""
    return line == "end" or line.startswith("best ")


def parse_reply(asked: str, text: str) -> Reply:
    """The reply to a line; raises BadReply where the text has none of the known forms."""
    lines = text.split("\n")
    word = first_word(asked.encode("utf-8", "surrogateescape"))
    try:
        return _parse(word, text, lines[0], lines[1:])
    except (ValueError, IndexError):
        raise BadReply(asked, text) from None


def _parse(word: str, text: str, first: str, rest: List[str]) -> Reply:
    head = first.split(" ")
    if text == "ok":
        return Accepted(text)
    if re.fullmatch(r"error S\d\d", text):
        return Refusal(text, head[1], explain(head[1]))
    if head[0] == "settled" or (head[0] == "unsettled" and len(head) == 4):
        return _diagnosis(text, head, rest)
    if first == "no test" or head[0] == "test":
        return _test(text, first)
    if head[0] in ("recovery", "no", "unsettled") and not rest:
        return _recovery(text, first)
    if head[0] == "conflicts":
        _counted(int(head[1]), rest)
        return Conflicts(text, int(head[3]), tuple(_conflict(line) for line in rest))
    if text == "contradiction":
        return Labels(text, True, ())
    if head[0] == "labels":
        _counted(int(head[1]), rest)
        return Labels(text, False, tuple(_label(line) for line in rest))
    if head[0] == "probe":
        return _probe(text, int(head[1]), rest)
    if head[0] == "certificate" and rest[-1] == "end":
        return Certificate(text, head[1])
    tracked = _TRACKED.fullmatch(first)
    if tracked and word == "states":
        _counted(int(tracked.group(2)), rest)
        return States(text, int(tracked.group(1)), tuple(_state(line) for line in rest))
    if tracked and not rest:
        return Committed(text, int(tracked.group(1)), int(tracked.group(2)))
    raise ValueError(first)


def _counted(number: int, rest: List[str]) -> None:
    if len(rest) != number:
        raise ValueError(number)


def _diagnosis(text: str, head: List[str], rest: List[str]) -> Diagnosis:
    _counted(int(head[1]), rest)
    trials = int(head[3]) if head[0] == "unsettled" else None
    return Diagnosis(text, trials is None, tuple(_candidate(line) for line in rest), trials)


def _candidate(line: str) -> Candidate:
    match = _matched(r"(\d+) cost (\d+) from (\d+): (.+)", line)
    number, cost, source = (int(match.group(place)) for place in (1, 2, 3))
    first, *later = (tuple(_move(item) for item in _items(step)) for step in match.group(4).split(" ; "))
    return Candidate(number, cost, source, first, tuple(later))


def _matched(pattern: str, line: str) -> "re.Match[str]":
    match = re.fullmatch(pattern, line)
    if match is None:
        raise ValueError(line)
    return match


def _items(text: str) -> List[str]:
    return [] if text == "-" else text.split(", ")


def _move(item: str) -> Move:
    match = _matched(r"(?:at (\d+) )?(\w+) (?:(\w+) stay|(\w+)>(\w+) #(\d+))", item)
    time, part, mode, source, target, number = match.groups()
    when = None if time is None else int(time)
    if mode is not None:
        return Move(part, mode, mode, None, when)
    return Move(part, source, target, int(number), when)


def _setting(item: str) -> Setting:
    control, value = item.split("=")
    return Setting(control, value)


def _conflict(line: str) -> Tuple[Any, ...]:
    items = _items(line.split(": ", 1)[1])
    return tuple(_setting(item) if "=" in item else _move(item) for item in items)


def _recovery(text: str, first: str) -> Recovery:
    if first == "no recovery":
        return Recovery(text, True)
    unsettled = re.fullmatch(r"unsettled trials (\d+)", first)
    if unsettled:
        return Recovery(text, False, trials=int(unsettled.group(1)))
    found = _matched(r"recovery cost (\d+): (.+)", first)
    return Recovery(text, True, int(found.group(1)), tuple(_setting(item) for item in _items(found.group(2))))


def _test(text: str, first: str) -> Test:
    if first == "no test":
        return Test(text, True)
    found = _matched(r"test cost (\d+): (.+)", first)
    return Test(text, True, int(found.group(1)), tuple(_setting(item) for item in _items(found.group(2))))


def _probe(text: str, listed: int, rest: List[str]) -> Probe:
    best = _matched(r"best (\S+)", rest[-1]).group(1)
    return Probe(text, listed, dict(_probed(line) for line in rest[:-1]), None if best == "-" else best)


def _probed(line: str) -> Tuple[str, Dict[str, int]]:
    variable, values = line.split(": ", 1)
    return variable, {value: int(number) for value, number in (item.split(" ") for item in values.split(", "))}


def _label(line: str) -> Label:
    when, variable, equals, value = line.split(" ")
    if when not in ("now", "next") or equals != "=":
        raise ValueError(line)
    return Label(when, variable, value)


def _state(line: str) -> State:
    match = _matched(r"(\d+) cost (\d+): (.+)", line)
    pairs = (item.split("=") for item in match.group(3).split(", "))
    return State(int(match.group(1)), int(match.group(2)), {part: mode for part, mode in pairs})
