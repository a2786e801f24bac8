"""A session's lines, followed with what they leave held: who asks later what a query was asked finds it here."""

from __future__ import annotations

from dataclasses import dataclass, field
from typing import Dict

from .formula import text_of
from .replies import Accepted, Committed, Reply
from .session_lines import read_line
from .syntax import Statement
from .text import tokens, without_end


@dataclass(frozen=True)
class Seen:
    """An observation: the line that it was made in, and whether it is of the time after the step to come."""

    line: int
    name: str
    variable: str
    value: str
    after: bool


@dataclass
class Held:
    """What a session holds: values commanded, present and next observations, and goals. It is told each line and its
    reply."""

    commands: Dict[str, str] = field(default_factory=dict)
    observations: Dict[str, Seen] = field(default_factory=dict)
    goals: Dict[str, str] = field(default_factory=dict)
    time: int = 0

    def take(self, number: int, line: bytes, reply: Reply) -> None:
        """Takes over what an accepted line does."""
        if isinstance(reply, Committed):
            self.time = reply.time
            self.commands = {}
            before = {name: seen for name, seen in self.observations.items() if seen.after}
            self.observations = {
                name: Seen(seen.line, name, seen.variable, seen.value, False) for name, seen in before.items()
            }
        elif isinstance(reply, Accepted):
            self._accept(number, line)

    def _accept(self, number: int, line: bytes) -> None:
        statement = read_line(tokens(without_end(line)))
        words = [name.text for name in statement.names]
        if statement.word == "command":
            self.commands[f"{words[0]}.{words[1]}"] = words[2]
        elif statement.word == "release":
            self.commands.pop(f"{words[0]}.{words[1]}", None)
        elif statement.word == "observe":
            self.observations[words[0]] = Seen(number, words[0], f"{words[1]}.{words[2]}", words[3], True)
        elif statement.word == "retract":
            self._retract(words[0], statement)
        elif statement.word == "goal" and statement.formula is not None:
            self.goals[words[0]] = text_of(statement.formula)
        elif statement.word == "drop":
            del self.goals[words[0]]
        elif statement.word == "reset":
            self.time, self.commands, self.observations, self.goals = 0, {}, {}, {}

    def _retract(self, name: str, statement: Statement) -> None:
        """An observation of a time before the present one isn't among those held here, whatever is held of its name."""
        last = statement.tokens[-1]
        seen = self.observations.get(name)
        if len(statement.tokens) == 2 or (seen and int(last.text) == self.time + (1 if seen.after else 0)):
            del self.observations[name]

