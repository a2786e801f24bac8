"""A session at the terminal: line editing, a history that is kept, completion of words and of the model's names, each
refusal with its meaning. A long diagnosis, window or recovery is made in slices with a bar, and an interrupt stops it where it
is: `more B` goes on. `help` tells the words, and the end of the input or `quit` ends the session."""

from __future__ import annotations

import argparse
import os
import re
import sys
from typing import List, Optional

from ..codes import explain, hint_of
from ..plant import MODE, Plant
from ..replies import Refusal, Reply, Silence
from ..session import BUDGET, Model, Session
from ..session_lines import FORMS
from ..text import first_word
from .run import open_session

HELP = "a session at the terminal"
SLICE = 200
_BAR = 30


def add_arguments(parser: argparse.ArgumentParser) -> None:
    parser.add_argument("model", metavar="MODEL")
    parser.add_argument("--log", metavar="LOG", help="record the conversation in this file")
    parser.add_argument("--slice", type=int, default=SLICE, metavar="N", help=f"trials between two looks ({SLICE})")


def run(arguments: argparse.Namespace) -> int:
    if not 1 <= arguments.slice <= 1_000_000:
        print("lv console: --slice is 1 to 1,000,000", file=sys.stderr)
        return 2
    model = Model(arguments.model, arguments.program)
    history = _line_editing(model.plant) if sys.stdin.isatty() else None
    try:
        with open_session(model, arguments.log) as session:
            Console(session, arguments.slice, sys.stderr.isatty()).talk()
    finally:
        _keep_history(history)
    return 0


class Console:
    """One conversation. The session's own budget is that of a slice; the budget that was asked for is kept here."""

    def __init__(self, session: Session, slice_: int, bar: bool) -> None:
        self.session = session
        self.slice = slice_
        self.bar = bar
        self.budget = BUDGET

    def talk(self) -> None:
        """Reads and serves lines up to the end of the input."""
        while not self.session.ended:
            try:
                line = input("lv> " if sys.stdin.isatty() else "")
            except EOFError:
                break
            except KeyboardInterrupt:
                print()
                continue
            self.serve(line)

    def serve(self, line: str) -> None:
        if line.strip() == "help":
            print(f"words: {' '.join(FORMS)}")
            return
        try:
            reply = self.ask(line)
        except KeyboardInterrupt:
            self.clear_bar()
            print("interrupted; the query is kept as far as it came, and `more B` goes on")
            return
        self.clear_bar()
        if isinstance(reply, Refusal):
            hint = hint_of(reply.code)
            print(f"{reply.code}: {explain(reply.code)}" + (f" ({hint})" if hint else ""), flush=True)
        elif not isinstance(reply, Silence):
            print(reply.text, flush=True)

    def ask(self, line: str) -> Reply:
        """A line's reply; queries are made in slices."""
        word = first_word(line.encode("utf-8", "replace"))
        plain = line.split("#")[0].split()
        if plain in (["diagnose"], ["recover"]) or (word == "window" and len(plain) == 2):
            return self.session.in_slices(" ".join(plain), self.slice, self.budget, self.progress)
        more = re.fullmatch(r"more\s+0*([0-9]{1,7})", line.split("#")[0].strip())
        if more and 1 <= int(more.group(1)) <= 1_000_000:
            return self.session.in_slices("more", self.slice, int(more.group(1)), self.progress)
        reply = self.session.ask(line, refusals=False)
        if word == "budget" and reply.text == "ok":
            self.budget = int(plain[1])
        elif word == "reset" and reply.text == "ok":
            self.budget = BUDGET
        return reply

    def progress(self, made: int, allowed: int) -> None:
        if self.bar:
            filled = _BAR * made // allowed
            bar = "#" * filled + "." * (_BAR - filled)
            print(f"\r[{bar}] {made} of {allowed} trials", end="", file=sys.stderr, flush=True)

    def clear_bar(self) -> None:
        if self.bar:
            print("\r\033[K", end="", file=sys.stderr, flush=True)


class Completer:
    """What may stand next in a line: a word, a variable of the fitting kind, or a value of the one before."""

    def __init__(self, plant: Plant) -> None:
        self.plant = plant
        self.of = {
            "command": plant.of_kind("control"),
            "release": plant.of_kind("control"),
            "observe": plant.of_kind("observable"),
            "goal": plant.variables(),
        }

    def options(self, before: str, text: str) -> List[str]:
        """The ways to go on with the word `text`, behind the part of the line before it."""
        words = before.replace("=", " = ").split()
        if not words:
            found = list(FORMS)
        elif words[-1] == "=" and len(words) > 1:
            found = self._values(words[-2].lstrip("(!"))
        elif words[0] in ("observe", "goal") and len(words) == 1:
            found = []
        else:
            found = self.of.get(words[0], [])
        return [option for option in found if option.startswith(text)]

    def _values(self, variable: str) -> List[str]:
        part, _, name = variable.partition(".")
        kind = self.plant.parts[part].type if part in self.plant.parts else None
        if kind is None or (name != MODE and name not in kind.variables):
            return []
        return kind.values(name)


def _line_editing(plant: Plant) -> Optional[str]:
    """Switches on editing, history and completion; answers the file of the history."""
    try:
        import readline
    except ImportError:
        return None
    completer = Completer(plant)

    def complete(text: str, state: int) -> Optional[str]:
        before = readline.get_line_buffer()[: readline.get_begidx()]
        options = completer.options(before, text)
        return options[state] if state < len(options) else None

    readline.set_completer_delims(" \t=()!&|<>")
    readline.set_completer(complete)
    readline.parse_and_bind("tab: complete")
    history = os.environ.get("LV_HISTORY", os.path.expanduser("~/.lv_history"))
    try:
        readline.read_history_file(history)
    except OSError:
        pass
    return history


def _keep_history(history: Optional[str]) -> None:
    if history is not None:
        import readline

        readline.set_history_length(1000)
        try:
            readline.write_history_file(history)
        except OSError as fault:
            print(f"the history can't be kept: {fault.strerror}", file=sys.stderr)
