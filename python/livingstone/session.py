"""Models and sessions, for programs that talk to the engine."""

from __future__ import annotations

import shutil
import tempfile
import weakref
from pathlib import Path
from types import TracebackType
from typing import Callable, Optional, Type, TypeVar, Union

from .declarations import read_plant
from .errors import BadReply, Refused, SessionEnded
from .library import Library, LibraryModel, LibraryTransport, find_library
from .plant import Plant
from .program import check_certificate, file_name, find_program, print_model
from .replies import (
    Accepted,
    Certificate,
    Committed,
    Conflicts,
    Diagnosis,
    Labels,
    Probe,
    Recovery,
    Refusal,
    Reply,
    Silence,
    States,
    parse_reply,
)
from .text import first_word
from .transport import PipeTransport, Transport

R = TypeVar("R", bound=Reply)
Progress = Callable[[int, int], None]

BUDGET = 10_000
"""The trials of a diagnosis or recovery where a session says nothing else."""


class Model:
    """A model that was accepted: its file, its canonical text, and what it declares.

    It is opened by the program, or by the library where one is named, as an argument or by LIVINGSTONE_LIBRARY; a program
    that is given goes before the variable. Over the library a model and its sessions stay on one thread, and the canonical
    text still takes the program.
    """

    def __init__(self, path: str, program: Optional[str] = None, library: Optional[str] = None) -> None:
        self.path = file_name(path)
        self._program = program
        self._plant: Optional[Plant] = None
        self._canonical: Optional[bytes] = None
        self._opened: Optional[LibraryModel] = None
        found = find_library(library) if library or not program else None
        if found is not None:
            self._text = Path(path).read_bytes()
            self._opened = LibraryModel(Library(found), self._text, path)
        else:
            self._program = find_program(program)
            self._text = self.canonical

    @classmethod
    def from_text(
        cls, text: Union[str, bytes], program: Optional[str] = None, library: Optional[str] = None
    ) -> Model:
        """A model from its text, which is kept in a file as long as the model is in use."""
        folder = tempfile.mkdtemp(prefix="livingstone-")
        try:
            path = Path(folder) / "model.lv"
            path.write_bytes(text.encode() if isinstance(text, str) else text)
            model = cls(str(path), program, library)
        except BaseException:
            shutil.rmtree(folder, ignore_errors=True)
            raise
        weakref.finalize(model, shutil.rmtree, folder, ignore_errors=True)
        return model

    @property
    def program(self) -> str:
        return find_program(self._program)

    @property
    def canonical(self) -> bytes:
        if self._canonical is None:
            self._canonical = print_model(self.program, self.path)
        return self._canonical

    @property
    def plant(self) -> Plant:
        if self._plant is None:
            self._plant = read_plant(self._text)
        return self._plant

    def session(self) -> Session:
        """A new session: in a process of its own, or of the library."""
        if self._opened is not None:
            return Session(LibraryTransport(self._opened), self)
        return Session(PipeTransport(self.program, self.path), self)

    def check(self, certificate: Union[str, bytes]) -> Optional[int]:
        """The first bad line of a certificate, or None where it is valid."""
        text = certificate.encode() if isinstance(certificate, str) else certificate
        if self._opened is not None:
            return self._opened.check(text)[1]
        return check_certificate(self.program, self.path, text)[1]


class Session:
    """A conversation. A refused line raises Refused, unless `ask` is told not to."""

    def __init__(self, transport: Transport, model: Optional[Model] = None) -> None:
        # A model that was made from a text takes its file away with it, so it lives as long as the session.
        self.model = model
        self._transport = transport
        self._ended = False

    def __enter__(self) -> Session:
        return self

    def __exit__(
        self,
        kind: Optional[Type[BaseException]],
        fault: Optional[BaseException],
        trace: Optional[TracebackType],
    ) -> None:
        self.close()

    def close(self) -> None:
        self._ended = True
        self._transport.close()

    @property
    def ended(self) -> bool:
        return self._ended

    def ask(self, line: str, refusals: bool = True) -> Reply:
        """Sends a line and answers its reply; a refusal raises, or with `refusals=False` is answered as any reply."""
        if self._ended:
            raise SessionEnded(f"the session has ended, and was asked {line!r}")
        sent = line.encode("utf-8", "surrogateescape")
        text = self._transport.exchange(sent).decode("utf-8", "surrogateescape")
        if not text:
            return Silence("")
        reply = parse_reply(line, text[:-1])
        if refusals and isinstance(reply, Refusal):
            raise Refused(line, reply.code)
        self._ended = first_word(sent) == "quit" and isinstance(reply, Accepted)
        return reply

    def _expect(self, line: str, kind: Type[R]) -> R:
        reply = self.ask(line)
        if not isinstance(reply, kind):
            raise BadReply(line, reply.text)
        return reply

    # What is asked

    def track(self, number: int, distinct: bool = False) -> None:
        """Diagnoses list up to so many candidates, if asked no two of which lead to one state."""
        self._expect(f"track {number} distinct" if distinct else f"track {number}", Accepted)

    def budget(self, trials: int) -> None:
        """Later diagnoses and recoveries make up to so many trials."""
        self._expect(f"budget {trials}", Accepted)

    def command(self, control: str, value: str) -> None:
        self._expect(f"command {control} = {value}", Accepted)

    def release(self, control: str) -> None:
        self._expect(f"release {control}", Accepted)

    def observe(self, name: str, observable: str, value: str) -> None:
        """After the step to come, the observable was seen to have that value."""
        self._expect(f"observe {name} {observable} = {value}", Accepted)

    def retract(self, name: str, time: Optional[int] = None) -> None:
        """Takes an observation out: a present or next one, or the one of that time."""
        self._expect(f"retract {name}" if time is None else f"retract {name} at {time}", Accepted)

    def goal(self, name: str, formula: str) -> None:
        self._expect(f"goal {name} {formula}", Accepted)

    def drop(self, name: str) -> None:
        self._expect(f"drop {name}", Accepted)

    # What is answered

    def diagnose(self) -> Diagnosis:
        return self._expect("diagnose", Diagnosis)

    def window(self, steps: int) -> Diagnosis:
        """The likeliest trajectories of so many steps, 1 to 4, of which the step to come is the last."""
        return self._expect(f"window {steps}", Diagnosis)

    def recover(self) -> Recovery:
        return self._expect("recover", Recovery)

    def more(self, trials: int) -> Union[Diagnosis, Recovery]:
        """The current query goes on."""
        reply = self.ask(f"more {trials}")
        if not isinstance(reply, (Diagnosis, Recovery)):
            raise BadReply(f"more {trials}", reply.text)
        return reply

    def in_slices(
        self, word: str, slice_: int, budget: int, progress: Progress
    ) -> Union[Diagnosis, Recovery, Refusal]:
        """A `diagnose`, `window W` or `recover`, or with `more` the current query, in slices of so many trials up to a
        budget.

        Behind each slice `progress` is told the trials made and those allowed. An interrupt between slices or in one
        leaves the session usable, with the query as far as it came. The session's own budget is that of a slice
        afterwards.
        """
        self.budget(min(slice_, budget))
        first = f"more {min(slice_, budget)}" if word == "more" else word
        reply = self.ask(first, refusals=False)
        made = min(slice_, budget)
        while isinstance(reply, (Diagnosis, Recovery)) and not reply.settled and made < budget:
            progress(made, budget)
            step = min(slice_, budget - made)
            reply = self.more(step)
            made += step
        if not isinstance(reply, (Diagnosis, Recovery, Refusal)):
            raise BadReply(first, reply.text)
        return reply

    def conflicts(self) -> Conflicts:
        return self._expect("conflicts", Conflicts)

    def probe(self) -> Probe:
        return self._expect("probe", Probe)

    def test(self, observable: str) -> Recovery:
        """Commands whose outcome at the observable tells the tracked states apart, as a Test where it is settled."""
        return self._expect(f"test {observable}", Recovery)

    def certificate(self) -> Certificate:
        return self._expect("certificate", Certificate)

    def commit(self) -> Committed:
        return self._expect("commit", Committed)

    def labels(self, state: Optional[int] = None) -> Labels:
        return self._expect("labels" if state is None else f"labels {state}", Labels)

    def states(self) -> States:
        return self._expect("states", States)

    def reset(self) -> None:
        self._expect("reset", Accepted)

    def quit(self) -> None:
        self._expect("quit", Accepted)
