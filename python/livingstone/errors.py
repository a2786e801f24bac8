"""What can go wrong, as exceptions."""

from __future__ import annotations

from .codes import explain, hint_of


class LivingstoneError(Exception):
    """Any of the below."""


class ProgramNotFound(LivingstoneError):
    """No program to talk to was found."""


class LibraryNotFound(LivingstoneError):
    """The file that was named is no library of the engine."""


class ProgramFailed(LivingstoneError):
    """The program ended with a status that says why: see `status` and `said`, its line on standard error."""

    def __init__(self, status: int, said: str, asked: str) -> None:
        super().__init__(f"{said or f'the program ended with status {status}'} (asked: {asked})")
        self.status = status
        self.said = said
        self.asked = asked


class ModelRefused(ProgramFailed):
    """The text is no model: its code and the line of its first fault, 0 for the text as a whole."""

    def __init__(self, line: int, code: str, asked: str) -> None:
        super().__init__(3, f"model {line} {code}", asked)
        self.line = line
        self.code = code

    @property
    def meaning(self) -> str:
        return explain(self.code)


class ReplyCut(LivingstoneError):
    """The conversation broke off: the program ended, or its pipe broke, before the whole reply had come."""

    def __init__(self, asked: str, got: str, status: int, said: str) -> None:
        ended = f"the program ended with status {status}" + (f" ({said})" if said else "")
        came = f"of the reply came {got!r}" if got else "no reply came"
        super().__init__(f"{ended} when it was asked {asked!r}; {came}")
        self.asked = asked
        self.got = got
        self.status = status
        self.said = said


class BadReply(LivingstoneError):
    """A reply that has none of the forms known here."""

    def __init__(self, asked: str, text: str) -> None:
        super().__init__(f"the reply to {asked!r} has no known form: {text!r}")
        self.asked = asked
        self.text = text


class SessionEnded(LivingstoneError):
    """A line was asked after the session had ended."""


class Refused(LivingstoneError):
    """The session refused a line."""

    def __init__(self, asked: str, code: str) -> None:
        hint = hint_of(code)
        super().__init__(f"{asked!r}: {code}: {explain(code)}" + (f" ({hint})" if hint else ""))
        self.asked = asked
        self.code = code

    @property
    def meaning(self) -> str:
        return explain(self.code)
