"""Talk to the Livingstone engine.

    from livingstone import Model

    with Model("valve.lv").session() as session:
        session.command("v.cmd", "open")
        session.observe("o", "v.out", "zero")
        for candidate in session.diagnose().candidates:
            print(candidate.cost, [str(move) for move in candidate.moves])

The engine is a program of its own, or a library in this process; either is proved. This package is tested, and not proved.
"""

from .errors import (
    BadReply,
    LibraryNotFound,
    LivingstoneError,
    ModelRefused,
    ProgramFailed,
    ProgramNotFound,
    Refused,
    ReplyCut,
    SessionEnded,
)
from .library import LibraryTransport
from .replies import (
    Accepted,
    Candidate,
    Certificate,
    Committed,
    Conflicts,
    Diagnosis,
    Label,
    Labels,
    Move,
    Probe,
    Recovery,
    Refusal,
    Reply,
    Setting,
    Silence,
    State,
    States,
    Test,
)
from .session import Model, Session
from .transport import PipeTransport, Transport

__all__ = [
    "Accepted", "BadReply", "Candidate", "Certificate", "Committed", "Conflicts", "Diagnosis", "Label", "Labels",
    "LibraryNotFound", "LibraryTransport", "LivingstoneError", "Model", "ModelRefused", "Move", "PipeTransport", "Probe", "ProgramFailed", "ProgramNotFound",
    "Recovery", "Refusal", "Refused", "Reply", "ReplyCut", "Session", "SessionEnded", "Setting", "Silence", "State",
    "States", "Test", "Transport",
]
