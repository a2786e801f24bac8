"""The command `lv`."""

from __future__ import annotations

import argparse
import io
import os
import sys
from pathlib import Path
from typing import List, Optional

from .commands import console, explain, lint, netlist, plot, replay, run, values, why
from .errors import LivingstoneError, ModelRefused, ProgramFailed
from .notices import model_refusal

_COMMANDS = (console, explain, lint, why, values, plot, netlist, replay, run)

_STATUSES = """exit statuses: 0 done, nothing found; 1 something was found, as each command says; 2 the words are
refused; 3 the text is no model; 4 the model can't be read; 5 another file can't be read; 6 what was to be written was
not; 7 a file is too long; 8 out of memory; 9 the certificate isn't valid; 10 there is no program, or it went away; 130
interrupted"""


def build_parser() -> argparse.ArgumentParser:
    parser = argparse.ArgumentParser(
        prog="lv", description="Tools around the Livingstone engine: tested, and not proved.", epilog=_STATUSES
    )
    commands = parser.add_subparsers(dest="command", required=True, metavar="COMMAND")
    for module in _COMMANDS:
        name = module.__name__.rsplit(".", 1)[1]
        own = commands.add_parser(name, help=module.HELP, description=module.__doc__, epilog=_STATUSES)
        own.add_argument("--program", metavar="FILE", help="the livingstone program; else LIVINGSTONE, or the path")
        module.add_arguments(own)
        own.set_defaults(run=module.run)
    return parser


def main(words: Optional[List[str]] = None) -> int:
    sys.setrecursionlimit(max(sys.getrecursionlimit(), 5000))
    arguments = build_parser().parse_args(words)
    # What a file or a log holds may be no text: it is read as it is, and shown so that a terminal takes it.
    for stream, errors in ((sys.stdin, "surrogateescape"), (sys.stdout, "backslashreplace")):
        if isinstance(stream, io.TextIOWrapper):
            stream.reconfigure(errors=errors)
    try:
        status: int = arguments.run(arguments)
        sys.stdout.flush()
        return status
    except ModelRefused as fault:
        return _refused(fault, getattr(arguments, "model", None))
    except ProgramFailed as fault:
        return _fail(str(fault), fault.status)
    except LivingstoneError as fault:
        return _fail(str(fault), 10)
    except BrokenPipeError:
        # Whoever read the output went away: nothing more is written, not at the end of the process either.
        os.dup2(os.open(os.devnull, os.O_WRONLY), sys.stdout.fileno())
        return 6
    except OSError as fault:
        return _fail(f"{fault.filename}: {fault.strerror}" if fault.filename else str(fault), 5)
    except KeyboardInterrupt:
        return _fail("interrupted", 130)


def _fail(message: str, status: int) -> int:
    print(f"lv: {message}", file=sys.stderr)
    return status if status > 0 else 10


def _refused(fault: ModelRefused, model: Optional[str]) -> int:
    """A refused model, with the place in its line where the file is at hand."""
    if model is None:
        return _fail(f"{fault} ({fault.meaning})", fault.status)
    print(model_refusal(model, Path(model).read_bytes(), fault.line, fault.code), file=sys.stderr)
    return fault.status
