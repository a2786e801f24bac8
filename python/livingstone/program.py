"""Finding the program, and running it once."""

from __future__ import annotations

import os
import re
import shutil
import subprocess
from dataclasses import dataclass
from pathlib import Path
from typing import List, Optional, Sequence, Tuple

from .errors import ModelRefused, ProgramFailed, ProgramNotFound

_BUILT = Path("crates/livingstone_cli/out/livingstone_cli")


def find_program(given: Optional[str] = None) -> str:
    """The program: the one given, that of the variable LIVINGSTONE, `livingstone` on the path, or the one that was
    built in the repository in which this package or the current folder lies."""
    for source, name in (("the argument", given), ("LIVINGSTONE", os.environ.get("LIVINGSTONE"))):
        if name:
            found = shutil.which(name)
            if found is None:
                raise ProgramNotFound(f"{source} names no program: {name}")
            return found
    on_path = shutil.which("livingstone")
    if on_path is not None:
        return on_path
    for start in (Path(__file__).resolve(), Path.cwd() / "here"):
        for folder in start.parents:
            if os.access(folder / _BUILT, os.X_OK):
                return str(folder / _BUILT)
    raise ProgramNotFound(
        "no livingstone program: build the repository (./build), or name one with --program or the variable LIVINGSTONE"
    )


def file_name(path: str) -> str:
    """A file's name as the program takes it: to the program, `stdin` is standard input."""
    return "./stdin" if path == "stdin" else path


@dataclass(frozen=True)
class Run:
    """A run of the program that has ended."""

    status: int
    out: bytes
    said: str


def run_program(program: str, words: Sequence[str], given: bytes = b"") -> Run:
    """Runs the program over bytes as its standard input; it may end before it has read them."""
    try:
        ended = subprocess.run([program, *words], input=given, stdout=subprocess.PIPE, stderr=subprocess.PIPE)
    except OSError as fault:
        raise ProgramNotFound(f"{program} can't be run: {fault.strerror}") from fault
    return Run(ended.returncode, ended.stdout, said_of(ended.stderr))


def said_of(err: bytes) -> str:
    return err.decode("utf-8", "replace").strip()


def failure(status: int, said: str, asked: str) -> ProgramFailed:
    """The exception for a run that ended with a status other than 0."""
    refused = re.fullmatch(r"model (\d+) (M\d\d)", said)
    if status == 3 and refused:
        return ModelRefused(int(refused.group(1)), refused.group(2), asked)
    return ProgramFailed(status, said, asked)


def print_model(program: str, path: str) -> bytes:
    """The canonical text of the model in a file; raises ModelRefused where it is none."""
    ended = run_program(program, ["print", "--", path])
    if ended.status != 0:
        raise failure(ended.status, ended.said, f"print {path}")
    return ended.out


def check_certificate(program: str, model: str, certificate: bytes) -> Tuple[bool, Optional[int]]:
    """Whether a certificate is valid for the model in a file, and else its first bad line."""
    ended = run_program(program, ["check", "--", model, "stdin"], certificate)
    lines: List[bytes] = ended.out.split()
    if ended.status == 0 and lines == [b"valid"]:
        return True, None
    if ended.status == 9 and len(lines) == 2:
        return False, int(lines[1])
    raise failure(ended.status, ended.said, f"check {model}")
