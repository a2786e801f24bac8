"""What the tests share. They need the program: the one of LIVINGSTONE, of the path, or of the repository."""

from __future__ import annotations

import os
import re
import subprocess
import sys
import tempfile
import unittest
from pathlib import Path
from typing import Iterator, List, Tuple

PACKAGE = Path(__file__).resolve().parents[1]
ROOT = PACKAGE.parent
EXAMPLES = ROOT / "examples"
VALVE = str(EXAMPLES / "valve.lv")
FAKE = str(Path(__file__).resolve().parent / "fake_program.py")

Ended = Tuple[int, str, str]


def lv(*words: str, given: str = "") -> Ended:
    """Runs the command in a process of its own: its status, its output, its errors."""
    environment = {**os.environ, "PYTHONPATH": str(PACKAGE)}
    command = [sys.executable, "-m", "livingstone", *words]
    ended = subprocess.run(
        command, input=given.encode("utf-8", "surrogateescape"), capture_output=True, env=environment
    )
    return ended.returncode, ended.stdout.decode(), ended.stderr.decode()


class FolderTest(unittest.TestCase):
    """A test with a folder of its own."""

    def setUp(self) -> None:
        folder = tempfile.TemporaryDirectory()
        self.addCleanup(folder.cleanup)
        self.folder = Path(folder.name)

    def write(self, name: str, text: str) -> str:
        path = self.folder / name
        path.write_text(text, encoding="utf-8")
        return str(path)


_ESCAPES = {b"r": b"\r", b"n": b"\n", b"t": b"\t", b"f": b"\f", b"v": b"\v", b"\\": b"\\"}


def model_texts() -> Iterator[Tuple[str, str, bytes]]:
    """The texts of tests/models.txt: the verdict, the name and the bytes, with the escapes of printf's %b undone."""
    texts: List[Tuple[str, str, bytes]] = []
    for line in (ROOT / "tests" / "models.txt").read_bytes().splitlines():
        if line.startswith(b"== "):
            verdict, name = line[3:].decode().split(": ", 1)
            texts.append((verdict, name, b""))
        else:
            verdict, name, body = texts[-1]
            texts[-1] = verdict, name, body + _unescaped(line)
    yield from texts


def _unescaped(line: bytes) -> bytes:
    whole = not line.endswith(b"\\c")

    def replace(match: "re.Match[bytes]") -> bytes:
        if match.group(1):
            return bytes([int(match.group(1), 16)])
        return _ESCAPES[match.group(2)]

    text = re.sub(rb"\\(?:x([0-9a-fA-F]{1,2})|(.))", replace, line if whole else line[:-2])
    return text + (b"\n" if whole else b"")
