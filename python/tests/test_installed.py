"""The wheel that pip is given, and the console at a terminal."""

from __future__ import annotations

import hashlib
import os
import pty
import select
import subprocess
import sys
import time
import unittest
import zipfile
from base64 import urlsafe_b64encode
from typing import List, Tuple

import wheel_backend
from livingstone.program import find_program

from .support import FAKE, PACKAGE, VALVE, FolderTest


class Wheel(FolderTest):
    def test_what_is_in_it(self) -> None:
        name = wheel_backend.build_wheel(str(self.folder))
        with zipfile.ZipFile(self.folder / name) as wheel:
            inside = {path: wheel.read(path) for path in wheel.namelist()}
        info = name.split("-py3")[0] + ".dist-info"
        modules = {path.relative_to(PACKAGE).as_posix() for path in (PACKAGE / "livingstone").rglob("*.py")}
        self.assertEqual({path for path in inside if path.endswith(".py")}, modules)
        self.assertIn("livingstone/py.typed", inside)
        self.assertEqual(inside[f"{info}/entry_points.txt"], b"[console_scripts]\nlv = livingstone.cli:main\n")
        record = dict(line.split(",", 1) for line in inside[f"{info}/RECORD"].decode().splitlines())
        for path, data in inside.items():
            digest = urlsafe_b64encode(hashlib.sha256(data).digest()).rstrip(b"=").decode()
            wanted = "," if path.endswith("RECORD") else f"sha256={digest},{len(data)}"
            self.assertEqual(record[path], wanted)

    def test_it_runs(self) -> None:
        name = wheel_backend.build_wheel(str(self.folder))
        environment = {**os.environ, "PYTHONPATH": str(self.folder / name), "LIVINGSTONE": find_program()}
        words = [sys.executable, "-m", "livingstone", "lint", VALVE]
        ended = subprocess.run(words, capture_output=True, cwd=self.folder, env=environment)
        self.assertEqual((ended.returncode, ended.stdout, ended.stderr), (0, b"", b""))

    def test_the_source_archive(self) -> None:
        name = wheel_backend.build_sdist(str(self.folder))
        subprocess.run(["tar", "-xzf", name], cwd=self.folder, check=True)
        folder = self.folder / name[: -len(".tar.gz")]
        self.assertTrue((folder / "wheel_backend.py").exists() and (folder / "livingstone" / "cli.py").exists())


class Terminal(FolderTest):
    """The console over a terminal, with a program that takes half a second for each slice."""

    def test_an_interrupt_keeps_the_query(self) -> None:
        model = self.write("model", "slow")
        environment = {**os.environ, "PYTHONPATH": str(PACKAGE), "LV_HISTORY": str(self.folder / "history"),
                       "TERM": "dumb"}
        words = [sys.executable, "-m", "livingstone", "console", "--program", FAKE, "--slice", "1", model]
        child, terminal = pty.fork()
        if child == 0:
            os.execve(sys.executable, words, environment)
        seen = self.talk(terminal, [(b"lv> ", b"diagnose\n"), (b"2 of 10000 trials", b"\x03"),
                                    (b"goes on", b"states\n"), (b"1 cost 0: p=m", b"quit\n"), (b"ok", b"")])
        _, status = os.waitpid(child, 0)
        os.close(terminal)
        self.assertEqual(os.WEXITSTATUS(status), 0)
        self.assertIn(b"trials", seen)
        self.assertIn("diagnose", (self.folder / "history").read_text())

    def talk(self, terminal: int, turns: List[Tuple[bytes, bytes]]) -> bytes:
        """Waits for each text behind the one before, and then types."""
        seen, rest = b"", b""
        for wanted, typed in turns:
            end = time.monotonic() + 20
            while wanted not in rest:
                ready, _, _ = select.select([terminal], [], [], max(0.0, end - time.monotonic()))
                self.assertTrue(ready, f"waited for {wanted!r}, and there is {rest!r}")
                piece = os.read(terminal, 4096)
                seen, rest = seen + piece, rest + piece
            rest = rest.split(wanted, 1)[1]
            os.write(terminal, typed)
        return seen


if __name__ == "__main__":
    unittest.main()
