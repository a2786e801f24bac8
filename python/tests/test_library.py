"""Sessions over the library in this process. Without a library, that of LIVINGSTONE_LIBRARY or of library/out, none of this is
tried, and a line says so."""

from __future__ import annotations

import gc
import os
import threading
import unittest
from pathlib import Path
from typing import List

from livingstone import LibraryNotFound, LibraryTransport, Model, ModelRefused, PipeTransport, Refused, SessionEnded
from livingstone.text import is_silent

from . import test_session
from .support import EXAMPLES, ROOT, VALVE, model_texts

LIBRARY = os.environ.get("LIVINGSTONE_LIBRARY") or str(ROOT / "library" / "out" / "liblivingstone.so")
needs_library = unittest.skipUnless(Path(LIBRARY).is_file(), f"{LIBRARY} is not there: library/build makes it")


def lines_of(path: Path) -> List[bytes]:
    return [line for line in path.read_bytes().splitlines() if not line.strip().startswith(b"quit")]


@needs_library
class LibraryConversations(test_session.Conversations):
    """What sessions over the program come to, they come to over the library."""

    def setUp(self) -> None:
        self.session = Model(VALVE, library=LIBRARY).session()
        self.addCleanup(self.session.close)


@needs_library
class Libraries(unittest.TestCase):
    def test_replies_are_those_of_the_program(self) -> None:
        for model, session in [("valve.lv", "first.ses"), ("propulsion.lv", "propulsion.ses")]:
            program = PipeTransport(Model(str(EXAMPLES / model)).program, str(EXAMPLES / model))
            self.addCleanup(program.close)
            opened = Model(str(EXAMPLES / model), library=LIBRARY)
            library = opened.session()._transport
            self.assertIsInstance(library, LibraryTransport)
            for line in lines_of(EXAMPLES / session):
                if not is_silent(line):
                    self.assertEqual(library.exchange(line), program.exchange(line), line)

    def test_the_variable_names_it(self) -> None:
        before = os.environ.get("LIVINGSTONE_LIBRARY")
        os.environ["LIVINGSTONE_LIBRARY"] = LIBRARY
        try:
            self.assertIsInstance(Model(VALVE).session()._transport, LibraryTransport)
        finally:
            if before is None:
                del os.environ["LIVINGSTONE_LIBRARY"]
            else:
                os.environ["LIVINGSTONE_LIBRARY"] = before

    def test_sessions_in_turns(self) -> None:
        model = Model(VALVE, library=LIBRARY)
        sessions = [model.session() for _ in range(5)]
        for session in sessions[:3]:
            session.command("v.cmd", "open")
        first = [[str(move) for move in session.diagnose().candidates[0].moves] for session in sessions]
        self.assertEqual(first, 3 * [["v closed>open #1"]] + 2 * [[]])
        for session in sessions:
            session.close()

    def test_sessions_outlive_their_model(self) -> None:
        session = Model(VALVE, library=LIBRARY).session()
        session.model = None
        gc.collect()
        session.command("v.cmd", "open")
        self.assertEqual(session.diagnose().candidates[0].cost, 0)

    def test_refused_models(self) -> None:
        for verdict, name, text in model_texts():
            with self.subTest(name):
                try:
                    Model.from_text(text, library=LIBRARY)
                    told = "accepted"
                except ModelRefused as refused:
                    told = refused.said
                self.assertEqual(told, verdict)

    def test_certificates(self) -> None:
        model = Model(VALVE, library=LIBRARY)
        good = (EXAMPLES / "valve.cert").read_bytes()
        self.assertIsNone(model.check(good))
        cut = b"".join(good.splitlines(keepends=True)[:-1])
        self.assertEqual(model.check(cut), Model(VALVE).check(cut))
        session = model.session()
        session.diagnose()
        self.assertIsNone(model.check(session.certificate().text + "\n"))

    def test_closed_sessions_and_other_threads(self) -> None:
        model = Model(VALVE, library=LIBRARY)
        session = model.session()
        faults: List[BaseException] = []

        def elsewhere() -> None:
            try:
                session.diagnose()
            except RuntimeError as fault:
                faults.append(fault)

        thread = threading.Thread(target=elsewhere)
        thread.start()
        thread.join()
        self.assertEqual(len(faults), 1)
        with self.assertRaises(Refused):
            session.command("w.cmd", "open")
        session.close()
        session.close()
        with self.assertRaises(SessionEnded):
            session.diagnose()


class Missing(unittest.TestCase):
    def test_no_library(self) -> None:
        for name in (VALVE, "/nowhere/liblivingstone.so"):
            with self.assertRaises(LibraryNotFound):
                Model(VALVE, library=name)
