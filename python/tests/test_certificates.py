"""Certificates that the program writes: each refutation follows over the clauses as they are numbered here."""

from __future__ import annotations

import unittest
from pathlib import Path
from typing import List, Sequence, Set, Tuple

from livingstone import Model
from livingstone.certificate import Block, CertificateText, Namer, Shown, read_certificate, zones_of

from .support import EXAMPLES, ROOT, VALVE


def follows(clauses: Sequence[Tuple[int, ...]], literals: List[int], hints: List[int]) -> bool:
    """Whether a clause follows by its hints, as docs/CERTIFICATES.md says it."""
    true: Set[int] = {-literal for literal in literals}
    for place, hint in enumerate(hints, 1):
        left = [literal for literal in clauses[hint - 1] if -literal not in true]
        if not left:
            return place == len(hints)
        if len(left) > 1:
            return False
        true.add(left[0])
    return False


class Certificates(unittest.TestCase):
    def read(self, path: str, lines: Sequence[str]) -> Namer:
        """The certificate of the last query of a session."""
        model = Model(path)
        with model.session() as session:
            for line in lines:
                session.ask(line)
            return Namer(model.plant, read_certificate(session.certificate().text))

    def judge(self, namer: Namer) -> int:
        """Judges each clause line; answers how many there were."""
        judged = 0
        blocks = [*namer.text.proofs, *(one for one in namer.text.conflicts if isinstance(one, Block))]
        for block in blocks:
            clauses, origins = namer.numbered(block)
            for number, (literals, hints) in enumerate(block.lines, len(origins)):
                self.assertTrue(follows(clauses[:number], literals, hints), (block.kind, literals, hints))
                judged += 1
            self.assertEqual(block.lines[-1][0], [])
        return judged

    def test_diagnoses(self) -> None:
        stuck = ["command v.cmd = open", "observe o v.out = zero", "diagnose"]
        self.assertGreater(self.judge(self.read(VALVE, stuck)), 0)
        series = ["command v1.cmd = open", "command v2.cmd = open", "observe o v2.out = zero", "diagnose"]
        self.assertGreater(self.judge(self.read(str(ROOT / "tests/sessions/series.lv"), series)), 0)
        circuit = str(EXAMPLES / "netlists" / "c17")
        lines = [line for line in Path(f"{circuit}.ses").read_text().splitlines() if not line.startswith("#")]
        self.assertGreater(self.judge(self.read(f"{circuit}.lv", lines)), 0)

    def test_recoveries(self) -> None:
        self.assertGreater(self.judge(self.read(VALVE, ["goal g v.out = some", "recover"])), 0)
        thrust = ["goal g main_engine.thrust = some", "goal h helium.driven = fuel_tank.driven", "recover"]
        self.assertGreater(self.judge(self.read(str(EXAMPLES / "propulsion.lv"), thrust)), 0)
        stuck = ["observe o v.out = zero", "diagnose", "commit", "goal g v.out = some", "recover"]
        self.assertGreater(self.judge(self.read(VALVE, stuck)), 0)

    def test_a_wrong_hint(self) -> None:
        """The judge above is one that refuses."""
        clauses = [(1, 2), (-1,), (-2, 3)]
        self.assertTrue(follows(clauses, [3], [3, 1, 2]))
        self.assertFalse(follows(clauses, [3], [3, 1]))
        self.assertFalse(follows(clauses, [3], [1, 2, 3]))

    def test_what_zones_leave(self) -> None:
        """One that lists as many as were asked for leaves the rest behind them; the worked one leaves none."""
        worked = read_certificate((EXAMPLES / "valve.cert").read_text())
        zones, split = zones_of(Namer(Model(VALVE).plant, worked))
        self.assertEqual([(zone, source) for zone, (source, _) in split], [(1, 1), (2, 1), (3, 1), (4, 1)])
        self.assertEqual(list(zones.items()), [(5, (1, [set()]))])
        one = CertificateText("diagnosis", 1, [(0, [1])], shown=[Shown("listed", 1, [2])], splits=[(1, "listed", 1)])
        zones, _ = zones_of(Namer(Model(VALVE).plant, one))
        self.assertEqual(zones, {2: (1, [{1, 3, 4}])})


if __name__ == "__main__":
    unittest.main()
