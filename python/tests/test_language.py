"""The reader of model texts, against the table of texts that the repository's gate runs the program over."""

from __future__ import annotations

import dataclasses
import unittest
from typing import Any

from livingstone.clauses import ModelClauses
from livingstone.declarations import read_plant
from livingstone.formula import Formula, Or, Reader, TooManyClauses, clause_count, text_of, truth
from livingstone.plant import Plant
from livingstone.session import Model
from livingstone.syntax import ModelFault
from livingstone.text import BadByte, LongLine, first_word, is_silent, tokens

from .support import EXAMPLES, VALVE, model_texts


def formula(text: str) -> Formula:
    return Reader(tokens(text.encode())).formula()


def without_places(thing: Any) -> Any:
    """What a plant declares, without the lines that declare it."""
    if isinstance(thing, dict):
        return {key: without_places(value) for key, value in thing.items() if key != "line"}
    if isinstance(thing, (list, tuple)):
        return [without_places(item) for item in thing]
    return thing


def declared(plant: Plant) -> Any:
    plain = dataclasses.asdict(dataclasses.replace(plant, prices={}))
    return without_places(plain), sorted(plant.prices.items())


class Texts(unittest.TestCase):
    def test_each_text_has_its_verdict(self) -> None:
        verdicts = []
        for verdict, name, data in model_texts():
            with self.subTest(name):
                verdicts.append(verdict)
                try:
                    read_plant(data)
                    self.assertEqual(verdict, "accepted")
                except ModelFault as fault:
                    self.assertEqual(verdict, str(fault))
        self.assertGreater(verdicts.count("accepted"), 100)
        self.assertGreater(len(verdicts), 400)

    def test_what_the_program_prints_declares_the_same(self) -> None:
        for verdict, name, data in model_texts():
            if verdict == "accepted":
                with self.subTest(name):
                    model = Model.from_text(data)
                    self.assertEqual(declared(model.plant), declared(read_plant(data)))

    def test_a_text_that_is_too_long(self) -> None:
        with self.assertRaises(ModelFault) as raised:
            read_plant(b"\n" * 4_194_305)
        self.assertEqual(str(raised.exception), "model 0 M01")


class Columns(unittest.TestCase):
    """The byte in its line, from 1, at which a text is wrong: counted by hand."""

    start = "domain bit off on\ntype t\nvariable x bit\nmode m\nend\npart p t m\n"

    def column(self, line: str, code: str) -> int:
        with self.assertRaises(ModelFault) as raised:
            read_plant((self.start + line).encode())
        self.assertEqual((raised.exception.line, raised.exception.code), (7, code))
        return raised.exception.column

    def test_columns(self) -> None:
        self.assertEqual(self.column("law p.x $ on", "M02"), 9)
        self.assertEqual(self.column("  jump", "M04"), 3)
        self.assertEqual(self.column("law p.x = ", "M05"), 10)
        self.assertEqual(self.column("part mode t m", "M05"), 6)
        self.assertEqual(self.column("price p.x = on 9000000", "M06"), 16)
        self.assertEqual(self.column("part p t m", "M07"), 6)
        self.assertEqual(self.column("law p.x = on & p.y = on", "M08"), 16)
        self.assertEqual(self.column("law p.x = red", "M09"), 11)
        self.assertEqual(self.column("\tend", "M10"), 2)
        self.assertEqual(self.column("law " + "(" * 65, "M13"), 69)
        self.assertEqual(self.column("law " + "|".join(["(p.x=on&p.x=on)"] * 13), "M14"), 5)


class Lines(unittest.TestCase):
    def test_tokens(self) -> None:
        found = [(token.kind, token.text, token.start) for token in tokens(b"a<=>0b_ #".replace(b"0b", b"7 b"))]
        self.assertEqual(found, [("word", "a", 0), ("symbol", "<=>", 1), ("number", "7", 4), ("word", "b_", 6)])
        for line, place in ((b"law 22x", 6), (b"a - b", 2), (b"a < b", 2), (b"a \xff", 2)):
            with self.assertRaises(BadByte) as raised:
                tokens(line)
            self.assertEqual(raised.exception.place, place)
        with self.assertRaises(LongLine):
            tokens(b"#" * 4097)

    def test_lines_without_a_reply(self) -> None:
        for line in (b"", b" \t", b"# x", b"\r", b"#" * 4096, b"  # \xff"):
            self.assertTrue(is_silent(line), line)
        for line in (b"quit", b"\r\r", b"#" * 4097, b"\xff", b"1"):
            self.assertFalse(is_silent(line), line)
        self.assertEqual(first_word(b" \tstates#"), "states")
        self.assertEqual(first_word(b"1 states"), "")


class Formulas(unittest.TestCase):
    def test_canonical_text(self) -> None:
        for given, canonical in (
            ("! ( a = x ) & b = y", "!a=x&b=y"),
            ("(a = x & b = y) & c = z", "(a=x&b=y)&c=z"),
            ("(a = x => b = y) => c = z", "(a=x=>b=y)=>c=z"),
            ("a = x => (b = y <=> c = z)", "a=x=>(b=y<=>c=z)"),
            ("!(true | false)", "!(true|false)"),
        ):
            self.assertEqual(text_of(formula(given)), canonical)

    def test_truth(self) -> None:
        law = read_plant((EXAMPLES / "valve.lv").read_bytes()).types["valve"].rules[1].formula
        self.assertEqual(text_of(law), "out=inn")
        self.assertIs(truth(law, {"out": "some", "inn": "some"}), True)
        self.assertIs(truth(law, {"out": "some", "inn": "zero"}), False)
        self.assertIsNone(truth(law, {"out": "some"}))

    def test_counts(self) -> None:
        """By the table of MODEL_LANGUAGE.md: a product of twelve twos is the most that is allowed."""
        text = "domain bit off on\ntype t\nvariable x bit\nmode m\nlaw {}\nend\npart p t m\n"
        full = read_plant(text.format("|".join(["(x=on&x=on)"] * 12)).encode()).types["t"].rules[0].formula
        self.assertEqual(clause_count(full, True, lambda name: 2), 4096)
        self.assertEqual(clause_count(full, False, lambda name: 2), 12)
        nested = "x=on" + "<=>x=on" * 200
        with self.assertRaises(ModelFault) as raised:
            read_plant(text.format(nested).encode())
        self.assertEqual(raised.exception.code, "M14")
        with self.assertRaises(TooManyClauses):
            clause_count(Or((full, full)), True, lambda name: 2)
        equivalences = Reader(tokens(b"true" + b"<=>true" * 255)).formula()
        self.assertEqual(clause_count(equivalences, True, lambda name: 2), 0)
        self.assertEqual(clause_count(equivalences, False, lambda name: 2), 1)


class Clauses(unittest.TestCase):
    def test_the_valve(self) -> None:
        """The clauses that docs/CERTIFICATES.md names, with their numbers, and the lines of the canonical text that say them."""
        compiled = ModelClauses(Model(VALVE).plant)
        self.assertEqual(len(compiled.clauses), 114)
        wanted = {
            35: ((-19, -20), 0), 39: ((-13, -21, 19), 14), 42: ((-15, -21, 19), 16), 44: ((20,), 25),
            92: ((-23, 13), 17), 96: ((-24, -6), 17), 100: ((-26, 15), 22),
        }
        for number, (clause, line) in wanted.items():
            found, origin = compiled.clauses[number - 1]
            self.assertEqual((found, origin.line), (clause, line))

    def test_how_many_others_have(self) -> None:
        """Counts that a reference program apart from this repository came to."""
        others = {"propulsion.lv": 1798, "../tests/sessions/series.lv": 230, "../tests/sessions/split.lv": 34}
        for name, count in others.items():
            self.assertEqual(len(ModelClauses(Model(str(EXAMPLES / name)).plant).clauses), count)


if __name__ == "__main__":
    unittest.main()
