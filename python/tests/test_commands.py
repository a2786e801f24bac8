"""The commands of `lv`, each run in a process of its own; what they should say was worked out by hand."""

from __future__ import annotations

import json
import os
import unittest
from typing import Any, Dict, List
from xml.etree import ElementTree

from livingstone.commands.console import Completer
from livingstone.pictures import Box, Scene, draw
from livingstone.session import Model

from .support import EXAMPLES, FAKE, ROOT, VALVE, FolderTest, lv

COMMANDS = ("console", "explain", "lint", "why", "values", "plot", "netlist", "replay", "run")
FIRST = str(EXAMPLES / "first.ses")


class Everywhere(FolderTest):
    def test_help(self) -> None:
        for words in ["--help"], *([command, "--help"] for command in COMMANDS):
            status, out, _ = lv(*words)
            self.assertEqual(status, 0)
            self.assertIn("exit statuses", out)

    def test_statuses(self) -> None:
        refused = self.write("refused.lv", "domain bit\n")
        absent = str(self.folder / "absent")
        for words, status in (
            (["dance"], 2),
            (["lint"], 2),
            (["lint", refused], 3),
            (["lint", absent], 4),
            (["run", VALVE, absent], 5),
            (["explain", absent], 5),
            (["replay", refused], 10),
            (["lint", VALVE, "--program", absent], 10),
            (["values", VALVE, FIRST], 9),
        ):
            ended = lv(*words)
            self.assertEqual(ended[0], status, words)
            self.assertTrue(ended[2], words)
            self.assertNotIn("Traceback", ended[2])

    def test_a_refused_model_is_explained(self) -> None:
        refused = self.write("refused.lv", "domain bit off on\ntype t\nvariable x byte\n")
        _, _, err = lv("plot", refused)
        self.assertEqual(err.splitlines()[:3], [
            f"{refused}:3:12: M08: a name that isn't known here", "    variable x byte", "               ^",
        ])

    def test_a_program_that_goes_away(self) -> None:
        fake = self.write("model", "cut")
        status, _, err = lv("run", fake, FIRST, "--program", FAKE)
        self.assertEqual(status, 10)
        self.assertIn("when it was asked 'command v.cmd = open'", err)


class Explain(FolderTest):
    session = (
        "jump\ndiagnose\ngoal g v.out = some & v.inn = red\ncertificate\nobserve mode v.out = zero\n"
        "command w.cmd = open\n track $\n# quiet\nlabels 3\ncommand v.inn = some\ntrack 4 distinctly\ntrack 65 distinct"
    )
    # The lines, columns and codes of the refusals.
    places = [
        (1, 1, "S01"), (3, 31, "S06"), (5, 9, "S02"), (6, 9, "S03"), (7, 8, "S16"), (9, 8, "S09"), (10, 11, "S04"),
        (11, 9, "S02"), (12, 7, "S09"),
    ]

    def test_a_session(self) -> None:
        path = self.write("wrong.ses", self.session)
        status, out, _ = lv("explain", "--run", "--json", VALVE, path)
        self.assertEqual(status, 1)
        found = [(one["line"], one["column"], one["code"]) for one in json.loads(out)]
        self.assertEqual(found, self.places)

    def test_the_filter(self) -> None:
        path = self.write("wrong.ses", "diagnose\ncommand v.cmd = red\nstates\n")
        _, transcript, _ = lv("run", VALVE, path)
        status, out, _ = lv("explain", VALVE, path, given=transcript)
        self.assertEqual(status, 1)
        self.assertEqual(out.splitlines()[4:8], [
            "error S06", f"{path}:2:17: S06: the variable has no such value", "    command v.cmd = red",
            "                    ^",
        ])
        self.assertEqual(out.splitlines()[-2:], ["time 0 tracked 1", "1 cost 0: v=closed"])

    def test_a_model(self) -> None:
        path = self.write("wrong.lv", "domain bit off on\ntype t\nmode m\nend\npart p t n\n")
        status, out, _ = lv("explain", path, "--json", given="model 5 M08\n")
        self.assertEqual(status, 1)
        [told] = json.loads(out)
        self.assertEqual((told["line"], told["column"], told["source"]), (5, 10, "part p t n"))

    def test_carriage_returns(self) -> None:
        """One belongs to the end of a line; a second is a byte that isn't allowed, and the lines behind keep theirs."""
        path = self.folder / "returns.ses"
        path.write_bytes(b"states\r\n\r\n\r\r\ntrack 0\r\n")
        told = json.loads(lv("explain", "--run", "--json", VALVE, str(path))[1])
        self.assertEqual([(one["line"], one["column"], one["code"]) for one in told], [(3, 1, "S16"), (4, 7, "S09")])

    def test_nothing_refused(self) -> None:
        self.assertEqual(lv("explain", "--run", VALVE, FIRST)[0], 0)


class Lint(FolderTest):
    wrong = """# a model in which each line that is told is likely wrong
domain bit off on
domain order none open close
type v
\tcontrol cmd order
variable a bit
variable unused bit
observable o bit
mode good
mode bad
mode island
in good a = on
in good cmd = open => o = on
step good -> bad when a = off
step bad -> good when cmd = open
step bad -> bad when cmd = open & a = a
fault good -> bad cost 2
end
type lone
mode m
end
part p v good
price p.cmd = open 10
law p.cmd = none
"""

    def test_each_finding(self) -> None:
        status, out, _ = lv("lint", "--json", self.write("wrong.lv", self.wrong))
        self.assertEqual(status, 1)
        self.assertEqual([(one["line"], one["column"], one["code"]) for one in json.loads(out)], [
            (7, 10, "unread-variable"), (11, 6, "unreachable-mode"), (13, 9, "control-read"), (14, 18, "unmet-guard"),
            (16, 35, "same-sides"), (16, 17, "shadowed-step"), (17, 19, "dear-repair"), (19, 6, "unused-type"),
            (24, 5, "control-read"),
        ])

    def test_formulas_near_the_limit(self) -> None:
        start = "domain bit off on\ntype t\nvariable x bit\nmode m\nend\npart p t m\nlaw "
        for members, status in ((12, 1), (11, 0)):
            path = self.write("large.lv", start + "|".join(["(p.x=on&p.x=on)"] * members) + "\n")
            self.assertEqual(lv("lint", path)[0], status)

    def test_nothing_to_say(self) -> None:
        self.assertEqual(lv("lint", VALVE), (0, "", ""))


class Why(FolderTest):
    def why(self, session: str, model: str = VALVE) -> Dict[str, Any]:
        status, out, err = lv("why", "--json", model, self.write("why.ses", session))
        self.assertEqual((status, err), (0, ""))
        told: Dict[str, Any] = json.loads(out)
        return told

    def test_two_observations(self) -> None:
        told = self.why("observe a v.out = zero\nobserve b v.out = some\ndiagnose\n")
        self.assertEqual(told["line"], 3)
        found = [(one["kind"], one["line"], one["text"]) for one in told["contradiction"]]
        self.assertEqual(found, [("observation", 1, "a v.out = zero"), ("observation", 2, "b v.out = some")])

    def test_behind_a_commit(self) -> None:
        """A valve that was found stuck closed lets nothing through."""
        told = self.why("command v.cmd = open\nobserve a v.out = zero\ndiagnose\ncommit\n"
                        "observe b v.out = some\ndiagnose\n")
        self.assertEqual(told["states"], [{"v": "stuck_closed"}])
        found = [(one["kind"], one["line"]) for one in told["contradiction"]]
        self.assertEqual(found, [("mode formula", 14), ("observation", 5)])

    def test_a_present_observation(self) -> None:
        """Without faults and steps the part stays, and a law ties what is seen to what was seen before."""
        model = self.write("fixed.lv", "domain bit off on\ntype t\nobservable x bit\nmode on_\nmode off_\n"
                                       "in on_ x = on\nin off_ x = off\nfault on_ -> on_ cost 1\nend\n"
                                       "part p t on_\npart q t off_\n")
        told = self.why("observe a p.x = on\ndiagnose\ncommit\nobserve b p.x = off\ndiagnose\n", model)
        found = [(one["kind"], one["line"], one["part"]) for one in told["contradiction"]]
        self.assertEqual(found, [("mode formula", 6, "p"), ("observation", 4, "p")])

    def test_which_part_of_a_type(self) -> None:
        model = str(ROOT / "tests" / "sessions" / "series.lv")
        told = self.why("observe a v1.out = zero\nobserve b v2.out = some\ndiagnose\n", model)
        found = [(one["kind"], one["part"], one["text"]) for one in told["contradiction"]]
        self.assertEqual(found[-3:], [
            ("system law", "", "law v2.inn=v1.out"), ("observation", "v1", "a v1.out = zero"),
            ("observation", "v2", "b v2.out = some"),
        ])
        self.assertEqual({part for _, part, _ in found[:-3]}, {"v2"})

    def test_nothing_to_explain(self) -> None:
        status, out, err = lv("why", VALVE, FIRST)
        self.assertEqual((status, out), (1, ""))
        self.assertIn("nothing to explain", err)


class Values(FolderTest):
    def test_the_worked_certificate(self) -> None:
        status, out, _ = lv("values", "--json", VALVE, str(EXAMPLES / "valve.cert"))
        self.assertEqual(status, 0)
        told = json.loads(out)
        self.assertEqual(told["commands"], {"v.cmd": "open"})
        self.assertEqual(told["facts"], [{"when": "next", "variable": "v.out", "value": "zero"}])
        [listed] = told["listed"]
        self.assertEqual((listed["cost"], listed["moves"]), (3, ["v closed>stuck_closed #3"]))
        self.assertEqual(listed["next"], {"v.mode": "stuck_closed", "v.cmd": "none", "v.inn": "some", "v.out": "zero"})
        self.assertEqual([one["given"] for one in told["excluded"]],
                         [["v closed>open #1"], ["v closed stay"], ["v closed>stuck_open #6"]])
        # The statements that docs/CERTIFICATES.md names for the line: it is open after, nothing comes out, so
        # nothing comes in, but something does.
        lines = {one["line"] for one in told["excluded"][0]["because"] if "line" in one}
        self.assertEqual(lines, {13, 16, 24})
        self.assertEqual(told["left"], [])

    def test_a_recovery(self) -> None:
        with Model(VALVE).session() as session:
            session.goal("g", "v.out = some")
            session.recover()
            path = self.write("recovery.cert", session.certificate().text + "\n")
        status, out, _ = lv("values", "--json", VALVE, path)
        told = json.loads(out)
        self.assertEqual((status, told["recovery"], told["goals"]), (0, {"v.cmd": "open"}, ["v.out=some"]))
        self.assertEqual(told["listed"][0]["next"]["v.out"], "some")
        self.assertEqual([one["given"] for one in told["excluded"]], [["v.cmd=none"]])
        self.assertIn("answer: recover by v.cmd=open", lv("values", "--steps", VALVE, path)[1])

    def test_no_recovery(self) -> None:
        """Without its law a valve that is told to open meets the goal in one step and misses it in another."""
        text = (EXAMPLES / "valve.lv").read_text()
        model = self.write("loose.lv", text.replace("law v.inn = some\n", ""))
        with Model(model).session() as session:
            session.goal("g", "v.out = some")
            session.recover()
            path = self.write("loose.cert", session.certificate().text + "\n")
        told = json.loads(lv("values", "--json", model, path)[1])
        self.assertIsNone(told["recovery"])
        counters = [one for one in told["excluded"] if "settings" in one]
        self.assertEqual([one["settings"] for one in counters], [{"v.cmd": "open"}])
        self.assertEqual(counters[0]["next"]["v.out"], "zero")

    def test_a_bad_certificate(self) -> None:
        text = (EXAMPLES / "valve.cert").read_text().replace("117 92 116 39 44 35 0", "117 92 116 39 44 0")
        status, out, err = lv("values", VALVE, self.write("bad.cert", text))
        self.assertEqual((status, out), (9, ""))
        self.assertIn("bad.cert:11:", err)


class Plot(FolderTest):
    svg = "{http://www.w3.org/2000/svg}"

    def texts(self, path: str) -> List[str]:
        return [element.text or "" for element in ElementTree.parse(path).iter(f"{self.svg}text")]

    def test_a_model(self) -> None:
        prefix = str(self.folder / "valve")
        status, out, _ = lv("plot", VALVE, "--out", prefix)
        self.assertEqual((status, out), (0, f"{prefix}.svg\n"))
        self.assertEqual(self.texts(f"{prefix}.svg")[:3], ["valve: as it starts", "v : valve", "closed"])

    def test_the_cycles_of_a_session(self) -> None:
        session = self.write("cycles.ses", "command v.cmd = open\nobserve o v.out = zero\ndiagnose\ncommit\n"
                                           "goal g v.out = some\nrecover\nquit\nstates\n")
        prefix = str(self.folder / "cycles")
        status, out, _ = lv("plot", "--json", VALVE, session, "--out", prefix)
        self.assertEqual(status, 0)
        self.assertEqual([one["title"] for one in json.loads(out)],
                         ["valve, time 0: candidate 1 of 1, cost 3", "valve, time 1: no recovery"])
        first = self.texts(f"{prefix}-1.svg")
        self.assertEqual(first[1:5], ["v : valve", "closed > stuck_closed", "cmd := open", "out seen zero"])
        self.assertIn("conflict 3: v closed>stuck_open #6", first)
        fills = [element.get("fill") for element in ElementTree.parse(f"{prefix}-1.svg").iter(f"{self.svg}rect")]
        self.assertIn("#fadbd8", fills)
        self.assertIn("stuck_closed", self.texts(f"{prefix}-2.svg"))

    def test_texts_are_escaped(self) -> None:
        path = self.write("escaped.lv", "domain bit off on\ntype t\nvariable x bit\nmode m\nend\npart p t m\n"
                                        "part q t m\nlaw p.x = on & q.x = on <=> p.x = q.x\n")
        prefix = str(self.folder / "escaped")
        self.assertEqual(lv("plot", path, "--out", prefix)[0], 0)
        titles = [element.text for element in ElementTree.parse(f"{prefix}.svg").iter(f"{self.svg}title")]
        self.assertIn("p.x=on&q.x=on<=>p.x=q.x", titles)
        plant = Model(path).plant
        boxes = {"p": Box(["<script>"]), "q": Box(["m"])}
        svg = draw(plant, Scene("<&\"'>", boxes, [("<&>", frozenset({"p"}))], "<b>"))
        self.assertIn("<&\"'>", [element.text for element in ElementTree.fromstring(svg).iter(f"{self.svg}text")])
        self.assertNotIn("<script>", svg)


class Netlists(FolderTest):
    def setUp(self) -> None:
        super().setUp()
        self.nets = EXAMPLES / "netlists"

    def test_the_examples_are_what_is_made(self) -> None:
        """The stored models and sessions, made by the words of examples/netlists/README.md."""
        for name, words in (
            ("c17", ["--stuck", "16=0", "--vector", "10110", "--vector", "00010"]),
            ("adder", ["--stuck", "f1_c=0", "--vector", "110011000", "--vector", "111110000", "--track", "3"]),
            ("multiplier", ["--stuck", "m1_1_c=1", "--vector", "101011", "--track", "5"]),
        ):
            made = [str(self.folder / f"{name}.{end}") for end in ("lv", "ses")]
            bench = str(self.nets / f"{name}.bench")
            self.assertEqual(lv("netlist", bench, *words, "--model", made[0], "--session", made[1])[0], 0)
            for path in made:
                with open(path) as new, open(self.nets / os.path.basename(path)) as old:
                    self.assertEqual(new.read(), old.read(), path)

    def test_a_wrong_netlist(self) -> None:
        for text, said in (
            ("INPUT(a)\nb = NAND(a)\n", "line 2: NAND has two to eight inputs"),
            ("INPUT(a)\nb = DFF(a)\n", "line 2: no gate is called DFF"),
            ("INPUT(a)\nINPUT(a)\n", "line 2: the net a is given twice"),
            ("b = NOT(a)\n", "nothing gives the net a"),
            ("INPUT(c)\na = AND(b, c)\nb = AND(a, c)\n", "the gates form a loop: a, b"),
            ("hello\n", "line 1: the line is neither"),
            ("INPUT(a)\n", "there is no gate"),
        ):
            status, _, err = lv("netlist", self.write("wrong.bench", text))
            self.assertEqual(status, 1)
            self.assertIn(said, err)

    def test_names(self) -> None:
        """Nets whose names are no words of the model language, or come to the same, or are too long."""
        long = "x" * 70
        path = self.write("names.bench", f"INPUT(mode)\nINPUT(a[0])\nINPUT(na_0_)\nINPUT({long}1)\nINPUT({long}2)\n"
                                         f"z = AND(mode, a[0], na_0_, {long}1, {long}2)\n")
        status, out, _ = lv("netlist", path)
        self.assertEqual(status, 0)
        parts = list(Model.from_text(out).plant.parts)
        self.assertEqual(parts, ["nmode", "na_0_", "na_0__2", "x" * 60, "x" * 60 + "_2", "z"])

    def test_each_gate(self) -> None:
        """A gate's model allows just the outputs of the gate: where it is sound, one value is contradicted."""
        for kind, ones in (("AND", "11"), ("NAND", "00 01 10"), ("OR", "01 10 11"), ("NOR", "00"), ("XOR", "01 10"),
                           ("XNOR", "00 11")):
            path = self.write("gate.bench", f"INPUT(a)\nINPUT(b)\nOUTPUT(true)\ntrue = {kind}(a, b)\n")
            model = Model.from_text(lv("netlist", path)[1])
            for bits in ("00", "01", "10", "11"):
                with model.session() as session:
                    for name, bit in zip("ab", bits):
                        session.observe(name, f"{name}.out", "one" if bit == "1" else "zero")
                    session.observe("o", "ntrue.out", "one" if bits in ones.split() else "zero")
                    self.assertEqual(session.diagnose().candidates[0].cost, 0, (kind, bits))
                    session.retract("o")
                    session.observe("o", "ntrue.out", "zero" if bits in ones.split() else "one")
                    self.assertEqual(session.diagnose().candidates[0].cost, 10, (kind, bits))


class Recorded(FolderTest):
    session = "command v.cmd = open\njump\nobserve o v.out = zero\n# nothing\ndiagnose\nstates\n"

    def record(self) -> str:
        log = str(self.folder / "session.log")
        status, out, _ = lv("run", VALVE, self.write("said.ses", self.session), "--log", log)
        self.assertEqual(status, 1)
        self.assertEqual(out, "ok\nerror S01\nok\nsettled 1\n1 cost 3 from 1: v closed>stuck_closed #3\n"
                              "time 0 tracked 1\n1 cost 0: v=closed\n")
        return log

    def test_served_again(self) -> None:
        log = self.record()
        status, out, _ = lv("replay", log, "--go-on", given="conflicts\n")
        self.assertEqual(status, 0)
        self.assertEqual(out.splitlines()[:2], ["6 lines served again, 0 answered otherwise", "conflicts 3 trials 4"])
        self.assertEqual(lv("replay", "--show", log)[1].splitlines()[:2], ["> command v.cmd = open", "ok"])

    def test_to_where_it_stopped(self) -> None:
        """A log that was cut off behind a line: the line is told, and not asked."""
        log = self.record()
        with open(log) as stream:
            lines = stream.readlines()
        cut = self.write("cut.log", "".join(lines[:-1]) + lines[-1][:9])
        status, out, _ = lv("replay", "--json", cut)
        self.assertEqual((status, json.loads(out)), (0, {"lines": 5, "unanswered": "states", "differences": []}))

    def test_another_answer(self) -> None:
        log = self.record()
        with open(log) as stream:
            changed = stream.read().replace("settled 1\\n1 cost 3", "settled 1\\n1 cost 4")
        status, out, _ = lv("replay", "--json", self.write("changed.log", changed))
        self.assertEqual(status, 1)
        self.assertEqual([one["number"] for one in json.loads(out)["differences"]], [5])

    def test_json(self) -> None:
        status, out, _ = lv("run", "--json", VALVE, FIRST)
        self.assertEqual(status, 0)
        self.assertEqual([json.loads(line)["reply"] for line in out.splitlines()], ["accepted", "diagnosis"])


class Console(FolderTest):
    def test_lines_from_a_pipe(self) -> None:
        given = "budget 3\njump\ncommand v.cmd = open\nobserve o v.out = zero\ndiagnose\nmore 1\nquit\nstates\n"
        status, out, _ = lv("console", "--slice", "1", VALVE, given=given)
        self.assertEqual(status, 0)
        lines = out.splitlines()
        self.assertEqual(lines[0], "ok")
        self.assertTrue(lines[1].startswith("S01: the first word is none of a session's"))
        self.assertEqual(lines[4:], ["unsettled 1 trials 3", "1 cost 3 from 1: v closed>stuck_closed #3", "settled 1",
                                     "1 cost 3 from 1: v closed>stuck_closed #3", "ok"])

    def test_a_recovery_and_the_budget_of_a_reset(self) -> None:
        given = "recover\nbudget 1\nreset\ngoal g v.out = some\nrecover\nmore 0\n"
        lines = lv("console", VALVE, given=given)[1].splitlines()
        self.assertTrue(lines[0].startswith("S13"))
        self.assertEqual(lines[4], "recovery cost 1: v.cmd=open")
        self.assertTrue(lines[5].startswith("S09"))

    def test_bytes_that_are_no_text(self) -> None:
        status, out, err = lv("console", VALVE, given="track \udcff\n\udcfe\nstates\n")
        self.assertEqual((status, err), (0, ""))
        heads = [line.split(":")[0] for line in out.splitlines()]
        self.assertEqual(heads, ["S16", "S16", "time 0 tracked 1", "1 cost 0"])

    def test_completion(self) -> None:
        completer = Completer(Model(VALVE).plant)
        self.assertEqual(completer.options("", "co"), ["command", "conflicts", "commit"])
        self.assertEqual(completer.options("command ", ""), ["v.cmd"])
        self.assertEqual(completer.options("observe o ", ""), ["v.out"])
        self.assertEqual(completer.options("observe ", ""), [])
        self.assertEqual(completer.options("command v.cmd = ", "c"), ["close"])
        self.assertEqual(completer.options("goal g v.out = some & ", "v.i"), ["v.inn"])
        self.assertEqual(completer.options("goal g v.mode =", "st"), ["stuck_closed", "stuck_open"])


if __name__ == "__main__":
    unittest.main()
