"""Sessions over the program, replies as objects, and conversations that break off."""

from __future__ import annotations

import json
import signal
import unittest
from typing import Any, List, Tuple

from livingstone import (
    Accepted,
    BadReply,
    Candidate,
    Conflicts,
    Diagnosis,
    Label,
    Labels,
    Model,
    ModelRefused,
    Move,
    ProgramFailed,
    ProgramNotFound,
    Recovery,
    Refusal,
    Refused,
    ReplyCut,
    Session,
    SessionEnded,
    Setting,
    Silence,
)
from livingstone.history import Held
from livingstone.replies import parse_reply
from livingstone.transport import PipeTransport

from .support import FAKE, VALVE, FolderTest

STUCK = Move("v", "closed", "stuck_closed", 3)


class Conversations(unittest.TestCase):
    """What a session over the valve comes to; the replies are those that docs/SESSION_LANGUAGE.md shows."""

    def setUp(self) -> None:
        self.session = Model(VALVE).session()
        self.addCleanup(self.session.close)

    def ask_for_the_stuck_valve(self) -> None:
        self.session.command("v.cmd", "open")
        self.session.observe("o", "v.out", "zero")

    def test_a_diagnosis(self) -> None:
        self.ask_for_the_stuck_valve()
        diagnosis = self.session.diagnose()
        self.assertTrue(diagnosis.settled)
        self.assertEqual(diagnosis.candidates, (Candidate(1, 3, 1, (STUCK,)),))
        conflicts = self.session.conflicts()
        self.assertEqual(conflicts.trials, 4)
        self.assertEqual([str(items[0]) for items in conflicts.conflicts],
                         ["v closed>open #1", "v closed stay", "v closed>stuck_open #6"])
        self.assertTrue(conflicts.conflicts[1][0].is_stay)
        labels = self.session.labels(1)
        self.assertEqual(labels.labels[0], Label("now", "v.mode", "closed"))
        self.assertEqual(len(labels.labels), 7)
        self.assertEqual(self.session.commit().tracked, 1)
        states = self.session.states()
        self.assertEqual((states.time, states.states[0].cost, states.states[0].modes), (1, 3, {"v": "stuck_closed"}))

    def test_a_recovery(self) -> None:
        self.session.goal("g", "v.out = some")
        recovery = self.session.recover()
        self.assertEqual((recovery.cost, recovery.settings), (1, (Setting("v.cmd", "open"),)))
        self.assertEqual(self.session.conflicts().conflicts, ((Setting("v.cmd", "none"),),))
        self.session.drop("g")
        self.session.goal("g", "v.mode = stuck_open")
        self.assertIsNone(self.session.recover().settings)

    def test_slices_come_to_the_same(self) -> None:
        self.ask_for_the_stuck_valve()
        looks: List[Tuple[int, int]] = []
        sliced = self.session.in_slices("diagnose", 1, 10, lambda made, allowed: looks.append((made, allowed)))
        self.assertEqual(sliced.text, "settled 1\n1 cost 3 from 1: v closed>stuck_closed #3")
        self.assertEqual(looks, [(1, 10), (2, 10), (3, 10)])

    def test_slices_keep_to_the_budget(self) -> None:
        self.ask_for_the_stuck_valve()
        first = self.session.in_slices("diagnose", 100, 3, lambda made, allowed: None)
        self.assertEqual(first.text.splitlines()[0], "unsettled 1 trials 3")
        self.assertEqual(self.session.in_slices("more", 100, 1, lambda made, allowed: None).text[:9], "settled 1")

    def test_refusals(self) -> None:
        with self.assertRaises(Refused) as raised:
            self.session.command("w.cmd", "open")
        self.assertEqual((raised.exception.code, raised.exception.asked), ("S03", "command w.cmd = open"))
        self.assertIn("no such part", raised.exception.meaning)
        for line, code in (("track 0", "S09"), ("track 65 distinct", "S09"), ("track distinct", "S02"), ("track 4 distinct x", "S02")):
            reply = self.session.ask(line, refusals=False)
            assert isinstance(reply, Refusal)
            self.assertEqual(reply.code, code)
        self.session.track(4, distinct=True)
        with self.assertRaises(Refused):
            self.session.more(1)

    def test_lines_without_a_reply(self) -> None:
        for line in ("", "# x", " \t", "\r"):
            self.assertIsInstance(self.session.ask(line), Silence)
        self.assertEqual(self.session.ask("#" * 4097, refusals=False).text, "error S15")
        self.assertEqual(self.session.ask("\r\r", refusals=False).text, "error S16")
        self.assertEqual(self.session.ask("\udcff", refusals=False).text, "error S16")
        with self.assertRaises(ValueError):
            self.session.ask("track 1\ntrack 2")
        self.assertIsInstance(self.session.ask("quit # now"), Accepted)
        with self.assertRaises(SessionEnded):
            self.session.states()

    def test_json(self) -> None:
        self.ask_for_the_stuck_valve()
        told = json.loads(self.session.diagnose().to_json())
        self.assertEqual(told["reply"], "diagnosis")
        self.assertEqual(told["candidates"][0]["moves"][0],
                         {"part": "v", "source": "closed", "target": "stuck_closed", "number": 3})

    def test_certificates(self) -> None:
        self.ask_for_the_stuck_valve()
        self.session.diagnose()
        certificate = self.session.certificate()
        self.assertEqual(certificate.about, "diagnosis")
        model = Model(VALVE)
        self.assertIsNone(model.check(certificate.text + "\n"))
        self.assertEqual(model.check("certificate diagnosis\n"), 2)

    def test_two_sessions_of_one_model(self) -> None:
        with self.session.model.session() as other:  # type: ignore[union-attr]
            self.ask_for_the_stuck_valve()
            self.assertEqual(len(other.diagnose().candidates), 3)
            self.assertEqual(len(self.session.diagnose().candidates), 1)


class Replies(unittest.TestCase):
    def test_forms(self) -> None:
        self.assertEqual(parse_reply("recover", "unsettled trials 7"), Recovery("unsettled trials 7", False, trials=7))
        unsettled = parse_reply("more 1", "unsettled 0 trials 7")
        self.assertEqual(unsettled, Diagnosis("unsettled 0 trials 7", False, (), 7))
        self.assertEqual(parse_reply("labels", "contradiction"), Labels("contradiction", True, ()))
        empty = parse_reply("conflicts", "conflicts 1 trials 1\n1: -")
        assert isinstance(empty, Conflicts)
        self.assertEqual(empty.conflicts, ((),))
        resting = parse_reply("recover", "recovery cost 0: -")
        assert isinstance(resting, Recovery)
        self.assertEqual((resting.cost, resting.settings), (0, ()))

    def test_the_reply_of_a_window(self) -> None:
        text = "settled 2\n1 cost 0 from 1: v closed>open #1 ; -\n2 cost 5 from 1: v closed>open #1 ; v open>stuck_open #4"
        reply = parse_reply("window 2", text)
        opens, sticks = Move("v", "closed", "open", 1), Move("v", "open", "stuck_open", 4)
        self.assertEqual(reply, Diagnosis(text, True, (Candidate(1, 0, 1, (opens,), ((),)), Candidate(2, 5, 1, (opens,), ((sticks,),)))))
        text = "conflicts 2 trials 3\n1: at 1 v open>closed #2\n2: at 0 v closed stay, at 1 v closed stay"
        reply = parse_reply("conflicts", text)
        stays = (Move("v", "closed", "closed", None, 0), Move("v", "closed", "closed", None, 1))
        self.assertEqual(reply, Conflicts(text, 3, ((Move("v", "open", "closed", 2, 1),), stays)))
        self.assertEqual(str(stays[1]), "at 1 v closed stay")

    def test_what_is_held_when_an_earlier_observation_goes(self) -> None:
        held = Held()
        for number, (line, reply) in enumerate([
            ("observe a v.out = zero", "ok"), ("commit", "time 1 tracked 1"), ("observe b v.out = zero", "ok"), ("commit", "time 2 tracked 1"),
            ("observe a v.out = some", "ok"), ("retract a at 1", "ok"),
        ], 1):
            held.take(number, line.encode(), parse_reply(line, reply))
        self.assertEqual(sorted(held.observations), ["a", "b"])
        held.take(7, b"retract b at 2", parse_reply("retract", "ok"))
        held.take(8, b"retract a at 3", parse_reply("retract", "ok"))
        self.assertEqual(held.observations, {})

    def test_no_form(self) -> None:
        for text in ("", "okay", "settled 2\n1 cost 0 from 1: -", "settled x", "1 cost", "labels 1\nthen a = b",
                     "settled 1\n1 cost 0 from 1: v closed>open", "certificate diagnosis\nmodel v", "error S1",
                     "recovery cost 1: v.cmd", "conflicts 1", "time 1", "time 0 tracked 2\n1 cost 0: v=a"):
            with self.assertRaises(BadReply, msg=text) as raised:
                parse_reply("states", text)
            self.assertEqual(raised.exception.text, text)


class BrokenConversations(FolderTest):
    """Over a program that ends, babbles or is slow, as no proved one does."""

    def open(self, kind: str) -> Session:
        session = Session(PipeTransport(FAKE, self.write("model", kind)))
        self.addCleanup(session.close)
        return session

    def test_a_dead_process(self) -> None:
        session = self.open("die")
        with self.assertRaises(ReplyCut) as raised:
            session.diagnose()
        self.assertEqual((raised.exception.asked, raised.exception.status, raised.exception.got), ("diagnose", 7, ""))
        with self.assertRaises(ReplyCut):
            session.states()

    def test_a_reply_cut_off(self) -> None:
        with self.assertRaises(ReplyCut) as raised:
            self.open("cut").diagnose()
        self.assertEqual(raised.exception.got, "settled 2\n1 cost 0 from 1: -\n2 cost")
        self.assertEqual((raised.exception.status, raised.exception.said), (8, "out of memory"))
        self.assertIn("'diagnose'", str(raised.exception))

    def test_a_broken_pipe(self) -> None:
        session = self.open("die")
        with self.assertRaises(ReplyCut):
            session.ask("# nothing comes of it")
            for _ in range(100):
                session.ask("#" * 4000)
                session.ask("states")

    def test_no_known_form(self) -> None:
        with self.assertRaises(BadReply) as raised:
            self.open("babble").diagnose()
        self.assertEqual((raised.exception.asked, raised.exception.text), ("diagnose", "what?"))

    def test_a_program_that_ends_before(self) -> None:
        with self.assertRaises(ProgramFailed) as raised:
            self.open("refuse").diagnose()
        self.assertEqual((raised.exception.status, raised.exception.said), (4, "cannot read model"))

    def test_an_interrupt_leaves_the_session_usable(self) -> None:
        """It comes while half of the second reply has been read."""
        session = self.open("slow")

        def interrupt(number: int, frame: Any) -> None:
            raise KeyboardInterrupt

        before = signal.signal(signal.SIGALRM, interrupt)
        self.addCleanup(signal.signal, signal.SIGALRM, before)

        def begin(made: int, allowed: int) -> None:
            signal.setitimer(signal.ITIMER_REAL, 0.2)

        with self.assertRaises(KeyboardInterrupt):
            session.in_slices("diagnose", 1, 1000, begin)
        self.assertEqual(session.states().states[0].modes, {"p": "m"})
        reply = session.more(1)
        assert isinstance(reply, Diagnosis)
        self.assertEqual(reply.trials, 3)

    def test_interrupts_at_any_moment(self) -> None:
        """Whenever they come, the lines behind them get the replies that are theirs."""

        def interrupt(number: int, frame: Any) -> None:
            raise KeyboardInterrupt

        session = Model(VALVE).session()
        self.addCleanup(session.close)
        before = signal.signal(signal.SIGALRM, interrupt)
        self.addCleanup(signal.signal, signal.SIGALRM, before)
        for moment in range(1, 60):
            try:
                signal.setitimer(signal.ITIMER_REAL, moment * 0.00005)
                for _ in range(20):
                    session.diagnose()
                    session.states()
                signal.setitimer(signal.ITIMER_REAL, 0)
            except KeyboardInterrupt:
                pass
            self.assertEqual(session.states().states[0].modes, {"v": "closed"})

    def test_closing_in_the_middle(self) -> None:
        session = self.open("slow")
        session.close()
        session.close()
        with self.assertRaises(SessionEnded):
            session.states()

    def test_no_program(self) -> None:
        with self.assertRaises(ProgramNotFound):
            Model(VALVE, str(self.folder / "absent"))

    def test_refused_models(self) -> None:
        with self.assertRaises(ModelRefused) as raised:
            Model.from_text("domain bit")
        self.assertEqual((raised.exception.line, raised.exception.code), (1, "M05"))
        with self.assertRaises(ProgramFailed) as failed:
            Model(str(self.folder / "absent.lv"))
        self.assertEqual(failed.exception.status, 4)


if __name__ == "__main__":
    unittest.main()
