"""Pipelines that never block, faults, and a service that ends or is silent."""
import json
import os
import re
import signal
import sys
import threading
import unittest

import ctfd
from ctfd.client.faults import ADVICE
from ctfd.client.wire import PIECE, request_line

from .support import EXAMPLES, PROGRAM, WithService, dictionary, integer

MANY = 20_000


class AlarmInterrupt(Exception):
    """Raised by the alarm of a test."""


def interrupt(*_: object) -> None:
    raise AlarmInterrupt


class Pipelines(WithService):
    is_of_lines = True

    def test_many_long_answers_in_one_round(self) -> None:
        slot = self.open_dictionary((EXAMPLES / "lua.ctf").read_bytes())
        t = slot.find("struct lua_State").number
        answers = self.session.ask_all([("members", {"d": slot.slot, "t": t})] * MANY)
        self.assertEqual(len(answers), MANY)
        self.assertGreater(len(json.dumps(answers[0])), 1000)
        self.assertTrue(all(answer == answers[0] for answer in answers))

    def test_an_interrupt_leaves_replies_owed_and_none_mixed_up(self) -> None:
        slot = self.open_dictionary((EXAMPLES / "lua.ctf").read_bytes()).slot

        before = signal.signal(signal.SIGALRM, interrupt)
        self.addCleanup(signal.signal, signal.SIGALRM, before)
        for number in range(40):
            with self.assertRaises(AlarmInterrupt):
                # Once more if it came in a destructor, which lets no exception out.
                signal.setitimer(signal.ITIMER_REAL, 0.001 + 0.0007 * number, 1)
                self.ask_for_ever(slot)
            signal.setitimer(signal.ITIMER_REAL, 0)
            try:
                told = self.session.ask("kind", d=slot, t=30)
            except ctfd.Gone:
                return  # it came amid steps that must not be separated, and is reported
            self.assertEqual(told, {"kind": "typedef"})

    def ask_for_ever(self, slot: int) -> None:
        while True:
            self.session.ask_all([("members", {"d": slot, "t": 218})] * 1000)

    def test_sessions_do_not_see_each_other(self) -> None:
        self.open_dictionary(dictionary([integer(1)], b"\0int\0"))
        with self.assertRaises(ctfd.Refused) as caught:
            self.client.session().ask("kind", d=1, t=1)
        self.assertEqual(caught.exception.name, "NoSlot")

    def test_lists_longer_than_a_line(self) -> None:
        names = b"\0int\0" + b"x" * (3 * PIECE) + b"\0"
        slot = self.open_dictionary(dictionary([integer(1), integer(5)], names))
        self.assertEqual(slot.type(2).name, "x" * (3 * PIECE))

    def test_a_dictionary_taken_from_another_session(self) -> None:
        slot = self.open_dictionary((EXAMPLES / "lua.ctf").read_bytes())
        slot.publish("base")
        other = ctfd.taken(self.client.session(), self.session.number, "base")
        self.assertEqual(other.find("struct lua_State").size, 200)

    def test_what_is_withdrawn_stays_with_who_took_it(self) -> None:
        slot = self.open_dictionary((EXAMPLES / "lua.ctf").read_bytes())
        slot.publish("base")
        early = ctfd.taken(self.client.session(), self.session.number, "base")
        ctfd.withdraw(self.session, "base")
        with self.assertRaises(ctfd.Refused) as caught:
            ctfd.taken(self.client.session(), self.session.number, "base")
        self.assertEqual(caught.exception.name, "NotPublished")
        self.assertEqual(early.find("struct lua_State").size, 200)

    def test_nothing_that_was_not_published_is_withdrawn(self) -> None:
        with self.assertRaises(ctfd.Refused) as caught:
            ctfd.withdraw(self.session, "base")
        self.assertEqual(caught.exception.name, "NotPublished")


class Faults(WithService):
    is_of_lines = True

    def test_a_fault_names_word_and_fields_and_what_to_do(self) -> None:
        slot = self.open_dictionary(dictionary([integer(1)], b"\0int\0"))
        with self.assertRaises(ctfd.Refused) as caught:
            self.session.ask("members", d=slot.slot, t=1)
        fault = caught.exception
        self.assertEqual((fault.code, fault.name, fault.op), (30, "WrongKind", "members"))
        self.assertEqual(fault.fields, {"d": slot.slot, "t": 1})
        self.assertEqual(str(fault), f"WrongKind (members, d {slot.slot}, t 1): {fault.advice}")

    def test_refusals_stand_in_their_place(self) -> None:
        slot = self.open_dictionary(dictionary([integer(1)], b"\0int\0")).slot
        asked = [("kind", {"d": slot, "t": t}) for t in (9, 1)]
        first, second = self.session.ask_all(asked)
        self.assertIsInstance(first, ctfd.Refused)
        self.assertEqual(second, {"kind": "integer"})

    def test_a_line_that_is_too_long_is_one_refusal(self) -> None:
        asked = [("part", {"section": "ctf", "bytes": "0" * 1_100_000}), ("clear", {})]
        first, second = self.session.ask_all(asked)
        self.assertEqual(getattr(first, "name", ""), "LongLine")
        self.assertEqual(second, {})

    def test_a_refused_dictionary_leaves_an_empty_stage(self) -> None:
        with self.assertRaises(ctfd.BadDictionary):
            self.session.open(b"\xf1\xcf\x02\0" + b"\xff" * 40)
        with self.assertRaises(ctfd.BadDictionary) as caught:
            self.session.ask("open")
        self.assertEqual(caught.exception.name, "TooShort")

    def test_a_list_that_is_too_long(self) -> None:
        with self.assertRaises(ctfd.Refused) as caught:
            self.session.open((EXAMPLES / "lua.ctf").read_bytes(), None, bytes(67_108_865))
        self.assertEqual(caught.exception.name, "StageFull")
        self.assertEqual(self.open_dictionary((EXAMPLES / "lua.ctf").read_bytes()).own, 526)
        self.assertEqual(self.session.ask("kind", d=2, t=1), {"kind": "integer"})
        with self.assertRaises(ctfd.Refused):
            self.session.ask("kind", d=1, t=1)  # cut lists are closed again


class Advice(unittest.TestCase):
    def test_each_fault_that_can_be_answered_has_its_advice(self) -> None:
        told = (EXAMPLES.parent / "docs" / "FAULTS.md").read_text()
        answered = told.split("## Codes that are not answered yet")[0]
        names = re.findall(r"^\| \d+ \| (\w+) \|", answered, re.M)
        self.assertEqual(len(names), 63)
        self.assertEqual([name for name in names if not ADVICE.get(name)], [])


class Ends(unittest.TestCase):
    def test_no_such_program(self) -> None:
        with self.assertRaises(ctfd.Gone):
            ctfd.Client("/nowhere/ctfd")

    def test_a_silent_service(self) -> None:
        silent = ["-c", "import sys; sys.stdin.read()"]
        with ctfd.Client(sys.executable, silent, patience=0.2) as client:
            with self.assertRaises(ctfd.Gone):
                client.session().ask("reset")
            with self.assertRaises(ctfd.Gone):
                client.session().ask("reset")

    @unittest.skipUnless(PROGRAM, "CTFD names no built service")
    def test_a_service_that_is_killed_amid(self) -> None:
        with ctfd.Client(PROGRAM) as client:
            session = client.session()
            slot = session.open((EXAMPLES / "lua.ctf").read_bytes())["d"]
            killer = threading.Timer(0.02, os.kill, (client.pid, signal.SIGKILL))
            killer.start()
            with self.assertRaises(ctfd.Gone) as caught:
                session.ask_all([("members", {"d": slot, "t": 218})] * 10 * MANY)
            killer.join()
        self.assertIn("-9", str(caught.exception))


class Lines(unittest.TestCase):
    def test_a_line_is_the_request_whatever_its_bytes_are(self) -> None:
        for data in ("", "00ff", "0F", 'f"', "f\\", "f\n", "\u00e9", "\ud800", 7, None):
            for section in ("ctf", 'c"'):
                fields = {"section": section, "bytes": data}
                with self.subTest(fields):
                    line = request_line(3, "part", fields)
                    self.assertEqual(json.loads(line), {"s": 3, "op": "part", **fields})
                    self.assertEqual((line.count(b"\n"), line[-1:]), (1, b"\n"))


if __name__ == "__main__":
    unittest.main()
