"""The client against the real server. Run at clients/python: python3 -m unittest discover tests

The variable TSND names the program; without it, it is the one that `./build` made in this repository.
"""
from __future__ import annotations

import io
import os
import re
import subprocess
import sys
import tempfile
import unittest
from contextlib import redirect_stdout
from pathlib import Path

HERE = Path(__file__).resolve()
TOP = HERE.parents[3]
sys.path[:0] = [str(HERE.parents[1]), str(HERE.parents[1] / "examples")]

import try_and_take_back  # noqa: E402

import tsnd  # noqa: E402

PROGRAM = os.environ.get("TSND", str(TOP / "crates/tsnd/out/tsnd"))
OPEN_GATE = tsnd.StreamGate()
METER = tsnd.FlowMeter(cir=8_000_000, cbs=1500)


class Server:
    """A server over a setup, for so many connections."""

    def __init__(self, setup: str, connections: int, probe: int = 0) -> None:
        words = [PROGRAM, "serve", setup, "--listen", "127.0.0.1:0", "--workers", "4", "--connections", str(connections),
                 "--probe", str(probe)]
        self.process = subprocess.Popen(words, stdout=subprocess.PIPE, stderr=subprocess.PIPE, text=True)
        assert self.process.stderr is not None
        found = re.fullmatch(r"tsnd: listens on .*:(\d+)\n", self.process.stderr.readline())
        assert found, "the server says where it listens"
        self.port = int(found[1])

    def __enter__(self) -> Server:
        return self

    def __exit__(self, *_: object) -> None:
        self.process.kill()
        self.process.communicate()

    def connect(self) -> tsnd.Connection:
        return tsnd.Connection(port=self.port, timeout=20)

    def ends(self) -> str:
        """What the server says in the end, where it ends well."""
        said, _ = self.process.communicate(timeout=20)
        assert self.process.returncode == 0
        return said


class Places(unittest.TestCase):
    def test_a_server_at_a_path(self) -> None:
        with tempfile.TemporaryDirectory() as folder:
            place = f"unix:{folder}/tsnd.socket"
            with self.assertRaises(FileNotFoundError):
                tsnd.Connection(place)
            with subprocess.Popen([PROGRAM, "serve", "--listen", place], stderr=subprocess.PIPE, text=True) as process:
                assert process.stderr is not None
                self.assertEqual(process.stderr.readline(), f"tsnd: listens on {place}\n")
                with tsnd.Connection(place, timeout=20) as connection:
                    session = connection.hello()
                    self.assertEqual((session.number, session.create("gate 0", OPEN_GATE)), (1, 1))
                process.terminate()


class Edits(unittest.TestCase):
    def setUp(self) -> None:
        self.server = self.enterContext(Server(os.devnull, 3))

    def session(self) -> tsnd.Session:
        return self.enterContext(self.server.connect()).hello()

    def test_records_come_back_as_they_were_given(self) -> None:
        session = self.session()
        records: dict[str, tsnd.Record] = {
            "gate 0": tsnd.StreamGate(open=False, ipv=5, list=(tsnd.GateEntry(True, None, 1000, 150), tsnd.GateEntry(False, 7, 500))),
            "meter 0": tsnd.FlowMeter(cir=1, cbs=2, eir=3, ebs=4, cf=True, aware=True, drop_yellow=True, all_red=True),
            "filter 3": tsnd.StreamFilter(gate=0, meter=0, handle=7, priority=3, max_sdu=1500, oversize=True),
        }
        for number, (key, record) in enumerate(records.items(), start=1):
            self.assertEqual(session.create(key, record), number)
        for key, record in records.items():
            self.assertEqual(session.show(key), record)
        port = tsnd.PortGates(gates=1, cycle=1000, extension=10, base=5, list=(tsnd.PortEntry(255, 1000),))
        self.assertEqual(session.replace("port 1", port), 4)
        self.assertEqual(session.show("port 1"), port)
        self.assertEqual((session.list("filter"), session.list("gate"), session.list("port")), ((3,), (0,), (1, 2)))
        self.assertEqual(session.remove("filter 3"), 5)

    def test_undo_and_redo(self) -> None:
        session = self.session()
        session.create("gate 0", OPEN_GATE)
        session.create("gate 1", OPEN_GATE)
        self.assertEqual(session.undo(), tsnd.Undone(3, 2))
        self.assertEqual(session.redo(), tsnd.Undone(4, 3))
        self.assertEqual(session.undo_all(), tsnd.AllUndone(2, 6))
        self.assertEqual(session.list("gate"), ())

    def test_a_colleague_stands_in_the_way(self) -> None:
        planner, colleague = self.session(), self.session()
        self.assertNotEqual(planner.number, colleague.number)
        planner.create("gate 0", OPEN_GATE)
        colleague.create("filter 0", tsnd.StreamFilter(gate=0))
        with self.assertRaises(tsnd.Conflict) as caught:
            planner.undo()
        self.assertEqual((caught.exception.own, caught.exception.other, caught.exception.number), (1, 2, 11))
        self.assertEqual(planner.list("gate"), (0,))

    def test_a_stream_comes_and_goes_in_one_batch(self) -> None:
        planner, colleague = self.session(), self.session()
        camera = tsnd.StreamFilter(gate=4, meter=2)
        stream = (tsnd.Create("gate 4", OPEN_GATE), tsnd.Create("meter 2", METER), tsnd.Create("filter 10", camera))
        self.assertEqual(planner.batch(*stream), 1)
        colleague.create("gate 5", OPEN_GATE)
        colleague.create("filter 11", tsnd.StreamFilter(gate=5, meter=2))
        with self.assertRaises(tsnd.Conflict) as caught:
            planner.undo()
        self.assertEqual((caught.exception.own, caught.exception.other), (1, 3))
        colleague.undo()
        self.assertEqual(planner.undo(), tsnd.Undone(5, 1))
        self.assertEqual((planner.list("gate"), planner.list("meter"), planner.list("filter")), ((5,), (), ()))
        self.assertEqual(planner.since(4), (tsnd.Entry(5, planner.number, ("filter 10", "gate 4", "meter 2"), "undone", of=1),))

    def test_what_is_settled_stays(self) -> None:
        planner, colleague = self.session(), self.session()
        planner.create("gate 0", OPEN_GATE)
        colleague.create("gate 1", OPEN_GATE)
        planner.create("meter 0", METER)
        self.assertEqual(colleague.settle(2), 4)
        with self.assertRaises(tsnd.NothingToUndo):
            colleague.undo()
        self.assertEqual(planner.undo_all(), tsnd.AllUndone(1, 5))
        self.assertEqual((planner.list("gate"), planner.list("meter")), ((0, 1), ()))
        with self.assertRaises(tsnd.AlreadySettled) as caught:
            planner.settle(1)
        self.assertEqual((caught.exception.upto, caught.exception.number), (2, 19))
        with self.assertRaises(tsnd.OutOfRange):
            planner.settle(6)
        self.assertEqual(planner.since(3)[0], tsnd.Entry(4, colleague.number, (), "settled", settled=2))

    def test_sixteen_edits_in_one_batch(self) -> None:
        session = self.session()
        self.assertEqual(session.batch(*(tsnd.Create(f"meter {number}", METER) for number in range(16))), 1)
        self.assertEqual(session.list("meter"), tuple(range(16)))
        self.assertEqual(session.batch(*(tsnd.Remove(f"meter {number}") for number in range(16))), 2)
        self.assertEqual(session.list("meter"), ())
        self.assertEqual(session.undo(), tsnd.Undone(3, 2))
        self.assertEqual(session.list("meter"), tuple(range(16)))

    def test_batches_are_refused_whole(self) -> None:
        session = self.session()
        session.batch(tsnd.Create("gate 0", OPEN_GATE), tsnd.Create("filter 0", tsnd.StreamFilter(gate=0)))
        with self.assertRaises(tsnd.Referred) as caught:
            session.batch(tsnd.Create("meter 0", METER), tsnd.Remove("gate 0"))
        self.assertEqual((caught.exception.by, session.list("meter")), ("filter 0", ()))
        with self.assertRaises(tsnd.Shape):
            session.batch()
        with self.assertRaises(tsnd.Shape):
            session.batch(tsnd.Remove("gate 0"), tsnd.Remove("gate 0"))
        with self.assertRaises(tsnd.Shape):
            session.batch(*(tsnd.Create(f"meter {number}", METER) for number in range(17)))
        with self.assertRaises(tsnd.OutOfRange):
            session.batch(tsnd.Replace("gate 0", OPEN_GATE), tsnd.Remove("meter 16"))
        self.assertEqual(session.batch(tsnd.Replace("filter 0", tsnd.StreamFilter(gate=0, priority=3)), tsnd.Create("meter 1", METER)), 2)

    def test_entries_are_followed(self) -> None:
        session = self.session()
        session.create("gate 0", OPEN_GATE)
        session.enable("gate 0", 7)
        session.undo()
        entries = session.follow(pause=0.01)
        self.assertEqual(next(entries), tsnd.Entry(1, session.number, ("gate 0",), "made"))
        self.assertEqual(next(entries), tsnd.Entry(2, session.number, ("gate 0",), "acted", act="enable", now=7))
        self.assertEqual(next(entries), tsnd.Entry(3, session.number, ("gate 0",), "undone", of=1))
        session.create("meter 0", METER)
        self.assertEqual(next(entries).keys, ("meter 0",))

    def test_acts_frames_and_counters(self) -> None:
        session = self.session()
        session.replace("port 1", tsnd.PortGates(cycle=1000, list=(tsnd.PortEntry(1, 300), tsnd.PortEntry(128, 700))))
        self.assertEqual(session.enable("port 1", 0), tsnd.Acted(2, None, 0))
        self.assertEqual(session.apply("port 1", 2500), tsnd.Acted(3, 3000, 2500))
        self.assertEqual(session.states("port 1", 3300), {"gates": 128})
        self.assertEqual(session.disable("port 1", 4000), tsnd.Acted(4, None, 4000))
        session.create("gate 0", OPEN_GATE)
        session.create("filter 0", tsnd.StreamFilter(gate=0, max_sdu=100))
        self.assertEqual(session.frame(7, 0, 101, 4000), {"filter": 0, "now": 4000, "verdict": "oversize"})
        self.assertEqual(session.counters("filter 0")["not_passing_sdu"], 1)


class Names(unittest.TestCase):
    def setUp(self) -> None:
        self.server = self.enterContext(Server(os.devnull, 3))

    def connection(self) -> tsnd.Connection:
        return self.enterContext(self.server.connect())

    def names(self, session: tsnd.Session) -> dict[int, str | None]:
        """The sessions with their names, but for those of the workers of ports."""
        return {given.session: given.name for given in session.sessions() if given.name not in ("port 1", "port 2")}

    def test_who_comes_back_goes_on(self) -> None:
        with self.server.connect() as lost:
            anna = lost.hello("anna")
            self.assertEqual(anna.create("gate 0", OPEN_GATE), 1)
        nameless = self.connection().hello()
        again = self.connection().hello("anna")
        self.assertEqual((again.number, nameless.number > anna.number), (anna.number, True))
        self.assertEqual(self.names(again), {anna.number: "anna", nameless.number: None})
        self.assertIn(tsnd.Given(anna.number, 1, "anna"), nameless.sessions())
        self.assertEqual(again.undo(), tsnd.Undone(2, 1))

    def test_a_connection_goes_from_name_to_name(self) -> None:
        connection = self.connection()
        anna, bert = connection.hello("anna"), connection.hello("bert")
        with self.assertRaises(tsnd.NoSession):
            anna.undo()
        self.assertEqual(bert.create("gate 0", OPEN_GATE), 1)
        self.assertEqual(connection.hello("anna").number, anna.number)
        with self.assertRaises(tsnd.NothingToUndo):
            anna.undo()
        with self.assertRaises(tsnd.NoSession):
            bert.undo()
        self.assertEqual(connection.hello("bert").undo(), tsnd.Undone(2, 1))

    def test_names_of_any_text(self) -> None:
        connection = self.connection()
        named: dict[int, str | None] = {}
        for name in ("a", "Zo\u00eb", "a b", " ", '"', "\\", "\u00e9" * 32, "\U0001f600" * 16, "x" * 64, "null", "\u2028", "\u00a0"):
            session = connection.hello(name)
            named[session.number] = name
            self.assertEqual(connection.hello(name).number, session.number)
        self.assertEqual(len(named), 12)
        self.assertEqual(self.names(session), named)

    def test_what_is_no_name(self) -> None:
        connection = self.connection()
        session = connection.hello("anna")
        for name in ("", "x" * 65, "\u00e9" * 32 + "x", "\U0001f600" * 17, "a\nb", "\0", "\x1f", "\x7f", "\x80", "\x9f"):
            with self.assertRaises(tsnd.OutOfRange) as caught:
                connection.hello(name)
            self.assertEqual((caught.exception.field, caught.exception.members), ("name", {"field": "name"}))
        for value in (None, 3, True, ["anna"], {"anna": 1}):
            with self.assertRaises(tsnd.Shape):
                connection.ask({"do": "hello", "name": value})
        self.assertEqual(self.names(session), {session.number: "anna"})
        self.assertEqual(session.create("gate 0", OPEN_GATE), 1)


class Refusals(unittest.TestCase):
    def setUp(self) -> None:
        server = self.enterContext(Server(os.devnull, 1))
        self.connection = self.enterContext(server.connect())
        self.session = self.connection.hello()

    def test_each_has_its_exception_and_members(self) -> None:
        session = self.session
        session.create("gate 0", OPEN_GATE)
        session.create("filter 0", tsnd.StreamFilter(gate=0))
        with self.assertRaises(tsnd.OutOfRange) as ranged:
            session.show("gate 99")
        self.assertEqual(ranged.exception.field, "key")
        with self.assertRaises(tsnd.Exists) as exists:
            session.create("gate 0", OPEN_GATE)
        self.assertEqual(exists.exception.key, "gate 0")
        with self.assertRaises(tsnd.Dangling) as dangling:
            session.create("filter 1", tsnd.StreamFilter(gate=4))
        self.assertEqual(dangling.exception.key, "gate 4")
        with self.assertRaises(tsnd.Referred) as referred:
            session.remove("gate 0")
        self.assertEqual(referred.exception.by, "filter 0")
        with self.assertRaises(tsnd.Missing) as missing:
            session.remove("gate 5")
        self.assertEqual(missing.exception.key, "gate 5")
        with self.assertRaises(tsnd.Shape):
            session.remove("port 1")
        with self.assertRaises(tsnd.NotEnabled):
            session.apply("port 1", 0)
        session.enable("port 1", 10)
        with self.assertRaises(tsnd.EmptyList):
            session.apply("port 1", 10)
        with self.assertRaises(tsnd.Past):
            session.states("port 1", 9)
        with self.assertRaises(tsnd.NothingToRedo):
            session.redo()

    def test_of_a_connection_that_says_hello_again(self) -> None:
        later = self.connection.hello()
        with self.assertRaises(tsnd.NoSession):
            self.session.undo()
        with self.assertRaises(tsnd.NothingToUndo):
            later.undo()

    def test_of_lines_that_are_none(self) -> None:
        with self.assertRaises(tsnd.Shape):
            self.connection.ask({"do": "dance"})
        with self.assertRaises(tsnd.TooLong):
            self.connection.ask({"do": "x" * 131_072})


class Stories(unittest.TestCase):
    def test_try_and_take_back(self) -> None:
        with Server(str(TOP / "examples/small-cell.toml"), 2, probe=6_600_000) as server, redirect_stdout(io.StringIO()) as said:
            try_and_take_back.story(server.port)
            self.assertEqual(server.ends(), "port 1 gates 127\nport 2 gates 255\n")
        self.assertEqual(said.getvalue().splitlines(), [
            "the new list is in force from 3000000 ns on: gates 96",
            "1 edit taken back; the old list is in force from 6000000 ns on: gates 127",
            "the colleague's meter stands: True",
        ])

    def test_a_server_that_ends(self) -> None:
        with Server(os.devnull, 1) as server:
            connection = server.connect()
            connection.hello()
            server.process.kill()
            server.process.wait()
            with self.assertRaises((tsnd.ServiceError, OSError)):
                connection.hello()
            connection.close()


if __name__ == "__main__":
    unittest.main()
