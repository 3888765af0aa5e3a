"""The shell, against the real server: a planner's day, line by line, in a terminal and through a pipe."""
from __future__ import annotations

import contextlib
import difflib
import io
import json
import os
import pty
import re
import select
import signal
import socket
import subprocess
import sys
import tempfile
import threading
import time
import unittest
from pathlib import Path
from typing import Any, Optional

HERE = Path(__file__).resolve()
TOP = HERE.parents[3]
sys.path.insert(0, str(HERE.parents[1]))
PROGRAM = os.environ.setdefault("TSND", str(TOP / "crates/tsnd/out/tsnd"))

import tsnd  # noqa: E402
from tsnd import units  # noqa: E402
from tsnd.shell import Shell  # noqa: E402

# Lines that a server is asked, each with its reply; none where it goes.
Asked = list[tuple[str, Optional[dict[str, Any]]]]
SETUP = str(TOP / "examples/small-cell.toml")
PATIENCE = 20


class Server:
    """A server over a journal, on a port of its own, which may be killed and started again."""

    def __init__(self, journal: Path) -> None:
        with socket.socket() as free:
            free.bind(("127.0.0.1", 0))
            self.port = free.getsockname()[1]
        self.journal = journal
        self.start()

    def start(self) -> None:
        words = [PROGRAM, "serve", SETUP, "--listen", f"127.0.0.1:{self.port}", "--workers", "8", "--connections", "60", "--probe", "0",
                 "--journal", str(self.journal)]
        self.process = subprocess.Popen(words, stdout=subprocess.DEVNULL, stderr=subprocess.PIPE, text=True)
        assert self.process.stderr is not None
        assert "listens" in self.process.stderr.readline()

    def kill(self) -> None:
        self.process.send_signal(signal.SIGKILL)
        self.process.communicate()

    @property
    def address(self) -> str:
        return f"127.0.0.1:{self.port}"


class Served(unittest.TestCase):
    def setUp(self) -> None:
        self.folder = Path(self.enterContext(tempfile.TemporaryDirectory()))
        self.server = Server(self.folder / "cell.journal")
        self.addCleanup(self.server.kill)
        self.output = io.StringIO()
        self.shell = Shell(self.server.address, journal=str(self.server.journal), stdout=self.output)
        self.addCleanup(self.shell.close)

    def says(self, line: str) -> str:
        """What the shell says to a line."""
        before = len(self.output.getvalue())
        self.shell.onecmd(line)
        return self.output.getvalue()[before:]

    def other(self, name: str | None = None) -> tsnd.Session:
        """A colleague's session."""
        return self.enterContext(tsnd.Connection(port=self.server.port, timeout=PATIENCE)).hello(name)


class Commands(Served):
    def test_a_planner_s_day(self) -> None:
        self.assertRegex(self.says("list meter"), r"You are session \d+ at .*\nmeter:  0\n")
        self.assertIn("cycle=1ms", self.says("show port 1"))
        self.assertIn("list=0x80:200us,0x60:300us,0x7f:500us", self.says("show port 1"))
        self.assertEqual(self.says("set meter 0 cir=120M cbs=3k"), "entry 1\n")
        self.assertIn("cir=120Mbit/s\n  cbs=3000", self.says("show meter 0"))
        self.assertEqual(self.says("undo"), "entry 2: 1 is taken back\n")
        self.assertEqual(self.says("redo"), "entry 3: the undo 2 is taken back\n")
        for line in ("batch", "new meter 5 cir=8M cbs=1500", "new gate 9 cycle=500us list=open:250us:ipv=5,closed:250us",
                     "new filter 13 gate=9 meter=5 handle=10", "set filter 13 max_sdu=1500"):
            self.assertEqual(self.says(line), "")
        self.assertEqual(self.shell.prompt, "batch of 3> ")
        self.assertEqual(self.says("end"), "entry 4\n")
        self.assertIn("handle=10\n  priority=none\n  max_sdu=1500", self.says("show filter 13"))
        self.assertEqual(self.says("enable port 1 now=0"), "entry 5\n")
        self.assertEqual(self.says("apply port 1 now=3ms"), "entry 6: the list starts at 3ms\n")
        self.assertEqual(self.says("apply port 1 now=1ms"),
                         "entry 7, at 3ms, the bridge time, since 1ms lies behind it: the list starts at 3ms\n")
        self.assertEqual(self.says("states port 1 at=+250us"), "at 3250us: gates 0x60, open for traffic class 5, 6\n")
        self.assertEqual(self.says("states gate 9 at=0"), "at 0: open\n")
        self.assertIn("change_time=3ms\n  enabled=true\n  pending=false", self.says("counters port 1"))
        self.assertIn("applied port 1 at 3ms", self.says("log 6"))
        self.assertEqual(self.says("undo all"), "2 taken back, up to entry 9\n")

    def test_instants_from_now(self) -> None:
        """`now` is this machine's clock, in TAI, and another instant is counted from it."""
        self.assertIn("entry 1\n", self.says("enable port 1 now=now"))
        before = time.clock_gettime_ns(time.CLOCK_TAI)
        told = re.match(r"at (\d+)(ns|us|ms|s): gates 0xff, ", self.says("states port 1 at=now+100s"))
        after = time.clock_gettime_ns(time.CLOCK_TAI)
        assert told is not None
        instant = int(told[1]) * {"ns": 1, "us": 10**3, "ms": 10**6, "s": 10**9}[told[2]]
        self.assertLessEqual(before + 100 * 10**9, instant)
        self.assertLessEqual(instant, after + 100 * 10**9)

    def test_refusals_are_sentences(self) -> None:
        self.says("new gate 9")
        other = self.other()
        made = other.create("filter 14", tsnd.StreamFilter(gate=9))
        self.assertRegex(self.says("undo"), rf"^Not undone.*: entry {made} of session {other.number} \(edited filter 14\) came")
        self.assertEqual(self.says("remove gate 9"),
                         "It can't go, since filter 14 refers to it: change or remove filter 14 first, or both in one batch.\n")
        self.assertIn("refers to gate 12, which is not there", self.says("new filter 15 gate=12"))
        self.assertEqual(self.says("set meter 7 cir=1"), "There is no meter 7.\n")
        self.assertEqual(self.says("new gate 9"), "gate 9 is there already: `set` changes it.\n")
        self.assertEqual(self.says("set meter 0 cir=9999G"),
                         "Nothing changed: record of meter 0: cir is 9999000000000, and 0 to 1000000000000 is allowed.\n")
        self.assertEqual(self.says("new gate 16"), "'key' is outside its range, or its limit in the setup.\n")
        self.assertIn("nothing to bring back", self.says("redo"))
        self.assertIn("is disabled", self.says("apply port 1 now=0"))
        self.says("enable gate 9 now=0")
        self.assertIn("list is empty", self.says("apply gate 9 now=0"))
        self.assertEqual(self.says("settle 1"), "entry 4\n")
        self.assertEqual(self.says("settle 1"), "The entries up to 1 are settled already.\n")
        self.assertIn("nothing to take back", self.says("undo"))
        self.assertEqual(self.says("resume 60000"), "That session was not given out.\n")

    def test_what_is_no_command(self) -> None:
        for line, said in (
                ("foo", "'foo' is no command"), ("set meter 0", "usage: set KEY"), ("set meter zero cir=1", "is no key"),
                ("set meter 0 cirr=4", "there is no member 'cirr'; there are cir, cbs"), ("set meter 0 cir=4x", "is no rate"),
                ("set meter 0 cir", "gives no member a value"), ("new meter 6 cir=1", "it wants cbs, too"), ("end", "begin by `batch`"),
                ("apply port 1", "usage: apply KEY"), ("list rows", "is no kind"), ("show 'port 1", "the quotes don't match"),
                ("set port 1 list=5", "is no entry of a port's list"), ("diff x", "is no whole number")):
            self.assertIn(said, self.says(line), line)

    def test_who_and_diff(self) -> None:
        self.says("set meter 0 cir=120M")
        other = self.other()
        self.assertRegex(self.says("who"), rf"session {self.shell.number} \(you\): 1 standing, last \d{{4}}-.*\n(.*\n)*"
                                           rf"session {other.number}: 0 standing\n")
        self.assertIn("cir", self.says("diff 1"))

    def test_save_and_load(self) -> None:
        saved, other = self.folder / "saved.toml", self.folder / "other.toml"
        before = self.other().setup()
        self.assertEqual(self.says(f"save {saved}").splitlines()[-1], f"{saved}: 8 records")
        self.assertEqual(saved.read_text(), before)
        for line in ("new meter 5 cir=8M cbs=1500", "new gate 9", "new filter 13 gate=9 meter=5 handle=10", "set port 1 cycle=2ms",
                     "set filter 0 gate=9", f"save {other}"):
            self.says(line)
        self.assertIn("5 edits\n", self.says(f"load {saved} only"))
        self.assertEqual(self.other().setup(), before)
        self.assertEqual(self.says(f"load {saved}"), "All is as the setup says.\n")
        self.assertIn("5 edits\n", self.says(f"load {other}"))
        self.assertEqual(self.other().setup(), other.read_text())
        self.assertRegex(self.says(f"load {saved}"), r"entry \d+\n2 edits\n")
        self.assertIn("13", self.says("list filter"))

    def test_what_can_not_be_loaded(self) -> None:
        setup = self.folder / "setup.toml"
        for text, said in (
                ("ports = 3", "ports is 2 here and 3 there: a running bridge keeps its limits"),
                ("[[gate]]\nopen = true", "has no number 'id'"),
                ("[[meter]]\nid = 1\ncir = 5", "meter 1 lacks 'cbs'"), ("a b", "the setup is no TOML"),
                ("port_count = 2", "has no member 'port_count'"),
                ("[[meter]]\nid = 1\n[[meter]]\nid = 1", "meter 1 lacks 'cir'")):
            setup.write_text(text)
            self.assertIn(said, self.says(f"load {setup}"), text)
        self.assertIn("No such file", self.says(f"load {self.folder / 'none.toml'}"))
        self.assertEqual(self.says("list meter"), "meter:  0\n")

    def test_the_server_is_killed(self) -> None:
        self.says("set meter 0 cir=120M")
        number = self.shell.number
        self.server.kill()
        self.assertIn("There is no server at", self.says("undo"))
        self.server.start()
        self.assertEqual(self.says("undo"), f"You go on as session {number} at {self.server.address}.\nentry 2: 1 is taken back\n")


class Names(Served):
    def shell_of(self, name: str) -> tuple[Shell, io.StringIO]:
        """A shell that is started by a name, and what it says."""
        output = io.StringIO()
        shell = Shell(self.server.address, name=name, stdout=output)
        self.addCleanup(shell.close)
        return shell, output

    def test_who_is_who(self) -> None:
        number = self.shell.connected().number
        self.assertRegex(self.says("name anna"), r"^You are session \d+, anna\.\n$")
        anna = self.shell.number
        self.assertNotEqual(anna, number)
        self.assertEqual(self.shell.prompt, "anna> ")
        self.assertEqual(self.says("new gate 9"), "entry 1\n")
        bert, nameless = self.other("bert"), self.other()
        bert.create("filter 14", tsnd.StreamFilter(gate=9))
        nameless.create("meter 9", tsnd.FlowMeter(cir=1, cbs=1))
        self.assertEqual(
            self.says("undo"),
            f"Not undone, and nothing changed: entry 2 of session {bert.number}, bert (edited filter 14) came later and touches or "
            "refers to what your entry 1 changed. It has to be taken back first, by whom it belongs to.\n")
        told = self.says("log").splitlines()
        self.assertEqual([line.split() for line in told], [
            ["1", "session", f"{anna},", "anna", "edited", "gate", "9"],
            ["2", "session", f"{bert.number},", "bert", "edited", "filter", "14"],
            ["3", "session", f"{nameless.number}", "edited", "meter", "9"]])
        said = self.says("who")
        for line in (f"session {anna}, anna (you): 1 standing", f"session {bert.number}, bert: 1 standing",
                     f"session {nameless.number}: 1 standing", f"session {number}: 0 standing"):
            self.assertRegex(said, f"(?m)^{re.escape(line)}(, last .*)?$")

    def test_from_name_to_name(self) -> None:
        self.assertRegex(self.says("name anna"), r"You are session \d+, anna\.\n$")
        anna = self.shell.number
        self.says("new gate 9")
        self.assertRegex(self.says("name 'Bert B.'"), r"^You are session \d+, Bert B\.\.\n$")
        self.assertIn("nothing to take back", self.says("undo"))
        self.assertEqual(self.says("name anna"), f"You go on as session {anna}, anna.\n")
        self.assertEqual(self.says("undo"), "entry 2: 1 is taken back\n")
        self.assertRegex(self.says("hello"), r"^You are session \d+\.\n$")
        self.assertEqual(self.shell.prompt, f"{self.shell.number}> ")
        self.assertEqual(self.says(f"resume {anna}"), f"You go on as session {anna}.\n")
        self.assertEqual(self.says("redo"), "entry 3: the undo 2 is taken back\n")
        for line in ("name", "name anna bert"):
            self.assertIn("usage: name NAME", self.says(line))

    def test_what_is_no_name(self) -> None:
        self.says("name anna")
        anna = self.shell.number
        for name in ("''", "x" * 65, "'a\x7fb'"):
            self.assertEqual(self.says(f"name {name}"), "That is no name: it has 1 to 64 bytes in UTF-8, and no control character.\n")
        self.assertEqual((self.shell.number, self.shell.name), (anna, "anna"))
        self.assertEqual(self.says("new gate 9"), "entry 1\n")
        shell, output = self.shell_of("")
        shell.onecmd("undo")
        self.assertIn("That is no name", output.getvalue())
        self.assertIsNone(shell.session)

    def test_the_server_is_killed(self) -> None:
        shell, output = self.shell_of("anna")
        shell.onecmd("set meter 0 cir=120M")
        number = shell.number
        self.assertEqual(output.getvalue(), f"You are session {number}, anna, at {self.server.address}.\nentry 1\n")
        self.server.kill()
        self.server.start()
        again, told = self.shell_of("anna")
        for one in (shell, again):
            one.onecmd("log")
        for said in (output.getvalue(), told.getvalue()):
            self.assertIn(f"You go on as session {number}, anna, at {self.server.address}.\n     1  session {number}, anna", said)
        again.onecmd("undo")
        self.assertTrue(told.getvalue().endswith("entry 2: 1 is taken back\n"))

    def run_by(self, lines: str, *words: str) -> tuple[int, str, str]:
        """The status, output and errors of a shell that is started with these words, and gets lines through a pipe."""
        run = subprocess.run([sys.executable, "-m", "tsnd.shell", self.server.address, *words], input=lines, capture_output=True, text=True,
                             env={**os.environ, "PYTHONPATH": str(HERE.parents[1])}, timeout=PATIENCE, check=False)
        return run.returncode, run.stdout, run.stderr

    def test_through_a_pipe(self) -> None:
        status, said, errors = self.run_by("new gate 9\n", "--name", "anna")
        found = re.fullmatch(r"You are session (\d+), anna, at .*\nentry 1\n\n", said)
        assert found, said
        self.assertEqual((status, errors), (0, ""))
        self.assertEqual(self.run_by("undo\n", "--name", "anna"),
                         (0, f"You go on as session {found[1]}, anna, at {self.server.address}.\nentry 2: 1 is taken back\n\n", ""))
        self.assertEqual(self.run_by("", "--name", "x" * 65),
                         (1, "", "tsnd.shell: That is no name: it has 1 to 64 bytes in UTF-8, and no control character.\n"))
        self.assertEqual(self.run_by("", "--name", "anna", "--session", "1")[0], 2)

    def test_a_server_that_kept_nothing(self) -> None:
        shell, output = self.shell_of("anna")
        shell.onecmd("set meter 0 cir=120M")
        self.server.kill()
        self.server.journal = self.folder / "other.journal"
        self.server.start()
        nameless = self.other()
        shell.onecmd("who")
        self.assertNotEqual(shell.number, nameless.number)
        self.assertIn(f"You are session {shell.number}, anna, at {self.server.address}.\n", output.getvalue()[5:])
        self.assertIn(f"session {shell.number}, anna (you): 0 standing\n", output.getvalue())


class Recording(unittest.TestCase):
    """The session that README.md shows is typed once more."""

    def test_the_recording(self) -> None:
        shells: dict[str, Shell] = {}
        outputs: dict[str, io.StringIO] = {}
        folder = self.enterContext(tempfile.TemporaryDirectory())
        self.enterContext(contextlib.chdir(folder))
        server = subprocess.Popen([PROGRAM, "serve", SETUP, "--listen", "127.0.0.1:0", "--journal", "day.journal"], stderr=subprocess.PIPE,
                                  text=True)
        self.addCleanup(server.communicate)
        self.addCleanup(server.kill)
        assert server.stderr is not None
        address = server.stderr.readline().split(" ")[-1].strip()
        text = (TOP / "README.md").read_text(encoding="utf-8").split("## A first session")[1].split("\n## ")[0]
        typed = recorded(text)
        self.assertGreater(len(typed), 8)
        for name, line, told in typed:
            if name not in shells:
                outputs[name] = io.StringIO()
                shells[name] = Shell(address, stdout=outputs[name], name=name)
                self.addCleanup(shells[name].close)
                shells[name].connected()
                self.assertIn("    " + outputs[name].getvalue().replace(address, "127.0.0.1:7000"), text)
            before = len(outputs[name].getvalue())
            shells[name].onecmd(line)
            self.assertEqual(outputs[name].getvalue()[before:], told, line)
        self.assertEqual(list(shells), ["anna", "bert"])
        self.assertEqual(Path("cell.toml").read_text(encoding="utf-8"), shells["anna"].connected().setup())


def recorded(text: str) -> list[tuple[str, str, str]]:
    """What a text shows of shells: the name at each prompt, what is typed there, and what is then told."""
    found: list[tuple[str, str, str]] = []
    is_told = False
    for line in text.splitlines():
        prompt = re.fullmatch(r"    (\w+)> (.+)", line)
        if prompt:
            found.append((prompt[1], prompt[2], ""))
            is_told = True
        elif is_told and line.startswith("    "):
            name, typed, told = found[-1]
            found[-1] = (name, typed, f"{told}{line[4:]}\n")
        else:
            is_told = False
    return found


class Answers(unittest.TestCase):
    def test_a_command_that_got_no_answer_is_not_sent_again(self) -> None:
        done = [{"entry": 7, "session": 3, "key": "gate 4", "of": 6, "what": "undone"}]
        for entered, said in ((done, "This was done, though no answer came:\n     7  session 3"), ([], "Nothing of yours was entered")):
            with socket.create_server(("127.0.0.1", 0)) as listener:
                listener.settimeout(PATIENCE)
                output = io.StringIO()
                shell = Shell(f"127.0.0.1:{listener.getsockname()[1]}", stdout=output)
                self.addCleanup(shell.close)
                self.play(listener, shell, "undo", [('{"do":"hello"}', {"session": 3}), ('{"do":"undo","s":3}', None)])
                self.assertIn("whether it was done is not known, and it is not sent again", output.getvalue())
                self.play(listener, shell, "list meter", [
                    ('{"do":"resume","s":3}', {"session": 3}), ('{"do":"since","s":3,"after":0}', {"entries": entered}),
                    ('{"do":"list","s":3,"kind":"meter"}', {"ids": [5]})])
                self.assertIn(said, output.getvalue())
                self.assertTrue(output.getvalue().endswith("meter:  5\n"))

    def test_a_name_goes_on_where_no_answer_came(self) -> None:
        named = {"name": "anna", "session": 3, "standing": 1}
        done = {"entry": 7, "session": 3, "key": "gate 4", "of": 6, "what": "undone"}
        with socket.create_server(("127.0.0.1", 0)) as listener:
            listener.settimeout(PATIENCE)
            output = io.StringIO()
            shell = Shell(f"127.0.0.1:{listener.getsockname()[1]}", stdout=output, name="anna")
            self.addCleanup(shell.close)
            known: Asked = [('{"do":"resume","s":1}', {"session": 1}), ('{"do":"sessions","s":1}', {"sessions": [named]}),
                            ('{"do":"hello","name":"anna"}', {"session": 3})]
            self.play(listener, shell, "undo", [*known, ('{"do":"undo","s":3}', None)])
            self.play(listener, shell, "list meter", [
                *known, ('{"do":"since","s":3,"after":0}', {"entries": [done]}), ('{"do":"list","s":3,"kind":"meter"}', {"ids": [5]})])
            said = output.getvalue()
            self.assertEqual(said.count(f"You go on as session 3, anna, at {shell.address}.\n"), 2)
            self.assertIn("What it did last is\n     7  session 3, anna undid gate 4 (takes back 6)\n", said)
            self.play(listener, shell, "undo", [('{"do":"undo","s":3}', None)], is_new=False)
            self.play(listener, shell, "list meter", [
                *known, ('{"do":"since","s":3,"after":7}', {"entries": []}), ('{"do":"list","s":3,"kind":"meter"}', {"ids": [5]})])
            self.assertTrue(output.getvalue().endswith("Nothing of yours was entered since your last answer.\nmeter:  5\n"))

    def test_a_name_that_is_new(self) -> None:
        with socket.create_server(("127.0.0.1", 0)) as listener:
            listener.settimeout(PATIENCE)
            output = io.StringIO()
            shell = Shell(f"127.0.0.1:{listener.getsockname()[1]}", stdout=output, name="anna")
            self.addCleanup(shell.close)
            self.play(listener, shell, "list meter", [
                ('{"do":"resume","s":1}', {"refused": 5, "why": "no_session"}), ('{"do":"hello","name":"anna"}', {"session": 1}),
                ('{"do":"list","s":1,"kind":"meter"}', {"ids": []})])
            self.assertEqual(output.getvalue(), f"You are session 1, anna, at {shell.address}.\nmeter:  none\n")

    def play(self, listener: socket.socket, shell: Shell, line: str, asked: Asked, is_new: bool = True) -> None:
        """A line is typed, and a peer, a new one or the one before, is asked this, and replies so; without a reply it goes."""
        planner = threading.Thread(target=shell.onecmd, args=(line,))
        planner.start()
        if is_new:
            self.peer, _ = listener.accept()
            self.addCleanup(self.peer.close)
        for wanted, reply in asked:
            self.assertEqual(self.peer.recv(4096).decode(), wanted + "\n")
            if reply is None:
                self.peer.close()
            else:
                self.peer.sendall(json.dumps(reply).encode() + b"\n")
        planner.join(PATIENCE)


class Terminal(Served):
    def started(self, *words: str) -> tuple[int, int]:
        """A shell in a terminal of its own: its process, and the terminal."""
        pid, terminal = pty.fork()
        if pid == 0:
            signal.signal(signal.SIGINT, signal.SIG_DFL)  # who runs the tests in the background ignores Ctrl-C
            os.environ.update(PYTHONPATH=str(HERE.parents[1]), TERM="dumb")
            os.execv(sys.executable, [sys.executable, "-m", "tsnd.shell", self.server.address, *words])
        self.addCleanup(os.close, terminal)
        return pid, terminal

    def test_typed_in_a_terminal(self) -> None:
        pid, terminal = self.started()
        self.assertRegex(self.read(terminal, r"\d+> "), r"You are session \d+")
        os.write(terminal, b"sho\tmet\t0\n")
        self.assertIn("cbs=", self.read(terminal, r"all_red=false\r\n\d+> "))
        os.write(terminal, b"set meter 0 cir=5M\n")
        self.read(terminal, r"entry 1\r\n\d+> ")
        self.breaks(terminal, r"\d+> ")
        os.write(terminal, b"undo\n")
        self.read(terminal, r"entry 2: 1 is taken back\r\n\d+> ")
        os.write(terminal, b"quit\n")
        self.assertEqual(os.waitpid(pid, 0)[1], 0)

    def test_a_day_in_a_terminal(self) -> None:
        pid, terminal = self.started("--name", "anna", "--journal", str(self.server.journal))
        self.assertRegex(self.read(terminal, "anna> "), r"You are session \d+, anna, at ")

        def types(line: str, until: str) -> str:
            os.write(terminal, line.encode() + b"\n")
            return self.read(terminal, until + r"\r\nanna> ")

        saved = str(self.folder / "cell.toml")
        types(f"save {saved}", "8 records")
        before = Path(saved).read_text(encoding="utf-8")
        types("show port 1", "list=0x80:200us,0x60:300us,0x7f:500us")
        types("set meter 0 cir=120M cbs=3k", "entry 1")
        os.write(terminal, b"batch\nnew gate 9 cycle=500us list=open:250us,closed:250us\nnew filter 13 gate=9 handle=10\n")
        self.read(terminal, "batch of 2> ")
        types("end", "entry 2")
        types("enable port 1 now=0", "entry 3")
        types("apply port 1 now=now", r"entry 4: the list starts at \d+(\.\d+)?\w+")
        types("states port 1 at=+1500us", "at .*: gates 0x[0-9a-f]{2}, open for traffic class [0-9, ]+")
        bert = self.other("bert")
        bert.create("filter 14", tsnd.StreamFilter(gate=9))
        said = types("undo", "by whom it belongs to\\.")
        self.assertIn(f"Not undone, and nothing changed: entry 5 of session {bert.number}, bert (edited filter 14) came later", said)
        bert.undo()
        types("undo", "entry 7: 2 is taken back")
        self.server.kill()
        types("who", "There is no server at .*")
        self.server.start()
        said = types("who", r"bert: 0 standing, last .*")
        self.assertRegex(said, r"You go on as session (\d+), anna, at .*\r\n(.*\r\n)*session \1, anna \(you\): 1 standing, last \d{4}-")
        said = types("log", r"7  session \d+, anna undid filter 13, gate 9 \(takes back 2\)")
        self.assertRegex(said, r"5  session \d+, bert edited filter 14\r\n")
        self.assertIn("120000000", types("diff 1", ".*cir.*"))
        types(f"save {saved}", "8 records")
        lines = difflib.ndiff(before.splitlines(), Path(saved).read_text(encoding="utf-8").splitlines())
        self.assertEqual([line for line in lines if line.startswith("+")], ["+ cir = 120000000"])
        types("redo", "entry 8: the undo 7 is taken back")
        os.write(terminal, b"quit\n")
        self.assertEqual(os.waitpid(pid, 0)[1], 0)

    def breaks(self, terminal: int, until: str) -> None:
        """Ctrl-C, until this comes; again where one is lost, since Python sees none that falls between its prompt and its wait."""
        for _ in range(4):
            os.write(terminal, b"\x03")
            if select.select([terminal], [], [], PATIENCE / 4)[0]:
                break
        self.read(terminal, until)

    def read(self, terminal: int, until: str) -> str:
        """What the terminal shows, until this comes."""
        shown, late = "", time.monotonic() + PATIENCE
        while not re.search(until, shown):
            ready, _, _ = select.select([terminal], [], [], max(0, late - time.monotonic()))
            self.assertTrue(ready, f"no {until!r} behind {shown!r}")
            shown += os.read(terminal, 4096).decode()
        return shown


class Units(unittest.TestCase):
    def test_what_is_shown_can_be_typed_again(self) -> None:
        records: tuple[tsnd.Record, ...] = (
            tsnd.PortGates(129, 1_500_000, 7, 1 << 62, (tsnd.PortEntry(128, 200_000), tsnd.PortEntry(0, 1))),
            tsnd.StreamGate(open=False, ipv=5, list=(tsnd.GateEntry(True, 7, 1000, 1500), tsnd.GateEntry(False, None, 250_000))),
            tsnd.StreamFilter(gate=4, meter=None, handle=0, priority=7, max_sdu=1500, oversize=True),
            tsnd.FlowMeter(cir=120_000_000, cbs=3000, eir=1, ebs=0, cf=True, all_red=True),
        )
        for record in records:
            words = units.record_text(record).split()
            self.assertEqual(units.created(type(record), words), record)

    def test_units(self) -> None:
        for text, value in (("250", 250), ("1.5ms", 1_500_000), ("2s", 2_000_000_000), ("0", 0)):
            self.assertEqual(units.time_of(text), value)
        for text, value in (("8M", 8_000_000), ("64kbit/s", 64_000), ("1.2G", 1_200_000_000), ("7bps", 7)):
            self.assertEqual(units.rate_of(text), value)
        self.assertEqual((units.size_of("9k"), units.size_of("1500B")), (9000, 1500))
        for text in ("", "1.5", "1m", "-1", "1e3"):
            with self.assertRaises(units.Unclear):
                units.time_of(text)


if __name__ == "__main__":
    unittest.main()
