"""The way to Linux: commands of a setup, read again, and taken by the real `tc` where there is one."""
from __future__ import annotations

import io
import json
import shutil
import subprocess
import sys
import tempfile
import unittest
from contextlib import redirect_stderr, redirect_stdout
from pathlib import Path

HERE = Path(__file__).resolve()
sys.path.insert(0, str(HERE.parents[1]))

from tsnd import tc  # noqa: E402

SETUP = """
[[port]]
id = 1
gates = 3
cycle = 1000
extension = 10
base = 5
list = [{gates = 1, interval = 300}, {gates = 128, interval = 700}]

[[port]]
id = 2
gates = 255
cycle = 1000
extension = 0
base = 0
list = []

[[gate]]
id = 4
open = false
cycle = 1000
extension = 0
base = 0
invalid_rx = true
octets_exceeded = false
list = [{open = true, ipv = 5, interval = 250, octets = 150}, {open = false, interval = 750}]

[[meter]]
id = 2
cir = 8000000
cbs = 1500
eir = 1
ebs = 0
cf = false
aware = false
drop_yellow = false
all_red = false
"""
TAPRIO = (
    "tc qdisc replace dev veth0 parent root handle 100 taprio num_tc 8 map 0 1 2 3 4 5 6 7 0 0 0 0 0 0 0 0 "
    "queues 1@0 1@1 1@2 1@3 1@4 1@5 1@6 1@7 base-time 5 sched-entry S 01 300 sched-entry S 80 700 "
    "cycle-time 1000 cycle-time-extension 10 clockid CLOCK_TAI\n"
)
GATE = (
    "tc actions replace action gate clockid CLOCK_TAI base-time 0 cycle-time 1000 cycle-time-ext 0 "
    "sched-entry open 250 5 150 sched-entry close 750 -1 -1 index 5\n"
)
POLICE = "tc actions replace action police rate 8000000bit burst 1500 conform-exceed drop index 3\n"


class Commands(unittest.TestCase):
    def setUp(self) -> None:
        folder = self.enterContext(tempfile.TemporaryDirectory())
        self.setup = str(Path(folder) / "setup.toml")
        Path(self.setup).write_text(SETUP, encoding="utf-8")
        self.shown = str(Path(folder) / "shown.json")

    def run_with(self, *words: str) -> tuple[int, str, str]:
        with redirect_stdout(io.StringIO()) as said, redirect_stderr(io.StringIO()) as errors:
            status = tc.main(words)
        return status, said.getvalue(), errors.getvalue()

    def test_a_port(self) -> None:
        status, said, errors = self.run_with(self.setup, "--port", "1", "--dev", "veth0")
        self.assertEqual((status, said), (0, TAPRIO))
        self.assertEqual(errors, "tsnd-tc: not told: the gates while no list is in force (3): taprio leaves all open\n")

    def test_a_port_that_the_card_keeps(self) -> None:
        status, said, _ = self.run_with(self.setup, "--port", "1", "--dev", "veth0", "--offload")
        self.assertEqual((status, said), (0, TAPRIO.replace("clockid CLOCK_TAI", "flags 0x2")))

    def test_a_setup_that_can_t_be_read(self) -> None:
        for old, new, wanted in (
            ("cycle = 1000\nextension = 10", "cycl = 1000\nextension = 10",
             "port 1 has no member 'cycl'; it has gates, cycle, extension, base, list"),
            ("gates = 3\n", "", "port 1 lacks 'gates'"),
            ("{gates = 1, interval = 300}", "{gates = 1, interva = 300}",
             "entry 1 of port 1 has no member 'interva'; it has gates, interval"),
            ("{gates = 1, interval = 300}", "7", "entry 1 of port 1 is no table"),
            ("[[port]]\nid = 1", "[port]\nid = 1", "the setup is no TOML: "),
            ("gates = 3", 'gates = "x"', "port 1: 'gates' can't be 'x'"),
            ("gates = 3", "gates = true", "port 1: 'gates' can't be True"),
            ("list = [{gates = 1, interval = 300}, {gates = 128, interval = 700}]", "list = 7", "port 1: 'list' can't be 7"),
        ):
            self.assertIn(old, SETUP)
            Path(self.setup).write_text(SETUP.replace(old, new), encoding="utf-8")
            status, said, errors = self.run_with(self.setup, "--port", "1", "--dev", "veth0")
            self.assertEqual((status, said), (1, ""))
            self.assertTrue(errors.startswith(f"tsnd-tc: {wanted}"), errors)

    def test_what_tc_shows_can_t_be_read(self) -> None:
        for text in (b"{", b"{}", b"[7]", b"\xff", b'[{"kind": "taprio", "options": null}]',
                     b'[{"kind": "taprio", "options": {"schedule": [{}]}}]'):
            Path(self.shown).write_bytes(text)
            status, said, errors = self.run_with("--from-tc", self.shown)
            self.assertEqual((status, said, errors.count("\n")), (1, "", 1), text)

    def test_a_stream_gate(self) -> None:
        status, said, errors = self.run_with(self.setup, "--gate", "4")
        self.assertEqual((status, said), (0, GATE))
        self.assertEqual(errors.count("not told"), 2)

    def test_a_flow_meter(self) -> None:
        status, said, errors = self.run_with(self.setup, "--meter", "2")
        self.assertEqual((status, said), (0, POLICE))
        self.assertIn("eir 1", errors)

    def test_what_is_not_there(self) -> None:
        device = ("--dev", "veth0")
        for words in ((self.setup, "--port", "2", *device), (self.setup, "--port", "3", *device), (self.setup, "--gate", "0"),
                      (self.setup, "--gate", "4", "--offload"), (self.setup, "--meter", "0"), (self.setup,),
                      (self.setup + "x", "--gate", "4"), ()):
            status, said, errors = self.run_with(*words)
            self.assertEqual((status, said, errors.count("\n")), (1, "", 1), words)

    def test_back(self) -> None:
        options = {
            "base_time": 5, "cycle_time": 1000, "cycle_time_extension": 10,
            "schedule": [
                {"index": 0, "cmd": "S", "gatemask": "0x1", "interval": 300},
                {"index": 1, "cmd": "S", "gatemask": "0x80", "interval": 700},
            ],
        }
        shown = [{"kind": "noqueue"}, {"kind": "taprio", "options": options}]
        Path(self.shown).write_text(json.dumps(shown), encoding="utf-8")
        status, said, _ = self.run_with("--from-tc", self.shown, "--port", "7")
        self.assertEqual((status, said), (0, (
            "[[port]]\nid = 7\ngates = 255\ncycle = 1000\nextension = 10\nbase = 5\n"
            "list = [\n  {gates = 1, interval = 300},\n  {gates = 128, interval = 700},\n]\n")))
        Path(self.shown).write_text("[]", encoding="utf-8")
        self.assertEqual(self.run_with("--from-tc", self.shown)[0], 1)


def _namespaces() -> bool:
    tools = shutil.which("ip") and shutil.which("tc") and shutil.which("unshare")
    return bool(tools) and subprocess.run(["unshare", "-rn", "true"], capture_output=True, check=False).returncode == 0


@unittest.skipUnless(_namespaces(), "wants iproute2 and a network namespace of its own")
class RealTc(unittest.TestCase):
    """The parser of tc takes each command: what is refused is refused by a kernel that lacks the kind, not by tc."""

    def refused_by_tc(self, command: str) -> bool:
        """Whether tc itself refuses it: it has not asked the kernel then."""
        words = command.replace("veth0", "lo")
        run = subprocess.run(["unshare", "-rn", "sh", "-c", words], capture_output=True, text=True, check=False)
        asked = run.returncode == 0 or "RTNETLINK" in run.stderr or "Error: " in run.stderr
        return not asked

    def test_commands_are_taken(self) -> None:
        for command in (TAPRIO, GATE, POLICE):
            self.assertFalse(self.refused_by_tc(command), command)

    def test_a_second_call_replaces_the_first(self) -> None:
        for command in (GATE, POLICE):
            run = subprocess.run(["unshare", "-rn", "sh", "-c", command], capture_output=True, text=True, check=False)
            if run.returncode == 0:
                twice = subprocess.run(["unshare", "-rn", "sh", "-c", f"{command}{command}"], capture_output=True, text=True, check=False)
                self.assertEqual((twice.returncode, twice.stderr), (0, ""), command)

    def test_a_wrong_command_is_not(self) -> None:
        self.assertTrue(self.refused_by_tc(TAPRIO.replace("sched-entry", "sched-entri")))
        self.assertTrue(self.refused_by_tc(GATE.replace("close", "shut")))
        self.assertTrue(self.refused_by_tc(POLICE.replace("conform-exceed drop", "conform-exceed fall")))


if __name__ == "__main__":
    unittest.main()
