"""Pictures: what is drawn, by the states that the program tells."""
from __future__ import annotations

import importlib.util
import io
import os
import sys
import tempfile
import unittest
from contextlib import redirect_stderr
from pathlib import Path
from unittest import mock

HERE = Path(__file__).resolve()
TOP = HERE.parents[3]
sys.path.insert(0, str(HERE.parents[1]))
os.environ.setdefault("TSND", str(TOP / "crates/tsnd/out/tsnd"))

from tsnd import plot, programs  # noqa: E402
from tsnd.records import PortEntry, PortGates  # noqa: E402

STATES_PRINT = str(TOP / "examples/states-print.toml")


class Bars(unittest.TestCase):
    def test_runs(self) -> None:
        self.assertEqual(plot.runs([]), [])
        self.assertEqual(plot.runs([True, True, False, True]), [(0, 2), (3, 1)])
        self.assertEqual(plot.bars([1, 3, 2, 1], 0), [(0, 2), (3, 1)])

    def test_steps(self) -> None:
        port = PortGates(cycle=1000, list=(PortEntry(1, 300), PortEntry(128, 700)))
        self.assertEqual(plot.step_of([port]), 100)
        self.assertEqual(plot.step_of([port, PortGates(cycle=1000, base=250)]), 50)

    def test_states_are_the_program_s(self) -> None:
        self.assertEqual(plot.states(STATES_PRINT, 1, 0, 100, 11), [1, 1, 1, 128, 128, 128, 128, 128, 128, 128, 1])

    def test_a_list_runs_from_the_first_instant_on(self) -> None:
        port = PortGates(cycle=1000, list=(PortEntry(1, 300), PortEntry(128, 700)))
        self.assertEqual(plot.running(STATES_PRINT, 1, port, 2200, 100, 10), [1, 128, 128, 128, 128, 128, 128, 128, 1, 1])

    def test_the_unit_that_fits(self) -> None:
        for length, wanted in ((1, (1, "ns")), (1_999, (1, "ns")), (2_000, (1_000, "us")), (2_000_000, (1_000_000, "ms")),
                               (1_999_999, (1_000, "us")), (3_000_000_000, (1_000_000_000, "s"))):
            self.assertEqual(plot.unit_of(length), wanted)

    def test_no_program(self) -> None:
        for named, said in (("", "no program 'tsnd' on the path"), ("/nowhere/tsnd", "the program /nowhere/tsnd can't be run")):
            with mock.patch.dict(os.environ, {"TSND": named, "PATH": "/nowhere"}), mock.patch.object(programs, "BUILT", Path("/nowhere")):
                with redirect_stderr(io.StringIO()) as errors:
                    self.assertEqual(plot.main([STATES_PRINT, "-o", "x.png"]), 1)
            if importlib.util.find_spec("matplotlib"):
                self.assertIn(said, errors.getvalue())

    def test_no_matplotlib(self) -> None:
        with mock.patch.dict(sys.modules, {"matplotlib": None}), redirect_stderr(io.StringIO()) as errors:
            self.assertEqual(plot.main([STATES_PRINT, "-o", "x.png"]), 1)
        self.assertIn("apt-get install python3-matplotlib", errors.getvalue())

    def test_what_can_t_be_drawn(self) -> None:
        for given in (["no such file"], [STATES_PRINT, "--port", "3"], [STATES_PRINT, "--cycles", "0"], [STATES_PRINT, "-o", "x.xyz"]):
            words = ["-o", "x.png", *given]
            with redirect_stderr(io.StringIO()) as errors:
                self.assertEqual(plot.main(words), 1)
            self.assertEqual(errors.getvalue().count("\n"), 1)


@unittest.skipUnless(importlib.util.find_spec("matplotlib"), "wants matplotlib")
class Pictures(unittest.TestCase):
    def test_one_and_two_setups(self) -> None:
        with tempfile.TemporaryDirectory() as folder:
            for setups in ([STATES_PRINT], [STATES_PRINT, str(TOP / "examples/small-cell.toml")]):
                file = Path(folder) / f"{len(setups)}.svg"
                self.assertEqual(plot.main([*setups, "-o", str(file)]), 0)
                drawn = file.read_text(encoding="utf-8")
                self.assertEqual(drawn.count("where they differ"), len(setups) - 1)
                for setup in setups:
                    self.assertEqual(drawn.count(f"open in {Path(setup).name} alone"), len(setups) - 1)
                self.assertEqual((drawn.count("<!-- us -->"), drawn.count("<!-- ms -->")), (1, 0) if len(setups) == 1 else (0, 1))


if __name__ == "__main__":
    unittest.main()
