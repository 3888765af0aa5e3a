"""Pictures of gate states over time.

    python3 -m tsnd.plot SETUP [OTHER] [--port P] [--cycles N] -o FILE

draws the gates of a port, each traffic class a row, over some cycles from its list's base time on; FILE ends with .png, .svg or
.pdf. Times at which every gate is closed (guard times), times for which a list's last entry goes on to the end of its cycle, and
the time by which a cycle may be extended before a new list are marked. With a second setup below it those of the other one, and
where the two differ: which of them has the gate open. The states are those that the program tells (`tsnd states`): nothing here
evaluates a list. It wants matplotlib, and the program: the one that TSND names, or `tsnd` on the path, or the one that `./build` made
in the clone that this file is of.
"""
from __future__ import annotations

import argparse
import math
import os
import subprocess
import sys
from collections.abc import Sequence
from typing import Any

from .programs import NoProgram, program_of
from .records import PortGates
from .setups import Setup, Unread

CLASSES = 8
MOST_INSTANTS = 1_000_000
OPEN, SHUT, LAST, GUARD, EXTENSION = "#2a7f62", "#e8e8e8", "#f2d16b", "#7a7a7a", "#8a5fbf"
ONLY_FIRST, ONLY_SECOND = "#2b6cb0", "#c8553d"
UNITS = ((1_000_000_000, "s"), (1_000_000, "ms"), (1_000, "us"))
PICTURES = (".png", ".svg", ".pdf")


class Undrawn(Exception):
    """What was asked for can't be drawn."""


def unit_of(length: int) -> tuple[int, str]:
    """How many ns one of the unit has in which this time is read best, and the unit: of the greatest there are at least 2."""
    return next(((size, name) for size, name in UNITS if length >= 2 * size), (1, "ns"))


def port_of(path: str, number: int) -> PortGates:
    """A port of a setup's file; as in the standard setup where the file does not name it."""
    setup = Setup.read(path)
    if not 1 <= number <= setup.ports:
        raise Undrawn(f"{path} has no port {number}")
    return setup.port(number) or PortGates()


def step_of(ports: Sequence[PortGates]) -> int:
    """The greatest time of which each interval, cycle and base time is a multiple, in ns: between two such instants nothing changes."""
    parts = [part for port in ports for part in (port.cycle, *(entry.interval for entry in port.list))]
    bases = [port.base for port in ports]
    return math.gcd(*parts, *(base - bases[0] for base in bases))


def states(path: str, number: int, start: int, step: int, count: int) -> list[int]:
    """The gates at even steps, as the program tells them."""
    words = [program_of(), "states", path, "--port", str(number), "--from", str(start), "--step", str(step), "--count", str(count)]
    try:
        run = subprocess.run(words, capture_output=True, text=True, check=False)
    except OSError as why:
        raise Undrawn(f"the program {words[0]} can't be run: {why.strerror}") from why
    if run.returncode != 0:
        raise Undrawn(run.stderr.strip() or f"{words[0]} ended with status {run.returncode}")
    try:
        told = [int(line.split()[1], 16) for line in run.stdout.splitlines()]
    except (IndexError, ValueError) as why:
        raise Undrawn(f"the program {words[0]} tells no states") from why
    if len(told) != count:
        raise Undrawn(f"the program {words[0]} tells {len(told)} states, not {count}")
    return told


def running(path: str, number: int, port: PortGates, start: int, step: int, count: int) -> list[int]:
    """The gates at even steps from an instant on, at which the port's list runs already: it is applied at a start of its cycle."""
    ahead = (start - port.base) % port.cycle // step
    return states(path, number, start - ahead * step, step, ahead + count)[ahead:]


def runs(flags: Sequence[bool]) -> list[tuple[int, int]]:
    """Where the flags are true without a break: the first place, and how many."""
    found: list[tuple[int, int]] = []
    for place, flag in enumerate(flags):
        if flag and found and sum(found[-1]) == place:
            found[-1] = (found[-1][0], found[-1][1] + 1)
        elif flag:
            found.append((place, 1))
    return found


def bars(gates: Sequence[int], traffic_class: int) -> list[tuple[int, int]]:
    """Where the gate of a class is open."""
    return runs([bool(state >> traffic_class & 1) for state in gates])


def _rows(axes: Any, title: str, length: int) -> None:
    for traffic_class in range(CLASSES):
        axes.broken_barh([(0, length)], (traffic_class - 0.4, 0.8), color=SHUT)
    axes.set_yticks(range(CLASSES), [f"class {number}" for number in range(CLASSES)])
    axes.set_ylim(-0.9, CLASSES - 0.4)
    axes.set_title(title, fontsize=9, loc="left")


def _panel(axes: Any, title: str, gates: Sequence[int], port: PortGates, step: int, start: int) -> None:
    length = len(gates) * step
    _rows(axes, title, length)
    for traffic_class in range(CLASSES):
        spans = [(first * step, count * step) for first, count in bars(gates, traffic_class)]
        axes.broken_barh(spans, (traffic_class - 0.4, 0.8), color=OPEN, label="open" if traffic_class == 0 else None)
    guard = [(first * step, count * step) for first, count in runs([state == 0 for state in gates])]
    if guard:
        axes.broken_barh(guard, (-0.4, CLASSES - 0.2), facecolor="none", edgecolor=GUARD, hatch="////", linewidth=0, label="all closed")
    used = sum(entry.interval for entry in port.list)
    first = (port.base - start) % port.cycle
    ends = [end for end in range(first, length + port.cycle, port.cycle) if end > 0]
    for end in range(first, length + 1, port.cycle):
        axes.axvline(end, color="black", linewidth=0.6)
    if 0 < used < port.cycle:
        last = [(end - port.cycle + used, port.cycle - used) for end in ends]
        axes.broken_barh(last, (-0.9, 0.3), color=LAST, label="the last entry goes on")
    if port.list and port.extension > 0:
        longer = [(end, min(port.extension, port.cycle)) for end in ends]
        axes.broken_barh(longer, (CLASSES - 0.55, 0.15), color=EXTENSION, label="extension before a new list")
    axes.legend(fontsize=7, loc="upper left", bbox_to_anchor=(1.0, 1.0), frameon=False)


def _difference(axes: Any, names: Sequence[str], first: Sequence[int], second: Sequence[int], step: int) -> None:
    _rows(axes, "where they differ", len(first) * step)
    for name, color, mine, others in ((names[0], ONLY_FIRST, first, second), (names[1], ONLY_SECOND, second, first)):
        for traffic_class in range(CLASSES):
            flags = [bool((one & ~other) >> traffic_class & 1) for one, other in zip(mine, others)]
            spans = [(at * step, count * step) for at, count in runs(flags)]
            label = f"open in {name} alone" if traffic_class == 0 else None
            axes.broken_barh(spans, (traffic_class - 0.4, 0.8), color=color, label=label)
    axes.legend(fontsize=7, loc="upper left", bbox_to_anchor=(1.0, 1.0), frameon=False)


def _time(axes: Any, start: int, length: int) -> None:
    """The times below the pictures, from the first instant on, in the unit that fits."""
    size, name = unit_of(length)
    axes.xaxis.set_major_formatter(lambda at, _: f"{at / size:g}")
    axes.set_xlabel(name if start == 0 else f"{name} after the instant {start} ns")
    axes.set_xlim(0, length)


def draw(paths: Sequence[str], number: int, cycles: int, file: str) -> None:
    """Draws one setup, or two and where they differ."""
    try:
        import matplotlib
    except ImportError as why:
        raise Undrawn("matplotlib is wanted: apt-get install python3-matplotlib, for /usr/bin/python3; or pip install matplotlib") from why
    matplotlib.use("Agg")
    from matplotlib import pyplot

    ports = [port_of(path, number) for path in paths]
    if min(port.cycle for port in ports) < 1:
        raise Undrawn("a cycle is at least 1 ns")
    start = max(port.base for port in ports)
    step = step_of(ports)
    count = cycles * max(port.cycle for port in ports) // step
    if count + max(port.cycle for port in ports) // step > MOST_INSTANTS:
        raise Undrawn(f"{count} instants are more than {MOST_INSTANTS}: fewer cycles")
    told = [running(path, number, port, start, step, count) for path, port in zip(paths, ports)]
    panels = len(paths) + (len(paths) == 2)
    figure, rows = pyplot.subplots(panels, 1, sharex=True, squeeze=False, figsize=(10, 2.6 * panels))
    for axes, path, gates, port in zip(rows[:, 0], paths, told, ports):
        count_of_entries = "1 entry" if len(port.list) == 1 else f"{len(port.list)} entries"
        size, unit = unit_of(2 * port.cycle)
        title = f"{os.path.basename(path)}, port {number}: cycle {port.cycle / size:.12g} {unit}, {count_of_entries}"
        _panel(axes, title, gates, port, step, start)
    if len(paths) == 2:
        names = [os.path.basename(path) for path in paths]
        _difference(rows[2, 0], names if names[0] != names[1] else ["the first", "the second"], told[0], told[1], step)
    _time(rows[-1, 0], start, count * step)
    figure.tight_layout()
    figure.savefig(file, dpi=110)
    pyplot.close(figure)


def _words() -> argparse.ArgumentParser:
    parser = argparse.ArgumentParser(prog="tsnd-plot", description="gate states of a port over time, as a picture")
    parser.add_argument("setup", help="a setup of tsnd, in TOML")
    parser.add_argument("other", nargs="?", help="another one, to compare")
    parser.add_argument("--port", type=int, default=1, help="the port, 1 to 64")
    parser.add_argument("--cycles", type=int, default=2, help="how many cycles")
    parser.add_argument("-o", "--output", required=True, metavar="FILE", help="the picture")
    return parser


def main(words: Sequence[str] | None = None) -> int:
    """Draws what the words ask for. The status is 0, or 1 where it can't be had, with one line that says why."""
    given = _words().parse_args(words)
    try:
        if given.cycles < 1:
            raise Undrawn("--cycles is at least 1")
        if not given.output.endswith(PICTURES):
            raise Undrawn(f"{given.output} does not end with {', '.join(PICTURES[:-1])} or {PICTURES[-1]}")
        draw([path for path in (given.setup, given.other) if path], given.port, given.cycles, given.output)
    except (NoProgram, Undrawn, Unread, OSError) as why:
        print(f"tsnd-plot: {why}", file=sys.stderr)
        return 1
    return 0


if __name__ == "__main__":
    sys.exit(main())
