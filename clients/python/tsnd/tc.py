"""The way to Linux: `tc` commands of a setup's port, stream gate or flow meter, and back.

    python3 -m tsnd.tc SETUP --port P --dev NAME     the taprio qdisc of a port
    python3 -m tsnd.tc SETUP --gate G                the gate action of a stream gate
    python3 -m tsnd.tc SETUP --meter M               the police action of a flow meter
    python3 -m tsnd.tc --from-tc FILE [--port P]     a port's table from the output of `tc -j qdisc show`

A command stands on standard output, and what it can't say on standard error. Given a second time it replaces what the first one made.
With --offload the card keeps the port's list by its own clock (`flags 0x2`, and no clock named); without it the kernel does.
"""
from __future__ import annotations

import argparse
import json
import shlex
import sys
from collections.abc import Mapping, Sequence
from typing import Any

from .records import FlowMeter, PortEntry, PortGates, StreamGate
from .setups import Setup, Unread, port_table

CLASSES = 8


class Untold(Exception):
    """What was asked for is not there, or `tc` has no words for it."""


def taprio(port: PortGates, device: str, offload: bool = False) -> tuple[list[str], list[str]]:
    """The words of the command for a port, and what it can't say. Each traffic class has the queue and the priority of its number.
    Where the list is offloaded the card keeps it, by its own clock."""
    if not port.list:
        raise Untold("the port has no gate control list, and taprio wants one")
    words = ["tc", "qdisc", "replace", "dev", device, "parent", "root", "handle", "100", "taprio", "num_tc", str(CLASSES), "map"]
    words += [str(priority if priority < CLASSES else 0) for priority in range(16)]
    words += ["queues", *(f"1@{queue}" for queue in range(CLASSES))]
    words += ["base-time", str(port.base)]
    for entry in port.list:
        words += ["sched-entry", "S", f"{entry.gates:02x}", str(entry.interval)]
    words += ["cycle-time", str(port.cycle), "cycle-time-extension", str(port.extension)]
    words += ["flags", "0x2"] if offload else ["clockid", "CLOCK_TAI"]
    untold = [] if port.gates == 255 else [f"the gates while no list is in force ({port.gates}): taprio leaves all open"]
    return words, untold


def gate_action(number: int, gate: StreamGate) -> tuple[list[str], list[str]]:
    """The words of the action of a stream gate, and what it can't say. Linux numbers actions from 1: it has the gate's number and 1."""
    if not gate.list:
        raise Untold("the stream gate has no list, and the gate action wants one")
    words = ["tc", "actions", "replace", "action", "gate", "clockid", "CLOCK_TAI", "base-time", str(gate.base)]
    words += ["cycle-time", str(gate.cycle), "cycle-time-ext", str(gate.extension)]
    for entry in gate.list:
        ipv = "-1" if entry.ipv is None else str(entry.ipv)
        octets = "-1" if entry.octets is None else str(entry.octets)
        words += ["sched-entry", "open" if entry.open else "close", str(entry.interval), ipv, octets]
    words += ["index", str(number + 1)]
    untold = []
    if not gate.open:
        untold.append("that the gate is closed while no list is in force")
    if gate.invalid_rx:
        untold.append("invalid_rx: a frame at the closed gate does not close it for good")
    if gate.octets_exceeded:
        untold.append("octets_exceeded: a frame over the octets of its interval does not close the gate for good")
    return words, untold


def police_action(number: int, meter: FlowMeter) -> tuple[list[str], list[str]]:
    """The words of the action of a flow meter, and what it can't say: one rate and one burst, and what is above is dropped."""
    if meter.cir == 0 or meter.cbs == 0:
        raise Untold("the flow meter has no committed rate or burst, and the police action wants both")
    words = ["tc", "actions", "replace", "action", "police", "rate", f"{meter.cir}bit", "burst", str(meter.cbs)]
    words += ["conform-exceed", "drop", "index", str(number + 1)]
    untold = []
    if meter.eir or meter.ebs:
        untold.append(f"the excess bucket (eir {meter.eir}, ebs {meter.ebs}): what would be yellow is dropped")
    for flag, word in ((meter.cf, "cf"), (meter.aware, "aware"), (meter.all_red, "all_red")):
        if flag:
            untold.append(f"{word}, which is true")
    return words, untold


def from_tc(shown: Sequence[Mapping[str, Any]], number: int) -> str:
    """The table of a port from what `tc -j qdisc show` tells, of its first taprio."""
    for qdisc in shown:
        options = qdisc.get("options")
        if qdisc.get("kind") != "taprio" or not isinstance(options, dict) or "schedule" not in options:
            continue
        try:
            rows = tuple(PortEntry(int(str(row["gatemask"]), 16), int(row["interval"])) for row in options["schedule"])
            cycle = int(options.get("cycle_time") or sum(row.interval for row in rows))
            port = PortGates(255, cycle, int(options.get("cycle_time_extension", 0)), int(options.get("base_time", 0)), rows)
        except (KeyError, TypeError, ValueError) as why:
            raise Untold(f"the schedule that tc shows can't be read: {why}") from why
        return port_table(number, port)
    raise Untold("no taprio with a schedule is shown")


def _words() -> argparse.ArgumentParser:
    parser = argparse.ArgumentParser(prog="tsnd-tc", description="tc commands of a setup, and back")
    parser.add_argument("setup", nargs="?", help="a setup of tsnd, in TOML")
    parser.add_argument("--port", type=int, help="the port, 1 to 64")
    parser.add_argument("--gate", type=int, help="a stream gate in place of a port")
    parser.add_argument("--meter", type=int, help="a flow meter in place of a port")
    parser.add_argument("--dev", help="the device of the port")
    parser.add_argument("--offload", action="store_true", help="let the card of the device keep the port's list")
    parser.add_argument("--from-tc", metavar="FILE", help="the output of `tc -j qdisc show`; - is standard input")
    return parser


def _shown(text: str) -> list[Mapping[str, Any]]:
    try:
        shown = json.loads(text)
    except ValueError as why:
        raise Untold(f"what tc shows is no JSON: {why}") from why
    if not isinstance(shown, list) or not all(isinstance(qdisc, dict) for qdisc in shown):
        raise Untold("what tc shows is no list of qdiscs")
    return shown


def _told(given: argparse.Namespace) -> tuple[str, list[str]]:
    if given.from_tc is not None:
        with (sys.stdin if given.from_tc == "-" else open(given.from_tc, encoding="utf-8")) as file:
            try:
                text = file.read()
            except UnicodeDecodeError as why:
                raise Untold("what tc shows is no text in UTF-8") from why
            return from_tc(_shown(text), given.port or 1), []
    if given.setup is None:
        raise Untold("a setup is wanted, or --from-tc")
    if given.offload and (given.gate is not None or given.meter is not None):
        raise Untold("--offload is for a port")
    setup = Setup.read(given.setup)
    if given.gate is not None:
        gate = setup.gate(given.gate)
        if gate is None:
            raise Untold(f"the setup has no gate {given.gate}")
        words, untold = gate_action(given.gate, gate)
    elif given.meter is not None:
        meter = setup.meter(given.meter)
        if meter is None:
            raise Untold(f"the setup has no meter {given.meter}")
        words, untold = police_action(given.meter, meter)
    else:
        if given.port is None or given.dev is None:
            raise Untold("--port and --dev are wanted, or --gate, or --meter")
        port = setup.port(given.port)
        if port is None:
            raise Untold(f"the setup has no port {given.port}")
        words, untold = taprio(port, given.dev, given.offload)
    return shlex.join(words) + "\n", untold


def main(words: Sequence[str] | None = None) -> int:
    """Prints what the words ask for. The status is 0, or 1 where it can't be had, with one line that says why."""
    given = _words().parse_args(words)
    try:
        text, untold = _told(given)
    except (Untold, Unread, OSError) as why:
        print(f"tsnd-tc: {why}", file=sys.stderr)
        return 1
    for part in untold:
        print(f"tsnd-tc: not told: {part}", file=sys.stderr)
    sys.stdout.write(text)
    return 0


if __name__ == "__main__":
    sys.exit(main())
