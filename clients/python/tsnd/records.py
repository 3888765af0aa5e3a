"""The records of a bridge, with the standard's names (IEEE Std 802.1Q-2018, 12.29.1 and 12.31).

Times are nanoseconds, sizes octets, rates bits per second. The service tests the ranges; a number outside its range is
refused as `OutOfRange`.
"""
from __future__ import annotations

from collections.abc import Mapping
from dataclasses import dataclass
from typing import Any, Union


@dataclass(frozen=True)
class PortEntry:
    """An entry of a port's gate control list."""

    gates: int
    """0 to 255; bit i is the gate of traffic class i, 1 is open."""
    interval: int
    """1 to 4,294,967,295 ns."""


@dataclass(frozen=True)
class PortGates:
    """The gates of a port (AdminGateStates, AdminControlList)."""

    gates: int = 255
    """The gates while no list is in force."""
    cycle: int = 1_000_000
    """AdminCycleTime, 1 to 10^12 ns."""
    extension: int = 0
    """AdminCycleTimeExtension, 0 to 10^12 ns."""
    base: int = 0
    """AdminBaseTime, 0 to 2^62 ns."""
    list: tuple[PortEntry, ...] = ()
    """AdminControlList."""

    def to_json(self) -> dict[str, Any]:
        """The record as the service reads it."""
        rows = [[entry.gates, entry.interval] for entry in self.list]
        return {"base": self.base, "cycle": self.cycle, "extension": self.extension, "gates": self.gates, "list": rows}


@dataclass(frozen=True)
class GateEntry:
    """An entry of a stream gate's list."""

    open: bool
    ipv: int | None
    """Internal priority value, 0 to 7, or none."""
    interval: int
    """1 to 4,294,967,295 ns."""
    octets: int | None = None
    """IntervalOctetMax, 0 to 2^32 - 1 octets, or none."""


@dataclass(frozen=True)
class StreamGate:
    """A stream gate instance."""

    open: bool = True
    """The gate while no list is in force."""
    ipv: int | None = None
    """Internal priority value, 0 to 7, or none."""
    cycle: int = 1_000_000
    """1 to 10^12 ns."""
    extension: int = 0
    """0 to 10^12 ns."""
    base: int = 0
    """0 to 2^62 ns."""
    list: tuple[GateEntry, ...] = ()
    invalid_rx: bool = False
    """GateClosedDueToInvalidRxEnable."""
    octets_exceeded: bool = False
    """GateClosedDueToOctetsExceededEnable."""

    def to_json(self) -> dict[str, Any]:
        """The record as the service reads it."""
        rows = [[entry.open, entry.ipv, entry.interval, entry.octets] for entry in self.list]
        return {
            "base": self.base, "cycle": self.cycle, "extension": self.extension, "invalid_rx": self.invalid_rx, "ipv": self.ipv,
            "list": rows, "octets_exceeded": self.octets_exceeded, "open": self.open,
        }


@dataclass(frozen=True)
class StreamFilter:
    """A stream filter instance. It refers to a stream gate and, where it names one, to a flow meter."""

    gate: int
    """The stream gate's number."""
    meter: int | None = None
    """The flow meter's number, or none."""
    handle: int | None = None
    """Stream handle, 0 to 2^32 - 1, or none for any."""
    priority: int | None = None
    """0 to 7, or none for any."""
    max_sdu: int | None = None
    """Maximum SDU size, 1 to 65,535 octets, or none."""
    oversize: bool = False
    """StreamBlockedDueToOversizeFrameEnable."""

    def to_json(self) -> dict[str, Any]:
        """The record as the service reads it."""
        return {
            "gate": self.gate, "handle": self.handle, "max_sdu": self.max_sdu, "meter": self.meter, "oversize": self.oversize,
            "priority": self.priority,
        }


@dataclass(frozen=True)
class FlowMeter:
    """A flow meter instance (MEF 10.3, as 8.6.5.1.3 names it)."""

    cir: int
    """Committed information rate, 0 to 10^12 bits per second."""
    cbs: int
    """Committed burst size, 0 to 2^32 - 1 octets."""
    eir: int = 0
    """Excess information rate, 0 to 10^12 bits per second."""
    ebs: int = 0
    """Excess burst size, 0 to 2^32 - 1 octets."""
    cf: bool = False
    """Coupling flag."""
    aware: bool = False
    """Colour mode: true is colour-aware."""
    drop_yellow: bool = False
    """DropOnYellow."""
    all_red: bool = False
    """MarkAllFramesRedEnable."""

    def to_json(self) -> dict[str, Any]:
        """The record as the service reads it."""
        return {
            "all_red": self.all_red, "aware": self.aware, "cbs": self.cbs, "cf": self.cf, "cir": self.cir,
            "drop_yellow": self.drop_yellow, "ebs": self.ebs, "eir": self.eir,
        }


Record = Union[PortGates, StreamGate, StreamFilter, FlowMeter]


def record_of(key: str, members: Mapping[str, Any]) -> Record:
    """The record of a key as the service shows it."""
    kind = key.split(" ")[0]
    given = dict(members)
    if kind == "port":
        given["list"] = tuple(PortEntry(*row) for row in given["list"])
        return PortGates(**given)
    if kind == "gate":
        given["list"] = tuple(GateEntry(*row) for row in given["list"])
        return StreamGate(**given)
    return StreamFilter(**given) if kind == "filter" else FlowMeter(**given)
