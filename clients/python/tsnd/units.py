"""Times, rates and sizes as people write them: `3ms`, `120M`, `1.5k`; and members of records in such words.

The service knows whole nanoseconds, bits per second and octets alone. What is written here is one of these exactly, or is refused.
"""
from __future__ import annotations

import re
from collections.abc import Callable, Iterable, Mapping
from dataclasses import MISSING, fields, replace
from fractions import Fraction
from typing import Any, get_args, get_type_hints

from .records import FlowMeter, GateEntry, PortEntry, PortGates, Record, StreamFilter, StreamGate

TIMES = {"ns": 1, "us": 1_000, "ms": 1_000_000, "s": 1_000_000_000}
SCALES = {"k": 1_000, "K": 1_000, "M": 1_000_000, "G": 1_000_000_000}
NONE = ("none", "null", "-")
YES = ("true", "yes", "on", "open")
NO = ("false", "no", "off", "closed")
TIME_MEMBERS = {"cycle", "extension", "base", "interval"}
RATE_MEMBERS = {"cir", "eir"}
SIZE_MEMBERS = {"cbs", "ebs", "max_sdu", "octets"}
KINDS: dict[str, type[Record]] = {"port": PortGates, "filter": StreamFilter, "gate": StreamGate, "meter": FlowMeter}


class Unclear(Exception):
    """What was typed is no such value; the text says what would be one."""


def _scaled(text: str, scales: Mapping[str, int], unit: str, what: str) -> int:
    found = re.fullmatch(r"(\d+(?:\.\d+)?)\s*([A-Za-z/]*)", text)
    suffix = found[2] if found else ""
    for ending in (unit, unit.replace("bit/s", "bps")):
        if unit and suffix.endswith(ending):
            suffix = suffix[: len(suffix) - len(ending)]
            break
    if found is None or suffix not in {**scales, "": 1}:
        raise Unclear(f"'{text}' is no {what}")
    value = Fraction(found[1]) * {**scales, "": 1}[suffix]
    if value.denominator != 1:
        raise Unclear(f"'{text}' is no whole number of {'nanoseconds' if scales is TIMES else 'bits per second' if unit else 'octets'}")
    return int(value)


def time_of(text: str) -> int:
    """Nanoseconds: `250`, `250us`, `1.5ms`, `2s`."""
    return _scaled(text, TIMES, "", "time, such as 250us, 1.5ms or 2s; without a unit it is nanoseconds")


def rate_of(text: str) -> int:
    """Bits per second: `8000000`, `8M`, `1.2G`, `64kbit/s`."""
    return _scaled(text, SCALES, "bit/s", "rate, such as 8M, 1.2G or 64kbit/s; without a scale it is bits per second")


def size_of(text: str) -> int:
    """Octets: `1500`, `9k`."""
    return _scaled(text, SCALES, "B", "size, such as 1500 or 9k, in octets")


def number_of(text: str) -> int:
    """A whole number: `5`, `0x80`, `0b10000000`."""
    try:
        return int(text, 0)
    except ValueError:
        raise Unclear(f"'{text}' is no whole number, such as 5, 0x80 or 0b10000000") from None


def flag_of(text: str) -> bool:
    """True or false."""
    if text.lower() in YES + NO:
        return text.lower() in YES
    raise Unclear(f"'{text}' is neither true nor false")


def _reader(member: str, hint: Any) -> Callable[[str], Any]:
    if member in TIME_MEMBERS:
        return time_of
    if member in RATE_MEMBERS:
        return rate_of
    if member in SIZE_MEMBERS:
        return size_of
    return flag_of if hint is bool else number_of


def may_be_none(hint: Any) -> bool:
    """Whether a member of this kind may be none."""
    return type(None) in get_args(hint)


def _port_entry(text: str) -> PortEntry:
    gates, colon, interval = text.partition(":")
    if not colon:
        raise Unclear(f"'{text}' is no entry of a port's list, such as 0x80:200us")
    return PortEntry(number_of(gates), time_of(interval))


def _gate_entry(text: str) -> GateEntry:
    parts = text.split(":")
    if len(parts) < 2:
        raise Unclear(f"'{text}' is no entry of a gate's list, such as open:250us or closed:250us:ipv=5:octets=1500")
    given = dict(part.partition("=")[::2] for part in parts[2:])
    if set(given) - {"ipv", "octets"}:
        raise Unclear(f"'{text}': an entry of a gate's list has ipv and octets behind its interval, such as open:250us:ipv=5:octets=1500")
    numbers = {name: None if value in NONE else size_of(value) for name, value in given.items()}
    return GateEntry(flag_of(parts[0]), numbers.get("ipv"), time_of(parts[1]), numbers.get("octets"))


def value_of(kind: type[Record], member: str, text: str) -> Any:
    """The value of a member of a record of this kind."""
    hints = get_type_hints(kind)
    if member not in hints:
        raise Unclear(f"there is no member '{member}'; there are {', '.join(hints)}")
    if member == "list":
        parts = [] if text in ("", "empty", *NONE) else text.split(",")
        return tuple(map(_port_entry, parts)) if kind is PortGates else tuple(map(_gate_entry, parts))
    if may_be_none(hints[member]) and text in NONE:
        return None
    return _reader(member, hints[member])(text)


def assigned(kind: type[Record], words: Iterable[str]) -> dict[str, Any]:
    """The members that words such as `cir=8M` give."""
    given: dict[str, Any] = {}
    for word in words:
        member, equals, text = word.partition("=")
        if not equals:
            raise Unclear(f"'{word}' gives no member a value, as in cycle=1ms")
        if member in given:
            raise Unclear(f"'{member}' is given twice")
        given[member] = value_of(kind, member, text)
    return given


def changed(record: Record, words: Iterable[str]) -> Record:
    """The record with the members that these words give."""
    return replace(record, **assigned(type(record), words))


def created(kind: type[Record], words: Iterable[str]) -> Record:
    """A record of these members; those that have a common value may be left out."""
    given = assigned(kind, words)
    lacking = [field.name for field in fields(kind) if field.default is MISSING and field.name not in given]
    if lacking:
        raise Unclear(f"it wants {' and '.join(lacking)}, too")
    return kind(**given)


# ---- the same in words that are shown

def _shown(value: int, scales: Mapping[str, int], unit: str) -> str:
    for suffix, scale in sorted(scales.items(), key=lambda item: -item[1]):
        if suffix != "K" and value % scale == 0:
            return f"{value // scale}{suffix}{unit}"
    return f"{value}{unit}"


def time_text(value: int) -> str:
    """`3ms`, and `0`."""
    return _shown(value, TIMES, "") if value else "0"


def rate_text(value: int) -> str:
    """`120Mbit/s`, and `0`."""
    return _shown(value, SCALES, "bit/s") if value else "0"


def gates_text(gates: int) -> str:
    """The gates of a port, the highest traffic class first: `0x80`."""
    return f"0x{gates:02x}"


def _entry_text(entry: PortEntry | GateEntry) -> str:
    if isinstance(entry, PortEntry):
        return f"{gates_text(entry.gates)}:{time_text(entry.interval)}"
    told = f"{'open' if entry.open else 'closed'}:{time_text(entry.interval)}"
    told += "" if entry.ipv is None else f":ipv={entry.ipv}"
    return told + ("" if entry.octets is None else f":octets={entry.octets}")


def member_text(kind: type[Record], member: str, value: Any) -> str:
    """A member's value, as it may be typed again."""
    if member == "list":
        return ",".join(_entry_text(entry) for entry in value) or "empty"
    if value is None:
        return "none"
    if isinstance(value, bool):
        return "true" if value else "false"
    if member in TIME_MEMBERS:
        return time_text(value)
    if member in RATE_MEMBERS:
        return rate_text(value)
    return gates_text(value) if kind is PortGates and member == "gates" else str(value)


def record_text(record: Record) -> str:
    """A record's members, a line each."""
    return "\n".join(f"  {field.name}={member_text(type(record), field.name, getattr(record, field.name))}" for field in fields(record))
