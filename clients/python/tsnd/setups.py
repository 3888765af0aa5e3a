"""Setups in TOML, as `tsnd` reads them. A setup that the service refuses may be read here: it alone says what is allowed."""
from __future__ import annotations

import tomllib
from collections.abc import Callable
from dataclasses import fields
from pathlib import Path
from typing import Any, TypeVar, get_args, get_origin, get_type_hints

from .records import FlowMeter, GateEntry, PortEntry, PortGates, Record, StreamFilter, StreamGate

Kind = TypeVar("Kind", PortGates, StreamFilter, StreamGate, FlowMeter, PortEntry, GateEntry)
OPTIONAL = {"ipv", "octets", "handle", "priority", "max_sdu", "meter"}
LIMITS = {"ports": 2, "max_filters": 16, "max_gates": 16, "max_meters": 16, "list_max": 16}
"""The limits of a setup, and what each is where it is left out."""
TABLES = ("port", "filter", "gate", "meter")


class Unread(Exception):
    """What stands in a setup can't be read here; `tsnd check FILE` says more."""


def _fits(hint: Any, value: Any) -> bool:
    """Whether a value is of a kind that a member may have; true and false are no numbers."""
    return isinstance(value, tuple) if get_origin(hint) is tuple else type(value) in (get_args(hint) or (hint,))


def _made(kind: type[Kind], name: str, table: Any) -> Kind:
    """The record of a table, which has the members of its kind and no others; null ones may be left out."""
    if not isinstance(table, dict):
        raise Unread(f"{name} is no table")
    members = [field.name for field in fields(kind)]
    unknown = [member for member in table if member not in members]
    if unknown:
        raise Unread(f"{name} has no member '{unknown[0]}'; it has {', '.join(members)}")
    lacking = [member for member in members if member not in table and member not in OPTIONAL]
    if lacking:
        raise Unread(f"{name} lacks '{lacking[0]}'")
    given: dict[str, Any] = {member: table.get(member) for member in members}
    hints = get_type_hints(kind)
    for member, value in given.items():
        if not _fits(hints[member], value):
            raise Unread(f"{name}: '{member}' can't be {value!r}")
    return kind(**given)


class Setup:
    """The tables of a setup by their numbers."""

    def __init__(self, text: str) -> None:
        try:
            self._document = tomllib.loads(text)
        except tomllib.TOMLDecodeError as why:
            raise Unread(f"the setup is no TOML: {why}") from why

    @classmethod
    def read(cls, path: str | Path) -> Setup:
        """The setup of a file."""
        try:
            return cls(Path(path).read_text(encoding="utf-8"))
        except UnicodeDecodeError as why:
            raise Unread(f"{path} is no text in UTF-8") from why

    def limit(self, name: str) -> int:
        """A limit, by its name."""
        limit = self._document.get(name, LIMITS[name])
        if not isinstance(limit, int):
            raise Unread(f"{name} is no number")
        return limit

    @property
    def ports(self) -> int:
        """How many ports the bridge has, 1 to 64."""
        return self.limit("ports")

    def _tables(self, kind: str) -> list[Any]:
        tables = self._document.get(kind, [])
        if not isinstance(tables, list):
            raise Unread(f"{kind} is no list of tables")
        return tables

    def _table(self, kind: str, number: int) -> dict[str, Any] | None:
        for table in self._tables(kind):
            if isinstance(table, dict) and table.get("id") == number:
                return {name: value for name, value in table.items() if name != "id"}
        return None

    def _record(self, kind: str, number: int, made: type[Kind], row: Callable[[str, Any], Any] | None) -> Kind | None:
        table = self._table(kind, number)
        if table is None:
            return None
        name = f"{kind} {number}"
        if row is not None and isinstance(table.get("list"), list):
            table["list"] = tuple(row(f"entry {place} of {name}", entry) for place, entry in enumerate(table["list"], start=1))
        return _made(made, name, table)

    def port(self, number: int) -> PortGates | None:
        """A port's gates, none where the setup does not name the port."""
        return self._record("port", number, PortGates, lambda name, entry: _made(PortEntry, name, entry))

    def filter(self, number: int) -> StreamFilter | None:
        """A stream filter, none where there is none of this number."""
        return self._record("filter", number, StreamFilter, None)

    def gate(self, number: int) -> StreamGate | None:
        """A stream gate, none where there is none of this number."""
        return self._record("gate", number, StreamGate, lambda name, entry: _made(GateEntry, name, entry))

    def meter(self, number: int) -> FlowMeter | None:
        """A flow meter, none where there is none of this number."""
        return self._record("meter", number, FlowMeter, None)

    def records(self) -> dict[str, Record]:
        """All records that the setup names, by their keys: ports, then filters, gates and meters, each in the order of the file."""
        unknown = [name for name in self._document if name not in LIMITS and name not in TABLES]
        if unknown:
            raise Unread(f"a setup has no member '{unknown[0]}'")
        made: dict[str, Callable[[int], Record | None]] = {
            "port": self.port, "filter": self.filter, "gate": self.gate, "meter": self.meter,
        }
        found: dict[str, Record] = {}
        for kind in TABLES:
            for place, table in enumerate(self._tables(kind), start=1):
                number = table.get("id") if isinstance(table, dict) else None
                if type(number) is not int:
                    raise Unread(f"table {place} of [[{kind}]] has no number 'id'")
                key, record = f"{kind} {number}", made[kind](number)
                if key in found:
                    raise Unread(f"{key} stands there twice")
                if record is not None:
                    found[key] = record
        return found


def port_table(number: int, port: PortGates) -> str:
    """A port as a table of a setup."""
    rows = "".join(f"  {{gates = {entry.gates}, interval = {entry.interval}}},\n" for entry in port.list)
    return (
        f"[[port]]\nid = {number}\ngates = {port.gates}\ncycle = {port.cycle}\nextension = {port.extension}\nbase = {port.base}\n"
        + (f"list = [\n{rows}]\n" if rows else "list = []\n")
    )
