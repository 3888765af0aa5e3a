"""A connection to `tsnd serve`, and the session that it acts for."""
from __future__ import annotations

import json
import select
import socket
import time
from collections.abc import Iterator, Mapping
from dataclasses import dataclass
from types import TracebackType
from typing import Any, Union

from .records import Record, record_of
from .refusals import ServiceError, refusal_of


@dataclass(frozen=True)
class Undone:
    """An undo or a redo: the entry that it made, and the entry that it takes back."""

    entry: int
    of: int


@dataclass(frozen=True)
class AllUndone:
    """An undo of all: how many edits it took back, and the last entry that it made."""

    count: int
    entry: int


@dataclass(frozen=True)
class Acted:
    """An act on a list: its entry; the change time in ns, none where no list starts; and the instant that counted, in ns."""

    entry: int
    change: int | None
    now: int


@dataclass(frozen=True)
class Entry:
    """An entry of the journal. `what` is `made`, `undone`, `redone`, `acted` or `settled`."""

    number: int
    session: int
    keys: tuple[str, ...]
    """What it touches: one key, or those of a batch in the order of keys (ports, filters, gates, meters, by their numbers); of a
    settle none."""
    what: str
    of: int | None = None
    """The entry that an undo or a redo takes back."""
    act: str | None = None
    """`enable`, `disable` or `apply`."""
    now: int | None = None
    """The instant of an act that counted, in ns."""
    settled: int | None = None
    """Up to which number a settle made the entries final."""

    @classmethod
    def of_members(cls, members: Mapping[str, Any]) -> Entry:
        """The entry that these members of a reply tell."""
        keys = (members["key"],) if "key" in members else tuple(members.get("keys", ()))
        return cls(
            members["entry"], members["session"], keys, members["what"], members.get("of"), members.get("act"), members.get("now"),
            members.get("settled"),
        )


@dataclass(frozen=True)
class Given:
    """A session that was given out: its number, how many of its entries stand, and the name under which it said hello."""

    session: int
    standing: int
    name: str | None = None
    """None where it said no name."""


@dataclass(frozen=True)
class Create:
    """An edit of a batch: a record for a key that has none."""

    key: str
    record: Record

    def to_json(self) -> dict[str, Any]:
        """The edit as the service reads it."""
        return {"do": "create", "key": self.key, "record": self.record.to_json()}


@dataclass(frozen=True)
class Replace:
    """An edit of a batch: another record for a key."""

    key: str
    record: Record

    def to_json(self) -> dict[str, Any]:
        """The edit as the service reads it."""
        return {"do": "replace", "key": self.key, "record": self.record.to_json()}


@dataclass(frozen=True)
class Remove:
    """An edit of a batch: a filter, gate or meter goes."""

    key: str

    def to_json(self) -> dict[str, Any]:
        """The edit as the service reads it."""
        return {"do": "remove", "key": self.key}


Edit = Union[Create, Replace, Remove]


def _connected(host: str, port: int, timeout: float | None) -> socket.socket:
    """A socket that is connected to a server there."""
    if not host.startswith("unix:"):
        found = socket.create_connection((host, port), timeout)
        found.setsockopt(socket.IPPROTO_TCP, socket.TCP_NODELAY, 1)
        return found
    found = socket.socket(socket.AF_UNIX, socket.SOCK_STREAM)
    found.settimeout(timeout)
    try:
        found.connect(host.removeprefix("unix:"))
    except OSError:
        found.close()
        raise
    return found


class Connection:
    """A connection to a server. It acts for the session of its latest hello or resume alone.

    The server listens at a host and port; or at a path, and then `host` is `unix:PATH` as behind its `--listen`, and the port has
    no meaning. `timeout` is in seconds; none waits for ever. A context manager: it is closed at the end of its block.
    """

    def __init__(self, host: str = "127.0.0.1", port: int = 7000, timeout: float | None = None) -> None:
        self._socket = _connected(host, port, timeout)
        self._lines = self._socket.makefile("rb")

    def __enter__(self) -> Connection:
        return self

    def __exit__(self, kind: type[BaseException] | None, error: BaseException | None, trace: TracebackType | None) -> None:
        self.close()

    def close(self) -> None:
        """Ends the connection. What the session did stays."""
        self._lines.close()
        self._socket.close()

    def is_ended(self) -> bool:
        """Whether the server ended the connection: it says so with nothing asked."""
        try:
            return bool(select.select([self._socket], [], [], 0)[0]) and self._socket.recv(1, socket.MSG_PEEK) == b""
        except (OSError, ValueError):
            return True

    def ask(self, command: Mapping[str, Any]) -> dict[str, Any]:
        """The reply to a command, given by its members. A refusal is raised, as the exception of its number."""
        self._socket.sendall(json.dumps(command, separators=(",", ":")).encode() + b"\n")
        line = self._lines.readline()
        if not line.endswith(b"\n"):
            raise ServiceError("the connection ended before the reply")
        reply = json.loads(line)
        if not isinstance(reply, dict):
            raise ServiceError(f"no reply of the service: {reply!r}")
        if "refused" in reply:
            refused = refusal_of(reply)
            refused.command = dict(command)
            raise refused
        return reply

    def hello(self, name: str | None = None) -> Session:
        """A session, for which the connection acts from now on: a new one, or the one that has this name already.

        So who lost a connection, or whose server was started again over its journal, says the same hello and can still undo. A name
        has 1 to 64 bytes in UTF-8 and no control character: else `OutOfRange` (field `name`). `OutOfRange` (field `session`) where
        all 65,535 sessions were given out, and none of them has the name.
        """
        named = {} if name is None else {"name": name}
        return Session(self, int(self.ask({"do": "hello", **named})["session"]))

    def resume(self, number: int) -> Session:
        """The session of this number, for which the connection acts from now on: who lost a connection can still undo.

        `NoSession` where it was not given out.
        """
        return Session(self, int(self.ask({"do": "resume", "s": number})["session"]))


class Session:
    """What one planner did and may take back. A key is a text as `port 1`, `filter 3`, `gate 0` or `meter 2`.

    Every call may raise `NoSession` where the connection has said another hello or resume since, and `OutOfMemory`.
    """

    def __init__(self, connection: Connection, number: int) -> None:
        self.connection = connection
        self.number = number

    def _ask(self, do: str, **members: Any) -> dict[str, Any]:
        return self.connection.ask({"do": do, "s": self.number, **members})

    # ---- edits

    def create(self, key: str, record: Record) -> int:
        """A record for a key that has none; gives the entry. `Exists`, `Dangling`, `OutOfRange`, `JournalFull`."""
        return int(self._ask("create", key=key, record=record.to_json())["entry"])

    def replace(self, key: str, record: Record) -> int:
        """Another record for a key; gives the entry. `Missing`, `Dangling`, `OutOfRange`, `JournalFull`."""
        return int(self._ask("replace", key=key, record=record.to_json())["entry"])

    def remove(self, key: str) -> int:
        """Removes a filter, gate or meter; gives the entry. `Missing`, `Referred`, `JournalFull`."""
        return int(self._ask("remove", key=key)["entry"])

    def batch(self, *edits: Edit) -> int:
        """Makes 1 to 16 edits of distinct keys at once, or none of them; gives their one entry.

        A record may refer to what the same batch creates, and a gate goes with the filters that refer to it. `Shape` where there
        are no edits, more than 16, or two of one key; then `OutOfRange`, `Missing`, `Exists`, `Dangling`, `Referred`, by the least
        number of any edit; `JournalFull`.
        """
        return int(self._ask("batch", edits=[edit.to_json() for edit in edits])["entry"])

    def undo(self) -> Undone:
        """Takes back the session's newest standing edit, a batch whole. `NothingToUndo`, `Conflict`, `JournalFull`."""
        reply = self._ask("undo")
        return Undone(reply["entry"], reply["of"])

    def undo_all(self) -> AllUndone:
        """Takes back all that the session has standing, or nothing. `NothingToUndo`, `Conflict`, `JournalFull`."""
        reply = self._ask("undo_all")
        return AllUndone(reply["count"], reply["entry"])

    def redo(self) -> Undone:
        """Brings back what the session's newest undo took. `NothingToRedo`, `RedoConflict`, `JournalFull`."""
        reply = self._ask("redo")
        return Undone(reply["entry"], reply["of"])

    def settle(self, upto: int) -> int:
        """Makes the entries up to this number final, whoever made them; gives the entry of the settle.

        What stands of them is taken back no more, and stands in nobody's way. `OutOfRange` (field `upto`) where there is no entry
        of the number, `AlreadySettled`, `JournalFull`.
        """
        return int(self._ask("settle", upto=upto)["entry"])

    # ---- acts on a list, at an instant in ns, 0 to 2^62

    def _act(self, do: str, key: str, now: int) -> Acted:
        reply = self._ask(do, key=key, now=now)
        return Acted(reply["entry"], reply["change"], reply["now"])

    def enable(self, key: str, now: int) -> Acted:
        """Enables the gates of a port or a stream gate. `Missing`, `JournalFull`."""
        return self._act("enable", key, now)

    def disable(self, key: str, now: int) -> Acted:
        """Disables them. `Missing`, `JournalFull`."""
        return self._act("disable", key, now)

    def apply(self, key: str, now: int) -> Acted:
        """Puts the key's list in force from its change time on. `Missing`, `NotEnabled`, `EmptyList`, `JournalFull`."""
        return self._act("apply", key, now)

    # ---- looks

    def frame(self, handle: int, priority: int, octets: int, now: int, yellow: bool = False) -> dict[str, Any]:
        """The verdict on a frame at an instant in ns, and its counters move: `filter`, `now`, `verdict`, and of one that passes
        `priority` and `yellow`. Handle 0 to 2^32 - 1, priority 0 to 7, octets 0 to 65,535."""
        return self._ask("frame", handle=handle, priority=priority, octets=octets, yellow=yellow, now=now)

    def states(self, key: str, at: int) -> dict[str, Any]:
        """The gates at an instant in ns: `gates` of a port, `open` and `ipv` of a stream gate. `Missing`, `Past`."""
        return self._ask("states", key=key, at=at)

    def counters(self, key: str) -> dict[str, Any]:
        """The counters of a key, by their names. `Missing`."""
        return self._ask("counters", key=key)

    def show(self, key: str) -> Record:
        """The record of a key. `Missing`."""
        reply = self._ask("show", key=key)
        return record_of(key, reply["record"])

    def list(self, kind: str) -> tuple[int, ...]:
        """The numbers of the kind `port`, `filter`, `gate` or `meter`, ascending."""
        return tuple(self._ask("list", kind=kind)["ids"])

    def since(self, after: int = 0) -> tuple[Entry, ...]:
        """The entries of a greater number, ascending. After 0 to 2^32 - 1."""
        return tuple(Entry.of_members(members) for members in self._ask("since", after=after)["entries"])

    def sessions(self) -> tuple[Given, ...]:
        """The sessions that were given out, ascending, each with how many of its entries stand, and its name."""
        told = self._ask("sessions")["sessions"]
        return tuple(Given(members["session"], members["standing"], members.get("name")) for members in told)

    def setup(self) -> str:
        """The present configuration as the text of a setup, which `tsnd` opens. `TooLong` where it would be over 1,048,576 bytes."""
        return str(self._ask("setup")["setup"])

    def follow(self, after: int = 0, pause: float = 0.5) -> Iterator[Entry]:
        """The entries of a greater number, and then each new one as it comes: it asks again after a pause, in seconds."""
        while True:
            for entry in self.since(after):
                after = entry.number
                yield entry
            time.sleep(pause)
