"""Why the service refuses a command, an exception for each number.

A command that is refused changed nothing.
"""
from __future__ import annotations

from collections.abc import Mapping
from typing import Any


class ServiceError(Exception):
    """The connection ended, or a reply is none that the service gives."""


class Refused(Exception):
    """The service refused a command. `number` and `why` say by which rule, `members` what else the reply names; `command` has the
    members of the command."""

    number = 0
    command: Mapping[str, Any] = {}

    def __init__(self, why: str, members: Mapping[str, Any]) -> None:
        named = ", ".join(f"{name} {value}" for name, value in members.items())
        super().__init__(f"refused {self.number} {why}" + (f": {named}" if named else ""))
        self.why = why
        self.members = dict(members)


class TooLong(Refused):
    """A line of more than 131,072 bytes."""

    number = 1


class Syntax(Refused):
    """A line that is no JSON value in UTF-8."""

    number = 2


class Shape(Refused):
    """Members or kinds that the command or its record does not have; the removal of a port; an act on a key without a list; a
    batch of no edits, of more than 16, or of a key twice."""

    number = 3


class OutOfRange(Refused):
    """A number outside its range or its limit, or a name of another length or with a control character. `field` names it."""

    number = 4

    @property
    def field(self) -> str:
        """The member that is out of range."""
        return str(self.members["field"])


class NoSession(Refused):
    """The session was not given out, or is not the one of the connection's latest hello."""

    number = 5


class _OfKey(Refused):
    @property
    def key(self) -> str:
        """The key that the refusal is about."""
        return str(self.members["key"])


class Missing(_OfKey):
    """The key has no record."""

    number = 6


class Exists(_OfKey):
    """The key has a record already."""

    number = 7


class Dangling(_OfKey):
    """The record refers to `key`, which has no record."""

    number = 8


class Referred(Refused):
    """The record can't be removed, since `by` refers to it."""

    number = 9

    @property
    def by(self) -> str:
        """The least key that refers to it."""
        return str(self.members["by"])


class NothingToUndo(Refused):
    """The session has no standing edit."""

    number = 10


class Conflict(Refused):
    """The session's edit `own` can't be undone: the later entry `other` touches or refers to its instance."""

    number = 11

    @property
    def own(self) -> int:
        """The number of the session's own entry."""
        return int(self.members["own"])

    @property
    def other(self) -> int:
        """The number of the later entry that stands in the way."""
        return int(self.members["other"])


class NothingToRedo(Refused):
    """The session has no undo that it may take back."""

    number = 12


class RedoConflict(Refused):
    """What would come back does not fit any more; `other` is the latest later entry in conflict with it."""

    number = 13

    @property
    def other(self) -> int:
        """The number of that entry."""
        return int(self.members["other"])


class NotEnabled(Refused):
    """An apply on a port or a stream gate that is disabled."""

    number = 14


class EmptyList(Refused):
    """An apply of a gate control list with no entry."""

    number = 15


class Past(Refused):
    """The instant comes before the last act on the port or the stream gate."""

    number = 16


class JournalFull(Refused):
    """The journal has no room for what the command would enter."""

    number = 17


class OutOfMemory(Refused):
    """The service had no memory for the command. It may be given again."""

    number = 18


class AlreadySettled(Refused):
    """The entries up to this number are settled already. `upto` says up to which they are."""

    number = 19

    @property
    def upto(self) -> int:
        """The number of the last settled entry; 0 where none is."""
        return int(self.members["upto"])


_BY_NUMBER: dict[int, type[Refused]] = {
    kind.number: kind
    for kind in (
        TooLong, Syntax, Shape, OutOfRange, NoSession, Missing, Exists, Dangling, Referred, NothingToUndo, Conflict,
        NothingToRedo, RedoConflict, NotEnabled, EmptyList, Past, JournalFull, OutOfMemory,
        AlreadySettled,
    )
}


def refusal_of(reply: Mapping[str, Any]) -> Refused:
    """The exception for a reply that refuses."""
    members = {name: value for name, value in reply.items() if name not in ("refused", "why")}
    kind = _BY_NUMBER.get(reply["refused"])
    if kind is None:
        raise ServiceError(f"a refusal of no known number: {dict(reply)}")
    return kind(str(reply["why"]), members)
