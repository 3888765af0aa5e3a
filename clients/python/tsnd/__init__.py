"""A client of `tsnd`, the configuration service of one time-aware Ethernet bridge.

    import tsnd

    with tsnd.Connection(port=7000) as connection:
        session = connection.hello("anna")
        session.create("meter 1", tsnd.FlowMeter(cir=8_000_000, cbs=1500))
        session.undo()
"""
from .connection import Acted, AllUndone, Connection, Create, Edit, Entry, Given, Remove, Replace, Session, Undone
from .records import FlowMeter, GateEntry, PortEntry, PortGates, Record, StreamFilter, StreamGate
from .refusals import (
    AlreadySettled, Conflict, Dangling, EmptyList, Exists, JournalFull, Missing, NoSession, NotEnabled, NothingToRedo, NothingToUndo,
    OutOfMemory, OutOfRange, Past, RedoConflict, Referred, Refused, ServiceError, Shape, Syntax, TooLong,
)

__all__ = [
    "Acted", "AllUndone", "AlreadySettled", "Conflict", "Connection", "Create", "Dangling", "Edit", "EmptyList", "Entry",
    "Exists", "FlowMeter", "GateEntry", "Given", "JournalFull", "Missing", "NoSession", "NotEnabled", "NothingToRedo", "NothingToUndo",
    "OutOfMemory", "OutOfRange", "Past", "PortEntry", "PortGates", "Record", "RedoConflict", "Referred", "Refused", "Remove",
    "Replace", "ServiceError", "Session", "Shape", "StreamFilter", "StreamGate", "Syntax", "TooLong", "Undone",
]
