"""A setup as edits: what has to be edited so that a bridge has what the setup names."""
from __future__ import annotations

import json
from collections.abc import Iterable, Iterator

from .connection import Create, Edit, Remove, Replace
from .records import PortGates, Record
from .setups import LIMITS, Setup

MOST_EDITS = 16
LONGEST_LINE = 131_072
FRAME = len('{"do":"batch","s":65535,"edits":[]}')


class Unfit(Exception):
    """A setup can't be had by edits; the text says why."""


def _is_port(key: str) -> bool:
    return key.startswith("port ")


def _is_filter(key: str) -> bool:
    return key.startswith("filter ")


def _wanted(present: dict[str, Record], wanted: dict[str, Record]) -> Iterator[Edit]:
    """What makes each record that is wanted, gates, meters and ports ahead of the filters that refer to them."""
    for key in sorted(wanted, key=_is_filter):
        if key not in present and not _is_port(key):
            yield Create(key, wanted[key])
        elif present.get(key, PortGates()) != wanted[key]:
            yield Replace(key, wanted[key])


def _unwanted(present: dict[str, Record], wanted: dict[str, Record]) -> Iterator[Edit]:
    """What takes away the others, filters ahead of what they refer to; a port goes back to what it is where no setup names it."""
    for key in sorted(present, key=lambda key: not _is_filter(key)):
        if key not in wanted:
            yield Replace(key, PortGates()) if _is_port(key) else Remove(key)


def edits_to(present: Setup, wanted: Setup, only: bool = False) -> list[Edit]:
    """The edits that lead from the one to what the other names; with `only`, to nothing else.

    A batch of any beginning of them leaves no reference to what is not there. `Unfit` where the limits differ, which no edit changes.
    """
    for name in LIMITS:
        if present.limit(name) != wanted.limit(name):
            raise Unfit(f"{name} is {present.limit(name)} here and {wanted.limit(name)} there: a running bridge keeps its limits")
    here, there = present.records(), wanted.records()
    return [*_wanted(here, there), *(_unwanted(here, there) if only else ())]


def batches_of(edits: Iterable[Edit]) -> list[tuple[Edit, ...]]:
    """The edits in batches of up to 16 that a line has room for. `Unfit` where one alone has none."""
    batches: list[list[Edit]] = [[]]
    room = LONGEST_LINE - FRAME
    for edit in edits:
        size = len(json.dumps(edit.to_json(), separators=(",", ":"))) + 1
        if size > LONGEST_LINE - FRAME:
            raise Unfit(f"the record of {edit.key} is too long for a command line; a setup may have it, at a start")
        if len(batches[-1]) == MOST_EDITS or size > room:
            batches.append([])
            room = LONGEST_LINE - FRAME
        batches[-1].append(edit)
        room -= size
    return [tuple(batch) for batch in batches if batch]
