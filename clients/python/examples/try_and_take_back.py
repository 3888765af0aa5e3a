#!/usr/bin/env python3
"""A planner tries a schedule on a running bridge and takes it back; a colleague's edit in between stands.

Start a server first, at the top of the repository:

    ./tsnd serve examples/small-cell.toml --listen 127.0.0.1:7000 --workers 4 --connections 2 --probe 7000000

and then: python3 clients/python/examples/try_and_take_back.py [PORT]
"""
from __future__ import annotations

import sys
from pathlib import Path

sys.path.insert(0, str(Path(__file__).resolve().parents[1]))

import tsnd  # noqa: E402

CAMERA_FIRST = tsnd.PortGates(list=(tsnd.PortEntry(128, 100_000), tsnd.PortEntry(96, 600_000), tsnd.PortEntry(127, 300_000)))
MORE_BANDWIDTH = tsnd.FlowMeter(cir=120_000_000, cbs=3000)


def story(port: int) -> None:
    """What both do, and what they see."""
    with tsnd.Connection(port=port) as ours, tsnd.Connection(port=port) as theirs:
        planner, colleague = ours.hello(), theirs.hello()
        planner.enable("port 1", 0)
        planner.apply("port 1", 0)

        planner.replace("port 1", CAMERA_FIRST)
        tried = planner.apply("port 1", 2_500_000)
        print(f"the new list is in force from {tried.change} ns on: gates {planner.states('port 1', 3_600_000)['gates']}")

        colleague.replace("meter 0", MORE_BANDWIDTH)

        back = planner.undo_all()
        again = planner.apply("port 1", 5_500_000)
        print(f"{back.count} edit taken back; the old list is in force from {again.change} ns on: gates "
              f"{planner.states('port 1', 6_600_000)['gates']}")
        print(f"the colleague's meter stands: {colleague.show('meter 0') == MORE_BANDWIDTH}")


if __name__ == "__main__":
    story(int(sys.argv[1]) if len(sys.argv) > 1 else 7000)
