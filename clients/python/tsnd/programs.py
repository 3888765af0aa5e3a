"""Where the program `tsnd` is, and what it says of a command that was refused."""
from __future__ import annotations

import json
import os
import shutil
import subprocess
from collections.abc import Mapping
from pathlib import Path
from typing import Any

BUILT = Path(*Path(__file__).resolve().parts[:-4]) / "crates/tsnd/out/tsnd"


class NoProgram(Exception):
    """There is no program."""


def program_of() -> str:
    """The program: the one that TSND names, or `tsnd` on the path, or the one that was built in this clone."""
    named = os.environ.get("TSND") or shutil.which("tsnd") or (str(BUILT) if BUILT.is_file() else None)
    if named is None:
        raise NoProgram("no program 'tsnd' on the path: install it, or let TSND name it, or build it in the clone: ./build")
    return named


def place_in(command: Mapping[str, Any]) -> str:
    """Where a command is at fault that was refused for its shape or a range, in words; empty where the program isn't there, or where
    only a bridge could say."""
    try:
        words = [program_of(), "check", "--lines"]
        told = subprocess.run(words, input=json.dumps(dict(command)), capture_output=True, text=True, check=False).stdout
    except (NoProgram, OSError):
        return ""
    return told.rstrip("\n").partition(": refused ")[2].partition(": ")[2]
