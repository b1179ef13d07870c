"""What does not hold, and commands that have to succeed: for the tests that run longer than one program."""

from __future__ import annotations

import subprocess
import time
from typing import Callable

# After so many lines nothing more is printed of what does not hold.
MANY = 20

wrong: list[str] = []


def report(holds: bool, what: str) -> None:
    """Notes and prints what does not hold."""
    if not holds:
        wrong.append(what)
        if len(wrong) <= MANY:
            print(f"WRONG: {what}", flush=True)


class Failed(Exception):
    """Something of the test itself failed, such as a command."""


def call(*words: str) -> str:
    """Runs a command, which has to succeed. Returns what it prints."""
    ended = subprocess.run(words, stdin=subprocess.DEVNULL, capture_output=True, text=True)
    if ended.returncode:
        raise Failed(f"{' '.join(words)}: {ended.stdout}{ended.stderr}")
    return ended.stdout


def until(holds: Callable[[], bool], seconds: float = 15.0) -> bool:
    """Waits until something holds. Returns whether it does within this time, which is long for a machine under load."""
    end = time.monotonic() + seconds
    while not holds():
        if time.monotonic() > end:
            return False
        time.sleep(0.01)
    return True
