"""The kinds of processors that programs and libraries are built for, and the one at hand."""

from __future__ import annotations

import functools
import os
import pathlib
import subprocess

# The kinds, as the C library names them. Each runs what is built for those before it.
EVERY, WIDER = KINDS = "x86-64-v2", "x86-64-v3"
LOADER = "/lib64/ld-linux-x86-64.so.2"


@functools.cache
def at_hand() -> str:
    """The kind of this processor, by what the loader of the C library says. The Makefile asks the same."""
    told = subprocess.run([LOADER, "--help"], check=True, stdout=subprocess.PIPE, text=True).stdout
    return WIDER if f"{WIDER} (supported" in told else EVERY


def runs(kind: str) -> bool:
    """Does this processor run what is built for that kind?"""
    return KINDS.index(kind) <= KINDS.index(at_hand())


def ticks() -> tuple[int, int, int]:
    """How long all processors have worked, waited, and been taken by the host of this machine, since it was started."""
    line = pathlib.Path("/proc/stat").read_text(encoding="ascii").partition("\n")[0]
    user, nice, system, idle, waiting, interrupts, soft, stolen = map(int, line.split()[1:9])
    return user + nice + system + interrupts + soft, idle + waiting, stolen


def since(earlier: tuple[int, int, int]) -> tuple[int, int, int]:
    """The same, since an earlier call of `ticks`."""
    return tuple(now - then for now, then in zip(ticks(), earlier))


def stolen(earlier: tuple[int, int, int]) -> float:
    """Which part of the processors' time the host has taken since then."""
    grown = since(earlier)
    return grown[2] / (sum(grown) or 1)


def shares(earlier: tuple[int, int, int]) -> str:
    """What became of the processors since then. On a shared machine the host takes some of their time."""
    worked, waited, taken = since(earlier)
    parts = f"worked {worked / (whole := worked + waited + taken or 1):.0%}, idle {waited / whole:.0%}"
    return f"{len(os.sched_getaffinity(0))} processors: {parts}, taken by the host {taken / whole:.0%}"
