"""Histories that are drawn by chance: runs over a disk that fails, which end, are killed, or lose their power."""

from __future__ import annotations

import errno
import os
import random
from concurrent.futures import ProcessPoolExecutor
from typing import NamedTuple

import journal_runs as runs
from house.reporting import report, wrong
from journal_damage import REFUSALS

# The calls that fail, and how, beside by an errno.
CALLS = "any pwrite fdatasync fsync openat renameat2 unlinkat flock".split()
KINDS = {"pwrite": ["short", "torn"], "renameat2": ["torn"]}


class Start(NamedTuple):
    """A program, a new journal, and the names of the program's keys in it."""

    options: runs.Options
    octets: bytes
    names: list[bytes]

    def chain(self, what: str) -> runs.Chain:
        """A new disk."""
        return runs.Chain(self.options, self.octets, self.names, what)


def start_of(options: runs.Options) -> Start:
    """A new journal for a program."""
    with runs.work_folder() as folder:
        journal = folder / "journal"
        runs.run(options.program, ["create", str(journal)])
        octets = journal.read_bytes()
        runs.run(options.program, runs.send_words(journal, folder / "capture", 1 << 20, 16, 20))
        return Start(options, octets, runs.names_of(journal.read_bytes()))


def whole_run(chain: runs.Chain, faults: str = "") -> None:
    """A run that has to send all frames, without a failure."""
    ended = chain.send(faults)
    whole = ended.status == 0 and ended.count("sent") == chain.sizes[2] and ended.count("failures") == 0
    report(whole, f"{chain.what}: the next run ends with {ended}")


def draw_faults(rest: random.Random) -> str:
    """Calls that fail, once, some times or always."""
    faults = []
    for _ in range(rest.choice((0, 1, 1, 2, 3))):
        call = rest.choice(CALLS)
        kind = rest.choice([errno.EIO, errno.ENOSPC, errno.EINTR, *KINDS.get(call, [])])
        first = rest.randrange(1, 50 if call == "any" else 12)
        faults.append(f"{call}:{first}:{rest.choice((1, 1, 2, 5, 1000))}:{kind}")
    return ",".join(faults)


def live(start: Start, number: int) -> tuple[list[str], int, int]:
    """A history. Returns what does not hold, how many runs it has, and at how many calls the power could fail."""
    wrong.clear()
    chain = start.chain(f"history {number} of seed {start.options.seed}")
    rest, count = chain.rest, chain.rest.randrange(1, 5)
    chain.sizes = rest.choice((5, 8, 16)) * runs.SECTOR, rest.choice((2, 8, 16)), rest.choice((16, 48, 64))
    for _ in range(count):
        faults, power = draw_faults(rest), rest.choice(("on", "end", "any"))
        if power == "on" and rest.random() < 0.7:
            faults += f"{',' * (faults != '')}any:{rest.randrange(1, 60)}:1:stop"
        ended = chain.send(faults, power)
        goes_on = ended.status in ((0, 3, -9) if faults else (0,)) and not any(it in ended.error for it in REFUSALS)
        report(goes_on, f"{chain.what}: a run with the faults {faults!r} ends with {ended}")
    whole_run(chain)
    return list(wrong), count + 1, chain.points


def check_creation(options: runs.Options) -> None:
    """At each call of the creation there is a whole journal or none, and at its end there is one."""
    chain = runs.Chain(options, None, [], "the creation")
    ended = chain.run("", lambda folder: ["create", str(folder / "files/journal")], "on")
    report(ended.status == 0 and None not in chain.disk.named, f"a journal that was created is lost: {ended}")


def check_histories(options: runs.Options) -> None:
    """Histories of a sender, and of an end that reserves as macsecd does."""
    check_creation(options)
    starts = [start_of(options._replace(program=it)) for it in (options.program, options.numbers)]
    count = 40 if options.short else 10_000
    with ProcessPoolExecutor(len(os.sched_getaffinity(0))) as pool:
        lived = [pool.submit(live, starts[number % 2], number) for number in range(count)]
        for it in lived:
            wrong.extend(it.result()[0])
    total = [sum(it.result()[at] for it in lived) for at in (1, 2)]
    print(f"histories: {count:,} of {total[0]:,} runs, with a power failure at each of {total[1]:,} calls")
