"""Journals that are damaged between two runs, or cut while a process has them. The next run refuses the journal, or
repeats nothing."""

from __future__ import annotations

import itertools
import os
import pathlib
import random
import subprocess
import time
from concurrent.futures import ThreadPoolExecutor
from typing import Callable, NamedTuple

import journal_runs as runs
from house.reporting import MANY, report, until, wrong

# What is said of a journal that is refused.
REFUSALS = "is damaged", "JournalDamaged", "damaged header", "NotJournal"


class Made(NamedTuple):
    """A journal that some runs have made, the last one of which may have been killed."""

    program: pathlib.Path
    kind: str
    octets: bytes
    frames: set[runs.Frame]


def words_of(kind: str, folder: pathlib.Path, limit: int, count: int) -> list[str]:
    """The arguments of a run."""
    if kind == "agree":
        return [kind, str(folder / "journal"), str(limit), str(count), str(folder / "capture")]
    return runs.send_words(folder / "journal", folder / "capture", limit, 8, count)


def make(options: runs.Options, numbers: pathlib.Path, number: int) -> Made:
    """Makes a journal: by macsecd's part, also with names that were given up, or by journal.c alone."""
    rng = random.Random(f"{options.seed} damage {number}")
    kind, program = [("send", numbers), ("agree", numbers), ("send", options.program)][number % 3]
    frames: set[runs.Frame] = set()
    with runs.work_folder() as folder:
        runs.run(program, ["create", str(folder / "journal")])
        # The last run may be killed, also once its first new file has the name.
        killed = rng.choice(("", f"any:{rng.randrange(12, 60)}:1:stop", "fsync:2:1:stop"))
        for faults in [""] * rng.randrange(1, 3) + [killed]:
            count, limit = rng.randrange(1, 9 if kind == "agree" else 60), rng.choice((8192, 1 << 16))
            env = {"LD_PRELOAD": str(options.disk), "FAULTS": faults}
            (folder / "capture").unlink(missing_ok=True)
            runs.run(program, words_of(kind, folder, limit, count), env)
            runs.add_new(frames, runs.frames_of(folder / "capture"), f"journal {number}")
        return Made(program, kind, (folder / "journal").read_bytes(), frames)


def octets_changed(made: Made, rng: random.Random) -> tuple[bytes, str]:
    """A journal in which an octet has changed, or all that follow on it in its sector. Most octets of a journal fill a
    sector, so half of the changes are among the first of one."""
    octets = bytearray(made.octets)
    at = rng.randrange(len(octets))
    at -= at % runs.SECTOR // 128 * 128 if rng.random() < 0.5 else 0
    length = rng.choice((1, min(len(octets), at // runs.SECTOR * runs.SECTOR + runs.SECTOR) - at))
    octets[at : at + length] = bytes(it ^ rng.randrange(1, 256) for it in octets[at : at + length])
    return bytes(octets), f"octets {at} to {at + length} of {len(octets)} are damaged"


def records_changed(made: Made, rng: random.Random) -> tuple[bytes, str]:
    """A journal in which two records are exchanged, or one is doubled, left out or replaced by another."""
    records = [made.octets[it : it + runs.RECORD] for it in range(0, len(made.octets), runs.RECORD)]
    full = [it for it, record in enumerate(records) if it and any(record)]
    one, other = rng.choice(full), rng.choice(full)
    kind = rng.choice(("exchanged", "doubled", "left out", "the same"))
    if kind == "exchanged":
        records[one], records[other] = records[other], records[one]
    elif kind == "doubled":
        records.insert(other, records[one])
    elif kind == "left out":
        del records[one]
    else:
        records[other] = records[one]
    return b"".join(records), f"records {one} and {other} of {len(records)} are {kind}"


def damage(made: Made, rng: random.Random, change: Callable[[Made, random.Random], tuple[bytes, str]]) -> bool:
    """Lets a run begin with a changed journal. Is it refused?"""
    if len(wrong) >= MANY:
        return False
    octets, changed = change(made, rng)
    with runs.work_folder() as folder:
        (folder / "journal").write_bytes(octets)
        ended = runs.run(made.program, words_of(made.kind, folder, 1 << 16, 8))
        frames = runs.frames_of(folder / "capture")
    what = f"{changed} ({made.program.name} {made.kind})"
    refused = ended.status != 0
    report(not refused or any(it in ended.error for it in REFUSALS), f"{what}: {ended}")
    report(not frames if refused else made.frames.isdisjoint(frames), f"{what}: frames again: {ended}")
    return refused


def cut(disk: pathlib.Path, program: pathlib.Path, rng: random.Random, waits: bool) -> bool:
    """Cuts the journal of a process, which goes on, and is killed some time after it has written to it again. Was it
    written as a whole? It is cut while the process `waits` in a synchronization, so that the next look finds it; or at
    any moment, also between a look and an append: it has a hole then, and the next run may refuse it."""
    what = f"a journal that was cut ({program.name}, waits: {waits})"
    with runs.work_folder() as folder:
        journal, capture, pause = folder / "journal", folder / "capture", folder / "pause"
        runs.run(program, ["create", str(journal)])
        words = words_of("send", folder, 1 << 22, 0 if program.name == "journal" else 1 << 40)
        where = {"LD_PRELOAD": str(disk), "PAUSE": f"fdatasync:{rng.randrange(3, 20)}:{pause}"} if waits else {}
        with subprocess.Popen(
            [str(program), *words], env={**os.environ, **where}, stderr=subprocess.DEVNULL
        ) as process:
            begun = pause.exists if waits else runs.has_frames(capture, rng.randrange(24, 5000))
            report(until(begun), f"{what}: it does not begin")
            length = rng.randrange(journal.stat().st_size)
            os.truncate(journal, length)
            inode = journal.stat().st_ino
            pause.unlink(missing_ok=True)
            is_other = lambda: journal.stat().st_ino != inode
            report(until(lambda: is_other() or journal.stat().st_size > length), f"{what} is not written again")
            noticed = is_other()
            time.sleep(rng.uniform(0, 0.02))
            process.kill()
        seen = set(runs.frames_of(capture))
        ended = runs.run(program, words_of("send", folder, 1 << 16, 8))
        refused = ended.status != 0 and any(it in ended.error for it in REFUSALS)
        report(ended.status == 0 or (refused and not noticed), f"{what}: {ended}")
        runs.add_new(seen, runs.frames_of(capture) if ended.status == 0 else [], what)
    return noticed


def check_damage(options: runs.Options) -> None:
    """Damaged journals and cut journals."""
    numbers, jobs = options.numbers, []
    journals, each, others, cuts = (12, 15, 5, 60) if options.short else (250, 20, 2, 500)
    with ThreadPoolExecutor(len(os.sched_getaffinity(0))) as pool:
        made = list(pool.map(lambda it: make(options, numbers, it), range(journals)))
        for change, times in ((octets_changed, each), (records_changed, others)):
            for at, number in itertools.product(range(journals), range(times)):
                rng = random.Random(f"{options.seed} {change.__name__} {number} of {at}")
                jobs.append(pool.submit(damage, made[at], rng, change))
        refused = [it.result() for it in jobs]
    octets, records = sum(refused[: journals * each]), sum(refused[journals * each :])
    noticed = {True: 0, False: 0}
    for number, program in zip(range(cuts), itertools.cycle((numbers, numbers, options.program, options.program))):
        waits = number % 2 == 0
        noticed[waits] += cut(options.disk, program, random.Random(f"{options.seed} cut {number}"), waits)
    report(noticed[True] == cuts // 2, f"of {cuts // 2} journals that were cut only {noticed[True]} were written again")
    print(
        f"damage: of {journals * each} journals with another octet {octets} were refused, of {journals * others} with "
        f"another record {records}; of {cuts} that were cut {noticed[True]} and {noticed[False]} were written again"
    )
