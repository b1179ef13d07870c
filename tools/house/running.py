"""Running commands side by side, and stopping them with all that they started."""

from __future__ import annotations

import contextlib
import os
import pathlib
import re
import shlex
import signal
import subprocess
import sys
import time
from collections.abc import Iterable
from typing import NamedTuple

from house import ROOT, ways
from house.processors import stolen, ticks

# How long a stopped command has to end before it is killed.
GRACE = 5.0
# What a command prints if it leaves something out.
LEFT_OUT = re.compile(
    r"nothing is tested|not tried|cannot be tried|not checked|commands skipped|skipped=|not installed"
)
COUNTS = re.compile(r"(\d+) passed, (\d+) failed")
# How many lines of what a failed command printed are repeated at the end, and which they are if it printed such.
REPEATED = 8
FAULT = re.compile(r"WRONG|NOT |FAILED|\bError\b|error:|failed\b")
# Where the host of a machine takes more than this part of its processors, bounds of time say nothing.
MOST_STOLEN = 0.05


class Job(NamedTuple):
    """A command and its name. `shown` is for one whose lines appear as it prints them, `counted` the form of a line
    that it prints for each test that passed, `lost` the form of a line after which it can only fail, and `then` a job
    that begins when this one has passed. One that `yields` leaves the processors to the others, and may outlast
    them. One that is `timed` has bounds of time: if it fails while the host takes more than a twentieth of the
    processors, it is made once more when the others have ended, and then counts."""

    name: str
    words: list[str]
    shown: bool = False
    counted: str | None = None
    log: pathlib.Path | None = None
    lost: str | None = None
    then: Job | None = None
    yields: bool = False
    timed: bool = False


def processes() -> dict[int, tuple[int, int]]:
    """Each process with its parent and its session."""
    found = {}
    for path in pathlib.Path("/proc").glob("[0-9]*/stat"):
        try:
            fields = path.read_text(errors="replace").rpartition(")")[2].split()
        except OSError:
            continue
        found[int(path.parent.name)] = int(fields[1]), int(fields[3])
    return found


def started_by(leaders: Iterable[int]) -> set[int]:
    """The processes of the sessions of these, and all that those have started."""
    known = processes()
    found = set(leaders) & known.keys() | {it for it, (_, session) in known.items() if session in set(leaders)}
    while more := {it for it, (parent, _) in known.items() if parent in found} - found:
        found |= more
    return found


def signalled(numbers: Iterable[int], number: int) -> None:
    """Sends a signal to processes that may have ended."""
    for it in numbers:
        with contextlib.suppress(OSError):
            os.kill(it, number)


class Running:
    """A job that has begun, in its own session."""

    def __init__(self, job: Job, logs: pathlib.Path) -> None:
        self.job, self.began, self.ticks = job, time.monotonic(), ticks()
        self.log = job.log or logs / f"{job.name}.log"
        if job.shown:
            words = ["bash", "-c", f"set -o pipefail; {shlex.join(job.words)} 2>&1 | tee {shlex.quote(str(self.log))}"]
            out = None
        else:
            words, out = job.words, open(self.log, "wb")
        words = ["nice", "-n", "19", *words] if job.yields else words
        streams = {"stdin": subprocess.DEVNULL, "stdout": out, "stderr": out and subprocess.STDOUT}
        self.process = subprocess.Popen(words, cwd=ROOT, start_new_session=True, **streams)
        if out:
            out.close()
        # Where Linux shares the processors among sessions first, `nice` counts within one only.
        if job.yields:
            with contextlib.suppress(OSError):
                pathlib.Path(f"/proc/{self.process.pid}/autogroup").write_text("19", encoding="ascii")
        self.read = 0

    def is_lost(self) -> bool:
        """Has it printed, since this was last asked, the line after which it can only fail?"""
        if not self.job.lost or not self.log.exists() or self.log.stat().st_size == self.read:
            return False
        with open(self.log, "rb") as log:
            log.seek(self.read)
            lines, end, _ = log.read().rpartition(b"\n")
        self.read += len(lines + end)
        return bool(re.search(self.job.lost.encode(), lines, re.M))

    def ended(self) -> bool:
        return self.process.poll() is not None

    def may_pass_again(self) -> bool:
        """Has it failed where its bounds say nothing?"""
        return self.job.timed and self.process.returncode != 0 and stolen(self.ticks) > MOST_STOLEN

    def seconds(self) -> str:
        return f"{time.monotonic() - self.began:.0f} s"

    def text(self) -> str:
        return self.log.read_text(errors="replace") if self.log.exists() else ""


class Runner:
    """Runs jobs, prints a line for each, and counts what passed. With `stops` a job that fails stops the others. `left`
    has what was left out, in whole or in part, `told` what those that failed have printed of it, and `repeated` those
    that are made once more. `running` are the jobs that have not ended."""

    def __init__(self, logs: pathlib.Path, stops: bool) -> None:
        self.logs, self.stops, self.passed, self.lost = logs, stops, 0, 0
        self.failed: list[str] = []
        self.told: dict[str, list[str]] = {}
        self.left: list[str] = []
        self.repeated: list[str] = []
        self.running: list[Running] = []
        logs.mkdir(parents=True, exist_ok=True)

    def say(self, line: str) -> None:
        print(line, flush=True)

    def leave(self, name: str, why: str) -> None:
        """Notes and prints what is not tried."""
        self.left.append(name)
        self.say(f"{name}: not tried: {why}")

    def go(self, jobs: Iterable[Job], at_a_time: int = 64, is_last: bool = False) -> bool:
        """Runs jobs, at most so many at a time beside those that yield, and waits for them; for those that yield only
        in the last call. Returns whether all that ended have passed."""
        waiting, again, good, is_done = list(jobs), [], True, False
        try:
            while waiting or again or any(is_last or not it.job.yields for it in self.running):
                if again and not waiting and all(it.job.yields for it in self.running):
                    waiting.append(again.pop())
                while waiting and sum(not it.job.yields for it in self.running) < at_a_time:
                    self.running.append(Running(waiting.pop(0), self.logs))
                for each in [it for it in self.running if it.ended() or self.stops and it.is_lost()]:
                    self.running.remove(each)
                    if not each.ended():
                        self.stop([each])
                    elif each.may_pass_again():
                        again.append(self.repeat(each))
                        continue
                    passed = self.note(each)
                    good &= passed
                    if passed and each.job.then:
                        waiting.append(each.job.then)
                if not good and self.stops:
                    break
                time.sleep(0.05)
            is_done = good or not self.stops
        finally:
            if not is_done:
                self.stop(self.running)
        return good

    def note(self, ended: Running) -> bool:
        """Prints and counts how a job ended. Returns whether it passed."""
        job, text = ended.job, ended.text()
        counts = COUNTS.fullmatch(text.rstrip().rpartition("\n")[2]) if job.shown else None
        units = len(re.findall(job.counted, text, re.M)) if job.counted else int(counts[1]) if counts else 1
        good = ended.process.returncode == 0 and units > 0
        self.passed += units if good or job.counted or counts else 0
        if good:
            left_out = next((it.strip() for it in text.splitlines() if LEFT_OUT.search(it)), "")
            self.left += [job.name] if left_out else []
            self.say(f"{job.name}: {ended.seconds()}" + (f": {left_out[:160]}" if left_out and not job.shown else ""))
            return True
        self.failed.append(job.name)
        self.lost += max(1, int(counts[2])) if counts else 1
        lines = text.splitlines()
        self.told[job.name] = ([it for it in lines if FAULT.search(it)] or lines)[-REPEATED:]
        self.say(self.failure(ended, f"FAILED ({ended.seconds()}), {os.path.relpath(ended.log, ROOT)}"))
        for way in ways.of(job.name, text, next(it for it in job.words if it != "python3")):
            self.say(f"  {way}")
        return False

    def repeat(self, ended: Running) -> Job:
        """Notes and prints that a job is made once more. Returns the job, which then counts."""
        self.repeated.append(ended.job.name)
        self.say(
            self.failure(ended, f"failed ({ended.seconds()}) while the host took processors: it is made once more")
        )
        return ended.job._replace(timed=False)

    def failure(self, ended: Running, what: str) -> str:
        """The last lines of a job that failed, if they are not shown yet, and what becomes of it."""
        lines = [] if ended.job.shown else [f"  {it}" for it in ended.text().splitlines()[-40:]]
        return "\n".join([*lines, f"{ended.job.name} {what}"])

    def stop(self, running: list[Running]) -> None:
        """Stops jobs, and all that they have started."""
        if not running:
            return
        leaders = [it.process.pid for it in running]
        number, began = signal.SIGTERM, time.monotonic()
        while (left := started_by(leaders)) and time.monotonic() < began + 2 * GRACE:
            signalled(left, number)
            for it in running:
                it.process.poll()
            time.sleep(0.2)
            number = signal.SIGTERM if time.monotonic() < began + GRACE else signal.SIGKILL
        for each in running:
            each.process.poll()
            self.say(f"{each.job.name}: stopped ({each.seconds()})")

    def end(self) -> int:
        """Prints what was left out, what failed and why, and how many passed. Returns the status."""
        if self.left:
            self.say(f"NOT TRIED, or not in full: {', '.join(self.left)}")
        if self.repeated:
            self.say(f"MADE TWICE, since the host took processors: {', '.join(self.repeated)}")
        for name in self.failed:
            self.say("\n".join(f"  {name}: {it[:200]}" for it in self.told[name]))
        if self.failed:
            self.say(f"FAILED: {', '.join(self.failed)}")
        self.say(f"{self.passed} passed, {self.lost} failed")
        return 1 if self.failed or not self.passed else 0


def end_by_signals() -> None:
    """Lets a signal that ends this program raise SystemExit, so that what it has started is stopped."""
    for it in (signal.SIGHUP, signal.SIGINT, signal.SIGTERM):
        signal.signal(it, lambda number, _: sys.exit(128 + number))
