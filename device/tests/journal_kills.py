"""SIGKILL at random moments: of a sender, and of a receiver that saves its packet numbers or reserves them ahead."""

from __future__ import annotations

import itertools
import pathlib
import random
import signal
import subprocess
import time

import journal_runs as runs
from house.reporting import MANY, report, until, wrong

AMOUNT = 16

# A reservation is for the next packet number and so many after it.
RESERVATION = AMOUNT + 1


class Runs:
    """Runs of a sender and of a receiver that are killed, and what they sent and delivered."""

    def __init__(self, options: runs.Options, folder: pathlib.Path, suite: int, seed: str) -> None:
        self.options, self.folder, self.suite = options, folder, suite
        self.random = random.Random(seed)
        self.sent: set[runs.Frame] = set()
        self.delivered: set[runs.Frame] = set()
        self.captures: list[pathlib.Path] = []
        self.last = {an: 0 for an in runs.ANS}
        self.restarts = {an: 0 for an in runs.ANS}
        self.lost = 0.0
        for name in ("sender", "receiver"):
            runs.run(options.program, ["create", str(folder / name)])

    def start(self, words: list[str]) -> subprocess.Popen[bytes]:
        """Starts the program."""
        return subprocess.Popen([str(self.options.program), *words], stdout=subprocess.DEVNULL)

    def start_sender(self, capture: pathlib.Path) -> subprocess.Popen[bytes]:
        """Starts a sender, which does not end."""
        return self.start(runs.send_words(self.folder / "sender", capture, 8 * runs.SECTOR, AMOUNT, 0, self.suite))

    def killed(self, process: subprocess.Popen[bytes]) -> None:
        """Waits for a run that was killed."""
        report(process.wait() in (0, -signal.SIGKILL), f"a run ends with status {process.returncode}")

    def note_sent(self, capture: pathlib.Path) -> None:
        """Sees that nothing was sent before, and how many numbers are lost."""
        frames = runs.frames_of(capture)
        runs.add_new(self.sent, frames, f"sent by a run after {len(self.captures)} captures")
        for an in runs.ANS:
            self.restarts[an] += 1
            numbers = [it[2] for it in frames if it[1] == an]
            if not numbers:
                continue
            lost = (min(numbers) - self.last[an] - 1) / self.restarts[an] / RESERVATION
            self.lost = max(self.lost, lost)
            self.last[an], self.restarts[an] = max(numbers), 0
        if capture.exists():
            self.captures.append(capture)

    def receive_all(self, out: pathlib.Path) -> runs.Ended:
        """The receiver gets all frames."""
        raise NotImplementedError

    def end(self) -> None:
        """The receiver gets all frames again, twice, and delivers each at most once."""
        for number in ("last", "again"):
            out = self.folder / f"delivered-{number}"
            ended = self.receive_all(out)
            report(ended.status == 0 and ended.count("failures") == 0, f"the receiver fails: {ended}")
            runs.add_new(self.delivered, runs.frames_of(out), f"delivered by run {number}")
        report(ended.count("delivered") == 0 and ended.count("dropped") == len(self.sent), f"not all is late: {ended}")
        report(self.delivered <= self.sent, "frames were delivered that were not sent")
        report(self.lost <= 1, f"a restart lost {self.lost:.2f} reservations of packet numbers")
        report(len(self.sent) > 100 and len(self.delivered) > 50, f"only {len(self.sent)} frames were sent")


class Saving(Runs):
    """The receiver saves packet numbers before it delivers. In each round it gets all frames of the rounds before."""

    def round(self, number: int) -> None:
        """Starts both, and kills them at random moments."""
        capture, out = self.folder / f"sent-{number}", self.folder / f"delivered-{number}"
        processes = [self.start_sender(capture)]
        processes.append(self.start(runs.receive_words(self.folder / "receiver", out, self.captures, self.suite)))
        # Most live until they have opened the journal.
        if self.random.random() < 0.8:
            report(until(lambda: capture.exists() and out.exists()), "a process does not begin")
        self.random.shuffle(processes)
        for process in processes:
            time.sleep(self.random.uniform(0, 0.02))
            process.kill()
        for process in processes:
            self.killed(process)
        self.note_sent(capture)
        runs.add_new(self.delivered, runs.frames_of(out), f"delivered by run {number}")

    def receive_all(self, out: pathlib.Path) -> runs.Ended:
        """The receiver gets all frames."""
        return runs.run(
            self.options.program, runs.receive_words(self.folder / "receiver", out, self.captures, self.suite)
        )


class Ahead(Runs):
    """The receiver reserves ahead, and delivers at once. In each run it gets all frames from the first on, and then
    those that come. The sender is killed, or the receiver, or both at once; the other one goes on."""

    def __init__(self, options: runs.Options, folder: pathlib.Path, suite: int, seed: str) -> None:
        super().__init__(options, folder, suite, seed)
        self.sender: subprocess.Popen[bytes] | None = None
        self.receiver: subprocess.Popen[bytes] | None = None
        self.out = folder
        self.accepted = {an: 0 for an in runs.ANS}
        self.starts = {an: 0 for an in runs.ANS}
        # What each crash of the receiver has left: the association, the last number that was delivered, the one up to
        # which is reserved, and the starts since a frame was delivered.
        self.crashes: list[tuple[int, int, int, int]] = []

    def words(self, out: pathlib.Path, count: int) -> list[str]:
        """The arguments of the receiver of so many captures."""
        return runs.accept_words(self.folder / "receiver", out, self.folder / "sent-", count, AMOUNT, self.suite)

    def round(self, number: int) -> None:
        """Starts what does not run, and kills one or both at a random moment."""
        capture = self.folder / f"sent-{len(self.captures)}"
        if self.sender is None:
            self.sender = self.start_sender(capture)
        if self.receiver is None:
            self.out = self.folder / f"delivered-{number}"
            self.receiver = self.start(self.words(self.out, 0))
        if self.random.random() < 0.8:
            report(until(lambda: capture.exists() and self.out.exists()), "a process does not begin")
        time.sleep(self.random.uniform(0, 0.05))
        victims = self.random.choice([(True, False), (False, True), (True, True)])
        self.kill(*victims)

    def kill(self, sender: bool, receiver: bool) -> None:
        """Kills one or both at once."""
        for process, is_victim in ((self.sender, sender), (self.receiver, receiver)):
            if process is not None and is_victim:
                process.kill()
        if self.sender is not None and sender:
            self.killed(self.sender)
            self.sender = None
            self.note_sent(self.folder / f"sent-{len(self.captures)}")
        if self.receiver is not None and receiver:
            self.killed(self.receiver)
            self.receiver = None
            self.note_delivered(runs.frames_of(self.out))

    def note_delivered(self, frames: list[runs.Frame]) -> None:
        """Sees that nothing was delivered before, and up to where is reserved."""
        runs.add_new(self.delivered, frames, f"delivered by {self.out.name}")
        octets = (self.folder / "receiver").read_bytes()
        names = runs.names_of(octets)
        for an in runs.ANS:
            numbers = [it[2] for it in frames if it[1] == an]
            self.starts[an] = 1 if numbers else self.starts[an] + 1
            self.accepted[an] = max([self.accepted[an], *numbers])
            reserved = runs.highest(octets, names[an]) if an < len(names) else 0
            report(self.accepted[an] <= reserved, f"{self.accepted[an]} was delivered, {reserved} is reserved")
            self.crashes.append((an, self.accepted[an], reserved, self.starts[an]))

    def receive_all(self, out: pathlib.Path) -> runs.Ended:
        """The receiver gets all frames."""
        return runs.run(self.options.program, self.words(out, len(self.captures)))

    def end(self) -> None:
        """Ends both, and sees how many frames each crash of the receiver has cost."""
        self.kill(True, True)
        super().end()
        worst = 0.0
        for an, last, reserved, starts in self.crashes:
            lost = sum(last < it[2] <= reserved for it in self.sent if it[1] == an)
            worst = max(worst, lost / starts / RESERVATION)
        report(worst <= 1, f"a crash of the receiver lost {worst:.2f} reservations of frames")
        lost = len(self.sent) - len(self.delivered)
        crashes = len(self.crashes) // len(runs.ANS)
        report(lost <= len(self.crashes) * RESERVATION, f"{lost} frames were lost by {crashes} crashes")
        told = f"{lost} of {len(self.sent):,} frames lost, a crash lost at most {worst:.2f} reservations"
        print(f"kills, suite {self.suite}, ahead: {crashes} of a receiver, {told}")


def kill_often(options: runs.Options, kind: type[Saving] | type[Ahead], suite: int, rounds: int, batch: int) -> None:
    """Rounds of one suite."""
    with runs.work_folder(options.folder) as folder:
        kills = kind(options, folder, suite, f"{options.seed} {suite} {batch}")
        try:
            for number in range(rounds):
                kills.round(number)
                if len(wrong) >= MANY:
                    return
        finally:
            if isinstance(kills, Ahead):
                kills.kill(True, True)
        kills.end()
        print(
            f"kills, suite {suite}: {rounds} of a sender or a receiver: {len(kills.sent):,} frames sent,"
            f" {len(kills.delivered):,} delivered, at most {kills.lost:.2f} reservations lost for a restart"
        )


def check_kills(options: runs.Options) -> None:
    """SIGKILL at random moments."""
    if options.short:
        kill_often(options, Saving, 1, 50, 0)
        for suite in (1, 2, 3, 4):
            kill_often(options, Ahead, suite, 12, 0)
        return
    for kind, suite, batch in itertools.product((Saving, Ahead), (1, 2, 3, 4), range(10)):
        kill_often(options, kind, suite, 100, batch)
