"""Runs of a program with a journal (journal.c), what it captured, and the disk that a power failure leaves."""

from __future__ import annotations

import contextlib
import copy
import functools
import hashlib
import io
import os
import pathlib
import random
import subprocess
import sys
import tempfile
from collections.abc import Iterator
from concurrent.futures import ThreadPoolExecutor
from typing import Callable, NamedTuple

from house import ROOT, captures
from house.compiling import INCLUDED, SANITIZED, WARNINGS
from house.reporting import report

FLAGS = [*WARNINGS, "-O2", *INCLUDED, "-I", f"{ROOT}/device"]
RECORD, SECTOR = 64, 4096
ANS = (0, 1)
SENDER = bytes.fromhex("0200000000010001")
SECONDS = 60

Frame = tuple[bytes, int, int]  # SCI, association number, packet number


class Options(NamedTuple):
    """What the tool was started with, and what it has built."""

    short: bool
    seed: str
    program: pathlib.Path
    sanitized: pathlib.Path
    numbers: pathlib.Path
    disk: pathlib.Path
    folder: pathlib.Path  # on a real disk
    library: pathlib.Path


# ---- Programs


def compiled(out: pathlib.Path, *words: str) -> pathlib.Path:
    """Builds a program."""
    out.parent.mkdir(parents=True, exist_ok=True)
    if subprocess.call(["gcc", *FLAGS, *words, "-o", str(out)]):
        sys.exit("device/tests/journal: a program was not built")
    return out


def build_held(folder: pathlib.Path) -> pathlib.Path:
    """Builds frames that wait for a reservation, with sanitizers."""
    sources = [str(ROOT / f"device/{it}.c") for it in ("held_frames", "history", "tests/journal_held")]
    return compiled(folder / "journal_held", "-pedantic", *SANITIZED, *sources)


def build(library: pathlib.Path, folder: pathlib.Path, checks: set[str]) -> list[pathlib.Path]:
    """Builds the program, the one with sanitizers, the end that reserves as macsecd does but less, and the library that
    makes their calls fail, as far as these checks need them."""
    paths = [folder / it for it in ("journal", "journal-sanitized", "journal_numbers", "journal_disk.so")]
    sources = [str(ROOT / "device/tests/journal.c"), str(ROOT / "device/journal.c"), str(library)]
    sources += ["-Wl,--wrap=malloc", "-Wl,--wrap=realloc"]
    model = str(ROOT / "device/tests/journal_disk.c")
    parts = "journal journal_writer journals lines names numbers receive_rates text tests/journal_numbers".split()
    numbers = ['-DNUMBERS_FILE_LENGTH=(size_t)atol(getenv("LIMIT"))', "-DAMOUNT_MIN=8", "-DRECEIVE_RATES_LEAST=8"]
    numbers += ["-pthread", *(str(ROOT / f"device/{it}.c") for it in parts), str(library)]
    commands = [("-pedantic", *sources), (*SANITIZED, *sources, model), ("-pedantic", *numbers)]
    needed = {1: {"memory"}, 2: {"histories", "numbers", "damage"}}
    rows = [it for it in enumerate([*commands, ("-shared", "-fPIC", model)]) if needed.get(it[0], checks) & checks]
    with ThreadPoolExecutor(len(rows)) as pool:
        list(pool.map(lambda it: compiled(paths[it[0]], *it[1]), rows))
    return paths


class Ended(NamedTuple):
    """What became of a run of the program."""

    status: int
    out: str
    error: str

    def count(self, name: str) -> int:
        """The number after this word."""
        words = self.out.split()
        return int(words[words.index(name) + 1]) if name in words else 0


def run(
    program: pathlib.Path, words: list[str], env: dict[str, str] | None = None, under: tuple[str, ...] = ()
) -> Ended:
    """Runs the program to its end."""
    try:
        ended = subprocess.run(
            [*under, str(program), *words],
            env={**os.environ, **(env or {})},
            stdin=subprocess.DEVNULL,
            capture_output=True,
            timeout=SECONDS,
        )
    except subprocess.TimeoutExpired:
        return Ended(-1, "", f"no end within {SECONDS} seconds")
    return Ended(ended.returncode, ended.stdout.decode(), ended.stderr.decode(errors="replace"))


def send_words(
    journal: pathlib.Path, capture: pathlib.Path, limit: int, amount: int, frames: int, suite: int = 1
) -> list[str]:
    """The arguments of a sender."""
    return ["send", str(journal), str(limit), str(suite), str(amount), str(frames), str(capture)]


def receive_words(journal: pathlib.Path, out: pathlib.Path, captures: list[pathlib.Path], suite: int = 1) -> list[str]:
    """The arguments of a receiver."""
    return ["receive", str(journal), str(8 * SECTOR), str(suite), str(out), *map(str, captures)]


def accept_words(
    journal: pathlib.Path, out: pathlib.Path, prefix: pathlib.Path, count: int, amount: int, suite: int = 1
) -> list[str]:
    """The arguments of a receiver that reserves ahead."""
    return ["accept", str(journal), str(8 * SECTOR), str(suite), str(amount), str(out), str(prefix), str(count)]


# ---- Captures and journals


def frames_of(capture: pathlib.Path) -> list[Frame]:
    """The SCI, association number and packet number of each whole frame of a capture."""
    found = []
    for frame in captures.frames_so_far(capture) if capture.is_file() else []:
        if frame[12:14] != b"\x88\xe5" or not frame[14] & 0x20:
            raise ValueError(f"{capture}: a frame without a SecTAG with an SCI")
        found.append((frame[20:28], frame[14] & 3, int.from_bytes(frame[16:20], "big")))
    return found


def add_new(seen: set[Frame], frames: list[Frame], what: str) -> None:
    """Notes frames. None of them may be there already."""
    for frame in frames:
        if frame in seen:
            report(False, f"{what}: packet number {frame[2]} of association {frame[1]} occurs again")
            return
        seen.add(frame)


def is_record(octets: bytes) -> bool:
    """Are these 64 octets a record: name, number, and the check of both?"""
    return octets[40:] == hashlib.sha256(b"macsec reserve: check" + octets[:40]).digest()[:24]


def earlier_header(octets: bytes) -> bytes:
    """The header of the earlier form, without a count of the records, for the salt of a journal."""
    header = b"macsec journal 1" + octets[16:40]
    return header + hashlib.sha256(b"macsec reserve: header" + header).digest()[:24]


@functools.lru_cache(1 << 10)
def records_of(octets: bytes) -> list[tuple[bytes, int]]:
    """The name and the number of each record of a journal, which follow on a header and a count."""
    front = RECORD if octets.startswith(b"macsec journal 1") else 2 * RECORD
    places = (octets[at : at + RECORD] for at in range(front, len(octets) - RECORD + 1, RECORD))
    return [(it[:32], int.from_bytes(it[32:40], "big")) for it in places if is_record(it)]


def highest(octets: bytes, name: bytes) -> int:
    """The greatest number that a journal reserves for a name."""
    return max((number for each, number in records_of(octets) if each == name), default=0)


def names_of(octets: bytes) -> list[bytes]:
    """The names of a journal, in the order of the associations: those that send are first."""
    return list(dict.fromkeys(name for name, _ in records_of(octets)))


@contextlib.contextmanager
def work_folder(parent: pathlib.Path | None = None) -> Iterator[pathlib.Path]:
    """A folder for a while: in memory, if no other place is named."""
    memory = "/dev/shm" if os.access("/dev/shm", os.W_OK) else None
    with tempfile.TemporaryDirectory(dir=parent or memory, prefix="journal-") as name:
        yield pathlib.Path(name)


def has_frames(capture: pathlib.Path, more_than: int = 24) -> Callable[[], bool]:
    """Has a capture more than so many octets?"""
    return lambda: capture.is_file() and capture.stat().st_size > more_than


# ---- The disk


class Call(NamedTuple):
    """A call of the log of journal_disk.c, and how many frames were captured before it."""

    name: str
    inode: int
    at: int
    done: bool
    frames: int
    octets: bytes


def calls_of(log: pathlib.Path) -> list[Call]:
    """The calls of a run."""
    calls = []
    with open(log, "rb") if log.exists() else io.BytesIO() as file:
        for line in file:
            name, inode, at, length, done, written = line.decode().split()
            octets = file.read(int(length))
            calls.append(Call(name, int(inode), int(at), done == "1", max(0, int(written) - 1), octets))
    return calls


class File:
    """A file on a disk: its octets, and a mask of those that a power failure leaves for certain."""

    def __init__(self, octets: bytes = b"") -> None:
        self.octets, self.kept = bytearray(octets), bytearray(b"\xff" * len(octets))
        self.fresh: list[tuple[int, int]] = []  # where was written since the last synchronization

    def write(self, at: int, octets: bytes, done: bool) -> None:
        """A write can damage all octets of its sectors. What follows on the last one is one write with it."""
        end = at + len(octets)
        begin = self.fresh.pop()[0] if self.fresh and self.fresh[-1][1] == at else at
        first, last = begin // SECTOR * SECTOR, -(-end // SECTOR) * SECTOR
        for each in (self.octets, self.kept):
            each += bytes(max(0, last - len(each)))
        self.octets[at:end], self.kept[first:last] = octets, bytes(last - first)
        self.fresh = [it for it in self.fresh if it[0] >= last or it[1] <= first] + [(begin, end)] * done

    def synchronize(self, done: bool) -> None:
        """What was written is kept. If that fails, no later call makes up for it."""
        for at, end in self.fresh if done else ():
            self.kept[at:end] = b"\xff" * (end - at)
        self.fresh.clear()

    def least(self) -> bytes:
        """The octets that a power failure leaves for certain, and zeros for others."""
        kept = int.from_bytes(self.octets, "big") & int.from_bytes(self.kept, "big")
        return kept.to_bytes(len(self.octets), "big")

    def lose(self, rest: random.Random) -> bytes:
        """Takes any octets for those that a power failure can change: written ones, zeros or random ones. Returns what
        is left, to any length."""
        choices, parts = rest.choice(((0,), (1,), (2,), (0, 1, 2))), []
        for at in range(0, len(self.octets), RECORD):
            part = bytes(self.octets[at : at + RECORD])
            parts.append((part, bytes(len(part)), rest.randbytes(len(part)))[rest.choice(choices)])
        pairs = zip(self.least(), b"".join(parts), self.kept)
        self.octets = bytearray(least if kept else other for least, other, kept in pairs)
        return bytes(self.octets[: rest.randrange(len(self.kept.rstrip(b"\0")), len(self.octets) + 1)])


class Disk:
    """A disk that keeps its promises (crates/macsec_journal/specs/Disk.antt) and no more."""

    def __init__(self, journal: bytes | None) -> None:
        # The files that the name can lead to after a power failure. It leads to the last one.
        self.named = [None if journal is None else File(journal)]
        self.files: dict[int, File] = {}  # by their inodes
        self.is_renamed = False  # since the folder was synchronized, well or not?

    def begin(self, folder: pathlib.Path) -> None:
        """A process begins. No synchronization of it makes durable what earlier ones have written."""
        self.is_renamed = False
        self.files = {it.stat().st_ino: File() for it in folder.iterdir()}
        for file in self.named:
            if file is not None:
                file.fresh.clear()
        if self.named[-1] is not None:
            self.files[(folder / "journal").stat().st_ino] = self.named[-1]

    def make(self, call: Call) -> None:
        """Makes a call. A rename is done if `at` is 0, whatever it reports."""
        file = self.files.get(call.inode)
        if call.name == "openat":
            self.files[call.inode] = File()
        elif call.name == "renameat2":
            self.named.insert(len(self.named) - (call.at != 0), file)
            self.is_renamed = call.done
        elif call.name == "pwrite" and file is not None:
            file.write(call.at, call.octets, call.done)
        elif file is not None:
            file.synchronize(call.done)
        else:
            self.named = self.named[-1:] if self.is_renamed and call.done else self.named
            self.is_renamed = False

    def cut(self, rest: random.Random) -> dict[str, bytes]:
        """The power fails. Returns the files that are left."""
        file = rest.choice(self.named)
        self.named.remove(file)
        self.named.append(file)
        left = {} if file is None else {"journal": file.lose(rest)}
        if rest.random() < 0.3:
            left["journal.new"] = rest.randbytes(rest.randrange(2 * SECTOR))
        return left


class Chain:
    """Runs of a sender one after another on a disk, with a power failure after some. At each call of each run it is
    judged what a power failure would leave."""

    LIMIT, AMOUNT, FRAMES = 5 * SECTOR, 8, 48  # two records are appended between two new files

    def __init__(self, options: Options, start: bytes | None, names: list[bytes], what: str) -> None:
        self.options, self.names, self.what = options, names, what
        self.sizes = (self.LIMIT, self.AMOUNT, self.FRAMES)
        self.rest = random.Random(what)
        self.state = {} if start is None else {"journal": start}
        self.disk = Disk(start)
        self.seen: set[Frame] = set()
        self.last: dict[int, int] = {}  # the last packet number under each name
        self.points = 0

    def send(self, faults: str = "", power: str = "end", **more: str) -> Ended:
        """Runs the sender, with more variables in its environment."""
        words = lambda folder: send_words(folder / "files/journal", folder / "capture", *self.sizes)
        return self.run(faults, words, power, **more)

    def run(self, faults: str, words: Callable[[pathlib.Path], list[str]], power: str, **more: str) -> Ended:
        """Runs the program on the state. Then the power fails at the end of the run, or at `any` of its calls; or only
        the process has ended, if it is `on`."""
        with work_folder() as folder:
            files = folder / "files"
            files.mkdir()
            for name, octets in self.state.items():
                (files / name).write_bytes(octets)
            self.disk.begin(files)
            env = {"LD_PRELOAD": str(self.options.disk), "LOG": str(folder / "log"), "FAULTS": faults, **more}
            ended = run(self.options.program, words(folder), env)
            calls, frames = calls_of(folder / "log"), frames_of(folder / "capture")
            self.state = {it.name: it.read_bytes() for it in files.iterdir()}
        self.judge(calls, frames, self.rest.randrange(len(calls) + 1) if power == "any" else len(calls))
        if power != "on":
            self.state = self.disk.cut(self.rest)
        return ended

    def judge(self, calls: list[Call], frames: list[Frame], stop: int) -> None:
        """Judges what a power failure would leave at each call, and takes the disk as it is before call `stop`."""
        last, at, end = dict(self.last), 0, Call("end", 0, 0, True, len(frames), b"")
        for number, call in enumerate([*calls, end]):
            for sci, an, pn in frames[at : call.frames]:
                place = an if sci == SENDER else len(ANS) + an
                last[place] = max(last.get(place, 0), pn)
            at = call.frames
            self.compare(last, f"call {number + 1}")
            if number == stop:
                stopped = copy.deepcopy(self.disk), dict(last)
                add_new(self.seen, frames[:at], self.what)
            self.disk.make(call)
        self.disk, self.last = stopped

    def compare(self, last: dict[int, int], where: str) -> None:
        """Sees that the name leads to a journal, or to no file while it is created, and that each packet number that
        was sent or accepted is reserved in it."""
        self.points += 1
        for octets in (it.least() for it in self.disk.named if it is not None):
            report(octets.startswith(b"macsec journal"), f"{self.what}, {where}: the name leads to no journal")
            for place, number in last.items():
                reserved = highest(octets, self.names[place]) if place < len(self.names) else 0
                how = f"was {'sent' if place < len(ANS) else 'accepted'}, {reserved} is reserved"
                report(number <= reserved, f"{self.what}, {where}: packet number {number} {how}")
