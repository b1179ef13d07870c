#!/usr/bin/env python3
"""Gives mutated captures, logs, JSON and other texts to the commands of the Python package.

    python3 fuzz/readers.py                                  20,000 inputs
    python3 fuzz/readers.py --inputs 2000 --seed 7           fewer, and others
    python3 fuzz/readers.py --seed 7 --only 12               input 12 alone: prints it, and what the command says

Of each input it asks: the command ends within 3 seconds of processor time, or 20 if it searches, and with 100 MB more
memory at most, by one of its statuses and not by an exception; what it prints has no control characters, and what it
says on standard error no key; beside OUT no file is left. Input number N of a seed is the same on every machine.

It needs the library for C (--library, build/libmacsec.so.1) and Linux. From 2,000 inputs on, each command must also
have ended in each of its ways (WAYS). The status is 1 if anything is wrong.
"""

from __future__ import annotations

import argparse
import bz2
import contextlib
import gzip
import importlib
import importlib.util
import io
import json
import lzma
import multiprocessing
import os
import pathlib
import random
import re
import shlex
import signal
import struct
import sys
import tempfile
import traceback
from collections import Counter
from multiprocessing.sharedctypes import Synchronized
from typing import NamedTuple

sys.dont_write_bytecode = True
import blocks
import captures

ROOT = pathlib.Path(__file__).resolve().parent.parent
# Without it the commands take no CAK.
HAS_CAKS = importlib.util.find_spec("cryptography") is not None
CAPTURES, LOGS = ROOT / "examples/captures", ROOT / "python/tests/data"
KEY, SALT = "ad7a2bd03eac835a6f620fdcb506b345", "a0a1a2a3a4a5a6a7a8a9aaab"
SECONDS, KILOBYTES = 3.0, 100_000
# The ways that search for keys and causes, which takes some seconds, may take longer.
SEARCHES, SECONDS_OF_SEARCH = ("decrypt", "why", "report", "--capture", "--cak-file"), 20.0
CONTROL = re.compile("[\x00-\x08\x0b-\x1f\x7f-\x9f]")
# How the commands have to have ended among 2,000 inputs.
WAYS = {
    "decrypt": {0, 1, 2, 3}, "why": {0, 1, 2, 3}, "report": {0, 1, 2, 3}, "--capture": {0, 1, 3}, "--ip": {0, 2},
    "--ip-json": {0, 2}, "--wpa": {0, 2}, "--lint": {0, 3}, "--to-ip": {0, 2}, "--next": {0, 2}, "forge": {0, 1, 2},
    **({"--cak-file": {0, 1, 2, 3}} if HAS_CAKS else {}),
}  # fmt: skip

COMMANDS = f"""ip link add link eth0 macsec0 type macsec port 1 encrypt on cipher gcm-aes-xpn-128 replay on window 64
ip link set eth0 address 02:00:00:00:00:01
ip macsec add macsec0 tx sa 0 xpn 1 on salt {SALT} ssci 1 key 01 {KEY}
ip macsec add macsec0 rx port 1 address 02:00:00:00:00:02
ip macsec add macsec0 rx port 1 address 02:00:00:00:00:02 sa 0 xpn 1 on salt {SALT} ssci 2 key 01 {KEY}
ip link add link eth1 macsec0 address 02:00:00:00:00:01 type macsec send_sci off end_station on
ip link set macsec0 type macsec encrypt off validate check
"""
SHOWN = [
    {
        "ifname": "macsec0", "protect": True, "validate": "strict", "encrypt": True, "send_sci": True, "replay": True,
        "window": 32, "cipher_suite": "GCM-AES-128", "sci": "0200000000010001", "encoding_sa": 0,
        "sa_list": [{"an": 0, "pn": 1, "active": True, "key": "0" * 32}],
        "rx_sc": [
            {"sci": "0200000000020001", "active": True, "sa_list": [{"an": 1, "pn": 7, "ssci": 1, "key": "0" * 32}]}
        ],
    }
]  # fmt: skip
ODD = [
    "", "-1", "0", "0x", "4294967296", "18446744073709551616", "9" * 5000, "f" * 40, "\x1b]0,a\x07", "\x9b", "\x00",
    "\u0663", "\xff", "'", '"', "\\", "#", ";", "[" * 3000, "{" * 3000, "a" * 9000, "(" * 9000, KEY, f"{KEY}x",
    "/dev/null",
]  # fmt: skip


class Input(NamedTuple):
    """The words of a command, in which IN, TEXT and OUT are files of these octets, and which way of WAYS it is of."""

    way: str
    words: list[str]
    files: dict[str, bytes]


def altered(rng: random.Random, octets: bytes) -> bytes:
    """Octets with some changes: of single ones, of numbers of 32 bits, of parts that are cut, repeated or exchanged."""
    made = bytearray(octets)
    for _ in range(rng.choice((0, 1, 1, 2, 5))):
        if not made:
            break
        at = rng.randrange(len(made))
        size = rng.choice((1, 4, 16, 60, 1000))
        way = rng.randrange(7)
        if way == 0:
            made[at] = rng.randrange(256)
        elif way == 1:
            number = rng.choice((0, 1, 2**31, 2**32 - 1, 2**32 - 4, 262_144, 262_145, 16 << 20, len(made)))
            made[at // 4 * 4 : at // 4 * 4 + 4] = number.to_bytes(4, rng.choice(("little", "big")))
        elif way == 2:
            del made[at:]
        elif way == 3:
            del made[at : at + size]
        elif way == 4:
            made[at:at] = made[at : at + size] * rng.choice((1, 3, 1000))
        elif way == 5:
            made[at : at + size] = rng.randbytes(size)
        else:
            made[at:at] = rng.choice(ODD).encode("latin-1", errors="replace")
    return bytes(made[: 1 << 20])


def text_of(rng: random.Random, text: str) -> bytes:
    lines = text.split("\n")
    for _ in range(rng.choice((0, 1, 1, 2, 4, 8))):
        at = rng.randrange(len(lines))
        words = lines[at].split(" ")
        place = rng.randrange(len(words))
        way = rng.randrange(10)
        if way == 0:
            words[place] = rng.choice(ODD)
        elif way > 6:
            words[place] += rng.choice(("\x1b[1m", "\x07", "\x9b1m"))
        elif way == 1:
            words[place] = rng.choice(rng.choice(lines).split(" "))
        elif way == 2:
            words[place:place] = words * rng.choice((1, 2, 500))
        elif way == 3:
            del words[place]
        elif way == 4:
            words[place] = words[place][:-1]
        lines[at] = " ".join(words)[: 1 << 18]
        if way == 5:
            lines[at:at] = [lines[at]] * rng.choice((1, 9, 900))
        elif way == 6 and len(lines) > 1:
            del lines[at]
    octets = "\n".join(lines)[: 1 << 20].encode(errors="replace")
    return octets if rng.randrange(4) else altered(rng, octets)


def odd_value(rng: random.Random, depth: int = 3) -> object:
    odd: list[object] = [None, True, -1, 2**70, 1.5, float("inf"), "", "x", "\x1b[2J", "f" * 40, "0" * 32, KEY, "on"]
    if not depth or rng.randrange(4):
        return rng.choice(odd)
    return [odd_value(rng, depth - 1)] if rng.randrange(2) else {"an": odd_value(rng, depth - 1)}


def json_of(rng: random.Random) -> bytes:
    """What `ip -j macsec show` could print, with some values exchanged."""
    shown = json.loads(json.dumps(SHOWN))
    for _ in range(rng.choice((0, 1, 1, 2, 4))):
        of = shown
        while of and (isinstance(of, (list, dict))):
            key = rng.choice(range(len(of)) if isinstance(of, list) else list(of))
            if not isinstance(of[key], (list, dict)) or not rng.randrange(4):
                if rng.randrange(4):
                    of[key] = odd_value(rng)
                else:
                    del of[key]
                break
            of = of[key]
    octets = json.dumps(shown).encode()
    return octets if rng.randrange(4) else text_of(rng, octets.decode())


def in_tunnel(rng: random.Random, frame: bytes) -> list[bytes]:
    """A frame in ERSPAN, GRE or VXLAN, as one packet or two IP fragments, sometimes with an altered octet."""
    protocol, head = rng.choice((
        (47, bytes.fromhex("100088be00000001" "1000000900000001")), (47, bytes.fromhex("000088be")),
        (47, bytes.fromhex("100022eb00000001" "200000090000000000000001" "0000000000000000")),
        (47, bytes.fromhex("00006558")), (17, struct.pack("!HHHHII", 9, 4789, 16 + len(frame), 0, 8 << 24, 256)),
    ))  # fmt: skip
    data, found = head + frame, []
    cut = rng.choice((len(data), 48))
    for at, part in ((0, data[:cut]), (cut, data[cut:]))[: 1 + (cut < len(data))]:
        field = at // 8 | (0x2000 if at + len(part) < len(data) else 0)
        ip = struct.pack("!BBHHHBBHII", 0x45, 0, 20 + len(part), 7, field, 64, protocol, 0, 1, 2)
        made = bytearray(bytes(12) + b"\x08\0" + ip + part)
        if rng.randrange(4) == 0:
            made[rng.randrange(len(made))] = rng.randrange(256)
        found.append(bytes(made))
    return found


def short_block(rng: random.Random) -> bytes:
    """A section whose last block can be too short for its kind."""
    made = [(0x0A0D0D0A, struct.pack("<IHHq", 0x1A2B3C4D, 1, 0, -1)), (1, struct.pack("<HHI", 1, 0, 0))]
    made.append((rng.choice((1, 2, 3, 6)), rng.randbytes(4 * rng.randrange(8))))
    return b"".join(struct.pack("<II", kind, 12 + len(it)) + it + struct.pack("<I", 12 + len(it)) for kind, it in made)


def capture_of(rng: random.Random, files: list[tuple[str, bytes]]) -> bytes:
    """A capture file, most of them with frames of the examples."""
    octets = rng.choice(files)[1]
    if rng.randrange(2):
        frames = [frame for *_, frame in captures.read_records(octets, "<") if frame is not None]
        if rng.randrange(3) == 0:
            frames = [part for it in frames for part in in_tunnel(rng, it)]
        octets = blocks.made_file(rng, frames, bool(rng.randrange(2)))
        if rng.randrange(3) == 0:
            return octets + short_block(rng)
    octets = altered(rng, octets)
    if rng.randrange(8) == 0:
        compress = rng.choice((gzip.compress, bz2.compress, lzma.compress, bytes.fromhex("28b52ffd").__add__))
        octets = altered(rng, compress(octets))
    return octets


class Corpus:
    def __init__(self) -> None:
        self.captures = [(it.name, it.read_bytes()) for it in sorted(CAPTURES.glob("*.pcap"))]
        self.configs = [it.read_text() for it in sorted(CAPTURES.glob("*.config"))]
        self.agreements = [(it, it.with_suffix(".cak")) for it in sorted(LOGS.glob("cak-*.pcap"))] if HAS_CAKS else []
        self.logs = [it.read_text() for it in sorted(LOGS.glob("*.log"))]
        protected = "".join(f"{line} done\n" for line in (2, 3, 4)) + "record 0 link 74\nend OutPktsProtected 0\n"
        self.frames = f"# of a list\n{bytes(60).hex()}\ninject {bytes(14).hex()}\n00:00 # name\n"
        self.text = protected + "end OutPktsEncrypted 1\n"

    def input(self, seed: str, number: int) -> Input:
        rng = random.Random(f"{seed} {number}")
        way = rng.choice(list(WAYS))
        key = rng.choice((KEY, KEY, f"{KEY}:{SALT}", f"/0={KEY}"))
        config = text_of(rng, rng.choice(self.configs))
        if way == "decrypt":
            several = f"# a key\n{key}\n\n{KEY}:{SALT}:00000001\n"
            keys = text_of(rng, several) if rng.randrange(2) else f"{key}\n".encode()
            words = ["decrypt", "IN", "OUT", "--keys", "TEXT", *rng.choice(([], ["--json"], ["--only-opened"]))]
            return Input(way, words, {"IN": capture_of(rng, self.captures), "TEXT": keys})
        if way == "--cak-file":
            capture, cak = rng.choice(self.agreements)
            if not rng.randrange(4):
                cak = rng.choice(self.agreements)[1]  # of another capture, most of the time: then frames stay closed
            files = {"IN": altered(rng, capture.read_bytes()), "TEXT": text_of(rng, cak.read_text())}
            return Input(way, ["decrypt", "IN", "OUT", way, "TEXT"], files)
        if way == "why":
            words = ["why", "TEXT", "IN", *rng.choice(([], ["--json"], ["0"], ["--key", key]))]
            return Input(way, words, {"IN": capture_of(rng, self.captures), "TEXT": config})
        if way == "report":
            judge = rng.choice((["--config", "TEXT"], ["--key", key], ["--config", "TEXT", "--key", key]))
            words = ["report", "IN", *rng.choice(([], ["IN"])), "-o", rng.choice(("OUT", "OUT", "-")), *judge]
            return Input(way, words, {"IN": capture_of(rng, self.captures), "TEXT": config})
        if way == "--capture":
            words = ["config", way, "IN", "--key", key, *rng.choice(([], ["--own", "0200000000010001"]))]
            return Input(way, words, {"IN": capture_of(rng, self.captures)})
        if way == "forge":
            what = rng.choice((["--capture", "IN"], ["--config", "TEXT", "--frames", "IN"]))
            is_list = what[0] == "--config" and rng.randrange(2)
            octets = text_of(rng, self.frames) if is_list else capture_of(rng, self.captures)
            return Input(way, ["forge", rng.choice(("OUT", "-")), *what], {"IN": octets, "TEXT": config})
        if way == "--ip":
            lines = COMMANDS.splitlines()
            text = "\n".join(lines[: rng.choice((5, 5, 7))])
            words = ["config", way, "IN", *rng.choice(([], ["--as", "peer"], ["--as", "observer"]))]
            return Input(way, words, {"IN": text_of(rng, text)})
        if way == "--ip-json":
            return Input(way, ["config", way, "IN", "--key", key], {"IN": json_of(rng)})
        if way == "--wpa":
            log = rng.choice(self.logs) if rng.randrange(8) else ""
            return Input(way, ["config", way, "IN"], {"IN": text_of(rng, log)})
        if way == "--next":
            config = (CAPTURES / "sender.config").read_bytes() if rng.randrange(2) else config
            return Input(way, ["config", way, "TEXT", "IN"], {"TEXT": text_of(rng, self.text), "IN": config})
        return Input(way, ["config", way, "IN", *rng.choice(([], ["--json"]))], {"IN": config})


def peak() -> int:
    """The highest kilobytes of this process since `forget_peak`, or at all."""
    found = re.search(r"VmHWM:\s*(\d+)", pathlib.Path("/proc/self/status").read_text())
    return int(found[1]) if found else 0


def forget_peak() -> int:
    """Makes the kilobytes of this process its highest ones, and returns them."""
    with contextlib.suppress(OSError):
        pathlib.Path("/proc/self/clear_refs").write_text("5")
    return peak()


def secrets_of(it: Input) -> set[str]:
    """The keys in an input, as far as they are in hex. What `ip -j macsec show` prints has identifiers of that form."""
    if it.way == "--ip-json":
        return set()
    return {one.decode().lower() for octets in it.files.values() for one in re.findall(rb"[0-9a-fA-F]{32}", octets)}


def run(it: Input, folder: str) -> tuple[int, str, str]:
    """The status of a command, and what it prints on both streams."""
    for name, octets in it.files.items():
        pathlib.Path(folder, name).write_bytes(octets)
    main = importlib.import_module(f"macsec.cli.{it.words[0]}").main
    words = [f"{folder}/{word}" if word in ("IN", "TEXT", "OUT") else word for word in it.words[1:]]
    out, error = io.StringIO(), io.StringIO()
    with contextlib.redirect_stdout(out), contextlib.redirect_stderr(error):
        try:
            status = main(words)
        except SystemExit as ended:
            status = int(ended.code or 0)
    return status, out.getvalue(), error.getvalue()


def fault_of(it: Input, folder: str) -> tuple[int, str]:
    """The status of a command, and what is wrong with how it ended."""
    before = forget_peak()
    try:
        status, out, error = run(it, folder)
    except Exception:
        return -1, "an exception: " + traceback.format_exc().strip().split("\n")[-1]
    more = peak() - before
    left = sorted(set(os.listdir(folder)) - {"IN", "TEXT", "OUT"})
    secrets = secrets_of(it)
    for is_wrong, what in (
        (status not in (0, 1, 2, 3), f"status {status}"),
        (bool(CONTROL.search(out + error)), "control characters are printed"),
        (not all(line.startswith("macsec-") for line in error.splitlines()), f"another line: {error[:200]!r}"),
        (any(word in error.lower() for word in secrets), "a key in a message"),
        (status in (1, 2) and not error, f"status {status} without a message"),
        (bool(left), f"files are left: {left}"),
        (more > KILOBYTES, f"{more} kilobytes more"),
    ):
        if is_wrong:
            return status, what
    return status, ""


def work(seed: str, numbers: range, at: Synchronized[int], found: multiprocessing.connection.Connection) -> None:
    """Runs some inputs from a place on, which is noted. Each is ended by a signal if it takes too long."""
    signal.signal(signal.SIGPROF, signal.SIG_DFL)
    corpus = Corpus()
    for number in numbers[at.value :]:
        with tempfile.TemporaryDirectory() as folder:
            it = corpus.input(seed, number)
            signal.setitimer(signal.ITIMER_PROF, SECONDS_OF_SEARCH if it.way in SEARCHES else SECONDS)
            status, fault = fault_of(it, folder)
            signal.setitimer(signal.ITIMER_PROF, 0)
        found.send((number, it.way, status, fault))
        at.value += 1


def results(seed: str, numbers: range) -> list[tuple[int, str, int, str]]:
    """What came of some inputs, by processes one after another: one that an input ends is followed by another."""
    told = []
    at = multiprocessing.Value("i", 0)
    while at.value < len(numbers):
        receiver, sender = multiprocessing.Pipe(False)
        child = multiprocessing.get_context("fork").Process(target=work, args=(seed, numbers, at, sender))
        child.start()
        sender.close()
        with contextlib.suppress(EOFError):
            while True:
                told.append(receiver.recv())
        child.join()
        if at.value < len(numbers):
            number = numbers[at.value]
            told.append((number, Corpus().input(seed, number).way, -1, f"ended the process: {child.exitcode}"))
            at.value += 1
    return told


def main() -> int:
    parser = argparse.ArgumentParser(description=__doc__.split("\n")[0])
    parser.add_argument("--inputs", type=int, default=20_000)
    parser.add_argument("--seed", default="1")
    parser.add_argument("--only", type=int)
    parser.add_argument("--jobs", type=int, default=len(os.sched_getaffinity(0)))
    parser.add_argument("--library", default=str(ROOT / "build/libmacsec.so.1"))
    asked = parser.parse_args()
    os.environ["MACSEC_LIBRARY"] = os.path.abspath(asked.library)
    sys.path.insert(0, str(ROOT / "python"))
    if asked.only is not None:
        it = Corpus().input(asked.seed, asked.only)
        for name, octets in it.files.items():
            print(f"{name}: {octets[:4000]!r}")
        with tempfile.TemporaryDirectory() as folder:
            print(shlex.join(it.words), *run(it, folder), sep="\n")
        return 0
    from concurrent.futures import ThreadPoolExecutor

    jobs = max(1, min(asked.jobs, asked.inputs))
    with ThreadPoolExecutor(jobs) as pool:
        parts = list(pool.map(lambda n: results(asked.seed, range(n, asked.inputs, jobs)), range(jobs)))
    told = sorted(it for part in parts for it in part)
    wrong = [it for it in told if it[3]]
    for number, way, _, fault in wrong[:20]:
        print(f"input {number} of seed {asked.seed}, {way}: {fault}")
    ended = Counter((way, status) for _, way, status, _ in told)
    unmet = [(way, it) for way, all_ in WAYS.items() for it in all_ if not ended[way, it]]
    missed = [f"{way}: no input ended with status {it}" for way, it in unmet] if asked.inputs >= 2000 else []
    print("\n".join([*missed, f"readers: {len(told)} inputs, {len(wrong)} wrong"]))
    return 1 if wrong or missed or len(told) != asked.inputs else 0


if __name__ == "__main__":
    sys.exit(main())
