"""macsec-decrypt: opens the frames of a capture under some keys, and writes what the clients sent."""

from __future__ import annotations

import argparse
import collections
import json
import sys
from collections import Counter
from collections.abc import Sequence
from typing import Callable

from .. import capture
from ..config_keys import keys_of_config
from ..errors import UsageError
from ..grammar import MOST_OCTETS
from ..ivs import MOST_LINES, UsedIvs, UsedTwice, dicts_of
from ..ivs import lines_of as lines_of_ivs
from ..ivs import lost_by, more_of
from ..ledger import Ledger
from ..names import Suite
from ..opener import Opener
from ..summary import frames_text
from ..trial import KeyArgument, key_argument
from ..tunnels import is_protected
from ..unseen import Unseen
from ..wpalog import keys_of, lines_of
from . import new_parser, open_octets, run, say
from .key_agreement import add_cak_options, caks_of
from .reading import STDIN, Reading, can_be_read_again, keys_of_mka
from .seen import add_seen_options, ledger_of, seen_in

STDOUT = "-"
# How many IVs are kept of a capture that comes by a pipe and may have no end. They take 8 MB.
_MOST_IVS = 200_000


def has_keys(asked: argparse.Namespace) -> bool:
    """Does an option give keys?"""
    return bool(asked.key or asked.keys or asked.wpa or asked.config_keys)


def key_arguments(asked: argparse.Namespace) -> list[KeyArgument]:
    """The keys of the options --key, --keys, --wpa and --config."""
    found = [key_argument(it) for it in asked.key]
    for path in asked.keys:
        found += keys_of_file(path)
    for path in asked.wpa:
        with open_octets(path) as file:
            found += [KeyArgument(it.octets) for it in keys_of(lines_of(file))]
    for path in asked.config_keys:
        with open_octets(path) as file:
            found += keys_of_config(file.read(MOST_OCTETS + 1))
    distinct = list(dict.fromkeys(found))
    if not distinct and not (asked.cak or asked.cak_file):
        raise UsageError("no key: give one by --key, --keys, --wpa or --config, or a CAK by --cak or --cak-file")
    return distinct


def keys_of_file(path: str) -> list[KeyArgument]:
    """The keys of a file, one on each line. A fault names file and line, and not the option of the same form."""
    found = []
    with open_octets(path) as file:
        for number, line in enumerate(map(str.strip, lines_of(file)), 1):
            if not line or line.startswith("#"):
                continue
            try:
                found.append(key_argument(line))
            except UsageError as why:
                if line.split()[0] in ("end", "device"):
                    raise UsageError(f"{path}:{number}: a CONFIG, not keys: --config has keys from it") from None
                raise UsageError(str(why).replace("--key", f"{path}:{number}", 1)) from None
    return found


def add_key_options(parser: argparse.ArgumentParser, config: str = "a CONFIG, or macsecd's file, with keys") -> None:
    """The options that give keys, and what the one for a CONFIG is."""
    spec = "[WHOSE=]KEY[:SALT[:SSCI[:UPPER]]]"
    parser.add_argument(
        "--key", action="append", default=[], metavar=spec, help="a key in hex or base64; WHOSE is SCI, SCI/AN or /AN"
    )
    parser.add_argument(
        "--keys", action="append", default=[], metavar="FILE", help="a file with such a key on each line"
    )
    parser.add_argument("--wpa", action="append", default=[], metavar="LOG", help="a log of wpa_supplicant -dK")
    parser.add_argument("--config", action="append", default=[], dest="config_keys", metavar="FILE", help=config)
    suites = [it.name for it in Suite if it]
    parser.add_argument(
        "--suite", choices=suites, help="the suite of all keys; else by length, and extended with a salt"
    )
    add_cak_options(parser)


def parser() -> argparse.ArgumentParser:
    """The arguments of the command."""
    parser = new_parser(
        "macsec-decrypt",
        "IN OUT [--keys FILE | --key KEY | --config FILE | --wpa LOG].. [OPTION]..",
        "Opens the frames of IN, of all senders, and writes them to OUT with verdict and packet number as comments. "
        "OUT is a new pcapng file, which appears when it is complete, or - for standard output, which has each frame "
        "as it comes. Frames that do not open, or are not protected, are kept as they are: nobody authenticated them. "
        "Frames with other octets that use one IV under one key are named first.",
        "0 if every protected frame was opened, 3 if not, or if an IV is used twice; 1 for a file, 2 for arguments.",
        "macsec-decrypt link.pcap clear.pcapng --keys keys",
        "macsec-decrypt link.pcap clear.pcapng --config receiver.config",
        "tcpdump --immediate-mode -U -i eth0 -w - | macsec-decrypt - - --keys keys | tshark -l -r -",
    )
    parser.add_argument("capture", metavar="IN", help="pcap or pcapng, also compressed; - for standard input")
    parser.add_argument("out", metavar="OUT", help="a new file, or -")
    add_key_options(parser)
    parser.add_argument(
        "--offset", type=int, choices=(0, 30, 50), help="the confidentiality offset; else all are tried"
    )
    parser.add_argument("--only-opened", action="store_true", help="leave out what was not opened")
    add_seen_options(parser)
    parser.add_argument("--json", action="store_true", help="print a JSON object for each record")
    return parser


def main(words: Sequence[str] | None = None) -> int:
    """Runs the command, and returns its exit status."""
    asked = parser().parse_args(words)
    return run("macsec-decrypt", lambda: _decrypt(asked))


def _decrypt(asked: argparse.Namespace) -> int:
    keys = key_arguments(asked)
    with ledger_of(asked) as ledger:
        return _opened(asked, keys, ledger)


def _opened(asked: argparse.Namespace, keys: Sequence[KeyArgument], ledger: Ledger | None) -> int:
    is_stream = asked.out == STDOUT or not can_be_read_again(asked.capture)
    keys = [*keys, *keys_of_mka([asked.capture], caks_of(asked))]
    made = _Made(asked, keys, UsedIvs(_MOST_IVS if is_stream else None, ledger), ledger)
    try:
        if made.ivs.twice and not is_stream:
            # Written again, so that each of the frames with one IV names another one, the first of them too.
            made.out.discard()
            made = _Made(asked, keys, made.ivs, ledger)
        made.out.close()
    finally:
        made.out.discard()
    twice = made.ivs.twice
    if asked.json:
        lines = [*map(json.dumps, dicts_of(twice)), *(json.dumps({"sak": it.as_dict()}) for it in made.saks)]
        lines += [*made.records, *(json.dumps({"hint": " ".join(it.split())}) for it in made.hints)]
        lines += [json.dumps(ledger.as_dict())] if ledger else []
    else:
        lines = made.live.rest(twice) if made.live else [*lines_of_ivs(twice), *map(str, (*made.saks, *made.events))]
        counts = [f"{frames_text(count)} {state}" for state, count in made.counts.items()] + made.unseen.counts()
        lines.append("; ".join(counts) or "0 frames")
        lines += [f"{it}: OUT has the inner frames" for it in made.unseen.tunnels()]
        lines += [*(ledger.lines() if ledger else ()), *(f"hint: {it}" for it in made.hints)]
    say("".join(f"{it}\n" for it in lines), made.text)
    if made.is_cut:
        return 1
    return 3 if made.counts["not opened"] or made.unseen.has_protected or twice else 0


class _Made:
    """What a run over the capture makes: OUT, which is not complete until it is closed, and what is printed. `ivs` has
    the IVs of an earlier run, or none."""

    def __init__(
        self, asked: argparse.Namespace, keys: Sequence[KeyArgument], ivs: UsedIvs, ledger: Ledger | None
    ) -> None:
        self.ivs = ivs
        self.counts: dict[str, int] = collections.defaultdict(int)
        # How many of the frames that were opened are protected again.
        self._again = 0
        self.records: list[str] = []
        self.unseen = Unseen()
        # Where the text goes: standard output has the frames if that is OUT.
        self.text = sys.stderr if asked.out == STDOUT else sys.stdout
        self._asked = asked
        self.live = _Live(self._say_at_once) if asked.capture == STDIN and not asked.json else None
        opener = Opener(keys, Suite[asked.suite] if asked.suite else None, asked.offset, ivs, caks_of(asked))
        # The input is opened first, so that a wrong name leaves no file.
        with Reading("macsec-decrypt", asked.capture) as reading:
            self.out = _new_file(asked.out)
            try:
                for packet in seen_in(ledger, asked.capture, reading):
                    self._add(opener, packet)
            except BaseException:
                self.out.discard()
                raise
            finally:
                opener.close()
        self.is_cut = reading.is_cut
        self.events, self.saks = opener.events, opener.agreements.saks
        self.hints = opener.hints() + self.unseen.hints() + reading.times
        if self._again:
            text = "are protected again: open OUT as IN, with their keys"
            self.hints.append(f"{frames_text(self._again)} that opened {text}")

    def _add(self, opener: Opener, packet: capture.Packet) -> None:
        """Opens a record, writes it and counts it."""
        if self.unseen.add(packet):
            if not self._asked.only_opened:
                self.out.write(packet.time, packet.frame, packet.length, "", packet.link_type)
            return
        it = opener.open(packet.number, packet.frame, packet.fcs)
        frame, state = it[:2]
        is_opened = state == "opened"
        if is_opened or not self.unseen.add_fault(packet, it.verdict):
            self.counts[state] += 1
        if is_opened:
            self._again += is_protected(frame)
        if self._asked.json:
            about = {**it._asdict(), "inside": packet.inside}
            about = {key: value for key, value in about.items() if key != "frame" and value not in (None, "")}
            self._note(json.dumps({"record": packet.number, **about, "length": len(frame)}))
        if is_opened or not self._asked.only_opened:
            self.out.write(packet.time, frame, len(frame), it.comment)
        if self.live:
            self.live.add(opener)

    def _note(self, line: str) -> None:
        """Keeps a line of the text for the end; prints it at once if the input has no end yet."""
        if self._asked.capture == STDIN:
            self._say_at_once(line)
        else:
            self.records.append(line)

    def _say_at_once(self, line: str) -> None:
        say(f"{line}\n", self.text)
        self.text.flush()


class _Live:
    """What is said about an input without an end as soon as it happens: SAKs, keys, and IVs that are used twice."""

    def __init__(self, say_at_once: Callable[[str], None]) -> None:
        self._say = say_at_once
        self._saks = self._events = 0
        # Each IV that was named, and how; and how many of each key and sender.
        self._named: dict[UsedTwice, str] = {}
        self._counts: Counter[tuple[object, object]] = collections.Counter()
        self._lost = ""

    def add(self, opener: Opener) -> None:
        """Says what the last frame brought."""
        saks, events = opener.agreements.saks, opener.events
        for line in (*saks[self._saks :], *events[self._events :]):
            self._say(str(line))
        self._saks, self._events = len(saks), len(events)
        twice = opener.ivs.last
        if twice is None or twice in self._named:
            return
        of = twice.as_dict()
        self._counts[of["key"], of["sci"]] += 1
        if self._counts[of["key"], of["sci"]] > MOST_LINES:
            return
        self._named[twice] = str(twice)
        self._say(str(twice))
        if lost_by([twice]) != self._lost:
            self._lost = lost_by([twice])
            self._say(self._lost)

    def rest(self, twice: Sequence[UsedTwice]) -> list[str]:
        """What remains to be said of the IVs at the end."""
        again = [str(it) for it, line in self._named.items() if str(it) != line]
        return again + more_of([it for it in twice if it not in self._named])


def _new_file(path: str) -> capture.PcapngWriter:
    """OUT: a new file, or standard output."""
    if path != STDOUT:
        return capture.PcapngFile(path)
    if sys.stdout.isatty():
        raise UsageError("OUT is -, and standard output is a terminal: give it to a program or a file")
    return capture.PcapngStream(sys.stdout.buffer)


if __name__ == "__main__":
    sys.exit(main())
