"""macsec-report: a report to look at, as one HTML file."""

from __future__ import annotations

import argparse
import os
import sys
from collections.abc import Iterator, Sequence

from .. import capture
from ..errors import UsageError
from ..ivs import UsedIvs
from ..ledger import Ledger
from ..names import Suite
from ..opener import Opener
from ..report.commented import commented
from ..report.judging import Judged, by_config, by_keys
from ..report.page import Source, data_of, page_of
from . import new_parser, run, say
from .decrypt import STDOUT, add_key_options, key_arguments
from .key_agreement import caks_of
from .reading import STDIN, Reading, keys_of_mka
from .seen import add_seen_options, ledger_of, seen_in
from .why import search_of


def parser() -> argparse.ArgumentParser:
    """The arguments of the command."""
    parser = new_parser(
        "macsec-report",
        "IN.. -o OUT [--config RECEIVER] [--keys FILE | --key KEY | --cak-file FILE].. [OPTION]..",
        "Writes a report to look at, an HTML file that needs no other one: packet numbers over time with the verdict "
        "of each frame, replays, losses, rekeys, IVs that are used twice, causes, and what to ask for. With --config "
        "as the receiver of a CONFIG judges the frames, which it says as macsec-why does; otherwise as keys open "
        "them. It has no keys and no data of frames.",
        "0 if every protected frame opens, 3 if not, or if an IV is used twice; 1 for a file, 2 for arguments or "
        "CONFIG.",
        "macsec-report link.pcap -o report.html --keys keys",
        "macsec-report link.pcap -o judged.html --config receiver.config",
    )
    parser.add_argument(
        "capture", metavar="IN", nargs="+",
        help="pcap or pcapng, also compressed; - for standard input; several are read one after another",
    )  # fmt: skip
    parser.add_argument("-o", "--out", metavar="OUT", required=True, help="a new HTML file, or - for standard output")
    parser.add_argument(
        "--pcapng", metavar="FILE", help="a new pcapng file too: the records of IN with verdict and cause as comments"
    )
    add_key_options(parser, "the receiver: its CONFIG, or macsecd's file")
    add_seen_options(parser)
    return parser


def main(words: Sequence[str] | None = None) -> int:
    """Runs the command, and returns its exit status."""
    asked = parser().parse_args(words)
    return run("macsec-report", lambda: _report(asked))


class _Captures:
    """The records of some captures, numbered on from one to the next."""

    def __init__(self, paths: Sequence[str], ledger: Ledger | None) -> None:
        self._paths, self._ledger = paths, ledger
        self.sources: list[Source] = []
        self.is_cut = False
        self.times: list[str] = []
        self.start: int | None = None

    def __iter__(self) -> Iterator[capture.Packet]:
        before = 0
        for path in self._paths:
            with Reading("macsec-report", path) as reading:
                for packet in seen_in(self._ledger, path, reading, before):
                    if self.start is None:
                        self.start = packet.time
                    yield packet._replace(number=before + packet.number) if before else packet
            self.is_cut = self.is_cut or reading.is_cut
            self.times += [f"{os.path.basename(path)}: {it}" for it in reading.times]
            self.sources.append(Source(os.path.basename(path), reading.count))
            before += reading.count


def _report(asked: argparse.Namespace) -> int:
    if len(asked.config_keys) > 1:
        raise UsageError(f"{len(asked.config_keys)} --config: one receiver expected")
    if asked.pcapng and STDIN in asked.capture:
        raise UsageError("--pcapng reads IN twice: IN cannot be standard input")
    for path in (asked.out, asked.pcapng):
        if path not in (None, STDOUT) and os.path.lexists(path):
            raise FileExistsError(f"{path} exists: name a new file")
    with ledger_of(asked) as ledger:
        return _drawn(asked, ledger)


def _drawn(asked: argparse.Namespace, ledger: Ledger | None) -> int:
    captures, caks = _Captures(asked.capture, ledger), caks_of(asked)
    if asked.config_keys:
        if asked.wpa or asked.suite:
            raise UsageError("--wpa and --suite are for a report without --config")
        search = search_of(asked.config_keys[0], asked)
        judged = by_config(search, captures, caks, ledger)
        search.close()
    else:
        keys, ivs = key_arguments(asked) + keys_of_mka(asked.capture, caks), UsedIvs(ledger=ledger)
        opener = Opener(keys, Suite[asked.suite] if asked.suite else None, ivs=ivs, caks=caks)
        judged = by_keys(opener, captures)
        opener.close()
    judged.lines.extend(captures.times)
    if ledger is not None:
        judged.objects.append(ledger.as_dict())
        judged.lines.extend(ledger.lines())
    if asked.pcapng:
        _write_records(asked.pcapng, asked.capture, judged)
    receiver = os.path.basename(asked.config_keys[0]) if asked.config_keys else None
    page = page_of(data_of(judged, captures.sources, captures.start or 0, receiver), judged.lines)
    if asked.out == STDOUT:
        say(page)
    else:
        _write(asked.out, page.encode())
    return 1 if captures.is_cut else 3 if judged.is_bad else 0


def _write(path: str, octets: bytes) -> None:
    """Writes a new file, which appears when it is complete."""
    out = capture.NewFile(path)
    try:
        out.write(octets)
        out.close()
    finally:
        out.discard()


def _write_records(path: str, captures: Sequence[str], judged: Judged) -> None:
    """Writes the records again, with comments."""
    out = capture.PcapngFile(path)
    try:
        for it, comment in commented(_Captures(captures, None), judged):
            out.write(it.time, it.frame, it.length, comment, it.link_type)
        out.close()
    finally:
        out.discard()


if __name__ == "__main__":
    sys.exit(main())
