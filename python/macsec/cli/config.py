"""macsec-config: a CONFIG from what people have, and what is wrong with one."""

from __future__ import annotations

import argparse
import json
import pathlib
import sys
from collections.abc import Sequence

from ..endpoint_of_config import Configuration
from ..errors import UsageError
from ..grammar import MOST_OCTETS
from ..iproute import Devices, address_of, commands_of, plan_of_json
from ..lint import lint
from ..names import Suite
from ..nextrun import next_config
from ..pair import end_of, write_pair
from ..plan import Plan, plan_of
from ..scan import scan
from ..secy import sci_of
from ..trial import KeyArgument
from ..wpalog import lines_of, plan_of_log
from . import new_parser, open_octets, run, say, say_octets
from .decrypt import add_key_options, has_keys, key_arguments
from .key_agreement import caks_of
from .reading import Reading, keys_of_mka

# The octets of a script of `ip`, or of what it shows, that are read.
_MOST_TEXT = 1 << 20
_SENDS = (
    "# This end sends. If the same SCI sent these packet numbers under its key before, or another endpoint does, IVs\n"
    "# repeat, which breaks GCM: then use a new key.\n"
)


def parser() -> argparse.ArgumentParser:
    """The arguments of the command."""
    parser = new_parser(
        "macsec-config",
        "SOURCE [OPTION]..",
        "Writes a CONFIG to standard output, with what was found as comments; or checks one. The result has keys: keep "
        "it as you keep them.",
        "0; 3 if --lint finds a fault or a refused line, or a frame of --capture does not open; 1 for a file, 2 for "
        "arguments or their texts.",
        "macsec-config --capture link.pcap --keys keys > observer.config",
        "macsec-config --ip macsec-setup.sh --as peer > peer.config",
        "macsec-config --lint observer.config",
    )
    source = parser.add_argument_group("SOURCE: one of these, or --wpa").add_mutually_exclusive_group()
    source.add_argument("--capture", metavar="IN", help="from a capture, and from keys (-: standard input)")
    source.add_argument(
        "--ip", metavar="FILE", help="from a script of ip link and ip macsec commands (-: standard input)"
    )
    source.add_argument("--ip-json", metavar="FILE", help="from the output of ip -j macsec show, and from keys")
    source.add_argument("--lint", metavar="CONFIG", help="say what is wrong with a CONFIG, and where")
    source.add_argument("--to-ip", metavar="CONFIG", help="print the lines of ip -batch for a CONFIG")
    source.add_argument(
        "--next", nargs=2, metavar=("TEXT", "CONFIG"), help="CONFIG for the next run, after the one that printed TEXT"
    )
    source.add_argument(
        "--pair", nargs=2, metavar=("NAME=MAC[@LINK]", "NAME=MAC[@LINK]"),
        help="write the files of two ends, with random keys: NAME.conf for macsecd",
    )  # fmt: skip
    parser.add_argument("--ip-end", metavar="NAME", help="with --pair: this end gets NAME.batch, for ip -batch")
    parser.add_argument("--folder", default=".", metavar="FOLDER", help="with --pair: where to write (.)")
    parser.add_argument(
        "--as",
        dest="role",
        choices=("end", "peer", "observer"),
        help="whose CONFIG (end; for --capture and --wpa: observer)",
    )
    parser.add_argument("--own", metavar="SCI", help="with --capture: the SCI of the end whose CONFIG it is")
    parser.add_argument("--name", metavar="NAME", help="the macsec device (macsec0, or the only one)")
    parser.add_argument("--dev", metavar="DEV", default="eth0", help="with --to-ip: the device below (eth0)")
    parser.add_argument("--mtu", type=int, default=1500, help="the MTU of the device below (1500)")
    parser.add_argument(
        "--address", action="append", default=[], metavar="DEV=MAC", help="with --ip: the address of a device"
    )
    add_key_options(parser)
    parser.add_argument(
        "--offset", type=int, choices=(0, 30, 50), help="the confidentiality offset; else all are tried"
    )
    parser.add_argument("--json", action="store_true", help="with --lint: one JSON object on each line")
    return parser


def main(words: Sequence[str] | None = None) -> int:
    """Runs the command, and returns its exit status."""
    asked = parser().parse_args(words)
    return run("macsec-config", lambda: _config(asked))


def _read(path: str, most: int = -1) -> bytes:
    """What is in a file, or comes by standard input."""
    with open_octets(path) as file:
        octets = file.read(most + 1 if most >= 0 else -1)
    if len(octets) > most >= 0:
        raise UsageError(f"{path} has more than {most} octets")
    return octets


def _read_text(path: str) -> str:
    """The text of a file that is not in the language of CONFIG."""
    return _read(path, _MOST_TEXT).decode(errors="replace")


def _config(asked: argparse.Namespace) -> int:
    if caks_of(asked) and not asked.capture:
        raise UsageError("--cak and --cak-file are for --capture")
    if asked.lint:
        return _lint(asked)
    if asked.next:
        text = _read(asked.next[0]).decode("latin-1")
        say_octets(next_config(_read(asked.next[1], MOST_OCTETS), text))
        return 0
    if asked.pair:
        ends = end_of(asked.pair[0]), end_of(asked.pair[1])
        suite, device = Suite[asked.suite or "gcm128"], asked.name or "macsec0"
        for path in write_pair(ends, suite, asked.mtu, device, asked.ip_end, pathlib.Path(asked.folder)):
            print(path)
        return 0
    if asked.to_ip:
        plan = plan_of(Configuration(_read(asked.to_ip, MOST_OCTETS)))
        say(
            "".join(f"{it}\n" for it in commands_of(_as(plan, asked.role or "end"), asked.dev, asked.name or "macsec0"))
        )
        return 0
    if asked.capture:
        return _from_capture(asked)
    if asked.ip:
        addresses: dict[str, bytes] = {}
        for each in asked.address:
            device, _, address = each.partition("=")
            try:
                addresses[device] = address_of(address)
            except ValueError:
                raise UsageError(f"--address {each}: DEV=MAC expected") from None
        plan = Devices(_read_text(asked.ip), addresses).plan(asked.name, asked.mtu)
    elif asked.ip_json:
        plan = plan_of_json(_read_text(asked.ip_json), key_arguments(asked), asked.name, asked.mtu)
    elif len(asked.wpa) == 1:
        with open_octets(asked.wpa[0]) as file:
            plan = plan_of_log(lines_of(file), asked.mtu)
    else:
        raise UsageError("name a source: --capture, --ip, --ip-json, --wpa, --pair, --to-ip, --next or --lint")
    # A log is of an endpoint that still sends.
    say(_text(_as(plan, asked.role or ("observer" if asked.wpa and not asked.ip_json else "end"))))
    return 0


def _as(plan: Plan, role: str) -> Plan:
    return plan.observer() if role == "observer" else plan.peer() if role == "peer" else plan


def _text(plan: Plan) -> str:
    """The CONFIG, with a warning if it sends."""
    return (_SENDS if plan.tx else "") + plan.text()


def _from_capture(asked: argparse.Namespace) -> int:
    keys: list[KeyArgument] = key_arguments(asked) if has_keys(asked) else []
    keys += keys_of_mka([asked.capture], caks_of(asked))
    suite = Suite[asked.suite] if asked.suite else None
    with Reading("macsec-config", asked.capture) as reading:
        made = scan(reading, keys, suite, asked.offset, caks_of(asked))
    try:
        own = sci_of(asked.own) if asked.own else None
    except ValueError as why:
        raise UsageError(f"--own: {why}") from None
    if asked.role in ("end", "peer") and own is None:
        raise UsageError(f"--as {asked.role}: give the SCI of the end by --own")
    plan = made.plan(own, suite)
    if reading.is_cut:
        plan.notes.append("the capture is cut, or damaged: this is of the records before that")
    say(_text(plan.peer() if asked.role == "peer" else plan))
    return 1 if reading.is_cut else 3 if made.unopened or made.unseen.has_protected else 0


def _lint(asked: argparse.Namespace) -> int:
    found = lint(_read(asked.lint, _MOST_TEXT))
    for each in found:
        say((json.dumps(each._asdict()) if asked.json else str(each)) + "\n")
    return 3 if any(it.kind != "hint" for it in found) else 0


if __name__ == "__main__":
    sys.exit(main())
