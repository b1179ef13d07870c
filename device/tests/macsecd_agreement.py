"""What a key agreement needs of macsecd: an endpoint made by command, and a limit to what it may weaken."""

from __future__ import annotations

import contextlib
import json
import pathlib
import secrets

from house import ROOT
from house.compiling import WARNINGS
from house.reporting import report, until
from macsecd_world import SALT, Client, End, Packets, World, attempt, ping, protected

# A line that weakens the protection, and what the configuration has to allow for it.
WEAKER = [
    ("A protect off", "protect off"),
    ("A validate check", "validate check"),
    ("A validate disabled", "validate disabled"),
    ("A replay off 0", "replay off"),
    ("A replay on 33", "replay 33"),
    ("A txsa 1 0 1 int", "int"),
    (f"A key 7 {'07' * 16} 30", "offset"),
    (f"A key 8 {'08' * 32} 50 gcm256", "offset"),
]


def configure(end: End, *lines: str) -> None:
    """Writes a configuration without an endpoint."""
    shared = [] if end.isolated else ["device shared", "device transient"]
    end.write("\n".join(["device link link0", *lines, *shared, ""]))


def check_without(end: End) -> None:
    """What a device without an endpoint answers."""
    for request, answer in (
        ("numbers", "fault Empty"),
        ("A numbers", "fault Empty"),
        ("numbers tx 0", "fault Empty"),
        ("A txon 0", "fault Empty"),
        ("port on", "fault Empty"),
        ("load\nA txon 0", "fault Empty"),
        ("port off", "ok"),
        ("port", "port off"),
        ("close", "ok"),
        ("A txonn", "fault Empty"),
    ):
        got = end.ask(request)
        report(got == answer + "\n", f"without an endpoint {request!r} is answered {got!r}, and not {answer!r}")
    counters, shown = end.counters(), json.loads(end.ask("json"))
    report(counters["InPktsNoTag"] == 0 and shown["keys_left"] == 0, f"json: {shown}")
    report("macsec_port_on" in end.ask("metrics"), "metrics without an endpoint")


def lines_of(end: End, keys: list[str]) -> list[str]:
    """The lines of a key agreement: the peer's channel, and one key for each direction."""
    peer = end.peer
    own, other = keys[end.number - 1], keys[peer.number - 1]
    return [
        "A protect on",
        "A replay on 0",
        "A validate strict",
        f"A rxsc {peer.sci}",
        f"A key 0 {own} 0",
        f"A key 1 {other} 0",
        f"A rxsa {peer.sci} 0 1 1",
        f"A rxon {peer.sci} 0",
        "A txsa 0 0 1 conf",
        "A txon 0",
    ]


def agree(end: End, client: Client, suite: str, keys: list[str]) -> list[str]:
    """Makes an endpoint. Returns the answers."""
    return [client.ask(line) for line in [f"open {end.sci} {suite}", *lines_of(end, keys), "port on"]]


def check_open(world: World) -> None:
    """Endpoints of two key agreements, one after the other."""
    a, b = world.ends
    owners = [Client(end) for end in world.ends]
    link = Packets(b.link_namespace, "link0")
    for owner in owners:
        report(owner.ask("own") == "ok\n", "`own` without an endpoint")
    for suite, octets in (("gcm128", 16), ("gcm256", 32)):
        keys = [secrets.token_hex(octets), secrets.token_hex(octets)]
        for end, owner in zip(world.ends, owners):
            got = agree(end, owner, suite, keys)
            report(got == ["ok\n"] * len(got), f"{suite}: {got}")
        report(until(lambda: ping(a) == 3) and ping(b) == 3, f"{suite}: no replies")
        before = a.ask("numbers")
        for wrong, answer in (
            ("open", "fault Count"),
            (f"open {a.sci}", "fault Count"),
            ("open 00 gcm128", "fault Hex"),
            (f"open {a.sci} gcm512", "fault Word"),
            (f"open {a.sci} gcm128 scb", "fault Ends"),
            (f"open {a.sci} gcm128 sci 1", "fault Count"),
            (f"open {a.sci} gcm128\nA", "fault Word"),
        ):
            got = owners[0].ask(wrong)
            report(got == answer + "\n", f"{wrong!r} is answered {got!r}, and not {answer!r}")
        report(len(a.ask("numbers")) == len(before) and a.ask("port") == "port on\n", "a wrong `open` has changed it")
        again = agree(a, owners[0], suite, keys)
        report(again[-4] == "ok\n" and again[-3].startswith("ok pn 000000000001"), f"the same keys again: {again}")
        report(ping(a) == 3, f"{suite}: no replies with the same keys in another endpoint")
        numbers = [int.from_bytes(it[16:20], "big") for it in protected(link.frames(), a.sci)]
        report(numbers == sorted(set(numbers)) and len(numbers) > 6, f"{suite}: packet numbers {numbers}")
    report(owners[0].ask("open 0200000000010001 gcm128") == "ok\n" and a.ask("numbers") == "none\n", "`open` again")
    report(a.ask("port") == "port off\n" and ping(a, 2, seconds=0.1) == 0, "`open` leaves the port on")
    report(owners[0].ask("close") == "ok\n", "`close`")
    check_without_owned(a, b)
    for owner in owners:
        owner.close()


def check_without_owned(end: End, peer: End) -> None:
    """Another client may change nothing, and frames that come without an endpoint are counted."""
    for request in ("close", f"open {end.sci} gcm128", "port off", "load\n"):
        report(end.ask(request) == "fault Owned\n", f"{request!r} of another client than the owner")
    before = end.counters()["device NoEndpoint"]
    ping(peer, 2, seconds=0.1)
    report(until(lambda: end.counters()["device NoEndpoint"] >= before + 2), "frames without an endpoint: not counted")


def forms(line: str) -> list[str]:
    """A line in other writings that the library takes too."""
    first, rest = line.split(" ", 1)
    return [line, line + "\r", f" \t{first}\t {rest}  ", line.replace(" ", "  ") + " \r", f"load\n#\n{line}\n"]


def check_limits(world: World) -> None:
    """What a client may weaken: only what the configuration allows."""
    a = world.ends[0]
    for allowed in [None, *WEAKER]:
        a.write_config(device="device link link0\n" + (f"device allow {allowed[1]}\n" if allowed else ""))
        a.start()
        for line, weaker in WEAKER:
            for form in forms(line):
                got = a.ask(form)
                holds = ("NotAllowed" in got) != (allowed is not None and allowed[1] == weaker)
                if allowed == ("A replay off 0", "replay off") and line == "A replay on 33":
                    holds = got.endswith("ok\n")
                report(holds, f"{form!r} with `device allow {allowed and allowed[1]}`: {got!r}")
            a.ask("A txdel 1")
        for line in ("A replay on 0", "A protect on", "A validate strict"):
            report(a.ask(line) == "ok\n", f"{line} with `device allow {allowed and allowed[1]}`")
        for line, answer in (("A replay on 18446744073709551616", "Number"), ("A protect off now", "Count")):
            report(a.ask(line) == f"fault {answer}\n", f"a wrong line that weakens: {line}")
        a.stop()


def check_key_lengths(world: World) -> None:
    """The keys that a client may install: no shorter ones than the configuration names, and none with an offset."""
    a = world.ends[0]
    short, long = (f"A key 7 {'07' * 16} 0 gcm128", "xpn128"), (f"A key 8 {'08' * 32} 0 gcm256", "xpn256")
    for suite, allowed, may in (
        ("gcm128", "", True),
        ("gcm256", "", False),
        ("xpn256", "", False),
        ("gcm256", "device allow gcm256\n", False),
        ("gcm256", "device allow xpn128\n", True),
        ("", "", True),
        ("", "device allow gcm256\n", False),
        ("", "device allow gcm256\ndevice allow gcm128\n", True),
    ):
        if suite:
            a.write_config(suite, device="device link link0\n" + allowed)
        else:
            configure(a, *allowed.splitlines())
        a.start()
        if not suite:
            a.carry_out(f"open {a.sci} gcm128")
        for line, extended in (short, long):
            for form in (line, line.rsplit(" ", 1)[0] + f" {extended} 00000001 {SALT}"):
                is_allowed = "NotAllowed" not in a.ask(form)
                report(is_allowed == (may or line == long[0]), f"{form!r} with {suite!r} and {allowed!r}")
        got = a.ask(f"A key 9 {'09' * 16} 0")
        report(("NotAllowed" in got) != may, f"a key of the endpoint's suite with {suite!r} and {allowed!r}: {got!r}")
        a.stop()


def check_new_command(folder: pathlib.Path) -> None:
    """The compiler refuses limits.c, where nothing is granted by default, if the library has one more command."""
    header, last = (ROOT / "include/macsec.h").read_text(), "    MACSEC_COMMAND_RX_DEL = 17 "
    words = ["gcc", *WARNINGS, "-fsyntax-only", f"-I{folder}", ROOT / "device/limits.c"]
    for text, refuses in ((header, False), (header.replace(last, "    MACSEC_COMMAND_OTHER = 18,\n" + last), True)):
        (folder / "macsec.h").write_text(text)
        told = attempt(words)
        report(("MACSEC_COMMAND_OTHER" in told.stderr) == refuses == bool(told.returncode), f"limits.c: {told.stderr}")


def check_agreement(world: World) -> None:
    """A device whose endpoints a client makes, and what it may weaken."""
    for end in world.ends:
        configure(end)
        end.create_journal()
        end.start()
        check_without(end)
    check_open(world)
    with contextlib.suppress(OSError):
        report(until(lambda: "the owner has gone" in world.ends[0].log()), "no message when the owner has gone")
    for end in world.ends:
        report(end.stop() == 0, f"macsecd without an endpoint ends with another status: {end.log()[-300:]}")
    configure(world.ends[0], "device allow nothing")
    told = world.ends[0].run_program("macsec0")
    report(told.returncode == 2 and "line 2: after `device allow`" in told.stderr, f"`device allow nothing`: {told}")
    check_new_command(world.folder)
    check_limits(world)
    check_key_lengths(world)
