"""A local user without rights that would read, send and delete by TAP, at each moment of macsecd's life."""

from __future__ import annotations

import contextlib
import json
import pathlib
import signal
import subprocess
import sys
import time

from house.reporting import Failed, report
from isolated_frames import BROADCAST, datagram, ethernet, ipv4
from isolated_starts import THREE, link_expect
from isolated_world import NOBODY, Host, Options, Pair, received
from macsecd_world import as_nobody, expect

PROGRAM = (pathlib.Path(__file__).parent / "isolated_user.py").read_text()
OWN, PEER, PORT, COUNT = "10.9.0.1", "10.9.0.2", 5005, 50
FORGED = ethernet(BROADCAST, b"\2\0\0\0\0\2", 0x800, ipv4(PEER, OWN, 17, datagram(PORT)))
MAKE = ("tuntap", "add", "dev", "macsec0", "mode", "tap")
ROUTE = f"198.51.100.0/24 via {PEER}"

# What a user does with a TAP of an earlier version, which has no owner, before macsecd starts: nothing, or
# "": the user has it.
UPGRADES = ("claim,poison,leave", None, "", "fake,vanish", "hide")
# Devices that are no TAP for macsecd.
KINDS = (
    ("tuntap", "add", "dev", "macsec0", "mode", "tun"),
    (*MAKE, "multi_queue"),
    ("link", "add", "macsec0", "type", "bridge"),
)


class User:
    """The program, which goes on until it is ended."""

    def __init__(self, host: Host, steps: str = "", user: int = NOBODY) -> None:
        words = [*host.enter, sys.executable, "-c", PROGRAM, "macsec0", str(user), FORGED.hex(), steps]
        self.process = subprocess.Popen(words, stdin=subprocess.PIPE, stdout=subprocess.PIPE, text=True)
        assert self.process.stdout is not None
        if self.process.stdout.readline() != "\n":
            raise Failed("the local user can't try")

    def end(self) -> dict[str, int]:
        """Ends it. Returns how often it has tried and attached, and how many datagrams it has read."""
        return json.loads(self.process.communicate("", 20)[0])


def set_up(pair: Pair) -> None:
    """Gives TAP its addresses and a route, as a network manager does."""
    a = pair.a
    for words in (
        ("addr", "replace", f"{OWN}/24", "dev", "macsec0"),
        ("link", "set", "macsec0", "up"),
        ("route", "replace", *ROUTE.split(), "dev", "macsec0"),
        ("neigh", "replace", PEER, "lladdr", pair.b.address("link0", pair.b.link_namespace).hex(":"), "dev", "macsec0"),
    ):
        a.ip(*words)


def is_whole(host: Host) -> bool:
    """Has TAP its address and its route?"""
    return (
        "macsec0" in host.devices()
        and f"{OWN}/24" in host.ip("-br", "addr", "show", "macsec0")
        and ROUTE in host.ip("route", "show")
    )


def owner(host: Host) -> str:
    """The owner and the group of TAP."""
    return host.run("sh", "-c", "cd /sys/class/net/macsec0 && echo $(cat owner group)").strip()


def moment(pair: Pair, what: str, old: User | None = None) -> None:
    """The host sends 50 datagrams while a user tries to attach. An attached one sends 50 and deletes TAP."""
    a = pair.a
    with a.udp(PORT, OWN) as to, a.udp() as by:
        user = User(a)
        for _ in range(COUNT):
            with contextlib.suppress(OSError):
                by.sendto(b"SECRET", (PEER, 7000))
        time.sleep(0.1)
        got = [it.end() for it in (user, old) if it is not None]
        forged = len(received(to, 0.1))
    read, attached = sum(it["read"] for it in got), got[0]["attached"]
    holds = attached == read == forged == 0 and got[0]["tries"] > 0
    report(holds, f"users: {what}: {attached} times attached, {read} datagrams read, {forged} sent as the peer: {got}")
    report(is_whole(a), f"users: {what}: TAP, its address or its route is gone")


def start(pair: Pair, what: str) -> bool:
    """Starts macsecd, which has to protect what the host sends."""
    try:
        pair.a.start()
        set_up(pair)
        pair.passes(what)
    except Failed as why:
        pair.a.stop(signal.SIGKILL)
        report(False, f"users: {what}: macsecd does not start: {why}")
        return False
    return True


def first(pair: Pair) -> None:
    """Before there is a TAP, and before the first start."""
    a = pair.a
    user = User(a)
    report(user.end()["attached"] == 0 and "macsec0" not in a.devices(), "users: the user has made a TAP")
    if not a.shared:
        a.isolate()
        set_up(pair)
        moment(pair, "before the first start")


def life(pair: Pair) -> None:
    """While macsecd runs, and after it has ended or was killed."""
    start(pair, "at the first start")
    report(owner(pair.a) == "0 -1", f"users: TAP has the owner and group {owner(pair.a)}")
    moment(pair, "while macsecd runs")
    for what, number in (("after SIGTERM", signal.SIGTERM), ("after SIGKILL", signal.SIGKILL)):
        pair.a.stop(number)
        moment(pair, what)
        start(pair, f"{what}, at the next start")


def races(pair: Pair, count: int) -> str:
    """The user tries as often as possible while macsecd ends and starts. Before each second start there is no TAP."""
    a = pair.a
    user, failed = User(a, "release"), 0
    for number in range(2 * count):
        a.stop(signal.SIGTERM if number % 4 < 2 else signal.SIGKILL)
        if number % 2:
            a.ip("link", "del", "macsec0")
        try:
            a.restart()
        except Failed:
            a.stop(signal.SIGKILL)
            failed += 1
    got = user.end()
    told = f"{got['attached']} times attached in {got['tries']} tries at {2 * count} starts, {failed} of which failed"
    report(got["attached"] == failed == 0, f"users: {told}")
    return told


def upgrade(pair: Pair, steps: str | None) -> None:
    """TAP is one of an earlier version, without an owner, which the user may have."""
    a, what = pair.a, f"after an upgrade ({'TAP is free' if steps is None else steps or 'the user has TAP'})"
    a.stop()
    if "macsec0" in a.devices():
        a.ip("link", "del", "macsec0")
    a.ip(*MAKE)
    if steps is None or "poison" not in steps:
        set_up(pair)
    user = None if steps is None else User(a, steps)
    ended = a.link("isolate")
    report(ended.returncode == 0, f"users: {what}: macsec-link: {ended.stderr}")
    if steps is None:
        report(is_whole(a), f"users: {what}: TAP has not kept its address and its route")
    elif user is not None and "leave" not in steps:
        named = "" if steps == "hide" else f" by process {user.process.pid} (intruder?[31m) of user {NOBODY}"
        report(f"TAP macsec0 is in use{named}\n" in ended.stderr, f"users: {what}: {ended.stderr!r}")
    if start(pair, what):
        report(owner(a) in ("0 -1", "0 0"), f"users: {what}: TAP has the owner and group {owner(a)}")
        a.stop()
        moment(pair, what, user)
    elif user is not None:
        user.end()


def check_kinds(pair: Pair) -> None:
    """Before the first start: a TAP that root has made for the user, and devices that are no TAP for macsecd."""
    a = pair.a
    a.ip(*MAKE, "user", "nobody")
    user = User(a)
    link_expect(a, "a TAP that another user has", 1, f"in use by process {user.process.pid} (")
    report("link0" in a.devices() and "macsec0" in a.devices(), "users: LINK was moved, or another user's TAP deleted")
    user.end()
    for words in KINDS:
        if "macsec0" in a.devices():
            a.ip("link", "del", "macsec0")
        a.ip(*words)
        link_expect(a, " ".join(words), 1, "is no TAP with one queue")
        if a.shared:
            expect(a, " ".join(words), 1, "is no TAP with one queue")
    a.ip("link", "del", "macsec0")


def check_owner(pair: Pair) -> None:
    """Another owner, and a process of root that has TAP."""
    a = pair.a
    a.configure(pair.keys, "device link link0\ndevice user nobody\n")
    start(pair, "with `device user nobody`")
    report(owner(a) == f"{NOBODY} -1", f"users: `device user nobody`: TAP has the owner and group {owner(a)}")
    a.stop()
    report(User(a, "leave").end()["attached"] == 1, "users: the owner can't attach")
    a.configure(pair.keys)
    start(pair, "with root as the owner again")
    report(owner(a) == "0 -1", f"users: root as the owner again: TAP has the owner and group {owner(a)}")
    a.stop()
    root = User(a, "", 0)
    text = f"TAP macsec0 is in use by process {root.process.pid} (intruder?[31m) of user 0\n"
    link_expect(a, "a process of root has TAP", 1, text)
    expect(a, "a process of root has TAP", 1, text)
    a.belongs_to_nobody()
    expect(a, "a process of root has TAP, seen by nobody", 1, "TAP macsec0 is in use\n", as_nobody(THREE))
    root.end()
    a.ip(*MAKE)
    user = User(a)
    link_expect(a, "the journal's user has TAP", 1, f"in use by process {user.process.pid} (")
    report(user.end()["attached"] == 1, "users: the journal's user has lost TAP")


def check_users(options: Options) -> None:
    """Each moment, with an isolated LINK and with one that is not."""
    for shared in (False, True):
        with options.pair() as pair:
            pair.a.shared = shared
            pair.write()
            pair.b.start()
            check_kinds(pair)
            first(pair)
            life(pair)
            told = races(pair, 3 if options.short else 20)
            for steps in UPGRADES:
                upgrade(pair, steps)
            check_owner(pair)
            print(f"users: {'shared' if shared else 'isolated'}: {told}", flush=True)
