"""Starts of macsecd and of macsec-link: what they need, what they say, and with which rights the journal is opened."""

from __future__ import annotations

import contextlib
import pathlib
import signal
import subprocess

from house.reporting import Failed, report, until
from isolated_attacks import macvlan
from isolated_world import Host, Options, Pair
from macsecd_controls import altered
from macsecd_world import as_nobody, build, expect, expect_end

SYS_ADMIN = 1 << 21
TWO, THREE = "+net_admin,+net_raw", "+net_admin,+net_raw,+sys_admin"
# A command that opens /dev/net/tun as a service manager does, and goes to LINK's namespace.
TUN = "exec 3<> /dev/net/tun && export LISTEN_FDS=1 LISTEN_PID=$$ && exec ip netns exec macsec-macsec0"
PASS = ["sh", "-c", f'{TUN} "$@"', "sh"]


def link_expect(host: Host, what: str, status: int, text: str, command: str = "isolate") -> None:
    """macsec-link has to end with this status and say this."""
    expect_end(host.link(command), what, status, text)


def check_lines(a: Host, keys: list[str]) -> None:
    """Lines of a configuration."""
    for lines, text in (
        ("device link link0\ndevice shared\ndevice isolate\n", "exclude each other"),
        ("device link link0\ndevice isolate alone\ndevice shared\n", "exclude each other"),
        ("device link link0\ndevice transient\n", "needs `device shared`"),
        ("device link link0\ndevice shared\ndevice transient\ndevice persist\n", "exclude each other"),
        ("device link macsec0\n", "LINK and TAP have one name"),
        ("device link link0\ndevice tap link0\n", "LINK and TAP have one name"),
        ("device link link0\ndevice isolate both\n", "line 2: "),
    ):
        a.configure(keys, lines)
        expect(a, lines, 2, text)
        link_expect(a, lines, 2, text)
    ways = {"": "isolated", "device isolate\n": "isolated", "device isolate alone\n": "alone"}
    for lines, way in {**ways, "device shared\n": "shared"}.items():
        a.configure(keys, "device link link0\n" + lines)
        told = a.run(str(a.program), "--settings", "macsec0")
        report(told == f"link0 macsec0 1514 {way} 0\n", f"starts: --settings with {lines!r}: {told!r}")
    a.configure(keys)


def check_namespace(a: Host) -> None:
    """A namespace that is missing, no namespace, or the host's."""
    path = "/run/netns/macsec-macsec0"
    expect(a, "no namespace", 1, "which `macsec-link isolate macsec0` makes")
    a.run("touch", path)
    expect(a, "a file that is no namespace", 1, "is no network namespace")
    a.run("rm", path)
    a.run("ip", "netns", "attach", "macsec-macsec0", str(a.holder.pid))
    expect(a, "the host's namespace", 2, "start macsecd in that of the host")
    link_expect(a, "the host's namespace", 1, "is that of the host")
    forwards = a.run("cat", "/proc/sys/net/ipv6/conf/all/disable_ipv6").strip()
    report(forwards == "0", "starts: macsec-link changed the host's settings")
    a.run("ip", "netns", "del", "macsec-macsec0")
    a.run("touch", path)
    a.isolate()


def check_mask(a: Host) -> None:
    """The first namespace of the system, made by a unit with a mask."""
    a.run("rmdir", "/run/netns")
    a.run("sh", "-c", f"umask 077 && {a.macsec_link} isolate macsec0")
    mode = a.run("stat", "-c", "%a", "/run/netns").strip()
    report(mode == "755", f"starts: /run/netns has the mode {mode}")
    a.run(str(a.macsec_link), "release", "macsec0")


def check_at_once(a: Host) -> None:
    """Several macsec-link at a time."""
    command = [*a.enter, str(a.macsec_link), "isolate", "macsec0"]
    for _ in range(3):
        a.run(str(a.macsec_link), "release", "macsec0")
        a.ip("link", "del", "macsec0")
        running = [subprocess.Popen(command, stderr=subprocess.DEVNULL, env=a.environment) for _ in range(6)]
        ended = [it.wait() for it in running]
        report(ended == [0] * 6, f"starts: six macsec-link at once: {ended}")


def check_inside(a: Host) -> None:
    """Starts inside LINK's namespace, without rights, and without TAP."""
    there = ["ip", "netns", "exec", "macsec-macsec0"]
    expect(a, "inside LINK's namespace", 2, "start macsecd in that of the host", there)
    a.belongs_to_nobody()
    expect(a, "without CAP_SYS_ADMIN", 1, "can't be entered", as_nobody(TWO))
    a.ip("link", "del", "macsec0")
    expect(a, "without TAP", 1, "`macsec-link isolate` makes it")
    report("macsec0" not in a.devices(), "starts: a start without TAP has left one")
    a.link_ip("link", "set", "link0", "name", "away0")
    a.ip("tuntap", "add", "dev", "macsec0", "mode", "tap")
    expect(a, "without LINK", 1, "LINK link0: No such device")
    link_expect(a, "without LINK", 1, "LINK link0 is not there")
    a.link_ip("link", "set", "away0", "name", "link0")


def check_clock(pair: Pair) -> None:
    """A start at which the system's clock shows another time than before: the journal and the peer need none."""
    pair.a.stop()
    shifted = ["unshare", "-T", "--monotonic", "1000000000", "--fork", "--kill-child", str(pair.a.program), "macsec0"]
    pair.a.start(shifted)
    pair.passes("with another clock")
    pair.a.stop()


def check_starts(options: Options) -> None:
    """What a start needs."""
    with options.pair() as pair:
        a = pair.a
        a.configure(pair.keys)
        check_lines(a, pair.keys)
        check_mask(a)
        check_namespace(a)
        check_at_once(a)
        check_inside(a)
        a.start()
        link_expect(a, "release while macsecd runs", 1, "macsecd runs", "release")
        expect(a, "a second macsecd", 1, "is locked: another macsecd has this journal")
        a.stop()
        ended = a.attempt(str(a.macsec_link), "isolate")
        report(ended.returncode == 2 and "usage" in ended.stderr, f"starts: macsec-link without a name: {ended}")
    with options.pair() as pair:
        pair.start()
        check_clock(pair)


# ---- Rights


def stopping(options: Options) -> pathlib.Path:
    """A macsecd that stops before it opens the journal."""
    opens = "numbers_open(&d->numbers, d->name, c->journal, &d->counts)"
    edit = "macsecd.c", f"FAILED({opens});", f"FAILED((raise({int(signal.SIGSTOP)}), {opens}));"
    source = altered(options.folder / f"stopping{next(options.numbers)}", edit, options.source)
    return build(source / "built", options.library, ["-Wno-error"], source)


def status_of(host: Host) -> dict[str, str]:
    """What the system says of macsecd."""
    lines = pathlib.Path(f"/proc/{host.pid}/status").read_text().splitlines()
    return dict(line.split(":\t", 1) for line in lines if ":\t" in line)


def check_way(host: Host, what: str, command: list[str]) -> None:
    """At the journal macsecd has no CAP_SYS_ADMIN, and none at all when it answers."""
    with contextlib.suppress(OSError):
        (host.folder / "run/macsec0.sock").unlink()
    host.isolate()
    host.begin(command)
    assert host.process is not None
    process = host.process
    if not until(lambda: process.poll() is None and status_of(host)["State"].startswith("T"), 10):
        raise Failed(f"{what}: macsecd does not stop at the journal: {host.log()[-400:]}")
    for name in ("CapInh", "CapPrm", "CapEff", "CapAmb"):
        held = int(status_of(host)[name], 16)
        report(held & SYS_ADMIN == 0, f"rights: {what}: {name} is {held:x} at the journal")
    host.send_signal(signal.SIGCONT)
    report(until(host.answers), f"rights: {what}: macsecd does not answer")
    for name in ("CapInh", "CapPrm", "CapEff", "CapAmb"):
        report(int(status_of(host)[name], 16) == 0, f"rights: {what}: {name} is {status_of(host)[name]} at the end")
    report(host.stop() == 0, f"rights: {what}: macsecd does not end well: {host.log()[-400:]}")


def check_rights(options: Options) -> None:
    """Each way to start."""
    programs = stopping(options)
    for shared in (False, True):
        with options.pair() as pair:
            a = pair.a
            a.shared, a.program = shared, programs / "macsecd"
            a.configure(pair.keys)
            program = [str(a.program), "macsec0"]
            name = "shared" if shared else "isolated"
            check_way(a, f"{name}, by root", program)
            a.belongs_to_nobody()
            check_way(a, f"{name}, as nobody", [*as_nobody(THREE), *program])
            if shared:
                check_way(a, "shared, as nobody with two rights", [*as_nobody(TWO), *program])
                continue
            check_way(a, "a passed file, as nobody with two rights", [*PASS, *as_nobody(TWO), *program])
            check_way(a, "a passed file, by root", [*PASS, *program])


# ---- Commands of macsec-link that fail

WRAPPER = """#!/bin/sh
count=$(($(cat {folder}/count) + 1))
echo $count > {folder}/count
[ $count != "$FAILS" ] || {{ echo "this command fails" >&2; exit 2; }}
exec {ip} "$@"
"""


def is_complete(host: Host) -> bool:
    """Is everything done?"""
    there, here = host.devices(True), host.devices()
    quiet = host.attempt("ip", "netns", "exec", "macsec-macsec0", "cat", "/proc/sys/net/ipv6/conf/mv0/disable_ipv6")
    return (
        {"link0", "mv0"} <= set(there)
        and all("UP" in there[it].split(">")[0] for it in ("link0", "mv0"))
        and "mtu 1468 " in here.get("macsec0", "")
        and quiet.stdout.strip() == "1"
    )


def fails_at(host: Host, number: int, path: str) -> bool:
    """Lets a command fail. Returns whether there was one."""
    (host.folder / "count").write_text("0")
    ended = host.link("isolate", PATH=path, FAILS=str(number))
    there = set(host.devices(True))
    report(("mv0" in there) == ("link0" in there), f"faults: {number}: LINK and the device below it are apart: {there}")
    report(ended.returncode != 2, f"faults: {number}: a command that fails is a fault of the configuration")
    holds = ended.returncode != 0 or is_complete(host)
    report(holds, f"faults: {number}: status 0, and not all is done: {ended.stderr}")
    again = host.link("isolate")
    report(again.returncode == 0 and is_complete(host), f"faults: {number}: the next run: {again.stderr}")
    count = int((host.folder / "count").read_text())
    back = host.link("release")
    report(back.returncode == 0, f"faults: {number}: release: {back.stderr}")
    return number <= count


def check_faults(options: Options) -> None:
    """Each call of `ip` by macsec-link fails once. LINK is a macvlan device, which moves after the one below it."""
    with options.pair() as pair:
        a = pair.a
        macvlan(a, "link0", "mv0")
        a.configure(pair.keys, "device link mv0\n")
        wrapper = a.folder / "bin/ip"
        wrapper.parent.mkdir()
        wrapper.write_text(WRAPPER.format(folder=a.folder, ip=a.run("which", "ip").strip()))
        wrapper.chmod(0o755)
        path = f"{wrapper.parent}:{a.environment['PATH']}"
        number = 1
        while fails_at(a, number, path):
            number += 1
        print(f"faults: {number - 1} commands failed once each", flush=True)
        report(number > 10, f"faults: only {number - 1} commands")
