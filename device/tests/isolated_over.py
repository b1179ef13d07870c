"""Devices over LINK while macsecd runs, and root of a container that would get at LINK."""

from __future__ import annotations

import json
import os
import pathlib
import re

from house.reporting import Failed, report, until
from isolated_attacks import macvlan
from isolated_world import NOBODY, Host, Options, Pair
from macsecd_requests import PYTHON

DEVICE = (pathlib.Path(__file__).parent / "isolated_devices.py").read_text()
# Root of a container with another user namespace, whose user is nobody at the host: what it tries, and the errors.
CONTAINER = f"""{DEVICE.split('if __name__')[0]}
import ctypes, json
def enter(path):
    if ctypes.CDLL(None, use_errno=True).setns(os.open(path, os.O_RDONLY), 0x40000000):
        raise OSError(ctypes.get_errno(), "setns")
def control(path):
    socket.socket(socket.AF_UNIX, socket.SOCK_SEQPACKET).connect(path)
process, index, journal, path = sys.argv[1:]
tries = {{
    "LINK's namespace": lambda: enter("/run/netns/macsec-macsec0"),
    "the namespace of macsecd": lambda: enter(f"/proc/{{process}}/ns/net"),
    "a device over LINK": lambda: make(int(process), int(index), "macvlan"),
    "the control socket": lambda: control(path),
    "the journal": lambda: open(journal),
    "the memory": lambda: open(f"/proc/{{process}}/mem"),
}}
errors = {{}}
for what, it in tries.items():
    try:
        it()
        errors[what] = 0
    except OSError as error:
        errors[what] = error.errno
print(json.dumps([os.geteuid(), errors]))
"""


def counted(host: Host) -> int:
    """What macsecd has counted of it."""
    return int(host.ask("counters").split("device LinkOver ")[1].split()[0])


def found(host: Host) -> int:
    """How many devices and addresses macsecd has found over LINK."""
    before, shown, after = counted(host), re.search(r"^  over the link: (\d+) ", host.ask("show"), re.M), counted(host)
    report(before <= int(shown[1] if shown else 0) <= after, f"over: show does not say {after}: {host.ask('show')}")
    return after


def check_found(host: Host, what: str, count: int, text: str, seconds: int = 5) -> None:
    """macsecd has to find it, and to say this."""
    holds = until(lambda: found(host) == count, seconds) and text in host.log().splitlines()[-1]
    report(holds, f"over: {what}: {found(host)} found, not {count}: {host.log().splitlines()[-1]!r}")


def over_link(host: Host, kind: str = "macvlan") -> None:
    """A user with CAP_NET_ADMIN alone makes a device of the host's namespace over LINK, or a tunnel."""
    with_admin = ["setpriv", "--reuid", str(NOBODY), "--inh-caps", "+net_admin", "--ambient-caps", "+net_admin"]
    index = json.loads(host.link_ip("-j", "link", "show", "link0"))[0]["ifindex"]
    host.run(*with_admin, PYTHON, "-c", DEVICE, str(host.pid), str(index), kind)


def check_container(pair: Pair) -> None:
    """Root of a container gets at nothing of the host."""
    a = pair.a
    index = json.loads(a.link_ip("-j", "link", "show", "link0"))[0]["ifindex"]
    enter = ["setpriv", "--reuid", str(NOBODY), "--regid", str(NOBODY), "--clear-groups", "unshare", "-U", "-r", "-n"]
    told = a.run(*enter, PYTHON, "-c", CONTAINER, str(a.pid), str(index), str(a.journal), a.socket)
    user, errors = json.loads(told)
    wrong = {what: os.strerror(it) for what, it in errors.items() if it not in (1, 13)}
    report(user == 0 and len(errors) == 6 and not wrong, f"over: root of a container, user {user}: {wrong}")


def check_over(options: Options) -> None:
    """What is made over LINK, and what is not over it."""
    with options.pair() as pair:
        pair.start()
        a = pair.a
        check_container(pair)
        macvlan(a, "other0", "up1")
        a.ip("link", "add", "v0", "type", "veth", "peer", "name", "v1", "netns", "macsec-macsec0")
        a.link_ip("link", "set", "link0", "mtu", "1480")
        report(not until(lambda: found(a) > 0, 1.5), f"over: what is not over LINK: {a.log()}")
        for count in (1, 2):
            over_link(a)
            check_found(a, "a device of the host", count, "up0 of the host's namespace is over LINK link0")
            a.link_ip("link", "set", "link0", "mtu", str(1480 - count))  # a report, after which macsecd looks again
            report(not until(lambda: found(a) > count, 1), "over: a device is found again")
            ended = a.link("isolate")
            report(ended.returncode == 1 and "up0 is over the link" in ended.stderr, f"over: macsec-link: {ended}")
            a.ip("link", "del", "up0")
            report(not until(lambda: found(a) > count, 1), "over: a device that was deleted is found")
        a.link_ip("link", "add", "link", "link0", "name", "in0", "type", "macvlan")
        check_found(a, "a device of LINK's namespace", 3, "in0 of LINK's namespace is over LINK link0")
        a.link_ip("addr", "add", "192.0.2.9/24", "dev", "link0")
        check_found(a, "an address", 4, "LINK link0 has an address")
        try:
            over_link(a, "vxlan")  # nothing is reported in LINK's namespace
            check_found(a, "a tunnel", 5, "up0 of the host's namespace is over LINK link0", 10)
        except Failed as fault:
            print(f"over: a tunnel is not tried: {fault}")
        pair.passes("with a device over LINK")
