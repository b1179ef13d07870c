"""Requests to macsecd: what it answers to good ones, wrong ones, and many at a time."""

from __future__ import annotations

import contextlib
import grp
import json
import os
import pathlib
import random
import resource
import socket
import subprocess
import sys
import threading
import time
from collections.abc import Iterator
from typing import Callable

from house import families
from house.reporting import report, until
from macsecd_metrics import check_metrics
from macsecd_world import IN, OUT, RX, Client, End, attempt, connected, ping, processor_time


def agree(answer: Callable[[], str], other: Callable[[], str], what: str) -> None:
    """Two answers have to be the same, unless a frame comes between them."""
    report(until(lambda: answer() == other()), f"{what}: {answer()!r} and {other()!r}")


def check_answers(end: End) -> None:
    """What the answers say."""
    peer = end.peer.sci
    numbers = end.ask("numbers")
    report(numbers.splitlines()[0].startswith("tx 0 0 00000000000") and f"rx {peer} 0 1 " in numbers, numbers)
    agree(lambda: end.ask("A numbers"), lambda: end.ask("numbers\n"), "`A numbers` and `numbers`")
    agree(lambda: end.ask("numbers"), lambda: end.ask("numbers tx 0") + end.ask(f"numbers rx {peer} 0"), "one SA")
    report(end.ask("numbers tx 3") == "fault NotFound\n" == end.ask("numbers rx 1122334455667788 0"), "numbers tx 3")
    names = [*IN, "InOctetsValidated", "InOctetsDecrypted", *OUT, "OutOctetsProtected", "OutOctetsEncrypted"]
    names += [f"{peer} {it}" for it in RX] + [f"{peer} 0 {it}" for it in RX]
    got = [line.rsplit(" ", 1)[0] for line in end.ask("A counters").splitlines()]
    report(sorted(got) == sorted(names), f"`A counters` has {got}")
    check_formats(end, peer)


def counters_of_json(end: End) -> dict[str, int]:
    """The endpoint's counters in JSON, under the names of `A counters`."""
    shown = json.loads(end.ask("json"))
    found = {**shown["counters"], **shown["transmit_counters"]}
    for channel in shown["receive"]:
        found.update({f"{channel['sci']} {name}": n for name, n in channel["counters"].items()})
        for it in channel["associations"]:
            found.update({f"{channel['sci']} {it['an']} {name}": n for name, n in it["counters"].items()})
    return found


def sorted_lines(text: str) -> str:
    """The lines of a text, in the order of the alphabet."""
    return "\n".join(sorted(text.splitlines()))


def lines_of(counters: dict[str, int]) -> str:
    """Counters as `A counters` writes them, in the order of the alphabet."""
    return sorted_lines("\n".join(f"{name} {n}" for name, n in counters.items()))


def check_formats(end: End, peer: str) -> None:
    """JSON, and the text format of Prometheus."""

    def sample() -> str:
        lines = end.ask("metrics").splitlines()
        return next(it for it in lines if it.startswith('macsec_out_pkts_encrypted_total{device="macsec0"}'))

    shown = json.loads(end.ask("json"))
    report(shown["receive"][0]["sci"] == peer and shown["link"] == "link0" and shown["up"] is True, f"json: {shown}")
    agree(lambda: lines_of(counters_of_json(end)), lambda: sorted_lines(end.ask("A counters")), "json")
    agree(
        lambda: lines_of({name: n for name, n in end.counters().items() if not name.startswith("device ")}),
        lambda: sorted_lines(end.ask("A counters")),
        "`counters`",
    )
    agree(lambda: sample().split()[1], lambda: str(end.counters()["OutPktsEncrypted"]), "metrics")
    metrics = end.ask("metrics")
    samples = [it.rsplit(" ", 1)[0] for it in metrics.splitlines() if not it.startswith("#")]
    report(len(set(samples)) == len(samples), "metrics has a sample twice")
    check_metrics(metrics)


def state_of(end: End) -> str:
    """What lines can change: the associations without their packet numbers, which frames change, and the keys."""
    lines = [line.split() for line in end.ask("numbers").splitlines()]
    return f"{[[it for it in words if len(it) != 16] for words in lines]} {json.loads(end.ask('json'))['keys_left']}"


def check_lines(end: End) -> None:
    """Wrong lines: each has its answer and changes nothing."""
    before = state_of(end)
    for line, answer in (
        ("A txon 3", "refused 13 NoSa"),
        ("A txonn 0", "fault Word"),
        ("A txon", "fault Count"),
        ("nothing", "fault Word"),
        ("B txon 0", "fault Ends"),
        ("A send 00", "fault Ends"),
        ("end A gcm128 0200000000010001 1500 sci", "fault Ends"),
        (f"A key 0 {'00' * 16} 0", "refused 3 KeyNumberUsed"),
        ("A txon 0\nA txoff 0", "fault Count"),
        ("A key 9 xx 0", "fault Hex"),
        ("x" * 20000, "fault Word"),
        ("x" * 20001, "fault LineLong"),
        ("y" * 100000, "fault LineLong"),
        ("A txoff\0 0", "fault Word"),
        ("numbers\0", "fault Word"),
        ("# none", "ok"),
    ):
        got = end.ask(line)
        report(got == answer + "\n", f"{line[:40]!r}: {got!r}, and not {answer!r}")
    report(state_of(end) == before, f"a wrong line has changed {before} to {state_of(end)}")


def check_clients(end: End) -> None:
    """More clients than there can be, and one that does not read its answers."""
    clients = [connected(end.socket, 5) for _ in range(20)]
    end.ask("port")  # one more, after which all were accepted
    answered = 0
    for client in clients:
        with contextlib.suppress(OSError):
            client.send(b"numbers")
            answered += client.recv(1 << 20) != b""
        client.close()
    report(answered == 15, f"{answered} of 20 clients got an answer")
    report(until(end.answers), "no answer after the clients have gone")
    lazy = connected(end.socket, 5)
    lazy.settimeout(0.2)
    with contextlib.suppress(OSError):
        for _ in range(10000):
            lazy.send(b"json")
    report(end.ask("A txon 0") == "ok\n" and ping(end) == 3, "no answer while a client does not read")
    lazy.close()


def check_held_up(end: End) -> None:
    """A connection for which no descriptor is free: macsecd does not run in circles, and accepts it later."""
    pid = end.pid
    limits = resource.prlimit(pid, resource.RLIMIT_NOFILE)
    resource.prlimit(pid, resource.RLIMIT_NOFILE, (3, limits[1]))  # it has the descriptors 0 to 2
    with connected(end.socket, 5) as it:
        it.send(b"port")
        before = processor_time(end)
        time.sleep(1.5)
        took = (processor_time(end) - before) / 1e6
        report(took < 0.1, f"a connection without a descriptor: {took:.2f} s of a processor in 1.5 s")
        report(ping(end) == 3, "no replies while a connection has no descriptor")
        resource.prlimit(pid, resource.RLIMIT_NOFILE, limits)
        report(it.recv(100) == b"port on\n", "a connection that had no descriptor is not answered")
    report(end.log().count("can't be accepted yet: Too many open files") == 1, f"no message, or several: {end.log()}")


# One that other users may run.
PYTHON = "/usr/bin/python3" if os.path.exists("/usr/bin/python3") else sys.executable
# As another user: many connections that stay open. It prints whether the first and the last of them are answered.
CROWD = """
import socket, struct, sys
them = []
for _ in range(40):
    it = socket.socket(socket.AF_UNIX, socket.SOCK_SEQPACKET)
    it.setsockopt(socket.SOL_SOCKET, socket.SO_SNDTIMEO, struct.pack("ll", 5, 0))
    it.connect(sys.argv[1])
    it.settimeout(5)
    them.append(it)
def is_answered(it):
    try:
        it.send(b"port")
        return it.recv(1000) != b""
    except OSError:
        return False
print(is_answered(them[0]), is_answered(them[-1]), flush=True)
sys.stdin.read()
"""


# As another user: a connection. It makes each request that it is given, and prints the answer.
OTHER = """
import socket, sys
it = socket.socket(socket.AF_UNIX, socket.SOCK_SEQPACKET)
it.connect(sys.argv[1])
for line in sys.stdin:
    it.send(line.strip().encode())
    print(it.recv(1000).decode(), end="", flush=True)
"""


def of_group(end: End, program: str) -> subprocess.Popen[str]:
    """Starts a program of another user, who is in the group of `device group`."""
    words = [PYTHON, "-c", program, end.socket]
    group, pipe = grp.getgrnam("nogroup").gr_gid, subprocess.PIPE
    return subprocess.Popen(words, stdin=pipe, stdout=pipe, text=True, user=65534, group=group, extra_groups=[])


@contextlib.contextmanager
def crowd(end: End) -> Iterator[str]:
    """Connections of another user. Gives what their program prints."""
    with of_group(end, CROWD) as process:
        assert process.stdout is not None
        yield process.stdout.readline()


# Two clients of another user and two of root: which of them makes a request, and the answer.
TAKEN = (
    ("first", "own", "ok"),
    ("second", "own", "fault Owned"),
    ("root", "port off", "fault Owned"),
    ("root", "own", "ok"),
    ("first", "own", "fault Owned"),
    ("first", "A txoff 0", "fault Owned"),
    ("first", "port", "port on"),
    ("root's second", "own", "fault Owned"),
    ("root", "A txoff 0", "ok"),
    ("root", "A txon 0", "ok"),
)


def asked(client: subprocess.Popen[str] | socket.socket, request: str) -> str:
    """What a client is answered."""
    if isinstance(client, socket.socket):
        client.send(request.encode())
        return client.recv(1000).decode()
    assert client.stdin is not None and client.stdout is not None
    client.stdin.write(request + "\n")
    client.stdin.flush()
    return client.stdout.readline()


def check_taken(end: End) -> None:
    """Root takes the device from another user's client, but not from root's."""
    end.carry_out("port on")
    with of_group(end, OTHER) as first, of_group(end, OTHER) as second:
        root, other = connected(end.socket, 5), connected(end.socket, 5)
        clients = {"first": first, "second": second, "root": root, "root's second": other}
        for who, request, answer in TAKEN:
            got = asked(clients[who], request)
            report(got == answer + "\n", f"{request!r} of {who}, where root takes the device: {got!r}")
        for client in (root, other):
            client.close()
        report(until(lambda: asked(first, "port") == "port off\n"), "the port is on when root, the owner, has gone")
        report(asked(first, "port on") == "ok\n" == asked(first, "own"), "the former owner, when root has gone")
    report("root has taken the device" in end.log(), "no message that root has taken the device")


def check_crowd(end: End) -> None:
    """Idle connections of another user lock nobody out, and end neither the owner's connection nor root's."""
    owner, root = connected(end.socket, 5), connected(end.socket, 5)
    for client, request in ((owner, b"own"), (root, b"port")):
        client.send(request)
        client.recv(1000)
    with crowd(end) as told:
        report(told == "False True\n", f"the first and the last of 40 connections of another user: {told!r}")
        for name, client in (("the owner", owner), ("root's idle one", root), ("root", connected(end.socket, 5))):
            got = b""
            with contextlib.suppress(OSError):
                client.send(b"port")
                got = client.recv(1000)
            report(got == b"port on\n", f"{name} beside 40 connections of another user: {got!r}")
    more = [connected(end.socket, 5) for _ in range(40)]
    with crowd(end) as told:
        report(told == "False False\n", f"connections of another user where all are root's: {told!r}")
    more[-1].send(b"port")
    report(more[-1].recv(1000) == b"port on\n", "root beside 40 idle connections of root")
    owner.send(b"port")
    report(owner.recv(1000) == b"port on\n", "the owner beside 40 connections of root")
    for client in (owner, root, *more):
        client.close()


# What whatever is at a control socket answers to a request, what macsecctl prints of it, and its status.
ODD_ANSWERS = (
    ("port", [b"port on\n"], "port on\n", 0),
    ("port", [b"port on"], "port on", 0),
    ("port", [b"\x1b]0;title\x07port\0on\t\x9b\xff\x7f\n"], "?]0;title?port?on\t???\n", 0),
    ("port", [b"1 refused\x1b 2\n"], "1 refused? 2\n", 0),
    ("port", [b"1 fault \x1b[2J"], "1 fault ?[2J", 2),
    ("watch", [b"a 1\n\n\x1bb 1", b"a 3\n\n\x1bb 2"], "a 3 +2\n?b 2 +1\n\n", 1),
)


def answer(server: socket.socket, answers: list[bytes]) -> None:
    """Accepts a connection, and answers its requests."""
    with contextlib.suppress(OSError), server.accept()[0] as client:
        for each in answers:
            client.recv(1000)
            client.send(each)


def check_odd_answers(macsecctl: pathlib.Path, folder: pathlib.Path) -> None:
    """macsecctl with any answer: it ends well, and prints nothing that a terminal takes for a command."""
    path = str(folder / "odd.sock")
    for request, answers, printed, status in ODD_ANSWERS:
        with socket.socket(socket.AF_UNIX, socket.SOCK_SEQPACKET) as server:
            server.settimeout(20)
            server.bind(path)
            server.listen()
            thread = threading.Thread(target=answer, args=(server, answers))
            thread.start()
            told = attempt([str(macsecctl), "-s", path, "macsec0", request])
            thread.join()
        os.unlink(path)
        shown = told.stdout, told.returncode
        report(shown == (printed, status), f"macsecctl {request} with the answers {answers}: {shown}")
        report(told.stderr.isascii() and "\x1b" not in told.stderr, f"macsecctl {request}: {told.stderr!r}")


def check_help(macsecctl: pathlib.Path) -> None:
    """`help` has each request that shells complete, without macsecd, and another one asks whether that runs."""
    told = attempt([str(macsecctl), "macsec9", "help"])
    listed = [line.split()[0] for line in told.stdout.splitlines()]
    wanted = families.names("requests")
    report(told.returncode == 0 and list(dict.fromkeys(listed)) == wanted, f"macsecctl help: {told}, and not {wanted}")
    told = attempt([str(macsecctl), "macsec9", "port"])
    asks = "is macsecd@macsec9 running?\n" in told.stderr
    report(told.returncode == 1 and asks, f"macsecctl without macsecd: {told}")


def check_log(end: End) -> None:
    """A client that makes a message again and again does not fill the log."""
    before = end.log().count("the owner has gone")
    for _ in range(300):
        with contextlib.closing(connected(end.socket, 5)) as it:
            it.send(b"own")
            it.recv(1000)
    report(until(lambda: end.ask("A protect on") == "ok\n"), "the owner has gone, and stays the owner")
    count = end.log().count("the owner has gone") - before
    report(1 <= count <= 10, f"{count} messages about 300 owners")


def has_carrier(end: End) -> bool:
    """Has TAP carrier?"""
    return "NO-CARRIER" not in end.ip("link", "show", "macsec0")


def random_line(rng: random.Random) -> str:
    """A line for the endpoint, of a few keys, associations and channels."""
    an, key, sci = rng.randrange(4), rng.randrange(6), rng.choice(["22" * 8, "33" * 8])
    keys = [f"A key {key} {rng.randbytes(16).hex()} 0", f"A key {key} {rng.randbytes(32).hex()} 0 gcm256"]
    sends = [f"A retire {key}", f"A txsa {an} {key} 1 conf", f"A txon {an}", f"A txoff {an}", f"A txdel {an}"]
    channels = [f"A rxsc {sci}", f"A rxscdel {sci}", f"A rxsa {sci} {an} {key} 1", f"A rxon {sci} {an}"]
    channels += [f"A rxlow {sci} {an} {rng.randrange(1 << 32):x}", f"A rxdel {sci} {an}"]
    return rng.choice([*keys, *sends, *channels, "#", "", "A", "A tag auto"])


def random_request(end: End, rng: random.Random) -> str:
    """A line, or a request of the device."""
    if rng.random() < 0.7:
        return random_line(rng)
    load = "\n".join(["load", *(random_line(rng) for _ in range(rng.randrange(5)))])
    ports = [f"open {end.sci} gcm128", f"open {end.sci} gcm256 auto", "close", f"port {rng.choice(['on', 'off'])}"]
    return rng.choice([*ports, "json", "numbers", "metrics", load])


def make_sequence(end: End, rng: random.Random, count: int) -> None:
    """Requests in any order: endpoints, keys, associations, and lines at once. Each has to have an answer."""
    for _ in range(count):
        request = random_request(end, rng)
        report(end.ask(request or "#") != "", f"no answer to {request!r}")


def check_port(end: End, peer: End) -> None:
    """The controlled port goes off and on: frames are judged and counted, and TAP loses carrier after a while."""
    before = end.counters()
    end.carry_out("port off")
    report(ping(end, 2, seconds=0.1) == 0 and ping(peer, 2, seconds=0.1) == 0, "frames pass while the port is off")
    after = end.counters()
    for name in ("device PortOut", "device PortIn", f"{peer.sci} InPktsOK"):
        report(after[name] >= before[name] + 2, f"the port is off: {name} goes from {before[name]} to {after[name]}")
    end.carry_out("port on")
    replies = until(lambda: ping(end, seconds=1) == 3)
    report(has_carrier(end) and replies, "a port that was off for a moment: no carrier, or no replies")
    end.carry_out("port off")
    report(until(lambda: not has_carrier(end)), "TAP has carrier while the port is off")
    end.carry_out("port on")
    report(until(lambda: has_carrier(end)) and ping(end, 5) > 2, "no replies after `port on`")


def check_owner(end: End) -> None:
    """A client that owns the device: others only read, and the port goes off when it has gone."""
    owner, other = Client(end), Client(end)
    report(owner.ask("own") == "ok\n" == owner.ask("own"), "`own`")
    for request in ("own", "port off", "A txoff 0", "own\0", "# none"):
        report(other.ask(request) == "fault Owned\n", f"{request!r} of another client than the owner")
    report(other.ask("numbers").startswith("tx 0 "), "another client than the owner can't read")
    report(owner.ask("A txoff 0") == "ok\n" == owner.ask("A txon 0") and ping(end) == 3, "lines of the owner")
    owner.close()
    report(until(lambda: "the owner has gone" in end.log()), "no message when the owner has gone")
    report(ping(end, 2, seconds=0.1) == 0, "frames pass without the owner")
    replies = other.ask("port on") == "ok\n" and until(lambda: ping(end, seconds=1) == 3)
    report(replies, "no replies after `port on` of another client")
    report(other.ask("own\0") == "fault Word\n", "a request with a zero")
    other.close()
