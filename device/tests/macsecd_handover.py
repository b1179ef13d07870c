"""More keys than an endpoint has numbers for, and lines that are all carried out, or none is."""

from __future__ import annotations

import contextlib
import json
import re
import secrets
import subprocess
import time
from collections.abc import Iterator
from typing import Callable

from house.reporting import Failed, report, until
from macsecd_requests import state_of
from macsecd_world import SALT, Background, Client, End, Packets, Stream, World, connected, ping, protected

KEYS = 4096

# After so many changes of keys a journal is so long that rewriting it can take longer than TAP's queue lasts.
MANY = 1000

# Octets that are enough for one endpoint without workers, and too few for two.
MEMORY = 56 << 20

# How many lines of nine octets are in the longest request.
MOST = (128 * 1024 - len("load\n") + 1) // len("A txon 0\n")


@contextlib.contextmanager
def clients(world: World) -> Iterator[tuple[Client, Client]]:
    """A connection to each end."""
    a, b = (Client(end) for end in world.ends)
    try:
        yield a, b
    finally:
        a.close()
        b.close()


def use_up(client: Client, first: int, last: int) -> None:
    """Installs and retires keys, which nothing uses. Many requests are under way at a time."""
    for start in range(first, last, 32):
        numbers = range(start, min(start + 32, last))
        for number in numbers:
            client.socket.send(f"A key {number} {secrets.token_hex(16)} 0".encode())
            client.socket.send(f"A retire {number}".encode())
        for number in numbers:
            answers = client.socket.recv(100) + client.socket.recv(100)
            if answers != b"ok\nok\n":
                raise Failed(f"key {number}: {answers!r}")


def wait_for_frame(client: Client, request: str) -> None:
    """Waits for the first frame of a receive association. Earlier ones under older keys have been read then."""
    end = time.monotonic() + 20
    while int(client.ask(request).split()[4], 16) == 1:
        if time.monotonic() > end:
            raise Failed(f"{request}: no frame in 20 s")
        time.sleep(0.0005)


def rekey(pair: tuple[Client, Client], phase: int, first: int) -> None:
    """New keys for both directions: both ends receive under them first, then send, then the old ones go."""
    an, old = phase % 4, (phase - 1) % 4
    numbers = [(first + 2 * phase + it) % KEYS for it in (0, 1)]
    before = [(first + 2 * (phase - 1) + it) % KEYS for it in (0, 1)] if phase > 1 else [0, 1]
    keys = [secrets.token_hex(16), secrets.token_hex(16)]
    for client, peer in (pair, pair[::-1]):
        own = [keys[client.end.number - 1], keys[peer.end.number - 1]]
        client.carry_out(f"A key {numbers[0]} {own[0]} 0", f"A key {numbers[1]} {own[1]} 0")
        client.carry_out(f"A rxsa {peer.end.sci} {an} {numbers[1]} 1", f"A rxon {peer.end.sci} {an}")
    for client in pair:
        client.carry_out(f"A txsa {an} {numbers[0]} 1 conf", f"A txon {an}")
    for client, peer in (pair, pair[::-1]):
        wait_for_frame(client, f"numbers rx {peer.end.sci} {an}")
    for client, peer in (pair, pair[::-1]):
        client.carry_out(f"A txdel {old}", f"A rxdel {peer.end.sci} {old}", *(f"A retire {it}" for it in before))


def periods(frames: list[bytes]) -> int:
    """How often the association number changes. Between, packet numbers have to rise."""
    last, count, rise = (-1, 0), 0, True
    for frame in frames:
        this = frame[14] & 3, int.from_bytes(frame[16:20], "big")
        count += this[0] != last[0]
        rise = rise and (this[0] != last[0] or this[1] > last[1])
        last = this
    report(rise, "packet numbers under one key do not rise")
    return count


class Recorder(Background):
    """The frames on a link with a SecTAG of this SCI."""

    def __init__(self, end: End, sci: str) -> None:
        self.link, self.sci, self.frames = Packets(end.link_namespace, "link0"), sci, []
        super().__init__()

    def step(self) -> None:
        """Reads, and keeps the beginning of each frame."""
        self.frames += [it[:20] for it in protected(self.link.frames(0.05), self.sci)]

    def stop(self) -> list[bytes]:
        """Stops it. Returns the frames."""
        self.join()
        return self.frames


def dropped(end: End) -> int:
    """The frames that the client's device dropped before macsecd could read them."""
    shown = json.loads(end.ip("-j", "-s", "link", "show", "macsec0"))[0]
    return shown["stats64"]["tx"]["dropped"]


def losses(end: End) -> dict[str, int]:
    """The counters of frames that were dropped, of those that should be 0."""
    names = re.compile(
        "Late|NotValid|NoSA(Error|$)|BadTag|NoReservation|EarlierRun|Lost|Refused|NoEndpoint|Unchecked|Delayed|TooLong"
    )
    return {name: value for name, value in end.counters().items() if value and names.search(name)}


def run_rekeys(world: World, rekeys: int, first: int) -> None:
    """Rekeys while datagrams are sent in both directions. Each has to arrive, and each frame has to be counted."""
    a, b = world.ends
    recorder = Recorder(b, a.sci)
    before, full = [losses(end) for end in world.ends], [dropped(end) for end in world.ends]
    streams = [Stream(a, 0.0005), Stream(b, 0.0005, port=9011)]
    with clients(world) as pair:
        began = time.monotonic()
        for phase in range(1, rekeys + 1):
            rekey(pair, phase, first)
        seconds = time.monotonic() - began
        slowest = max(it.slowest for it in pair)
    counts = [it.stop() for it in streams]
    full = [dropped(end) - old for end, old in zip(world.ends, full)]
    for (sent, arrived), lost in zip(counts, full):
        report(sent == arrived + lost and sent > 100, f"{sent} datagrams were sent, {arrived} arrived, {lost} dropped")
        report(lost == 0 or rekeys > MANY, f"the client's device has dropped {lost} frames")
    count = periods(recorder.stop())
    report(rekeys // 2 < count <= rekeys + 1, f"frames of {count} associations in turn, for {rekeys} new keys")
    for end, old in zip(world.ends, before):
        report(losses(end) == old, f"{end.number}: frames were dropped: {losses(end)}, and before {old}")
    print(
        f"handover: {rekeys} rekeys in {seconds:.1f} s, {sum(it[0] for it in counts)} datagrams, {full} dropped by a "
        f"full TAP, slowest answer {1000 * slowest:.1f} ms",
        flush=True,
    )


def check_life_of_keys(world: World, short: bool) -> None:
    """An endpoint takes all its keys, and goes on: each further key takes the place of a retired one."""
    a, b = world.ends
    with clients(world) as pair:
        for client in pair:
            use_up(client, 2, KEYS)
            report(client.keys_left() == 0, f"{client.keys_left()} keys are left")
            number, key = next_of(client.end), secrets.token_hex(16)
            report(client.ask(f"A key 0 {key} 0") == "refused 3 KeyNumberUsed\n", "a number that is in use")
            report(client.ask(f"A key 2 {key[1:]} 0") == "fault Hex\n", "a wrong line when no number is left")
            client.carry_out(f"A key 2 {key} 0", "A retire 2", f"A key 2 {secrets.token_hex(16)} 0", "A retire 2")
            for place in (2, 3):
                got = client.ask(f"A key {place} {key} 0")
                report(got == "refused 4 KeyRepeated\n", f"octets that were given up, as key {place}: {got}")
            report(next_of(client.end) < number + 1000, "a key has changed a packet number")
    report(ping(a) == 3, "no replies while no key is left")
    before = [end.counters() for end in world.ends]
    run_rekeys(world, 40 if short else 2500, 0)
    for end, old in zip(world.ends, before):
        now = end.counters()
        fell = [it for it in old if it in now and now[it] < old[it] and " 0 " not in it]
        report(not fell, f"{end.number}: counters have fallen: {fell}")


def channel_is_sum(end: End) -> None:
    """The counters of a new association begin at 0, and the channel's have all."""
    peer = end.peer.sci
    c = end.counters()
    of_sas = sum(value for name, value in c.items() if name.startswith(peer) and name.endswith(" InPktsOK"))
    of_sas -= c[f"{peer} InPktsOK"]
    report(0 < of_sas <= c[f"{peer} InPktsOK"], f"{of_sas} of {c[f'{peer} InPktsOK']} frames are of associations")


def names_of(end: End) -> int:
    """How many names the journal has."""
    return int(json.loads(end.ask("json"))["journal_names"])


def next_of(end: End, an: int = 0) -> int:
    """The next packet number of a transmit association."""
    return int(end.ask(f"numbers tx {an}").split()[3], 16)


def check_numbers(a: End) -> None:
    """`load` skips no packet number, and none is used again after it."""
    before, last = next_of(a), 0
    for _ in range(3):
        a.load()
        last = next_of(a)
    report(before <= last < before + 20, f"three `load`: packet numbers rise from {before} to {last}")
    a.carry_out("A txoff 0", "A txdel 0")
    answer = a.ask("A txsa 0 0 1 conf")
    holds = answer.startswith("ok pn ") and int(answer.split()[2], 16) >= last
    report(holds, f"a new association: {answer}, after {last}")
    a.carry_out("A txon 0")


def check_refused_loads(a: End, load: Callable[..., str], good: list[str]) -> None:
    """Good lines and a wrong one, at the beginning, between them and at the end: nothing changes."""
    before, log, number = state_of(a), a.log(), next_of(a)
    for wrong, answer in (
        ("A txon 3", "refused 13 NoSa"),
        ("A txonn 0", "fault Word"),
        ("B txon 0", "fault Ends"),
        (f"A key 1 {secrets.token_hex(16)} 0", "refused 3 KeyNumberUsed"),
        ("A protect off", "fault NotAllowed"),
        ("port on", "fault Word"),
        ("A counters", "fault Ends"),
        ("x" * 20001, "fault LineLong"),
    ):
        for place in (0, 4, len(good)):
            got = load(*good[:place], wrong, *good[place:])
            report(got == f"{place + 1} {answer}\n", f"load with {wrong[:30]!r} at {place}: {got!r}")
            after = state_of(a)
            report(after == before, f"load with {wrong[:30]!r} at {place}: {before} became {after}")
    report(next_of(a) < number + 1000 and ping(a) == 3, "a refused `load` has changed the endpoint")
    report(a.log() == log, f"messages for a refused `load`: {a.log()[len(log):]}")


def check_small_loads(a: End, load: Callable[..., str]) -> None:
    """`load` that changes nothing: it costs no packet numbers."""
    number = next_of(a)
    for _ in range(50):
        report(load("#") == "ok\n" == load(""), "`load` without a command")
        report(load("A txon 0") == "1 ok\n" == load("#", "A txonn 0").replace("2 fault Word", "1 ok"), "one line")
        report(load("A txon 0", "", "A txon 0") == "1 ok\n3 ok\n", "`load` of what is so already")
        report(load("A txoff 0", "#" + "x" * 20000) == "2 fault LineLong\n", "a comment that is too long")
    report(next_of(a) < number + 30, f"`load` has skipped numbers from {number} to {next_of(a)}")
    report(ping(a) == 3, "no replies after `load`")
    report(load("y" * 140000) == "fault LoadLong\n", "`load` that is too long")


def check_long_loads(a: End) -> None:
    """As many lines as a request can have. The owner makes it: other clients have to wait after it."""
    client = Client(a)
    client.carry_out("own")
    for last, answer in (
        ("A txon 0", "".join(f"{it} ok\n" for it in range(1, MOST + 1))),
        ("x", f"{MOST} fault Word\n"),
    ):
        got = client.ask("\n".join(["load", *["A txon 0"] * (MOST - 1), last]))
        report(got == answer, f"`load` of as many lines as there can be: {got[-100:]!r}")
    client.close()
    a.carry_out("port on")


def check_kinds(a: End) -> None:
    """What lines of `load` mean beside the endpoint: names are reserved, and `show` knows a key's suite."""
    names = names_of(a)
    line = f"A key 20 {secrets.token_hex(16)} 0 xpn128 00000005 {SALT}"
    got = a.ask(f"load\n{line}\nA txsa 3 20 1 conf\nA protect on")
    left = re.search(r"^ +3 +20 .* 1 +> 10\^12$", a.ask("show"), re.M)
    report(got == "1 ok\n2 ok\n3 ok\n" and left is not None, f"`load` of a key of its own suite: {got} {a.ask('show')}")
    report(names_of(a) == names + 1, f"`load` of an association: {names_of(a)} names, and before {names}")
    report(a.ask("load\nA txdel 3\nA retire 20") == "1 ok\n2 ok\n", "`load` that retires a key")
    report(until(lambda: names_of(a) == names), f"the name of a key that was retired stays: {names_of(a)}, not {names}")


def check_good_load(a: End, load: Callable[..., str], good: list[str]) -> None:
    """All lines are carried out, and the counters go on."""
    peer, before, counters = a.peer, state_of(a), a.counters()
    got = load(*good)
    answers = "".join(f"{n} ok\n" for n, line in enumerate(good, 1) if line.startswith("A "))
    report(got == answers and state_of(a) != before, f"load: {got!r}")
    holds = a.ask("numbers").split()[:6:5] == ["tx", "conf"] and a.ask("numbers tx 0") == "fault NotFound\n"
    report(holds, f"after `load`: {a.ask('numbers')}")
    fell = [name for name, value in counters.items() if a.counters().get(name, value) < value]
    report(not fell, f"counters have fallen: {fell}")
    report(f"{peer.sci} 0 InPktsOK" not in a.counters(), "an association that was deleted still counts")


def check_load(a: End, macsecctl: list[str]) -> None:
    """Lines that are all carried out, or none is."""
    peer, sci = a.peer, "11" * 8
    key, other = secrets.token_hex(16), secrets.token_hex(16)
    good = [f"A key 2 {key} 0", "# a comment", "", "A txsa 1 2 1 conf", f"A rxsc {sci}", f"A rxsa {sci} 0 2 1"]
    good += [f"A rxdel {peer.sci} 0", "A txdel 0", "A retire 0", "A protect on"]
    check_long_loads(a)
    with contextlib.closing(connected(a.socket, 5)) as it:

        def load(*lines: str) -> str:
            it.send("\n".join(["load", *lines]).encode())
            return it.recv(1 << 20).decode()

        check_refused_loads(a, load, good)
        check_small_loads(a, load)
        check_good_load(a, load, good)
        check_number_again(a, load, other)
        check_kinds(a)
    check_macsecctl(a, macsecctl)


def check_no_memory(world: World) -> None:
    """There is no memory for a copy of the endpoint: the answer says so, nothing changes, and frames go on."""
    world.prepare()
    a, b = world.ends
    a.workers, a.prefix = 0, ["prlimit", f"--data={MEMORY}"]
    a.write_config()
    for end in (a, b):
        end.start()
    state = state_of(a)
    got = [a.ask("load\nA txoff 0\nA txon 3") for _ in range(3)]
    report(got == ["fault Memory\n"] * 3 and state_of(a) == state, f"`load` without memory: {got}")
    report(a.ask("load\nA txon 0") == "1 ok\n" and ping(a) == 3, "no replies after `load` without memory")


def check_number_again(a: End, load: Callable[..., str], key: str) -> None:
    """The number of a retired key: the endpoint takes it, and no packet number is skipped. Its octets are refused."""
    number, log = next_of(a, 1), a.log()
    for lines, answer in (([], "1 ok\n2 ok\n"), (["A txoff 1", "A txon 1"], "1 ok\n2 ok\n3 ok\n4 ok\n")):
        got = load(*lines, f"A key 0 {key} 0", "A retire 0")
        report(got == answer and a.log() == log, f"the number of a retired key: {got!r}")
        key = secrets.token_hex(16)
    report(number <= next_of(a, 1) < number + 1000, "a key in the place of a retired one has changed a packet number")
    report(load(f"A key 0 {key} 0") == "1 ok\n" == load("A retire 0"), "the number of a retired key, alone")
    report(load(f"A key 0 {key} 0") == "1 refused 4 KeyRepeated\n", "the octets of a retired key, alone")
    state, counters = state_of(a), a.counters()
    for last in ("A txon 1", "A txon 9", "A txonn 1"):
        got = load("A txoff 1", f"A key 0 {key} 0", last)
        holds = got == "2 refused 4 KeyRepeated\n" and state_of(a) == state and a.log() == log
        report(holds, f"the octets of a retired key, and {last}: {got!r}")
    fell = [name for name, value in counters.items() if a.counters().get(name, value) < value]
    report(not fell, f"counters have fallen: {fell}")
    key = secrets.token_hex(16)
    report(load(f"A key 0 {key} 0", "A protect on") == "1 ok\n2 ok\n", "the number of a retired key, and other octets")
    report(
        load("A retire 0", f"A key 0 {secrets.token_hex(16)} 0", "A retire 0").count("ok") == 3, "a key's number again"
    )


def check_macsecctl(a: End, macsecctl: list[str]) -> None:
    """macsecctl with lines that are all carried out, or none is."""

    def told(lines: str, *words: str) -> tuple[int, str]:
        it = subprocess.run([*macsecctl, *words], input=lines, capture_output=True, text=True)
        return it.returncode, it.stdout

    state = state_of(a)
    got = told("# a comment\n\nA txoff 1\nA txon 1\nA txon 2\nA txoff 1\n")
    report(got == (2, "5 refused 13 NoSa\n") and state_of(a) == state, f"macsecctl with a wrong line: {got}")
    got = told("# a comment\n\nA txoff 1\nA txon 1\n")
    report(got == (0, "3 ok\n4 ok\n"), f"macsecctl with lines: {got}")
    path = a.folder / "lines"
    path.write_text("A txoff 1\nA txonn 1\n")
    state = state_of(a)
    got = told("", "load", str(path))
    report(got == (2, "2 fault Word\n") and state_of(a) == state, f"macsecctl load with a wrong line: {got}")
    it = subprocess.run([*macsecctl, "nothing"], capture_output=True, text=True)
    shown = it.returncode, it.stdout, it.stderr.partition(": a word is not")[0]
    report(shown == (2, "fault Word\n", "macsecctl: Word"), f"macsecctl with a wrong word: {it}")
    path.write_text("A txon 1\nA txon 1\n")
    got = told("", "load", str(path))
    report(got == (0, "1 ok\n2 ok\n"), f"macsecctl load: {got}")
    report(told("", "load", str(path) + "x")[0] == 2, "macsecctl load of a file that is not there")
    report(told("#" * 140000)[0] == 2, "macsecctl with too many octets")
