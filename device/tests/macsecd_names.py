"""Names of associations in the journal of macsecd, and starts: clients cannot fill it, and starts do not add up."""

from __future__ import annotations

import json
import pathlib
import secrets
import signal
import time

from house.reporting import report, until
from journal_runs import earlier_header
from macsecd_ahead import TICK, burst, rx_next, start_silently
from macsecd_handover import names_of
from macsecd_saves import record, retire_key, use_key
from macsecd_world import Client, End, Packets, Stream, World, ping, ping_again

# The most names that a journal has while clients make associations.
NAMES = 257

# How many names that have left a killed macsecd leaves in the file, beside the one of its last record.
LEFT = 16

# The names of a journal in which lines find none; a limit below it, since reading as many names as macsecd takes lasts
# long in an unproved library; and for how many octets the memory may grow.
FULL, GROWTH = 1800, 2 << 20
LOWER = "numbers.h", "(NUMBERS_FILE_LENGTH / MACSEC_RECORD_LENGTH / 8 * 7)", "(size_t)1750"
# A limit that leaves two names beside those of the configuration.
LOWEST = *LOWER[:2], "(size_t)4"


def memory_of(end: End) -> int:
    """How many octets of memory macsecd has."""
    return int(pathlib.Path(f"/proc/{end.pid}/statm").read_text().split()[1]) * 4096


# ---- Many associations


def lines_of(end: End, number: int) -> list[str]:
    """Lines of a client that begin and end an association: of ten, one receives under a new key from a channel whose
    frames come, one sends under a new key, and the others receive from a new channel."""
    key, sci = 2 + number // 5 % 4094, f"03{number:010x}0001"
    install = f"A key {key} {secrets.token_hex(16)} 0"
    if number % 10 == 0:
        return [install, f"A rxsa {end.peer.sci} 2 {key} 1", f"A rxdel {end.peer.sci} 2", f"A retire {key}"]
    if number % 10 == 5:
        return [install, f"A txsa 3 {key} 1 conf", "A txdel 3", f"A retire {key}"]
    return [f"A rxsc {sci}", f"A rxsa {sci} 0 1 1", f"A rxon {sci} 0", f"A rxscdel {sci}"]


def check_associations(world: World, count: int) -> None:
    """A client without `own` makes associations that accept and send nothing."""
    world.start()
    a, b = world.ends
    stream, client, other = Stream(a, 0.002), Client(b), Client(b)
    time.sleep(2.2)
    most, memory = 0, [0, 0]
    began = time.monotonic()
    for number in range(count):
        client.carry_out(*lines_of(b, number))
        if number % 50 == 0:
            most = max(most, json.loads(other.ask("json"))["journal_names"])
            half = number // (count // 2) % 2
            memory[half] = max(memory[half], memory_of(b))
    seconds = time.monotonic() - began
    sent, arrived = stream.stop()
    what = f"names: {count} associations"
    report(most <= NAMES, f"{what}: the journal has {most} names")
    report(sent == arrived and sent > 300, f"{what}: {arrived} of {sent} datagrams arrived")
    report(memory[1] <= memory[0] + GROWTH, f"{what}: the memory of both halves: {memory} octets")
    report(other.slowest < 1, f"{what}: another client waits for {other.slowest:.1f} s")
    last = names_of(b)
    b.stop()
    b.start()
    report(names_of(b) <= last, f"{what}: {last} names, and {names_of(b)} after a start")
    print(f"{what} in {seconds:.0f} s: at most {most} names, memory {memory}", flush=True)
    for each in (client, other):
        each.close()


# ---- Which names leave


def send_under(a: End, number: int, an: int, key: str) -> None:
    """The peer sends some datagrams under this key, which has this number."""
    a.carry_out(f"A key {number} {key} 0", f"A txsa {an} {number} 1 conf", f"A txon {an}")
    report(burst(a, 3) == 3, "names: frames under a new key do not arrive")


def begin_among_frames(a: End, b: End, names: int, lines: list[str]) -> bool:
    """Begins an association while frames of its channel come, so that it gets a name. They are as few as show it."""
    for _ in range(4):
        report(burst(a, 18) == 18, "names: frames do not arrive")
        time.sleep(TICK)
        b.carry_out(*lines)
        if names_of(b) == names + 1:
            return True
        b.carry_out(f"A rxdel {a.sci} 1")  # the clock has ticked among the frames
    return False


def check_again(world: World) -> None:
    """A name that was reserved with the line leaves. If its association comes again, it needs a record."""
    world.prepare()
    a, b = world.ends
    for end in (a, b):
        start_silently(end)
    report(burst(a, 1) == 1, "names: a frame does not arrive")
    key, names = secrets.token_hex(16), names_of(b)
    began = [f"A rxsa {a.sci} 1 5 1", f"A rxon {a.sci} 1"]
    b.carry_out(f"A key 5 {key} 0")
    report(begin_among_frames(a, b, names, began), "names: an association among frames has no name")
    b.carry_out(f"A rxdel {a.sci} 1")
    report(names_of(b) == names, f"names: {names}, and {names_of(b)} after an association that accepted nothing")
    time.sleep(3 * TICK)  # the channel is quiet then
    b.carry_out(*began)
    report(names_of(b) == names, f"names: a quiet channel's association has a name: {names_of(b)}")
    send_under(a, 5, 1, key)
    report(names_of(b) == names + 1, "names: frames are accepted without a name")


def check_used(world: World) -> None:
    """Names of which a packet number was used stay: neither end begins again at it."""
    world.prepare()
    a, b = world.ends
    b.write_config(device="device link link0\ndevice allow replay off\n")
    for end in (a, b):
        end.start()
    keys = [secrets.token_hex(16) for _ in range(2)]
    receives = [f"A key 5 {keys[0]} 0", f"A rxsa {a.sci} 1 5 64"]
    b.carry_out("A replay off 0", *receives, f"A rxon {a.sci} 1")
    send_under(a, 5, 1, keys[0])  # below where the association began
    b.carry_out(f"A rxdel {a.sci} 1", "A retire 5")
    b.carry_out(f"A key 6 {keys[1]} 0", "A txsa 1 6 1 conf", "A txon 1")
    ping(b, 1, seconds=0.2)
    b.carry_out("A txdel 1", "A retire 6")
    b.stop()  # the journal is written without the names that have left
    b.start()
    b.carry_out(receives[0])
    answers = b.ask(f"A rxsa {a.sci} 1 5 1"), b.ask(f"A key 6 {keys[1]} 0", "A txsa 1 6 1 conf")
    report(all(it.startswith("ok pn") for it in answers), f"names: used numbers are used again: {answers}")


def check_left(world: World) -> None:
    """SIGKILL brings few names back that have left."""
    world.start()
    a = world.ends[0]
    client = Client(a)
    for number in range(100):
        client.carry_out(*lines_of(a, 10 * number + 5))
    names = names_of(a)
    a.stop(signal.SIGKILL)
    a.start()
    report(names_of(a) <= names + LEFT + 1, f"names: {names}, and {names_of(a)} after SIGKILL")


def kill_under(a: End, key: str, owns: bool) -> None:
    """SIGKILL while a client, or the owner, sends under a key."""
    client = Client(a)
    client.carry_out(*["own"] * owns)
    use_key(client, Packets(a.namespace, "macsec0"), 5, key)
    a.stop(signal.SIGKILL)
    start_silently(a)


def check_killed(world: World) -> None:
    """Names of the owner's keys leave after a kill as those that were given up do. Those of keys stay that come again,
    or that another client has brought, even if their names had left before."""
    world.prepare()
    for end in world.ends:
        start_silently(end)  # a frame that IPv6 sends unasked would give a name
    a = world.ends[0]
    names = names_of(a)
    again, other, gone = (secrets.token_hex(16) for _ in range(3))
    client = Client(a)
    client.carry_out("own", f"A key 5 {other} 0", "A txsa 2 5 1 conf", f"open {a.sci} gcm128")
    report(until(lambda: names_of(a) <= names), "names: of a key that has sent nothing stay")
    client.close()
    for key in (other, again, gone):
        kill_under(a, key, owns=key != other)
    client, injector = Client(a), Packets(a.namespace, "macsec0")
    client.carry_out("own", f"A key 5 {again} 0")
    answers = [client.ask("A txsa 2 5 1 conf")]
    client.carry_out("A txdel 2", "A retire 5")
    for number in range(8, 308):
        use_key(client, injector, number, secrets.token_hex(16))
        retire_key(client, number)
    most = NAMES + 4  # two of the configuration, and those of the two keys that stay
    report(names_of(a) <= most, f"names: {names_of(a)} after kills and 300 keys, and not {most}")
    keys = [f"A key {number} {key} 0" for number, key in enumerate((again, other, gone))]
    client.carry_out(f"open {a.sci} gcm128", *keys)
    answers += [client.ask(f"A txsa {number} {number} 1 conf") for number in range(3)]
    report(answers[-1] == "ok\n", f"names: of a killed run have not left: {answers}")
    report(all(it.startswith("ok pn") for it in answers[:-1]), f"names: that have to stay have left: {answers}")


def check_full(world: World, programs: pathlib.Path) -> None:
    """A line that needs a name is refused when none is left, and nothing else is."""
    world.prepare()
    a, b = world.ends
    b.program = programs / "macsecd"
    octets = earlier_header(b.journal.read_bytes()) + b"".join(record(5) for _ in range(FULL))
    b.journal.write_bytes(octets)
    for end in (a, b):
        end.start()
    client = Client(b)
    client.carry_out("own", "port on")  # else it has to wait after each `load`
    report(ping_again(a) == 3, "names: no replies with a full journal")
    client.carry_out(f"A key 5 {secrets.token_hex(16)} 0")
    for line in (f"A rxsa {a.sci} 1 5 1", "A txsa 1 5 1 conf"):
        report(client.ask(line) == "fault JournalFull\n", f"names: full: {line}: {client.ask(line)}")
        got = client.ask(f"load\nA txoff 0\n{line}")
        report("fault JournalFull" in got, f"names: full: load: {got}")
    answer = client.ask(f"A rxsa {a.sci} 1 9 1")
    report(answer.startswith("refused") and "Journal" not in answer, f"names: full: a line without a key: {answer}")
    client.carry_out(f"A rxdel {a.sci} 0")
    answers = client.ask(f"A rxsa {a.sci} 0 1 1"), client.ask("A txdel 0"), client.ask("A txsa 0 0 1 conf")
    report(all(it.startswith("ok") for it in answers), f"names: full: associations with names: {answers}")
    client.carry_out(f"A rxon {a.sci} 0", "A txon 0")
    report(ping(a) == 3 and ping(b) == 3, "names: no replies with a full journal, with associations that came again")
    client.close()


def check_few(world: World, programs: pathlib.Path) -> None:
    """A `load` that may need more names than are left is refused at the first line without one."""
    world.prepare()
    a, b = world.ends
    b.program = programs / "macsecd"
    for end in (a, b):
        end.start()
    client = Client(b)
    client.carry_out("own", "port on")
    report(ping(a) == 3 and until(lambda: names_of(b) == 2), f"names: few: {names_of(b)} at first")
    keys = [f"A key {number} {secrets.token_hex(16)} 0" for number in (5, 6, 7)]
    begin = [f"A txsa {number - 4} {number} 1 conf" for number in (5, 6, 7)]
    for lines, answer in (
        ([*keys, *begin], "6 fault JournalFull\n"),
        ([*keys, *begin, "A txonn 0"], "6 fault JournalFull\n"),
        ([*keys, "A txon 3", *begin], "4 refused 13 NoSa\n"),
        ([*keys[:2], *begin[:2]], "1 ok\n2 ok\n3 ok\n4 ok\n"),
        (["A txdel 1", begin[0]], "1 ok\n2 ok\n"),
        (["A txdel 1", "A retire 5", f"A key 5 {secrets.token_hex(16)} 0", begin[0]], "4 fault JournalFull\n"),
    ):
        got = client.ask("\n".join(["load", *lines]))
        report(got == answer, f"names: few: {lines}: {got}")
    report(until(lambda: names_of(b) == 4) and ping(a) == 3, f"names: few: {names_of(b)} at last")
    client.close()


# ---- Starts


def check_starts(world: World, starts: int) -> None:
    """A receiver starts again and again while its peer, which has sent a frame, is quiet, and then while the peer sends
    a frame for each start: the peer's next frame is received."""
    world.prepare()
    a, b = world.ends
    for end in (a, b):
        start_silently(end)
    report(burst(a, 1) == 1, "names: the peer's first frame does not arrive")
    time.sleep(TICK)
    arrived = 0
    for number in range(starts + 5):
        b.stop(signal.SIGTERM if number % 2 == 0 else signal.SIGKILL)
        start_silently(b)
        arrived += burst(a, 1) if number >= starts - 1 else 0
    report(arrived == 6, f"names: of a frame after {starts} starts, and one after each of 5 more, {arrived} arrive")
    report(rx_next(b, a) == 8, f"names: the next packet number is {rx_next(b, a)}")
