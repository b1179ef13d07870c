"""Network namespaces, devices and sockets for device/tests/macsecd."""

from __future__ import annotations

import concurrent.futures
import contextlib
import ctypes
import hashlib
import json
import os
import pathlib
import secrets
import shutil
import signal
import socket
import struct
import subprocess
import tempfile
import threading
import time
from collections.abc import Iterator, Sequence

from house import ROOT, compiling, families
from house.compiling import INCLUDED, WARNINGS, device_sources
from house.reporting import Failed, call, report, until

LIBC = ctypes.CDLL(None, use_errno=True)
SANITIZED = [*compiling.SANITIZED, "-O1", "-DMACSECD_UNFILTERED"]
THREADS = ["-g", "-O1", "-fsanitize=thread", "-DMACSECD_UNFILTERED", "-Wno-error"]
# As the Makefile links it. Else the first call of a function stores the vector registers on the stack of its thread. A
# new thread has the registers of the thread that has made it, and they can have parts of a key.
BOUND = ["-Wl,-z,relro", "-Wl,-z,now"]
OBJECTS = tempfile.TemporaryDirectory(prefix="macsecd-objects-")  # of all programs of this test
SOL_PACKET, PACKET_AUXDATA, VLAN_VALID = 263, 8, 1 << 4
Ended = subprocess.CompletedProcess
SALT = "0102030405060708090a0b0c"

# The endpoint's counters: of frames of a receive channel, of other frames of LINK, and of frames of TAP.
RX, OWN = families.names("counters", of="rx"), families.names("counters", of="endpoint")
IN = [it for it in OWN if it.startswith("InPkts")]
OUT = [it for it in OWN + families.names("counters", of="tx") if it.startswith("OutPkts")]
SUITES = [it["name"] for it in families.suites()]


def build(
    out: pathlib.Path, library: pathlib.Path, options: list[str], source: pathlib.Path, wrapped: Sequence[str] = ()
) -> pathlib.Path:
    """Builds macsecd, with what wraps its calls, and macsecctl. Returns the folder of the programs."""
    out.mkdir(parents=True, exist_ok=True)
    words = ["gcc", *WARNINGS, "-pedantic", "-pthread", "-O2", *BOUND, *options, *INCLUDED, "-I", str(source)]
    about = [it for it in options if it != "-Wno-error"], [it.read_bytes() for it in sorted(source.glob("*.h"))]

    def compiled(path: str) -> str:
        """The object of a source. Most programs differ in one of them, so that the others are there."""
        name = hashlib.sha256(repr((about, pathlib.Path(path).read_bytes())).encode()).hexdigest()
        made = pathlib.Path(OBJECTS.name, f"{name}.o")
        if not made.exists():
            part = f"{made}-{os.getpid()}-{threading.get_ident()}"
            call(*words, "-c", "-o", part, path)
            os.rename(part, made)
        return str(made)

    sources = [str(source / "macsecctl.c"), *device_sources(source), *(it for it in wrapped if it.endswith(".c"))]
    with concurrent.futures.ThreadPoolExecutor(os.cpu_count()) as pool:
        macsecctl, *objects = pool.map(compiled, sources)
    flags = [it for it in wrapped if not it.endswith(".c")]
    call(*words, *flags, "-o", str(out / "macsecd"), *objects, str(library))
    call(*words, "-o", str(out / "macsecctl"), macsecctl)
    return out


def late_frames(counters: dict[str, int], sci: str) -> int:
    """How many frames of a receive channel were dropped as late."""
    return counters[f"{sci} {families.names('counters', column='late')[0]}"]


@contextlib.contextmanager
def inside(namespace: str) -> Iterator[None]:
    """Lets this thread be in the network namespace of a name or path. A socket stays where it was made."""
    own = os.open("/proc/thread-self/ns/net", os.O_RDONLY)
    other = os.open(os.path.join("/run/netns", namespace), os.O_RDONLY)
    try:
        if LIBC.setns(other, 0x40000000):
            raise Failed(f"setns: {os.strerror(ctypes.get_errno())}")
        yield
    finally:
        if LIBC.setns(own, 0x40000000):
            raise SystemExit("macsecd: cannot return to its namespace")
        os.close(own)
        os.close(other)


class Packets:
    """A packet socket in a namespace. It is closed when nothing refers to it any more."""

    def __init__(self, namespace: str, device: str) -> None:
        with inside(namespace):
            self.socket = socket.socket(socket.AF_PACKET, socket.SOCK_RAW, 0)
            self.socket.setsockopt(SOL_PACKET, PACKET_AUXDATA, 1)
            self.socket.setsockopt(socket.SOL_SOCKET, 33, 64 << 20)  # SO_RCVBUFFORCE
            self.socket.bind((device, 3))

    def send(self, frame: bytes) -> None:
        """Sends a frame."""
        self.socket.send(frame)

    def frames(self, seconds: float = 0.2) -> list[bytes]:
        """Frames that arrived, until none has for so long. A VLAN tag that the system took out is in them again."""
        got = []
        self.socket.settimeout(seconds)
        with contextlib.suppress(socket.timeout, OSError):
            while True:
                frame, about, _, address = self.socket.recvmsg(65536, 256)
                if address[2] != socket.PACKET_OUTGOING:
                    got.append(with_tag(frame, about))
        return got


@contextlib.contextmanager
def judged(name: str) -> Iterator[None]:
    """Notes an error of a check as something that does not hold, and prints how long the check takes."""
    began = time.monotonic()
    try:
        yield
    except (Failed, OSError, LookupError, ValueError, subprocess.SubprocessError) as why:
        report(False, f"{name}: {type(why).__name__}: {why}")
    print(f"{name}: {time.monotonic() - began:.1f} s", flush=True)


def may_make_namespaces(*tools: str) -> bool:
    """Are there these programs, and the right to make network namespaces and TAPs?"""
    return (
        os.geteuid() == 0
        and all(map(shutil.which, ("ip", *tools)))
        and os.path.exists("/dev/net/tun")
        and subprocess.run(["unshare", "-m", "-n", "true"], capture_output=True).returncode == 0
    )


def with_tag(frame: bytes, about: list[tuple[int, int, bytes]]) -> bytes:
    """A frame with the VLAN tag that the data about it has."""
    for level, kind, data in about:
        if level == SOL_PACKET and kind == PACKET_AUXDATA:
            status, _, _, _, _, control, protocol = struct.unpack_from("=IIIHHHH", data)
            if status & VLAN_VALID:
                return frame[:12] + struct.pack("!HH", protocol or 0x8100, control) + frame[12:]
    return frame


def protected(frames: list[bytes], sci: str) -> list[bytes]:
    """The frames with a SecTAG of this SCI."""
    return [it for it in frames if it[12:14] == b"\x88\xe5" and it[20:28].hex() == sci]


def numbers_of(frames: list[bytes]) -> list[tuple[int, int]]:
    """The association and the packet number of each frame."""
    return [(it[14] & 3, int.from_bytes(it[16:20], "big")) for it in frames]


def places_of(pid: int, octets: bytes) -> list[list[str]]:
    """The flags of those parts of a process's memory that have these octets."""
    found, start, end, readable = [], 0, 0, False
    with open(f"/proc/{pid}/smaps", encoding="utf-8") as maps, open(f"/proc/{pid}/mem", "rb") as memory:
        for line in maps:
            words = line.split()
            if "-" in words[0] and not words[0].endswith(":"):
                start, end = (int(it, 16) for it in words[0].split("-"))
                readable = words[1].startswith("r") and words[-1] not in ("[vvar]", "[vsyscall]", "[vvar_vclock]")
            if words[0] == "VmFlags:" and readable:
                memory.seek(start)
                found += [words[1:]] * memory.read(end - start).count(octets)
    return found


def connected(path: str, seconds: int) -> socket.socket:
    """A connection to a control socket. It waits while the queue is full; a connect with a timeout would fail there."""
    it = socket.socket(socket.AF_UNIX, socket.SOCK_SEQPACKET)
    it.setsockopt(socket.SOL_SOCKET, socket.SO_SNDTIMEO, struct.pack("ll", seconds, 0))
    it.connect(path)
    it.settimeout(seconds)
    return it


# A separate host in a network namespace: its /run and /sys are not the machine's. It ends with its standard input.
HOLD = "mount -t tmpfs none /run && mkdir /run/netns && mount -t sysfs none /sys && echo && exec cat"


def hold(*words: str) -> subprocess.Popen[bytes]:
    """Starts a process that keeps such a host. The arguments are a command that runs the one after it."""
    it = subprocess.Popen([*words, "unshare", "-m", "sh", "-c", HOLD], stdin=subprocess.PIPE, stdout=subprocess.PIPE)
    assert it.stdout is not None
    if it.stdout.readline() != b"\n":
        raise Failed("a host can't be made")
    return it


def let_go(holder: subprocess.Popen[bytes]) -> None:
    """Ends it."""
    for each in (holder.stdin, holder.stdout):
        assert each is not None
        each.close()
    holder.wait()


def as_nobody(rights: str) -> list[str]:
    """A command that runs the one after it as another user, with some rights."""
    words = "setpriv --reuid=65534 --regid=65534 --clear-groups".split()
    return words + [f"--{each}=-all,{rights}" for each in ("inh-caps", "ambient-caps", "bounding-set")]


def lines_of_end(own: int, keys: Sequence[str], suite: str = "gcm128", max_frame: int = 1514) -> str:
    """The lines of an endpoint, which sends under its own key, on association 0, and receives under the peer's."""
    peer = 3 - own
    return f"""end A {suite} 02000000000{own}0001 {max_frame} sci
A key 0 {keys[own - 1]} 0 0000000{own} {SALT}
A key 1 {keys[peer - 1]} 0 0000000{own} {SALT}
A txsa 0 0 1 conf
A txon 0
A rxsc 02000000000{peer}0001
A rxsa 02000000000{peer}0001 0 1 1 0000000{peer}
A rxon 02000000000{peer}0001 0
"""


def attempt(words: Sequence[str], seconds: float = 60, environment: dict[str, str] | None = None) -> Ended:
    """Runs a command, which may fail."""
    return subprocess.run(
        words, stdin=subprocess.DEVNULL, capture_output=True, text=True, timeout=seconds, env=environment
    )


class Namespace:
    """A namespace, and a macsecd in it with a folder for its files."""

    def __init__(self, namespace: str, folder: pathlib.Path, program: pathlib.Path) -> None:
        self.namespace, self.folder, self.program = namespace, folder, program
        self.config, self.journal = folder / "conf/macsec0.conf", folder / "state/macsec0.journal"
        self.socket = str(folder / "run/macsec0.sock")
        self.process: subprocess.Popen[bytes] | None = None
        self.more_environment: dict[str, str] = {}
        for each in ("conf", "state", "run"):
            (self.folder / each).mkdir(parents=True)

    @property
    def environment(self) -> dict[str, str]:
        """Where macsecd finds its files."""
        folders = {"CONFIGURATION_DIRECTORY": "conf", "STATE_DIRECTORY": "state", "RUNTIME_DIRECTORY": "run"}
        more = {name: str(self.folder / each) for name, each in folders.items()}
        return {**os.environ, **more, "ASAN_OPTIONS": "detect_leaks=0", **self.more_environment}

    @property
    def enter(self) -> list[str]:
        """A command that runs the one after it in the namespace."""
        return ["ip", "netns", "exec", self.namespace]

    @property
    def pid(self) -> int:
        """The number of the process."""
        assert self.process is not None
        return self.process.pid

    def ip(self, *words: str) -> str:
        """Runs `ip` in the namespace."""
        return call("ip", "-n", self.namespace, *words)

    def sysctl(self, *settings: str) -> None:
        """Sets kernel settings in the namespace."""
        call("ip", "netns", "exec", self.namespace, "sysctl", "-qw", *settings)

    def without_ipv6(self, device: str) -> None:
        """Lets a device send nothing unasked."""
        self.sysctl(f"net.ipv6.conf.{device}.disable_ipv6=1")

    def write(self, text: str) -> None:
        """Writes the configuration."""
        self.config.write_text(text)
        self.config.chmod(0o600)

    def spawn(self, *words: str, log: str = "log", **more: str) -> subprocess.Popen[bytes]:
        """Starts a program in the namespace, which writes into a log, with more environment variables."""
        with open(self.folder / log, "ab") as it:
            command, environment = [*self.enter, *words], {**self.environment, **more}
            return subprocess.Popen(command, stdin=subprocess.DEVNULL, stdout=it, stderr=it, env=environment)

    def attempt(self, *words: str, seconds: float = 60, **more: str) -> subprocess.CompletedProcess[str]:
        """Runs a command in the namespace, which may fail, with more environment variables."""
        return attempt([*self.enter, *words], seconds, {**self.environment, **more})

    def run_program(self, *words: str) -> subprocess.CompletedProcess[str]:
        """Runs macsecd until it ends."""
        return self.attempt(str(self.program), *words, seconds=30)

    def create_journal(self) -> None:
        """Creates its journal, which is not there."""
        ended = self.run_program("--create-journal", "macsec0")
        if ended.returncode:
            raise Failed(f"--create-journal: {ended.stderr}")

    def launch(self, text: str) -> None:
        """Starts macsecd with this configuration, and waits until it answers. If there is no journal it creates one."""
        self.write(text)
        if not self.journal.exists():
            self.create_journal()
        self.process = self.spawn(str(self.program), "macsec0")
        self.wait_for_answer()

    def wait_for_answer(self) -> None:
        """Waits until macsecd answers."""
        if not until(self.answers, 20):
            raise Failed(f"macsecd does not answer: {self.log()}")

    def answers(self) -> bool:
        """Does macsecd answer? It is an error if it has ended."""
        if self.process is not None and self.process.poll() is not None:
            raise Failed(f"macsecd ended with {self.process.poll()}: {self.log()}")
        with contextlib.suppress(OSError):
            return bool(self.ask("port"))
        return False

    def log(self) -> str:
        """What it said."""
        return (self.folder / "log").read_text(errors="replace")

    def ask(self, *requests: str) -> str:
        """Makes requests over one connection. Returns the last answer."""
        got = b""
        with connected(self.socket, 70) as it:  # a request may have to wait for earlier ones
            for request in requests:
                it.send(request.encode())
                got = it.recv(1 << 20)
        return got.decode()

    def carry_out(self, *lines: str) -> None:
        """Carries out lines. Each of them has to be done."""
        for line in lines:
            answer = self.ask(line)
            if not answer.startswith("ok"):
                raise Failed(f"{line}: {answer}")

    def counters(self) -> dict[str, int]:
        """The answer to `counters`."""
        lines = (line.rsplit(" ", 1) for line in self.ask("counters").splitlines())
        return {name: int(value) for name, value in lines}

    def send_signal(self, number: int) -> None:
        """Sends a signal to macsecd."""
        os.kill(self.pid, number)

    def ended(self, seconds: float = 15.0) -> int | None:
        """The exit status of macsecd, or None if it does not end."""
        assert self.process is not None
        with contextlib.suppress(subprocess.TimeoutExpired):
            return self.process.wait(seconds)
        return None

    def stop(self, number: int = signal.SIGTERM, seconds: float = 10) -> int | None:
        """Ends macsecd by a signal. Returns its exit status, or None if it had to be killed after so many seconds."""
        if self.process is None:
            return None
        self.process.send_signal(number)
        status = self.ended(seconds)
        if status is None:
            self.process.kill()
            self.process.wait()
        self.process = None
        return status


class End(Namespace):
    """A namespace with a macsecd in it."""

    isolated = False  # is LINK in a separate namespace?
    workers: int | None = None  # how many threads do the work of the cipher; None: what macsecd takes

    def __init__(self, world: World, number: int) -> None:
        name = f"macsecd-{os.getpid()}-{world.folder.name}-{number}"
        super().__init__(name, world.folder / str(number), world.programs / "macsecd")
        self.world, self.number = world, number
        self.sci = f"02000000000{number}0001"
        self.prefix: list[str] = []
        self.holder: subprocess.Popen[bytes] | None = None

    @property
    def peer(self) -> End:
        """The other end."""
        return self.world.ends[2 - self.number]

    @property
    def environment(self) -> dict[str, str]:
        """Where macsecd finds its files, and macsec-link macsecd."""
        return {"MACSECD": str(self.program), **super().environment}

    @property
    def enter(self) -> list[str]:
        """A command that runs the one after it in the namespace."""
        return super().enter if self.holder is None else ["nsenter", "-t", str(self.holder.pid), "-m", "-n"]

    @property
    def link_namespace(self) -> str:
        """The namespace of LINK, as `inside` takes it."""
        if self.holder is None:
            return self.namespace
        return f"/proc/{self.holder.pid}/root/run/netns/macsec-macsec0"

    def isolate(self) -> None:
        """Moves LINK into a separate namespace, if it is to be isolated, and makes TAP."""
        if not self.isolated:
            return
        if self.holder is None:
            self.holder = hold("nsenter", f"--net=/run/netns/{self.namespace}")
        ended = self.attempt(str(ROOT / "device/macsec-link"), "isolate", "macsec0")
        if ended.returncode:
            raise Failed(f"macsec-link: {ended.stderr}")

    def write_config(self, suite: str = "gcm128", more: str = "", device: str = "device link link0\n") -> None:
        """Writes a configuration."""
        keys = self.world.keys if suite.endswith("128") else [it * 2 for it in self.world.keys]
        text = device + lines_of_end(self.number, keys, suite, self.world.max_frame) + more
        if self.workers is not None:
            text += f"device workers {self.workers}\n"
        if not self.isolated:
            text += "device shared\n" + ("" if "device persist" in device else "device transient\n")
        self.write(text)

    def start(self, wait: bool = True) -> None:
        """Starts macsecd, and gives its TAP addresses once it answers."""
        self.isolate()
        self.process = self.spawn(*self.prefix, str(self.program), "macsec0")
        if wait:
            self.wait_for_answer()
            self.start_addresses()

    def start_addresses(self) -> None:
        """Gives TAP its addresses."""
        self.ip("addr", "replace", f"10.9.0.{self.number}/24", "dev", "macsec0")
        self.ip("addr", "replace", f"fd09::{self.number}/64", "dev", "macsec0", "nodad")
        self.ip("link", "set", "macsec0", "up")
        self.ip("neigh", "replace", f"10.9.0.{self.peer.number}", "lladdr", self.peer.address(), "dev", "macsec0")

    def address(self) -> str:
        """LINK's address."""
        with inside(self.link_namespace):
            return call("ip", "-br", "link", "show", "link0").split()[2]

    def load(self, octets: int = 16) -> None:
        """Makes a `load`, by which a copy of the endpoint takes its place."""
        got = self.ask(load_lines(octets))
        report(got == "1 ok\n2 ok\n", f"`load`: {got}")


def load_lines(octets: int = 16) -> str:
    """A `load` with a new key, which takes the place of the one before. None in use may have number 4000."""
    return f"load\nA key 4000 {secrets.token_hex(octets)} 0\nA retire 4000"


def expect(end: Namespace, what: str, status: int, text: str, before: Sequence[str] = ()) -> None:
    """macsecd must end at its start with this status and say this."""
    try:
        ended = end.attempt(*before, str(end.program), "macsec0", seconds=30)
    except subprocess.TimeoutExpired:
        report(False, f"{what}: macsecd runs")
        return
    expect_end(ended, what, status, text)


def expect_end(ended: Ended, what: str, status: int, text: str) -> None:
    """A program must have ended with this status and said this."""
    holds = ended.returncode == status and text in ended.stderr
    report(holds, f"{what}: {ended.returncode}, {ended.stderr.strip()!r}, and not {status}, {text!r}")


class Client:
    """A connection to a control socket, for many lines."""

    def __init__(self, end: Namespace) -> None:
        self.end, self.socket = end, connected(end.socket, 70)
        self.slowest = 0.0

    def ask(self, request: str) -> str:
        """Makes a request."""
        began = time.monotonic()
        self.socket.send(request.encode())
        answer = self.socket.recv(1 << 20).decode()
        self.slowest = max(self.slowest, time.monotonic() - began)
        return answer

    def carry_out(self, *lines: str) -> None:
        """Carries out lines. None may be refused."""
        for line in lines:
            answer = self.ask(line)
            if not answer.startswith("ok"):
                raise Failed(f"{line}: {answer}")

    def close(self) -> None:
        """Ends it."""
        self.socket.close()

    def keys_left(self) -> int:
        """How many keys the endpoint can still take."""
        return json.loads(self.ask("json"))["keys_left"]


class World:
    """Two namespaces, joined by a virtual Ethernet link whose ends are named link0."""

    def __init__(self, folder: pathlib.Path, programs: pathlib.Path, mtu: int = 1500) -> None:
        self.folder, self.programs, self.mtu = folder, programs, mtu
        self.max_frame = min(mtu + 14, 9248)
        self.keys = [secrets.token_hex(16), secrets.token_hex(16)]
        self.ends = [End(self, 1), End(self, 2)]

    def __enter__(self) -> World:
        for end in self.ends:
            call("ip", "netns", "add", end.namespace)
            end.sysctl("net.ipv6.conf.default.disable_ipv6=0", "net.ipv6.conf.all.accept_dad=0")
            end.ip("link", "set", "lo", "up")
        self.join("link0")
        return self

    def join(self, name: str) -> None:
        """Joins the two by a link."""
        a, b = (end.namespace for end in self.ends)
        call("ip", "link", "add", name, "netns", a, "type", "veth", "peer", "name", name, "netns", b)
        for end in self.ends:
            end.without_ipv6(name)
            end.ip("link", "set", name, "mtu", str(self.mtu), "up")

    def prepare(self, suite: str = "gcm128", more: str = "") -> None:
        """Writes configurations and journals."""
        for end in self.ends:
            end.write_config(suite, more)
            end.create_journal()

    def start(self, suite: str = "gcm128", more: str = "") -> None:
        """Writes configurations and journals, and starts both ends."""
        self.prepare(suite, more)
        for end in self.ends:
            end.isolate()  # while one LINK moves, the other has no carrier
        for end in self.ends:
            end.start()

    def __exit__(self, *_: object) -> None:
        for end in self.ends:
            end.stop(signal.SIGKILL)
        for end in self.ends:
            if end.holder is not None:
                let_go(end.holder)
            subprocess.run(["ip", "netns", "del", end.namespace], capture_output=True)


# ---- Traffic of the clients


def processor_time(end: Namespace) -> float:
    """The microseconds of a processor that all threads of its macsecd have used, with those of the system for them."""
    threads = pathlib.Path(f"/proc/{end.pid}/task").glob("*/schedstat")
    return sum(int(it.read_text().split()[0]) for it in threads) / 1000


def checksum(octets: bytes) -> int:
    """The Internet checksum."""
    total = sum(struct.unpack(f"!{len(octets) // 2}H", octets[: len(octets) // 2 * 2]))
    total += octets[-1] << 8 if len(octets) % 2 else 0
    total = (total & 0xFFFF) + (total >> 16)
    return ~((total & 0xFFFF) + (total >> 16)) & 0xFFFF


def echo_request(name: int, sequence: int, data: bytes = bytes(56)) -> bytes:
    """An echo request of IPv4."""
    octets = struct.pack("!BBHHH", 8, 0, 0, name, sequence) + data
    return octets[:2] + struct.pack("!H", checksum(octets)) + octets[4:]


def udp_socket(namespace: str, port: int = 0, address: str = "0.0.0.0") -> socket.socket:
    """A socket for datagrams in a namespace, of IPv6 if the address is."""
    with inside(namespace):
        it = socket.socket(socket.AF_INET6 if ":" in address else socket.AF_INET, socket.SOCK_DGRAM)
    it.setsockopt(socket.SOL_SOCKET, 33, 64 << 20)  # SO_RCVBUFFORCE
    it.setsockopt(socket.SOL_SOCKET, socket.SO_REUSEADDR, 1)  # a process that begins can have the last one still open
    it.bind((address, port))
    return it


class Background:
    """Does a step again and again in a thread, until it is stopped."""

    def __init__(self) -> None:
        self.goes_on = True
        self.thread = threading.Thread(target=self.run, daemon=True)
        self.thread.start()

    def run(self) -> None:
        """Does them."""
        while self.goes_on:
            self.step()

    def step(self) -> None:
        """Does one."""
        raise NotImplementedError

    def join(self) -> None:
        """Ends the thread."""
        self.goes_on = False
        self.thread.join()


def ping(end: End, count: int = 3, size: int = 56, seconds: float = 5.0, version: int = 4) -> int:
    """Sends echo requests that may not be fragmented, each after the reply to the last one. Returns the replies."""
    family, protocol = (socket.AF_INET, 1) if version == 4 else (socket.AF_INET6, 58)
    target = f"10.9.0.{3 - end.number}" if version == 4 else f"fd09::{3 - end.number}"
    with inside(end.namespace):
        it = socket.socket(family, socket.SOCK_RAW, protocol)
    if version == 4:
        it.setsockopt(socket.IPPROTO_IP, 10, 2)  # IP_MTU_DISCOVER: IP_PMTUDISC_DO
    replies, name = 0, secrets.randbelow(65536)
    for sequence in range(count):
        octets = echo_request(name, sequence, bytes(size))
        if version == 6:
            octets = struct.pack("!BBHHH", 128, 0, 0, name, sequence) + bytes(size)
        with contextlib.suppress(OSError):
            it.sendto(octets, (target, 0))
            replies += is_answered(it, version, name, sequence, seconds)
    it.close()
    return replies


def ping_again(end: End) -> int:
    """The same, once a request is answered: an end that has started drops the first frames that come."""
    until(lambda: ping(end, 1, seconds=0.1) > 0)
    return ping(end)


def is_answered(it: socket.socket, version: int, name: int, sequence: int, seconds: float) -> bool:
    """Waits for the reply to an echo request."""
    end = time.monotonic() + seconds
    while time.monotonic() < end:
        it.settimeout(max(0.001, end - time.monotonic()))
        got = it.recv(65536)
        got = got[20:] if version == 4 else got
        if got[0] == (0 if version == 4 else 129) and struct.unpack("!HH", got[4:8]) == (name, sequence):
            return True
    return False


class Stream:
    """Numbered datagrams from one client to the other, in a thread, until it is stopped."""

    def __init__(self, end: End, interval: float, size: int = 64, port: int = 9009) -> None:
        self.receiver, self.sender = udp_socket(end.peer.namespace, port), udp_socket(end.namespace)
        self.target, self.interval, self.size = (f"10.9.0.{end.peer.number}", port), interval, size
        self.sent, self.received, self.overtaken, self.goes_on = 0, 0, 0, True
        self.arrived: set[bytes] = set()
        self.threads = [threading.Thread(target=each) for each in (self.send, self.receive)]
        for thread in self.threads:
            thread.start()

    def send(self) -> None:
        """Sends until it is stopped. What the system refuses is not counted as sent."""
        while self.goes_on:
            with contextlib.suppress(OSError):
                self.sender.sendto(struct.pack("!Q", self.sent) + bytes(self.size), self.target)
                self.sent += 1
            if self.interval:
                time.sleep(self.interval)

    def receive(self) -> None:
        """Receives until it is stopped and none has arrived for half a second."""
        self.receiver.settimeout(0.5)
        last = b""
        while True:
            try:
                number = self.receiver.recv(65536)[:8]
                self.arrived.add(number)
                self.received += 1
                self.overtaken += number < last
                last = max(number, last)
            except socket.timeout:
                if not self.threads[0].is_alive():
                    return

    def stop(self) -> tuple[int, int]:
        """Stops it. Returns how many datagrams were sent, and how many different ones arrived."""
        self.goes_on = False
        for thread in self.threads:
            thread.join()
        self.receiver.close()
        self.sender.close()
        return self.sent, len(self.arrived)


def tcp_pair(end: End) -> tuple[socket.socket, socket.socket]:
    """A TCP connection from one client to the other: the socket that sends, and the one that receives."""
    return connect(end, end.peer, f"10.9.0.{end.peer.number}")


def connect(by: Namespace, to: Namespace, address: str) -> tuple[socket.socket, socket.socket]:
    """A TCP connection to an address in another namespace: the socket that connects, and the one that accepts."""
    family = socket.AF_INET6 if ":" in address else socket.AF_INET
    with inside(to.namespace):
        listener = socket.create_server((address, 9010), family=family)
    with inside(by.namespace):
        sender = socket.socket(family, socket.SOCK_STREAM)
    with listener:
        for each in (listener, sender):
            each.settimeout(20)
        sender.connect((address, 9010))
        receiver, _ = listener.accept()
    receiver.settimeout(20)
    return sender, receiver


def transfer(sender: socket.socket, receiver: socket.socket, octets: int) -> float:
    """Sends so many octets over a connection, and ends it. Returns the seconds that it took."""
    block = bytes(1 << 16)
    began = time.monotonic()

    def send() -> None:
        for _ in range(octets // len(block)):
            sender.sendall(block)
        sender.shutdown(socket.SHUT_WR)

    thread = threading.Thread(target=send)
    thread.start()
    got = 0
    while True:
        part = receiver.recv(1 << 18)
        if not part:
            break
        got += len(part)
    thread.join()
    for each in (sender, receiver):
        each.close()
    if got != octets // len(block) * len(block):
        raise Failed(f"TCP: {got} octets arrived of {octets}")
    return time.monotonic() - began


def tcp(end: End, octets: int) -> float:
    """Sends so many octets by TCP. Returns the seconds that it took."""
    return transfer(*tcp_pair(end), octets)
