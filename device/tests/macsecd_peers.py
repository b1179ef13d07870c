"""Other programs that carry frames between the two ends, as Debian has them: macsecd is measured beside them.

Each has the addresses of the clients on a device of its own, with an MTU of 1,420 octets, its usual options and one
peer, and takes keys that are made for this run. Linux alone, `veth`, has the addresses on LINK."""

from __future__ import annotations

import pathlib
import shutil
import subprocess

from house.reporting import Failed, call, until
from macsecd_world import End, World, ping

MTU, DEVICE = 1420, "tunnel0"


def run(*words: str, given: str = "", folder: pathlib.Path | None = None) -> str:
    """Runs a command with this input, which has to succeed. Returns what it prints."""
    ended = subprocess.run(words, input=given, capture_output=True, text=True, cwd=folder)
    if ended.returncode:
        raise Failed(f"{' '.join(words)}: {ended.stdout}{ended.stderr}")
    return ended.stdout.strip()


def wireguard(end: End, keys: list[tuple[str, str]], device: str) -> None:
    """wireguard-go, which `wg` configures by a socket. The sockets of all namespaces are in one folder."""
    private, public = end.folder / "key", keys[end.peer.number - 1][1]
    private.write_text(keys[end.number - 1][0])
    more = {"WG_I_PREFER_BUGGY_USERSPACE_TO_POLISHED_KMOD": "1", "LOG_LEVEL": "error"}
    end.process = end.spawn("wireguard-go", "-f", device, **more)
    until(lambda: pathlib.Path(f"/run/wireguard/{device}.sock").exists())
    words = ["wg", "set", device, "listen-port", "10000", "private-key", str(private), "peer", public]
    run(*words, "allowed-ips", "10.9.0.0/24", "endpoint", f"10.8.0.{end.peer.number}:10000")


def openvpn(end: End, prints: list[str], device: str) -> None:
    """OpenVPN with AES-128-GCM: each end has a certificate, and knows the other one's fingerprint."""
    words = f"""openvpn --dev {device} --dev-type tun --proto udp4 --local 10.8.0.{end.number}
        --remote 10.8.0.{end.peer.number} --ifconfig 10.9.0.{end.number} 10.9.0.{end.peer.number} --tun-mtu {MTU}
        --cert {end.folder}/certificate --key {end.folder}/key --peer-fingerprint {prints[end.peer.number - 1]}
        --data-ciphers AES-128-GCM --disable-dco"""
    end.process = end.spawn(
        *words.split(), *(["--tls-client"] if end.number == 1 else ["--tls-server", "--dh", "none"])
    )


def certificate(end: End) -> str:
    """Makes a key and a certificate. Returns its fingerprint."""
    key, made = f"{end.folder}/key", f"{end.folder}/certificate"
    words = (
        f"openssl req -x509 -newkey ec -pkeyopt ec_paramgen_curve:prime256v1 -nodes -keyout {key} -out {made} -days 2"
    )
    call(*words.split(), "-subj", f"/CN=end{end.number}")
    return call("openssl", "x509", "-in", made, "-noout", "-fingerprint", "-sha256").strip().partition("=")[2]


def fastd(end: End, keys: list[tuple[str, str]], device: str) -> None:
    """fastd with salsa2012+umac."""
    config = end.folder / "fastd.conf"
    config.write_text(
        f'mode tun; interface "{device}"; method "salsa2012+umac"; mtu {MTU}; bind 10.8.0.{end.number}:10000;\n'
        f'secret "{keys[end.number - 1][0]}"; log level warn;\n'
        f'peer "other" {{ key "{keys[end.peer.number - 1][1]}"; remote 10.8.0.{end.peer.number}:10000; }}\n'
    )
    end.process = end.spawn("fastd", "--config", str(config))


def fastd_key() -> tuple[str, str]:
    """A key: its secret and its public part."""
    secret = run("fastd", "--machine-readable", "--generate-key").split()[0]
    shown = run("fastd", "--machine-readable", "--show-key", "--config", "-", given=f'secret "{secret}";\n')
    return secret, shown


def tinc(end: End, device: str) -> None:
    """tinc with its own choice of ciphers."""
    end.process = end.spawn("tincd", "-D", "-c", f"{end.folder}/tinc", f"--pidfile={end.folder}/tinc/pid")


def tinc_files(world: World, device: str) -> None:
    """The files of both ends of tinc: each has its own key, and the other one's public part."""
    for end in world.ends:
        hosts = end.folder / "tinc/hosts"
        hosts.mkdir(parents=True)
        (hosts / f"end{end.number}").write_text(f"Address = 10.8.0.{end.number}\nSubnet = 10.9.0.{end.number}/32\n")
        text = f"Name = end{end.number}\nMode = router\nInterface = {device}\nConnectTo = end{end.peer.number}\n"
        (hosts.parent / "tinc.conf").write_text(f"{text}AddressFamily = ipv4\nBindToAddress = 10.8.0.{end.number}\n")
        run("tincd", "-c", str(hosts.parent), "-K", "2048")
    for end in world.ends:
        own = end.folder / f"tinc/hosts/end{end.number}"
        shutil.copy(own, end.peer.folder / "tinc/hosts")


# The name of each, and the programs that it needs.
PEERS = {
    "wireguard-go": ("wireguard-go", "wg"),
    "OpenVPN": ("openvpn", "openssl"),
    "fastd": ("fastd",),
    "tinc": ("tincd",),
    "veth": (),
}
PACKAGES = "wireguard-go", "openvpn", "fastd", "tinc"


def installed() -> list[str]:
    """Those that are there."""
    return [name for name, programs in PEERS.items() if all(map(shutil.which, programs))]


def versions() -> str:
    """The versions of Debian's packages."""
    shown = subprocess.run(
        ["dpkg-query", "-W", "-f", "${Package} ${Version}\n", *PACKAGES], capture_output=True, text=True
    )
    return ", ".join(shown.stdout.splitlines())


def start(world: World, name: str) -> None:
    """Starts one at both ends, and waits until the clients reach each other."""
    tunnel = f"t{world.ends[0].namespace.split('-')[1][-7:]}-"
    if name == "wireguard-go":
        privates = [run("wg", "genkey") for _ in world.ends]
        pairs = [(it, run("wg", "pubkey", given=it)) for it in privates]
    elif name == "OpenVPN":
        prints = [certificate(end) for end in world.ends]
    elif name == "fastd":
        pairs = [fastd_key() for _ in world.ends]
    elif name == "tinc":
        tinc_files(world, DEVICE)
    for end in world.ends:
        device = f"{tunnel}{end.number}" if name == "wireguard-go" else DEVICE
        if name == "veth":
            end.ip("addr", "add", f"10.9.0.{end.number}/24", "dev", "link0")
            continue
        end.ip("addr", "add", f"10.8.0.{end.number}/24", "dev", "link0")
        if name == "wireguard-go":
            wireguard(end, pairs, device)
        elif name == "OpenVPN":
            openvpn(end, prints, device)
        elif name == "fastd":
            fastd(end, pairs, device)
        else:
            tinc(end, device)
        if not until(lambda: f" {device}: " in end.ip("link", "show")):
            raise Failed(f"{name} makes no device: {end.log()}")
        if name != "OpenVPN":
            end.ip("addr", "replace", f"10.9.0.{end.number}/24", "dev", device)
            end.ip("link", "set", device, "mtu", str(MTU), "up")
    if not until(lambda: ping(world.ends[0], 1, seconds=0.2) > 0, 30):
        raise Failed(f"{name}: no echo: {''.join(end.log() for end in world.ends if end.process)}")
