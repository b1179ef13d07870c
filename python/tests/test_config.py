"""macsec-config: from captures, from ip and back, and the next run."""

from __future__ import annotations

import collections
import json
import os
import pathlib
import subprocess
import unittest
from collections import Counter

from macsec import SecY, Suite, capture
from macsec.cli.config import main
from macsec.endpoint_of_config import Configuration

from .frames import client_frames, protected
from .helpers import CAPTURES, DATA, KEYS, OTHER, SALT, SENDER, InFolder, main_of

LONG_KEY = bytes.fromhex("e3c08a8f06c6e3ad95a70557b23f75483ce33021a9c72b7025666204c69c0b72")
IP_COMMANDS = """
ip link set eth0 address 02:00:00:00:00:02
sudo ip link add link eth0 macsec0 type macsec port 1 cipher gcm-aes-128 \\
    encrypt on send_sci on replay on window 0 validate strict encodingsa 0
ip -n other macsec add macsec0 tx sa 0 pn 1 on key 00 ad7a2bd03eac835a6f620fdcb506b345
ip macsec add macsec0 rx port 1 address 02:00:00:00:00:01 && ip macsec add macsec0 rx sci 0200000000010001 \\
    sa 0 pn 1024 on key 00 ad7a2bd03eac835a6f620fdcb506b345
ip link set macsec0 up # ready
"""
IP_EXTENDED = """
ip link add link eth0 macsec0 type macsec sci 0200000000020001 cipher gcm-aes-xpn-128 encrypt on encodingsa 1
ip macsec add macsec0 tx sa 1 xpn 8589934594 salt a0a1a2a3a4a5a6a7a8a9aaab ssci 2 on \\
    key 01 ad7a2bd03eac835a6f620fdcb506b345
ip macsec add macsec0 rx sci 0200000000010001 on
ip macsec add macsec0 rx sci 0200000000010001 sa 1 xpn 1 salt a0a1a2a3a4a5a6a7a8a9aaab ssci 1 on \\
    key 01 ad7a2bd03eac835a6f620fdcb506b345
"""


def lines_of(text: str) -> list[str]:
    return [it for it in text.splitlines() if not it.startswith("#")]


class Made(InFolder):
    def config(self, *words: object, status: int = 0) -> str:
        ended, text, error = main_of(main, *words)
        self.assertEqual((ended, error), (status, ""), text)
        return text

    def verdicts(self, text: str, path: object) -> Counter[str]:
        """The verdicts of a CONFIG on a capture; no line of it is refused."""
        made = Configuration(text.encode())
        self.assertEqual(made.refusals, [])
        return collections.Counter(made.secy.receive(it.frame).verdict.name for it in capture.read(str(path)))


class FromCapture(Made):
    def test_examples(self) -> None:
        key = KEYS[0].hex()
        for name, given, expected in (
            ("link", key, {"OK": 3}), ("linux", key, {"OK": 3}), ("observed", key, {"OK": 6, "Delayed": 1, "NoTag": 1}),
            ("xpn", f"{key}:{SALT.hex()}", {"OK": 4}),
        ):  # fmt: skip
            path = CAPTURES / f"{name}.pcap"
            self.assertEqual(self.verdicts(self.config("--capture", path, "--key", given), path), expected, name)
        text = self.config("--capture", CAPTURES / "observed.pcap", "--key", key)
        self.assertEqual(lines_of(text), lines_of((CAPTURES / "observer.config").read_text()))

    def test_an_end(self) -> None:
        path = CAPTURES / "observed.pcap"
        text = self.config("--capture", path, "--key", KEYS[0].hex(), "--own", OTHER)
        self.assertIn("A txsa 0 0 2f conf\nA txon 0\n", text)
        self.assertIn(f"A rxsc {SENDER}\n", text)
        self.assertEqual(main_of(main, "--capture", path, "--key", KEYS[0].hex(), "--as", "end")[0], 2)

    def test_what_was_found(self) -> None:
        text = self.config("--capture", CAPTURES / "rekey.pcap", *(w for it in KEYS[:3] for w in ("--key", it.hex())))
        self.assertIn("AN 0 is under key 3 from record 3 on", text)
        for name, word in (("vlan", "VLAN"), ("fcs", "frame check sequence"), ("observed", "EtherType 88cc")):
            self.assertIn(word, self.config("--capture", CAPTURES / f"{name}.pcap", "--key", KEYS[0].hex()))
        text = self.config("--capture", CAPTURES / "link.pcap", status=3)
        self.assertIn(f"# A rxsc {SENDER}, A rxsa {SENDER} 0 N 1", text)

    def test_offset_and_suite(self) -> None:
        path = self.put("IN", protected(client_frames(3), offset=30))
        text = self.config("--capture", path, "--key", KEYS[0].hex())
        self.assertIn(f"A key 0 {KEYS[0].hex()} 30\n", text)
        self.assertEqual(self.verdicts(text, path), {"OK": 3})
        path = self.put("IN", protected(client_frames(3), suite=Suite.xpn128, ssci=3, pn=0x9_0000_0001, form="auto"))
        text = self.config("--capture", path, "--key", f"{KEYS[0].hex()}:{SALT.hex()}")
        self.assertEqual(self.verdicts(text, path), {"OK": 3})


class Ip(Made):
    def test_ends(self) -> None:
        path = self.put("commands", IP_COMMANDS)
        end = self.config("--ip", path)
        self.assertEqual(lines_of(end), [
            f"end A gcm128 {OTHER} 1514 sci", f"A key 0 {KEYS[0].hex()} 0", "A txsa 0 0 1 conf", "A txon 0",
            f"A rxsc {SENDER}", f"A rxsa {SENDER} 0 0 400", f"A rxon {SENDER} 0",
        ])  # fmt: skip
        peer = self.config("--ip", path, "--as", "peer")
        first = [f"end A gcm128 {SENDER} 1514 sci", f"A key 0 {KEYS[0].hex()} 0", "A txsa 0 0 400 conf"]
        self.assertEqual(lines_of(peer)[:3], first)
        with SecY.configure(end) as a, SecY.configure(peer) as b:
            self.assertEqual(b.receive(a.send(bytes(60)).frame).verdict.name, "OK")
            self.assertEqual(a.receive(b.send(bytes(60)).frame).verdict.name, "OK")

    def test_the_capture_of_linux(self) -> None:
        observer = self.config("--ip", self.put("commands", IP_COMMANDS), "--as", "observer")
        self.assertEqual(self.verdicts(observer, CAPTURES / "linux.pcap"), {"OK": 3})

    def test_extended(self) -> None:
        path = self.put("commands", IP_EXTENDED)
        end, peer = self.config("--ip", path), self.config("--ip", path, "--as", "peer")
        observer = self.config("--ip", path, "--as", "observer")
        self.assertIn("A txsa 1 0 200000002 conf", end)
        with SecY.configure(end) as a, SecY.configure(peer) as b, SecY.configure(observer) as c:
            for sent in (a.send(bytes(60)), a.send(bytes(60))):
                self.assertEqual({it.receive(sent.frame).verdict.name for it in (b, c)}, {"OK"})
            self.assertEqual({it.receive(b.send(bytes(60)).frame).verdict.name for it in (a,)}, {"OK"})

    def test_devices_below(self) -> None:
        """A VLAN device has the address of the device below it; without SCIs an observer has one channel."""
        vlan = "ip link add link eth0 name v7 type vlan id 7\nip link add link v7"
        text = IP_COMMANDS.replace("sudo ip link add link eth0", vlan)
        self.assertIn(f"end A gcm128 {OTHER} ", self.config("--ip", self.put("commands", text)))
        text = IP_COMMANDS.replace("send_sci on", "send_sci off")
        auto = self.config("--ip", self.put("commands", text), "--as", "observer")
        self.assertEqual(auto.count("A rxsc"), 1)
        self.assertIn("# frames without an SCI", auto)

    def test_there_and_back(self) -> None:
        for text in (IP_COMMANDS, IP_EXTENDED):
            config = self.config("--ip", self.put("commands", text))
            back = self.config("--to-ip", self.put("CONFIG", config))
            self.assertEqual(self.config("--ip", self.put("again", back)), config)
        for name in ("peer", "observer", "xpn", "sender"):
            back = self.put("again", self.config("--to-ip", CAPTURES / f"{name}.config"))
            again = self.config("--ip", back)
            self.assertEqual(self.config("--to-ip", self.put("CONFIG", again)), pathlib.Path(back).read_text())

    def test_key_for_a_name(self) -> None:
        """A key in the place of a device's name is in no message."""
        key = KEYS[0].hex()
        for old, new in (("eth0 macsec0 type", f"{key} macsec0 type"), ("macsec0", key)):
            status, _, error = main_of(main, "--ip", self.put("commands", IP_COMMANDS.replace(old, new)))
            self.assertEqual((status, key in error), (2, False), error)

    def test_faults(self) -> None:
        wrong = ("ip link set eth0 address", "tx sa 0 pn", "gcm-aes-128", "encrypt")
        for text in ("", *(IP_COMMANDS.replace(it, f"{it}x" if it != wrong[0] else "#") for it in wrong)):
            status, _, error = main_of(main, "--ip", self.put("commands", text))
            self.assertEqual(status, 2)
            self.assertTrue(error.startswith("macsec-config: "), error)
        moved = self.put("commands", IP_COMMANDS.replace("ip link set eth0 address", "#"))
        self.assertIn(OTHER, self.config("--ip", moved, "--address", "eth0=02:00:00:00:00:02"))

    def test_json(self) -> None:
        def sa(pn: int) -> dict[str, object]:
            return {"an": 0, "pn": pn, "active": True, "key": "0" * 32}

        # As iproute2 6.1 prints it.
        it = {
            "ifindex": 16, "ifname": "macsec0", "protect": True, "validate": "strict", "sc": False, "sa": False,
            "encrypt": True, "send_sci": True, "end_station": False, "scb": False, "replay": False,
            "cipher_suite": "GCM-AES-128", "icv_length": 16, "sci": "0x200000000020001", "encoding_sa": 0,
            "sa_list": [sa(58)], "rx_sc": [{"sci": "0x200000000010001", "active": True, "sa_list": [sa(91)]}],
            "offload": "off",
        }  # fmt: skip
        path = self.put("shown", json.dumps([{}, it]))
        for key in (f"00={KEYS[0].hex()}", KEYS[0].hex()):
            text = self.config("--ip-json", path, "--key", key)
            self.assertIn("A txsa 0 0 3a conf\n", text)
            self.assertIn(f"A rxsa {SENDER} 0 0 1\n", text)
        observer = self.config("--ip-json", path, "--key", KEYS[0].hex(), "--as", "observer")
        self.assertEqual(self.verdicts(observer, CAPTURES / "linux.pcap"), {"OK": 3})
        self.assertEqual(main_of(main, "--ip-json", path, "--key", f"01={KEYS[0].hex()}")[0], 2)


class Log(Made):
    """wpa_supplicant 2.10 with the driver macsec_linux; the forms of its lines are those in its program."""

    def log(self, key: str, an: int, own: str = "02:00:00:00:00:02::1", peer: str = "02:00:00:00:00:01::1") -> str:
        shown = f"macsec_linux: SA keyid - hexdump(len=16): 00 01\nmacsec_linux: SA key - hexdump(len=16): {key}\n"
        return (
            f"macsec_linux: eth0: create_receive_sa -> {an} on {peer} (enable_receive=0 next_pn=1)\n{shown}"
            f"macsec_linux: eth0: create_transmit_sa -> {an} on {own} (enable_transmit=0 next_pn=1)\n{shown}"
            f"macsec_linux: eth0: try_commit encrypt=1\nmacsec_linux: eth0: try_commit encoding_sa={an}\n"
        )

    def test_log_alone(self) -> None:
        log = self.log(KEYS[1].hex(" "), 1) + self.log(KEYS[2].hex(" "), 0) + self.log(KEYS[0].hex(" "), 0)
        path = self.put("LOG", log)
        end, observer = self.config("--wpa", path, "--as", "end"), self.config("--wpa", path)
        self.assertIn("# 2 associations got another key", end)
        self.assertIn("A txon 0\n", end)
        self.assertEqual(self.verdicts(observer, CAPTURES / "linux.pcap"), {"OK": 3})
        for wrong in ("", log.replace(KEYS[0].hex(" "), "[REMOVED]")):
            self.assertEqual(main_of(main, "--wpa", self.put("LOG", wrong))[0], 2)
        self.assertEqual(main_of(main)[0], 2)

    def test_keys_for_a_capture(self) -> None:
        path = self.put("LOG", self.log(KEYS[1].hex(" "), 1) + self.log(KEYS[0].hex(" "), 0))
        text = self.config("--capture", CAPTURES / "observed.pcap", "--wpa", path)
        self.assertEqual(self.verdicts(text, CAPTURES / "observed.pcap")["OK"], 6)


class Linux(Made):
    """Captures of Linux 6.1, with the commands, the output of iproute2 6.1 and the logs of wpa_supplicant 2.10."""

    def test_extended_numbers_across_their_half(self) -> None:
        path = DATA / "xpn.pcap"
        key = f"{LONG_KEY.hex()}:{SALT.hex()}"
        for words in (("--ip", DATA / "xpn.sh", "--as", "observer"), ("--capture", path, "--key", key)):
            self.assertEqual(self.verdicts(self.config(*words), path), {"OK": 14})
        shown = self.config("--ip-json", DATA / "xpn.json", "--key", f"01={key}")
        self.assertIn(f"end A xpn256 {SENDER} 1514 sci\nA replay off 0\n", shown)

    def test_key_agreement(self) -> None:
        path = DATA / "mka.pcap"
        for log in ("mka-server.log", "mka-peers.log"):
            text = self.config("--capture", path, "--wpa", DATA / log)
            self.assertIn("AN 0 is under key 5 from record 24 on", text)
            self.assertEqual(self.verdicts(text, path), {"OK": 24, "NotValid": 6})


class Next(Made):
    def test_no_number_is_used_twice(self) -> None:
        config = (CAPTURES / "sender.config").read_text().replace("A txsa 0 0 1 ", "  A  txsa 0 0 fffffffa ")
        text = "2 done\n3 done\n4 done\nrecord 0 link 74\nrecord 1 dropped TooLong\nrecord 2 link 130\n"
        text += "end OutPktsNoSA 0\nend OutPktsProtected 0\nend OutPktsEncrypted 2\n"
        path = self.put("CONFIG", config)
        made = self.config("--next", self.put("TEXT", text), path)
        self.assertEqual(made, config.replace("fffffffa", "fffffffc"))
        deleted = [("end OutPktsEncrypted 2\n", ""), ("2 done\n", "")]
        for old, new in (*deleted, ("2 done", "2 refused 5 NoKey"), ("Encrypted 2", "Encrypted 3")):
            self.assertEqual(main_of(main, "--next", self.put("TEXT", text.replace(old, new)), path)[0], 2)
        long = text.replace("record 0 link 74\n", "".join(f"record {n} link 74\n" for n in range(5)))
        long = long.replace("Encrypted 2", "Encrypted 6")
        status, _, error = main_of(main, "--next", self.put("TEXT", long), path)
        self.assertEqual(status, 2)
        self.assertIn("no packet number left", error)

    @unittest.skipUnless("MACSEC_PROGRAM" in os.environ, "MACSEC_PROGRAM names no program")
    def test_with_the_program(self) -> None:
        numbers = []
        config = CAPTURES / "sender.config"
        for run in range(3):
            out = str(self.folder / "OUT")
            words = [os.environ["MACSEC_PROGRAM"], "protect", str(config), str(CAPTURES / "client.pcap"), out]
            text = subprocess.run(words, capture_output=True, text=True, check=True).stdout
            numbers += [it.frame[16:20] for it in capture.read(out)]
            made = self.config("--next", self.put("TEXT", text), config)
            config = self.folder / f"{run}.config"
            config.write_text(made)
        self.assertEqual([int.from_bytes(it, "big") for it in numbers], list(range(1, 10)))
