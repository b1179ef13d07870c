"""Inputs that are large, cut, damaged or hostile, and signals: limits, messages, and what is left behind."""

from __future__ import annotations

import contextlib
import gzip
import io
import json
import os
import pathlib
import resource
import signal
import struct
import subprocess
import sys
import time
from collections.abc import Callable, Sequence
from unittest import mock

from macsec import capture
from macsec.cli import config, decrypt, forge, reading, report, why
from macsec.wpalog import keys_of, lines_of

from .frames import client_frames, protected
from .helpers import KEYS, SENDER, InFolder, main_of

KEY = KEYS[0].hex()
CONFIG = f"end A gcm128 02ffffffffff0001 9248 sci\nA key 0 {KEY} 0\nA rxsc {SENDER}\nA rxsa {SENDER} 0 0 1\n"
CONFIG += f"A rxon {SENDER} 0\n"
SECONDS, KILOBYTES = 2, 100_000


def block(kind: int, body: bytes) -> bytes:
    size = struct.pack("<I", 12 + len(body))
    return struct.pack("<I", kind) + size + body + size


SECTION = block(0x0A0D0D0A, struct.pack("<IHHq", 0x1A2B3C4D, 1, 0, -1))
INTERFACE = block(1, struct.pack("<HHI", 1, 0, 0))
EMPTY_OPTIONS = struct.pack("<HH", 1, 0) * (1 << 18)


def packet(frame: bytes, options: bytes = b"") -> bytes:
    return block(6, struct.pack("<IIIII", 0, 0, 0, len(frame), len(frame)) + frame + options)


# A command in a process that notes its processor time in seconds and its highest kilobytes.
MEASURED = """
import importlib, re, sys, time
main = importlib.import_module(f"macsec.cli.{sys.argv[2]}").main
try:
    sys.exit(main(sys.argv[3:]))
finally:
    kilobytes = re.search("VmHWM:\\s*(\\d+)", open("/proc/self/status").read())[1]
    open(sys.argv[1], "w").write(f"{time.process_time()} {kilobytes}")
"""


class Cost(InFolder):
    def cost(self, *words: str) -> tuple[int, str]:
        """The status of a command, and what it says. It is fast and small. The fastest of three runs counts, since a
        processor is slow while the machine has other work."""
        notes, seconds = self.folder / "NOTES", float(SECONDS)
        for _ in range(3):
            (self.folder / "OUT").unlink(missing_ok=True)
            told = subprocess.run([sys.executable, "-c", MEASURED, str(notes), *words], capture_output=True, text=True)
            took, kilobytes = notes.read_text().split()
            self.assertLess(int(kilobytes), KILOBYTES)
            seconds = float(took)
            if seconds < SECONDS:
                break
        self.assertLess(seconds, SECONDS)
        return told.returncode, told.stdout + told.stderr

    def test_small_files_of_large_content(self) -> None:
        frame = bytes(60)
        for name, octets, expected in (
            ("options", SECTION + INTERFACE + packet(frame, EMPTY_OPTIONS * 64), "a block has 67108956 octets"),
            ("options below the limit", SECTION + INTERFACE + packet(frame, EMPTY_OPTIONS * 15) * 4, "1000 options"),
            ("interfaces", SECTION + INTERFACE * 2_000_000, "more than 4096 interfaces"),
            ("options of an interface", SECTION + block(1, bytes(8) + EMPTY_OPTIONS * 64), "a block has 67108884"),
            ("other blocks", SECTION + block(0xBAD, b"") * 2_000_000, "65536 blocks without a packet"),
            ("a large block of others", SECTION + INTERFACE + block(0xBAD, bytes(1 << 26)) + packet(frame), "1 frame"),
        ):
            with self.subTest(name):
                path = self.put("IN", gzip.compress(octets))
                self.assertLess(os.path.getsize(path), 128_000)
                self.assertIn(expected, self.cost("decrypt", path, str(self.folder / "OUT"), "--key", KEY)[1])

    def test_long_lines_of_a_log(self) -> None:
        start = "create_transmit_sa -> 0 on 02:00:00:00:00:01::1 ("
        for text in (start * 16_000, "try_commit encrypt=" + "1" * 800_000, "a" * 4_000_000 + start):
            status, said = self.cost("config", "--wpa", self.put("LOG", text))
            self.assertEqual((status, "the log has no create_transmit_sa" in said), (2, True), said)

    def test_long_words_of_commands(self) -> None:
        for text in ("ip macsec add " + "a" * 1_000_000, ("ip addr add " + "a" * 4000 + "\n") * 250):
            self.assertIn("the commands make 0 macsec devices", self.cost("config", "--ip", self.put("FILE", text))[1])
        self.assertIn("has more than 1048576 octets", self.cost("config", "--ip", "/dev/zero")[1])

    def test_a_log_of_many_keys(self) -> None:
        start = "KaY: generated new SAK - hexdump(len=16): "
        lines = [start + number.to_bytes(16, "big").hex(" ") for number in range(20_000)]
        begin = time.process_time()
        self.assertEqual(len(keys_of(lines)), 20_000)
        self.assertLess(time.process_time() - begin, SECONDS)

    def test_a_key_on_a_long_line_is_read(self) -> None:
        log = b"KaY: generated new SAK - hexdump(len=16): " + KEYS[0].hex(" ").encode() + b" " * 9000 + b"\nnext\n"
        self.assertEqual([it.octets for it in keys_of(lines_of(io.BytesIO(log)))], [KEYS[0]])
        self.assertEqual(len(list(lines_of(io.BytesIO(log)))), 2)


class Cut(InFolder):
    def test_whole_records_are_used(self) -> None:
        """A capture that ends within a record: all records before it, a warning, status 1."""
        frames = client_frames(3)
        pcap = (self.folder / self.put("WHOLE", protected(frames))).read_bytes()
        writer = capture.PcapngFile(str(self.folder / "NG"))
        for frame in protected(frames):
            writer.write(0, frame, len(frame))
        writer.close()
        pcapng = (self.folder / "NG").read_bytes()
        packed = gzip.compress(pcap)
        damaged = packed[:-8] + bytes(8)
        for name, octets, count, fault in (
            ("pcap", pcap[:-1], 2, "the file ends within record 2"),
            ("pcap, in a header", pcap[: -len(protected(frames)[2]) - 3], 2, "the file ends within record 2"),
            ("pcapng", pcapng[:-1], 2, "the file ends within a block"),
            ("pcapng, a block at fault", pcapng + block(1, b""), 3, "record 3: its block is at fault"),
            ("gzip", packed[:-4], 3, "the compressed file is cut"),
            ("gzip, damaged", damaged, 3, "the compressed file is damaged: CRC"),
        ):
            with self.subTest(name):
                path, out = self.put("IN", octets), self.folder / "OUT"
                out.unlink(missing_ok=True)
                said = f"IN: {fault}"
                told = main_of(decrypt.main, path, out, "--key", KEY)
                self.assertEqual((told[0], [it.frame for it in capture.read(str(out))]), (1, frames[:count]))
                self.assertEqual((said in told[2], f"{count} frames opened" in told[1]), (True, True), told)
                told = main_of(why.main, self.put("CONFIG", CONFIG), path)
                self.assertEqual((told[0], said in told[2], f"OK {count}" in told[1]), (1, True, True), told)
                told = main_of(config.main, "--capture", path, "--key", KEY)
                self.assertEqual((told[0], said in told[2]), (1, True), told)
                self.assertIn("# the capture is cut", told[1])
                told = main_of(forge.main, "-", "--capture", path)
                self.assertEqual((told[0], said in told[2], told[1].count("inject")), (1, True, count), told)

    def test_what_is_not_seen_is_not_opened(self) -> None:
        """Status 3 for a record that can be a protected frame and was cut, or captured from another link."""
        (link,) = protected(client_frames(1))
        plain = client_frames(1)[0]
        tagged = plain[:12] + bytes.fromhex("81000007") + plain[12:]
        for name, octets, link_type, status in (
            ("protected", link[:40], 1, 3), ("behind a VLAN tag", link[:12] + bytes.fromhex("8100000788e5"), 1, 3),
            ("cut within a VLAN tag", tagged[:15], 1, 3), ("cut within the EtherType", link[:13], 1, 3),
            ("not protected", plain[:40], 1, 0), ("not protected, with a tag", tagged[:40], 1, 0),
            ("cooked, protected", bytes(14) + link[12:], 113, 3), ("cooked, plain", bytes(14) + plain[12:], 113, 0),
            ("cooked, newer", link[12:14] + bytes(18), 276, 3), ("cooked, cut", bytes(14), 113, 3),
            ("IP packets", bytes([0x45]) + bytes(50), 101, 0), ("of another link", plain, 147, 3),
        ):  # fmt: skip
            with self.subTest(name):
                writer = capture.PcapngFile(str(self.folder / "IN"))
                writer.write(0, octets, 2000, "", link_type)
                writer.write(0, link, len(link))
                writer.close()
                path, out = self.folder / "IN", self.folder / "OUT"
                self.assertEqual(main_of(decrypt.main, path, out, "--key", KEY)[0], status)
                self.assertEqual(main_of(why.main, self.put("CONFIG", CONFIG), path)[0], status)
                self.assertEqual(main_of(config.main, "--capture", path, "--key", KEY)[0], status)
                path.unlink()
                out.unlink()

    def test_times_that_pcap_has_not_are_counted(self) -> None:
        """The nearest time is taken, in OUT too, and each command says so once."""
        octets, said = SECTION, "2 records with a time outside 1970 to 2106: the nearest one is taken"
        for frame, at, offset in zip(protected(client_frames(3)), (1, 1 << 53, 1), (0, 0, -5)):
            which = struct.pack("<5I", 0, at >> 32, at & 0xFFFF_FFFF, len(frame), len(frame))
            octets += SECTION + block(1, struct.pack("<HHIHHq", 1, 0, 0, 14, 8, offset))
            octets += block(6, which + frame + bytes(-len(frame) % 4))
        path, out, page = self.put("IN", octets), self.folder / "OUT", self.folder / "PAGE"
        of = self.put("CONFIG", CONFIG), path
        for words in ((decrypt.main, path, out, "--key", KEY), (why.main, *of), (why.main, *of, "--json")):
            status, text, error = main_of(*words)
            self.assertEqual((status, text.count(said), error), (0, 1, ""), text)
        self.assertEqual([it.time for it in capture.read(str(out))], [1000, (10**9 << 32) - 1, 0])
        self.assertEqual(main_of(report.main, path, "-o", page, "--key", KEY)[0], 0)
        self.assertEqual(page.read_text().count(f"IN: {said}"), 1)

    def test_a_capture_is_no_configuration(self) -> None:
        path = self.put("IN", protected(client_frames(3)))
        told = main_of(config.main, "--lint", path)
        self.assertEqual(told, (3, "the text: this is a capture, not a CONFIG\n", ""))

    def test_what_is_no_capture_leaves_nothing(self) -> None:
        for octets in (b"", b"text", struct.pack("<I", 0xA1B2C3D4), SECTION[:-1], gzip.compress(b"text")[:-9]):
            path = self.put("IN", octets)
            status, out, error = main_of(decrypt.main, path, self.folder / "OUT", "--key", KEY)
            self.assertEqual((status, out, error.count("\n"), self.names()), (1, "", 1, ["IN"]), octets)

    def test_more_frames_than_are_kept_are_counted(self) -> None:
        path = self.put("IN", protected(client_frames(9), key=KEYS[1]))
        with mock.patch("macsec.explanation.MOST_FRAMES", 4):
            text = main_of(why.main, self.put("CONFIG", CONFIG), path)[1]
            told = main_of(why.main, self.put("CONFIG", CONFIG), path, "--json")[1].splitlines()
        self.assertIn(f"record 0-3 NotValid (4 frames), SCI {SENDER} AN 0:", text)
        self.assertIn(f"5 more frames NotValid, SCI {SENDER} AN 0:\n  the first 4 were looked at", text)
        self.assertEqual([json.loads(it)["unopened"].get("more") for it in told if "unopened" in it], [None, 5])


class Shown(InFolder):
    def told(self, main: Callable[[Sequence[str]], int], *words: object) -> str:
        status, out, error = main_of(main, *words)
        self.assertIn(status, (1, 2, 3))
        self.assertNotIn("Traceback", error)
        return out + error

    def test_control_characters_of_files(self) -> None:
        """Words of a file reach a terminal without control characters."""
        bell = "\x1b]0,title\x07\x9b"
        commands = "ip link add link eth0 macsec0 type macsec sci 1 "
        for main, option, text in (
            (config.main, "--lint", f"end A gcm128 {SENDER} 1546 {bell}\nA {bell}\n"),
            (config.main, "--to-ip", f"{bell} A\n"),
            (config.main, "--ip", f"{commands} cipher {bell}"),
            (config.main, "--ip", f"ip macsec add {bell} tx sa"),
            (config.main, "--ip-json", json.dumps([{"ifname": "a", "cipher_suite": bell}])),
            (config.main, "--ip-json", json.dumps([{"ifname": "a", "sci": bell}])),
        ):
            with self.subTest(option=option, text=text):
                told = self.told(main, option, self.put("FILE", text), *(["--key", KEY] if "json" in option else []))
                self.assertIn("title", told)
                self.assertNotRegex(told, "[\x00-\x08\x0b-\x1f\x7f-\x9f]")
        shown = main_of(config.main, "--ip", self.put("FILE", f"{commands} validate {bell}"))
        self.assertEqual((shown[0], "\x1b" in shown[1]), (0, False))

    def test_keys_are_in_no_message(self) -> None:
        keys = {"31 digits": KEY[:-1], "no digit": f"{KEY[:-1]}x", "33 digits": f"{KEY}0", "salt": f"{KEY}:{KEY}"}
        for name, key in keys.items():
            path = self.put("IN", protected(client_frames(1)))
            for words in (("--key", key), ("--keys", self.put("KEYS", f"# comment\n{key}\n"))):
                told = self.told(decrypt.main, path, self.folder / "OUT", *words)
                self.assertNotIn(KEY[:16], told, name)
                if words[0] == "--keys":
                    self.assertIn("KEYS:2: the ", told)
        told = self.told(decrypt.main, path, self.folder / "OUT", "--key", KEY[:-1])
        self.assertIn("--key: the key has 31 digits, 32 or 64 expected", told)
        for option, text in (
            ("--ip", f"ip link add macsec0 type macsec\nip macsec add macsec0 tx sa 0 on key {KEY}"),
            ("--ip", f"ip link add macsec0 type macsec\nip macsec add macsec0 tx sa 0 {KEY} key 00 {KEY}"),
            ("--ip", f"ip link add macsec0 type macsec sci {KEY[:-1]}x"),
            ("--lint", f"end A gcm128 {SENDER} 1546 sci\nA key 0 0 {KEY}\nA txsa 0 {KEY} 1 conf\nA {KEY}\n"),
        ):
            with self.subTest(option=option, text=text):
                self.assertNotIn(KEY[:16], self.told(config.main, option, self.put("FILE", text)))

    def test_a_plan_for_ip_has_no_key_among_arguments(self) -> None:
        """The lines are read by ip -batch, so that no list of processes shows a key."""
        _, text, _ = main_of(config.main, "--to-ip", self.put("CONFIG", CONFIG), "--dev", "eth1", "--name", "m.1")
        lines = text.splitlines()
        self.assertEqual({it.split()[0] for it in lines}, {"link", "macsec"})
        self.assertTrue(lines[0].startswith("link add link eth1 m.1 type macsec "))
        for name in ("a b", "a;reboot", "$(x)", "", "a" * 16, "a\n", "#"):
            self.assertEqual(main_of(config.main, "--to-ip", self.put("CONFIG", CONFIG), "--name", name or " ")[0], 2)


class Terminal(io.StringIO):
    def isatty(self) -> bool:
        return True


# macsec-decrypt where the system has no files without a name.
NAMED = """import sys
from macsec import capture
from macsec.cli import decrypt
capture._nameless_file = lambda folder: None
sys.exit(decrypt.main())
"""


class Ends(InFolder):
    def begun(self, *more: str, named: bool = False) -> subprocess.Popen[str]:
        """A macsec-decrypt that has made a file for the frames, with a name or without one, and waits for more."""
        os.mkfifo(self.folder / "IN")
        program = ["-c", NAMED] if named else ["-m", "macsec.cli.decrypt"]
        words = [sys.executable, *program, str(self.folder / "IN"), str(self.folder / "OUT")]
        it = subprocess.Popen([*more, *words, "--key", KEY], stdout=subprocess.PIPE, stderr=subprocess.PIPE, text=True)
        self.addCleanup(it.communicate)
        self.addCleanup(it.kill)
        self.pipe = open(self.folder / "IN", "wb")
        self.addCleanup(self.pipe.close)
        self.put("WHOLE", protected(client_frames(2)))
        self.pipe.write((self.folder / "WHOLE").read_bytes())
        self.pipe.flush()
        until = time.monotonic() + 60
        while not self.made(it.pid) and time.monotonic() < until:
            time.sleep(0.02)
        self.assertTrue(self.made(it.pid), "no file for the frames")
        self.assertEqual(len(self.names()), 3 if named else 2)
        return it

    def made(self, process: int) -> list[str]:
        """The files of the folder that a process has open and that the test did not make."""
        found = []
        for each in pathlib.Path(f"/proc/{process}/fd").iterdir():
            with contextlib.suppress(FileNotFoundError):
                found.append(os.readlink(each))
        return [it for it in found if it.startswith(f"{self.folder}/") and it != f"{self.folder}/IN"]

    def test_signals_leave_nothing(self) -> None:
        ends = (signal.SIGTERM, signal.SIGHUP, signal.SIGINT)
        for number, named in [*((it, named) for it in ends for named in (False, True)), (signal.SIGKILL, False)]:
            with self.subTest(number, named=named):
                it = self.begun(named=named)
                it.send_signal(number)
                out, error = it.communicate(timeout=120)
                self.assertEqual((it.returncode, out, error, self.names()), (-number, "", "", ["IN", "WHOLE"]))
                self.pipe.close()
                os.unlink(self.folder / "IN")

    def test_a_signal_that_is_ignored_stays_so(self) -> None:
        it = self.begun("env", "--ignore-signal=HUP")
        it.send_signal(signal.SIGHUP)
        time.sleep(0.3)
        self.pipe.close()
        out, error = it.communicate(timeout=120)
        self.assertEqual((it.returncode, error, self.names()), (0, "", ["IN", "OUT", "WHOLE"]))

    def test_closed_streams(self) -> None:
        path = self.put("IN", protected(client_frames(1)))
        shell = f'"$0" -m macsec.cli.decrypt {path} {self.folder}/OUT --key {KEY}'
        for closed, text in ((">&-", "macsec-decrypt: standard output is closed\n"), (">&- 2>&-", "")):
            told = subprocess.run(["sh", "-c", f"{shell} {closed}", sys.executable], capture_output=True, text=True)
            self.assertEqual((told.returncode, told.stderr, self.names()), (1, text, ["IN"]))

    def test_names_in_messages(self) -> None:
        path = self.put("IN", protected(client_frames(1)))
        for words, text in (
            ((path, "/nonexist/OUT"), "/nonexist/OUT: No such file or directory"),
            (("/nonexist/IN", self.folder / "OUT"), "/nonexist/IN: No such file or directory"),
            ((path, path), f"{path} exists: name a new file"),
            ((path, self.folder / "OUT", "--keys", "/nonexist/KEYS"), "/nonexist/KEYS: No such file or directory"),
        ):
            told = main_of(decrypt.main, *words, "--key", KEY)
            self.assertEqual(told, (1, "", f"macsec-decrypt: {text}\n"))

    def test_a_full_disk_is_named(self) -> None:
        path, out = self.put("IN", protected(client_frames(20))), self.folder / "OUT"
        most = resource.getrlimit(resource.RLIMIT_FSIZE)
        # A limit for files fails as a full disk does.
        resource.setrlimit(resource.RLIMIT_FSIZE, (900, most[1]))
        try:
            told = main_of(decrypt.main, path, out, "--key", KEY)
        finally:
            resource.setrlimit(resource.RLIMIT_FSIZE, most)
        self.assertEqual((told, self.names()), ((1, "", f"macsec-decrypt: {out}: File too large\n"), ["IN"]))
        words = [sys.executable, "-m", "macsec.cli.decrypt", path, str(out), "--key", KEY]
        with open("/dev/full", "wb") as full:
            it = subprocess.run(words, stdout=full, stderr=subprocess.PIPE, text=True)
        self.assertEqual((it.returncode, it.stderr), (1, "macsec-decrypt: standard output: No space left on device\n"))

    def test_progress_on_a_terminal(self) -> None:
        def slow(*words: object) -> str:
            told = Terminal()
            with contextlib.redirect_stdout(io.StringIO()), contextlib.redirect_stderr(told):
                self.assertEqual(why.main([str(it) for it in words]), 0)
            return told.getvalue()

        path = self.put("IN", protected(client_frames(2)))
        words = (self.put("CONFIG", CONFIG), path)
        self.assertEqual(slow(*words), "")
        add = why.Run._add

        def wait(*words: object) -> str:
            time.sleep(0.1)
            return add(*words)  # type: ignore[arg-type]

        with mock.patch.object(reading, "_PATIENCE", 0.05), mock.patch.object(why.Run, "_add", wait):
            self.assertRegex(slow(*words), "^\rmacsec-why: [0-9]+ records?, [0-9]+ %, 0 s\x1b\\[K(.|\r)*\r\x1b\\[K$")
