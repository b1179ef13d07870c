"""Standard input and output in place of files, the keys of a CONFIG, and the extcap of Wireshark."""

from __future__ import annotations

import fcntl
import json
import os
import pathlib
import select
import signal
import subprocess
import sys
import termios
import time
from typing import Callable
from unittest import mock

from macsec import Suite, capture, opener
from macsec.cli import decrypt, why
from macsec.config_keys import keys_of_config
from macsec.errors import UsageError
from macsec.frames import read_tag
from macsec.ivs import UsedIvs
from macsec.lint import lint
from macsec.trial import Key, KeyArgument

from .frames import client_frames, protected
from .helpers import CAPTURES, KEYS, OTHER, ROOT, SALT, SENDER, InFolder, environment, main_of

KEY = KEYS[0].hex()
RECEIVER = (CAPTURES / "receiver.config").read_text()
EXTCAP = ROOT / "integrations/wireshark/macsec-extcap"


def command(name: str, *words: object) -> list[str]:
    return [sys.executable, "-m", f"macsec.cli.{name}", *map(str, words)]


class Pipes(InFolder):
    def piped(self, octets: bytes, name: str, *words: object) -> tuple[int, bytes, str]:
        """The status of a command that reads standard input, and what it prints."""
        told = subprocess.run(command(name, *words), input=octets, capture_output=True)
        return told.returncode, told.stdout, told.stderr.decode()

    def test_frames_of_standard_output(self) -> None:
        frames = client_frames(3)
        whole = pathlib.Path(self.put("IN", protected(frames))).read_bytes()
        text = f"record 0: SCI {SENDER} AN 0 under key 1\n3 frames opened\n"
        out = self.folder / "OUT"
        for words in (("-", "-"), (self.folder / "IN", "-"), ("-", out)):
            with self.subTest(words):
                status, printed, error = self.piped(whole, "decrypt", *words, "--key", KEY)
                self.assertEqual(((error or printed.decode()), status), (text, 0))
                read = out if words[1] == out else self.put("PRINTED", printed)
                self.assertEqual([it.frame for it in capture.read(str(read))], frames)
        self.assertNotIn("-", self.names())

    def test_other_commands_read_standard_input(self) -> None:
        whole = (CAPTURES / "link.pcap").read_bytes()
        status, printed, _ = self.piped(whole, "why", CAPTURES / "receiver.config", "-")
        self.assertEqual((status, b"OK 3" in printed), (0, True))
        status, printed, _ = self.piped(whole, "why", CAPTURES / "receiver.config", "-", 1)
        self.assertIn(b"record 1 OK", printed)
        status, printed, _ = self.piped(whole, "config", "--capture", "-", "--config", CAPTURES / "receiver.config")
        self.assertEqual((status, printed.count(b"\nA rxon")), (0, 1))
        status, printed, error = self.piped(whole[:-1], "why", CAPTURES / "receiver.config", "-")
        self.assertEqual((status, b"OK 2" in printed), (1, True), error)

    def test_what_happens_is_said_at_once(self) -> None:
        """The key of a sender, and an IV that is used twice with what that means; the counts at the end."""
        frames = protected(client_frames(2)) + protected(client_frames(9)[8:], pn=2)
        words = command("decrypt", "-", "-", "--key", KEY)
        it = subprocess.Popen(words, stdin=subprocess.PIPE, stdout=subprocess.DEVNULL, stderr=subprocess.PIPE)
        self.addCleanup(it.communicate)
        self.addCleanup(it.kill)
        assert it.stdin is not None and it.stderr is not None
        key = f"record 0: SCI {SENDER} AN 0 under key 1\n"
        first = f"IV USED TWICE: records 1 and 2, key 1, SCI {SENDER}, PN 0x2\n"
        written = capture.pcap_header()
        for octets, expected in ((frames[0], key), (frames[1], ""), (frames[2], first)):
            it.stdin.write(written + capture.pcap_record(0, octets))
            it.stdin.flush()
            written = b""
            said = self.read_until(it.stderr.fileno(), lambda text, e=expected: text.endswith(b"\n") or not e)
            self.assertTrue(said.decode().startswith(expected), said)
        said += it.communicate()[1]
        lost, counts = said.decode().splitlines()[1:]
        self.assertEqual((counts, it.returncode), ("3 frames opened", 3))
        self.assertIn("reads the XOR of their data, and can forge frames under the key. Stop using it", lost)

    @staticmethod
    def read_until(file: int, is_there: Callable[..., bool]) -> bytes:
        found, until = b"", time.monotonic() + 60
        while not is_there(found) and time.monotonic() < until:
            if select.select([file], [], [], 0.05)[0]:
                found += os.read(file, 65536)
        return found

    def test_an_iv_used_twice_in_a_pipe(self) -> None:
        whole = (CAPTURES / "two-runs.pcap").read_bytes()
        status, printed, error = self.piped(whole, "decrypt", "-", "-", "--key", KEY, "--json")
        self.assertEqual(status, 3)
        lines = [json.loads(it) for it in error.splitlines()]
        self.assertEqual((lines[-1]["iv used twice"]["records"], lines[5]["iv_also_in"]), ([2, 5], 2))
        self.assertIn(b"IV USED TWICE: also in record 2", printed)

    def test_the_keyboard_ends_reading(self) -> None:
        """SIGINT ends a pipe as its end does: what was read until then is explained."""
        words = command("why", self.put("CONFIG", RECEIVER), "-")
        it = subprocess.Popen(words, stdin=subprocess.PIPE, stdout=subprocess.PIPE, stderr=subprocess.PIPE)
        assert it.stdin is not None
        it.stdin.write((CAPTURES / "link.pcap").read_bytes())
        it.stdin.flush()
        self.wait_until_read(it.stdin.fileno(), it.pid)
        it.send_signal(signal.SIGINT)
        printed, error = it.communicate(timeout=120)
        self.assertEqual((it.returncode, b"OK 3" in printed, error), (0, True, b""))

    @staticmethod
    def wait_until_read(pipe: int, reader: int) -> None:
        """Waits until nothing is left in a pipe, and the process that reads it has used that and sleeps."""
        until, sleeps = time.monotonic() + 60, 0
        while sleeps < 5 and time.monotonic() < until:
            is_read = fcntl.ioctl(pipe, termios.FIONREAD, bytes(4)) == bytes(4)
            state = pathlib.Path(f"/proc/{reader}/stat").read_text().rpartition(")")[2].split()[0]
            sleeps = sleeps + 1 if is_read and state == "S" else 0
            time.sleep(0.05)

    def test_a_reader_that_leaves(self) -> None:
        shell = f"cat {CAPTURES}/link.pcap | {' '.join(command('decrypt', '-', '-', '--key', KEY))} | head -c 1"
        told = subprocess.run(["sh", "-c", shell], capture_output=True)
        self.assertEqual(len(told.stdout), 1)
        self.assertNotIn(b"Traceback", told.stderr)

    def test_a_terminal_gets_no_frames(self) -> None:
        leader, follower = os.openpty()
        self.addCleanup(os.close, leader)
        words = command("decrypt", CAPTURES / "link.pcap", "-", "--key", KEY)
        told = subprocess.run(words, stdout=follower, stderr=subprocess.PIPE, text=True)
        os.close(follower)
        self.assertEqual((told.returncode, "standard output is a terminal" in told.stderr), (2, True))

    def test_senders_of_a_capture_without_an_end(self) -> None:
        """Of many senders the last ones are kept. One that comes again is opened again."""
        frames = client_frames(12)
        link = [protected(frames[n : n + 1], sci=f"02000000{n % 6:02x}000001", pn=n + 1)[0] for n in range(12)]
        with mock.patch.object(opener, "_MOST_STREAMS", 4):
            it = opener.Opener([KeyArgument(KEYS[0])])
            opened = [it.open(n, frame).frame for n, frame in enumerate(link)]
            self.assertEqual((opened, len(it._streams)), (frames, 4))
            it.close()

    def test_ivs_of_a_capture_without_an_end(self) -> None:
        used = UsedIvs(24)
        sender = used.sender(Key(KEYS[0], Suite.gcm128), bytes.fromhex(SENDER), 0)
        frames = protected(client_frames(5))
        tags = [tag for tag in map(read_tag, frames) if tag]
        for pn in range(5):
            used.add(pn, sender, 8 * pn, frames[pn], tags[pn])
        found = {pn: used.add(9, sender, 8 * pn, frames[pn - 1], tags[pn]) is not None for pn in (1, 4)}
        self.assertEqual(found, {1: False, 4: True})


class Configs(InFolder):
    def test_keys_of_a_config(self) -> None:
        found = keys_of_config((CAPTURES / "xpn.config").read_bytes())
        told = [(it.salt, it.ssci, it.sci and it.sci.hex(), it.an, it.id, it.upper) for it in found]
        of_sender = (SALT, 1, SENDER, 1, "key 0")
        self.assertEqual(told, [(*of_sender, 2), (*of_sender, None), (SALT, None, None, None, "key 0", None)])
        found = keys_of_config((CAPTURES / "sender.config").read_bytes())
        self.assertEqual([(it.sci and it.sci.hex(), it.an) for it in found], [(SENDER, 0), (None, None)])

    def test_decrypt_takes_them(self) -> None:
        frames = client_frames(3)
        for name, text, link in (
            ("a CONFIG", RECEIVER, protected(frames)),
            ("macsecd's file", f"device link eth0\n\tdevice persist\n{RECEIVER}device tap m0\n", protected(frames)),
            ("what it sends", (CAPTURES / "sender.config").read_text(), protected(frames)),
            ("another sender under the same key", RECEIVER, protected(frames, sci=OTHER)),
            ("extended", (CAPTURES / "xpn.config").read_text(), protected(frames, suite=Suite.xpn128, an=1, ssci=1)),
        ):
            with self.subTest(name):
                out = self.folder / "OUT"
                out.unlink(missing_ok=True)
                words = (self.put("IN", link), out, "--config", self.put("CONFIG", text))
                status, text, error = main_of(decrypt.main, *words)
                self.assertEqual((status, error, [it.frame for it in capture.read(str(out))]), (0, "", frames))
                self.assertIn("under key 0", text)
        config = self.put("CONFIG", "device link a\nend B\n")
        told = main_of(decrypt.main, words[0], self.folder / "NEW", "--config", config)
        self.assertEqual((told[0], "line 2: " in told[2]), (2, True), told)
        told = main_of(decrypt.main, words[0], self.folder / "NEW", "--keys", words[3])
        self.assertEqual((told[0], "CONFIG:1: a CONFIG, not keys" in told[2]), (2, True), told)
        with self.assertRaises(UsageError):
            keys_of_config(b"")

    def test_the_file_of_macsecd(self) -> None:
        """Its own lines are no faults here, and the others keep their numbers."""
        text = f"device link eth0\n{RECEIVER}"
        self.assertEqual(lint(text.encode()), lint(RECEIVER.encode()))
        self.assertEqual([it.line for it in lint(f"{text}A key\n".encode())], [7])
        self.assertEqual([it.name for it in lint(f"{RECEIVER}devices a\n".encode())], ["Word"])
        told = main_of(why.main, self.put("CONFIG", text), CAPTURES / "link.pcap")
        self.assertEqual(told[0], 0, told)


class Extcap(InFolder):
    def test_what_wireshark_asks(self) -> None:
        def asked(*words: str) -> list[str]:
            return subprocess.run([EXTCAP, *words], capture_output=True, text=True, check=True).stdout.splitlines()

        interfaces = asked("--extcap-interfaces", "--extcap-version=4.0")
        self.assertIn("interface {value=macsec}{display=MACsec, opened}", interfaces)
        of = ("--extcap-interface", "macsec")
        self.assertEqual(asked("--extcap-dlts", *of), ["dlt {number=1}{name=EN10MB}{display=Ethernet}"])
        options = asked("--extcap-config", *of)
        self.assertEqual([it.split("{call=")[1].split("}")[0] for it in options if it.startswith("arg")],
                         ["--device", "--keys", "--config", "--wpa", "--cak-file", "--only-opened"])  # fmt: skip
        self.assertIn("value {arg=0}{value=lo}{display=lo}", options)

    def started(self, script: str, *words: object) -> subprocess.Popen[str]:
        """The extcap, as Wireshark calls it, with a script in place of dumpcap."""
        (self.folder / "bin").mkdir(exist_ok=True)
        dumpcap = self.folder / "bin/dumpcap"
        dumpcap.write_text(f"#!/bin/sh\necho Capturing >&2\n{script}\n")
        dumpcap.chmod(0o755)
        fifo = self.folder / "FIFO"
        fifo.unlink(missing_ok=True)
        os.mkfifo(fifo)
        called = [EXTCAP, "--capture", "--extcap-interface", "macsec", "--fifo", fifo, "--device", "eth7", *words]
        with environment(PATH=f"{self.folder}/bin:{os.path.dirname(sys.executable)}:/usr/bin:/bin"):
            it = subprocess.Popen([str(word) for word in called], stderr=subprocess.PIPE, text=True)
        self.addCleanup(it.communicate)
        self.addCleanup(it.kill)
        return it

    def test_capture(self) -> None:
        """Frames are in the FIFO while they come; a signal ends it and what it started, and it says nothing."""
        script = f'echo "$@" > {self.folder}/WORDS\ncat {CAPTURES}/link.pcap\nexec sleep 60'
        words = ("--extcap-capture-filter", "ether", "--config", CAPTURES / "receiver.config", "--only-opened")
        it = self.started(script, *words)
        clients = [one.frame for one in capture.read(str(CAPTURES / "client.pcap"))]
        with open(self.folder / "FIFO", "rb") as fifo:
            packets = capture.read(fifo)
            self.assertEqual([next(packets).frame for _ in clients], clients)
            it.send_signal(signal.SIGTERM)
            self.assertEqual(list(packets), [])
        self.assertEqual((it.communicate(timeout=120)[1], it.returncode), ("", 0))
        self.assertEqual((self.folder / "WORDS").read_text(), "-q -i eth7 -w - -f ether\n")

    def test_what_both_say_is_printed_if_one_fails(self) -> None:
        frames, good = f"cat {CAPTURES}/link.pcap", CAPTURES / "receiver.config"
        for script, config, said in (
            (frames, good, ()),
            (f"{frames}; echo cut", good, ("Capturing", "macsec-decrypt: -: ")),
            ("echo no device >&2; exit 1", good, ("no device", "macsec-decrypt: -: ")),
            (f"{frames}; echo it is gone >&2; exit 1", good, ("under key 0", "it is gone")),
            (frames, self.put("CONFIG", "none"), ("Capturing", "macsec-decrypt: ")),
        ):
            with self.subTest(script):
                it = self.started(script, "--config", config)
                (self.folder / "FIFO").read_bytes()
                error = it.communicate(timeout=120)[1]
                self.assertEqual((it.returncode, bool(error)), (int(bool(said)), bool(said)), error)
                for each in said:
                    self.assertIn(each, error)

    def test_wireshark_closes_the_fifo(self) -> None:
        link = CAPTURES / "link.pcap"
        script = f"cat {link}; while sleep 0.1; do tail -c +25 {link} || exit; done"
        it = self.started(script, "--config", CAPTURES / "receiver.config")
        with open(self.folder / "FIFO", "rb") as fifo:
            self.assertTrue(fifo.read(8))
        self.assertEqual((it.communicate(timeout=120)[1], it.returncode), ("", 0))

    def test_faults(self) -> None:
        for words, text in (
            (["--capture"], "--capture needs --device and --fifo"),
            (["--capture", "--device", "eth0", "--fifo", "/f"], "dumpcap of Wireshark is not on the PATH"),
        ):
            told = subprocess.run([sys.executable, EXTCAP, *words], capture_output=True, text=True, env={"PATH": ""})
            self.assertEqual((told.returncode in (1, 2), told.stderr), (True, f"macsec-extcap: {text}\n"))
