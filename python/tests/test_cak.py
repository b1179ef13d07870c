"""SAKs from a CAK: captures of wpa_supplicant with what it logged, MKPDUs that the tests make, and hostile ones."""

from __future__ import annotations

import importlib.util
import json
import random
import re
import shutil
import subprocess
import sys
import time
import unittest
from unittest import mock

from macsec import SecY, Suite, UsageError, capture
from macsec.cak import Cak, KeyAgreements, cak_of, caks_of_file, derived, salt_of
from macsec.cli import config, decrypt, report
from macsec.mka import read_mkpdu

from .frames import client_frames, protected
from .helpers import DATA, KEYS, OTHER, SALT, InFolder, main_of

HAS_CRYPTOGRAPHY = importlib.util.find_spec("cryptography") is not None
NEEDS = unittest.skipUnless(HAS_CRYPTOGRAPHY, "the Python package cryptography is not installed")
CAK, CKN = bytes(range(16)), bytes(range(32, 64))
# The captures that tests/data/README.md describes, with the suite, the offset, and how many SAKs there are.
CAPTURES = (
    ("cak-rekeys", Suite.gcm128, 0, 11), ("cak-256", Suite.gcm256, 0, 2), ("cak-integrity", Suite.gcm128, 0, 2),
    ("cak-offset", Suite.gcm128, 30, 2), ("cak-linux", Suite.gcm128, 0, 5),
)  # fmt: skip


def frames_of(name: str) -> list[bytes]:
    return [it.frame for it in capture.read(str(DATA / f"{name}.pcap"))]


def logged(name: str) -> list[str]:
    """The SAKs that wpa_supplicant logged, in order."""
    return [it for it in (DATA / f"{name}.keys").read_text().splitlines() if not it.startswith("#")]


def learned(frames: list[bytes], *caks: Cak) -> KeyAgreements:
    it = KeyAgreements(caks)
    for record, frame in enumerate(frames):
        it.add(record, frame)
    return it


class Member:
    """Makes MKPDUs, as a member of an agreement that knows the CAK."""

    IDENTIFIERS = {suite: bytes.fromhex(f"0080c2000100000{number}") for number, suite in enumerate(Suite)}

    def __init__(self, sci: str, cak: bytes = CAK, ckn: bytes = CKN) -> None:
        from cryptography.hazmat.primitives import cmac, keywrap
        from cryptography.hazmat.primitives.ciphers.algorithms import AES

        self.sci, self.ckn = bytes.fromhex(sci), ckn
        self.mi = bytes.fromhex("c0ffee00") + self.sci

        def tag_of(key: bytes, octets: bytes) -> bytes:
            made = cmac.CMAC(AES(key))
            made.update(octets)
            return made.finalize()

        self._tag_of, self._wrap = tag_of, keywrap.aes_key_wrap
        self._kek, self._ick = (derived(tag_of, cak, it, ckn) for it in (b"IEEE8021 KEK", b"IEEE8021 ICK"))

    def frame(self, *sets: bytes) -> bytes:
        basic = self.sci + self.mi + bytes.fromhex("000000010080c201") + self.ckn
        head = bytes([3, 16]) + (0xF000 | len(basic)).to_bytes(2, "big")
        body = head + basic + bytes(-len(basic) % 4) + b"".join(sets)
        start = bytes.fromhex("0180c2000003") + self.sci[:6] + b"\x88\x8e\x03\x05"
        covered = start + (len(body) + 16).to_bytes(2, "big") + body
        return covered + self._tag_of(self._ick, covered)

    def as_cisco(self, frame: bytes) -> bytes:
        """The same MKPDU with the EtherType 876f. The ICV is over that too."""
        covered = frame[:12] + b"\x87\x6f" + frame[14:-16]
        return covered + self._tag_of(self._ick, covered)

    def live(self, *others: Member, ssci: int = 0) -> bytes:
        return _set(1, ssci, b"".join(it.mi + bytes([0, 0, 0, 1]) for it in others))

    def sak(self, key: bytes, suite: Suite, an: int = 0, number: int = 1) -> bytes:
        identifier = b"" if suite == Suite.gcm128 else self.IDENTIFIERS[suite]
        return _set(4, an << 6 | 0x10, number.to_bytes(4, "big") + identifier + self._wrap(self._kek, key))


def _set(kind: int, octet: int, body: bytes) -> bytes:
    return bytes([kind, octet]) + len(body).to_bytes(2, "big") + body + bytes(-len(body) % 4)


@NEEDS
class Distribution(InFolder):
    def test_what_wpa_supplicant_logged(self) -> None:
        for name, suite, offset, count in CAPTURES:
            with self.subTest(name):
                it = learned(frames_of(name), *caks_of_file(str(DATA / f"{name}.cak")))
                keys = [sak.key for sak in it.saks]
                self.assertEqual([key.octets.hex() for key in keys], logged(name))
                self.assertEqual(({key.suite for key in keys}, {key.offset for key in keys}), ({suite}, {offset}))
                self.assertEqual([key.an for key in keys], [number % 4 for number in range(count)])
                self.assertEqual((it.invalid, it.unnamed, it.notes()), (0, 0, []))

    def test_its_kek_and_ick(self) -> None:
        for name, *_ in CAPTURES:
            (cak,) = caks_of_file(str(DATA / f"{name}.cak"))
            it = learned(frames_of(name), cak)
            found = re.search(r"KEK (\w+), ICK (\w+)", (DATA / f"{name}.keys").read_text())
            pairs = [tuple(key.hex() for key in pair) for pair in it._keys.values()]
            self.assertEqual(pairs, [found and found.groups()])

    def test_names_of_caks(self) -> None:
        (cak,) = caks_of_file(str(DATA / "cak-256.cak"))
        frames = frames_of("cak-256")
        other, padded = bytes(32), Member("0200000000010001", ckn=b"\x07" + bytes(31))
        for given, count, note in (
            (cak, 2, None),
            (cak._replace(ckn=None), 2, None),
            (Cak(other, None), 0, "with another ICV"),
            (Cak(other, cak.ckn), 0, "with another ICV"),
            (cak._replace(ckn=b"\x01"), 0, "of another CAK name"),
        ):
            it = learned(frames, given)
            self.assertEqual(len(it.saks), count)
            self.assertIn(note or "", " ".join(it.notes()))
            self.assertEqual(bool(it.notes()), note is not None)
        # Devices that add zeros to a name have the same keys.
        distributed = [padded.frame(padded.sak(other[:16], Suite.gcm128))]
        self.assertEqual(len(learned(distributed, Cak(CAK, b"\x07")).saks), 1)
        for length in range(1, 33):
            member = Member("0200000000010001", ckn=bytes([7]) * length)
            it = learned([member.frame(member.live(), member.sak(CAK, Suite.gcm128))], Cak(CAK, bytes([7]) * length))
            self.assertEqual(len(it.saks), 1, length)
        self.assertIn("from before the keys are agreed", learned(frames[:2], cak).notes()[0])

    def test_a_capture_that_begins_late(self) -> None:
        (cak,) = caks_of_file(str(DATA / "cak-linux.cak"))
        it = learned(frames_of("cak-linux")[8:], cak)
        self.assertEqual(len(it.saks), 4)
        self.assertEqual(it.notes(), ["key number 1 is in use, and was distributed before the capture"])

    def test_no_octet_can_be_altered(self) -> None:
        (cak,) = caks_of_file(str(DATA / "cak-rekeys.cak"))
        frame = next(it for it in frames_of("cak-rekeys") if (found := read_mkpdu(it)) and found.sak)
        self.assertEqual(len(learned([frame], cak).saks), 1)
        for place in range(len(frame)):
            altered = frame[:place] + bytes([frame[place] ^ 4]) + frame[place + 1 :]
            self.assertEqual(learned([altered], cak).saks, [], place)

    def test_tags_and_padding(self) -> None:
        (cak,) = caks_of_file(str(DATA / "cak-rekeys.cak"))
        frame = next(it for it in frames_of("cak-rekeys") if (found := read_mkpdu(it)) and found.sak)
        for made in (frame[:12] + bytes.fromhex("81000005") + frame[12:], frame + bytes(9)):
            self.assertEqual(len(learned([made], cak).saks), 1)

    def test_extended_suites(self) -> None:
        """wpa_supplicant 2.10 has none of them: these MKPDUs are made here."""
        server, peer = Member("0200000000010001"), Member("0200000000020001")
        for suite, key in ((Suite.xpn128, bytes(16)), (Suite.xpn256, bytes(range(32)))):
            distributed = server.frame(server.live(peer), server.sak(key, suite, 2, 0x01020304))
            it = learned([peer.frame(), distributed], Cak(CAK, CKN))
            ((_, argument, number, sci, _),) = it.saks
            self.assertEqual((argument.octets, argument.suite, argument.an), (key, suite, 2))
            self.assertEqual((number, sci.hex()), (0x01020304, "0200000000010001"))
            self.assertEqual(argument.salt, salt_of(server.mi, number))
            self.assertEqual(argument.salt and argument.salt.hex(), "c3fbef020200000000010001")
            self.assertEqual(argument.sscis[:2], ((peer.sci, 1), (server.sci, 2)))

    def test_hostile_frames(self) -> None:
        """Random ones, cut ones, and MKPDUs with many names, members, peers and SAKs: no fault, in bounded time."""
        source, begun = random.Random(1), time.process_time()
        (cak,) = caks_of_file(str(DATA / "cak-linux.cak"))
        real = [it for it in frames_of("cak-linux") if read_mkpdu(it)]
        it = KeyAgreements([cak, Cak(CAK)])
        for _ in range(4000):
            frame = bytearray(source.choice(real))
            for _ in range(source.randrange(1, 6)):
                frame[source.randrange(14, len(frame))] = source.randrange(256)
            it.add(0, bytes(frame[: source.randrange(1, len(frame) + 1)]))
            it.add(0, bytes(frame))
            it.add(0, bytes(frame[:14]) + source.randbytes(source.randrange(200)))
        server = Member("0200000000010001")
        overrun = server.frame(*[server.live(server)] * 80, server.sak(CAK, Suite.gcm128), b"\x04\x00\x0f\xff")
        self.assertIsNone(read_mkpdu(overrun))
        for number in range(600):
            it.add(0, Member("0200000000010001", bytes(16), number.to_bytes(4, "big")).frame())
            it.add(0, overrun)
        self.assertEqual([sak for sak in it.saks if sak.ckn != cak.ckn], [])
        self.assertLessEqual(len(it._keys), 512)
        self.assertLess(time.process_time() - begun, 30)

    def test_many_parameter_sets(self) -> None:
        """The longest EAPOL frame that there can be, of the shortest sets of an unknown type, with a SAK at the end."""
        server = Member("0200000000010001")
        frame = server.frame(b"\x09\x00\x00\x00" * 16_000, server.sak(CAK, Suite.gcm128))
        self.assertEqual(len(learned([frame], Cak(CAK)).saks), 1)

    def test_texts(self) -> None:
        settings = "network={\n\tmka_cak=" + CAK.hex() + "\n\tmka_ckn=" + CKN.hex() + "\n}\n"
        for text in (f"# one\n{CAK.hex()} {CKN.hex()}\n", settings):
            self.assertEqual(caks_of_file(self.put("FILE", text)), [Cak(CAK, CKN)])
        self.assertEqual(caks_of_file(self.put("FILE", CAK.hex())), [Cak(CAK)])
        too_long, short = f"{CAK.hex()} " + "00" * 33, f"mka_cak={CAK.hex()[2:]}\nmka_ckn=01"
        for text in ("", "00", "00 00 00", f"{CAK.hex()}0 01", too_long, short):
            with self.assertRaises(UsageError) as why:
                caks_of_file(self.put("FILE", text))
            self.assertNotIn(CAK.hex()[2:], str(why.exception))
        self.assertEqual(cak_of(CAK.hex() * 2, None), Cak(CAK * 2))

    @unittest.skipIf(shutil.which("tshark") is None, "tshark is not installed")
    def test_the_grammar_is_that_of_tshark(self) -> None:
        names = "sci actor_mi cak_name icv peer_mi key_number distributed_an aes_key_wrap_sak"
        server, peer = Member("0200000000010001"), Member("0200000000020001")
        made = [server.frame(server.live(peer, ssci=2), server.sak(bytes(32), Suite.xpn256, 3, 9)), peer.frame()]
        for frames in ([it for name, *_ in CAPTURES for it in frames_of(name)], made):
            words = ["tshark", "-r", self.put("IN", frames), "-Y", "mka", "-T", "fields", "-E", "aggregator=,"]
            words += [word for name in names.split() for word in ("-e", f"mka.{name}")]
            shown = subprocess.run(words, capture_output=True, text=True, check=True).stdout.splitlines()
            found = [it for it in map(read_mkpdu, frames) if it]
            self.assertEqual(len(shown), len(found))
            for line, it in zip(shown, found):
                sci, member, ckn, icv, peers, number, an, wrapped = line.split("\t")
                self.assertEqual((sci, member, ckn, icv), tuple(x.hex() for x in (it.sci, it.member, it.ckn, it.icv)))
                self.assertEqual(set(filter(None, peers.split(","))) >= {x.hex() for x in it.live}, True)
                if it.sak:
                    self.assertEqual((number, an), (f"{it.sak.number:08x}", str(it.sak.an)))
                    self.assertEqual(wrapped, it.sak.wrapped.hex())
                else:
                    self.assertEqual(wrapped, "")


@NEEDS
class Commands(InFolder):
    def decrypted(self, path: object, *words: object) -> tuple[int, list[dict], list[bytes]]:
        """The status, what is printed, and the frames of OUT."""
        (self.folder / "OUT").unlink(missing_ok=True)
        status, out, error = main_of(decrypt.main, path, self.folder / "OUT", "--json", *words)
        self.assertEqual(error, "")
        frames = [it.frame for it in capture.read(str(self.folder / "OUT"))]
        return status, list(map(json.loads, out.splitlines())), frames

    def test_a_cak_opens_what_the_logged_keys_open(self) -> None:
        for name, suite, offset, count in CAPTURES:
            path, keys = DATA / f"{name}.pcap", DATA / f"{name}.keys"
            for words in (["--cak-file", DATA / f"{name}.cak"], self.words_of(name)):
                status, shown, frames = self.decrypted(path, *words)
                self.assertEqual((status, frames), (0, self.decrypted(path, "--keys", keys)[2]))
                saks = [it["sak"] for it in shown if "sak" in it]
                self.assertEqual([it["key_number"] for it in saks], list(range(1, count + 1)))
                self.assertEqual({(it["suite"], it["offset"]) for it in saks}, {(suite.name, offset)})
                named = {it.get("key") for it in shown if it.get("state") == "opened"}
                self.assertEqual(named, {it["name"] for it in saks})
                self.assertFalse([it for it in logged(name) if it in json.dumps(shown)])

    def words_of(self, name: str) -> list[str]:
        (cak,) = caks_of_file(str(DATA / f"{name}.cak"))
        return ["--cak", cak.octets.hex(), "--ckn", (cak.ckn or b"").hex()]

    def test_a_config_from_a_capture(self) -> None:
        for name in ("cak-256", "cak-offset"):
            path = DATA / f"{name}.pcap"
            status, text, _ = main_of(config.main, "--capture", path, "--cak-file", DATA / f"{name}.cak")
            status_of_keys, by_keys, _ = main_of(config.main, "--capture", path, "--keys", DATA / f"{name}.keys")
            self.assertEqual((status, status_of_keys), (0, 0))
            self.assertEqual([it for it in text.splitlines() if not it.startswith("# record")], by_keys.splitlines())
        self.assertIn("# the capture has 6 MKPDUs", main_of(config.main, "--capture", DATA / "cak-256.pcap")[1])

    def test_extended_packet_numbers(self) -> None:
        """20 members with SSCIs by their SCIs, and by their order in the list of live peers: the CAK is enough."""
        for is_by_order in (False, True):
            members = [Member(f"02000000{number:04x}0001") for number in range(1, 21)]
            server, key = members[0], bytes(range(32))
            salt = salt_of(server.mi, 5)
            frames = [it.frame() for it in members]
            live = server.live(*members[1:], ssci=1 if is_by_order else 0)
            frames.append(server.frame(live, server.sak(key, Suite.xpn256, 1, 5)))
            for number, member in enumerate(members, 1):
                ssci = number if is_by_order else 21 - number
                with SecY(member.sci, Suite.xpn256) as it:
                    it.install_key(0, key, ssci=ssci, salt=salt)
                    it.add_tx_sa(1, 0, 1, True)
                    it.enable_tx_sa(1)
                    frames.append(it.send(client_frames(1, member.sci.hex())[0]).frame or b"")
            status, shown, _ = self.decrypted(self.put("IN", frames), "--cak", CAK.hex())
            self.assertEqual((status, sum(it.get("state") == "opened" for it in shown)), (0, 20))

    def test_what_mka_shows_of_numbers_without_a_cak(self) -> None:
        """The upper half that an MKPDU names, and the SCIs of the members."""
        member = Member(OTHER)
        frames = [member.frame(_set(8, 0, bytes.fromhex("0012345600000000")))]
        frames += protected(client_frames(3), suite=Suite.xpn128, pn=0x12_3456_0000_0001)
        self.assertEqual(self.decrypted(self.put("IN", frames), "--key", f"{KEYS[0].hex()}:{SALT.hex()}")[0], 0)

    def test_frames_before_the_one_that_has_their_key(self) -> None:
        """A file is read twice; a pipe is not. Cisco's WAN links have another EtherType for MKA."""
        name = "cak-256"
        frames = frames_of(name)
        agreement = [it for it in frames if it[12:14] == b"\x88\x8e"]
        late = [it for it in frames if it not in agreement] + agreement
        words = ["--cak-file", DATA / f"{name}.cak"]
        status, shown, opened = self.decrypted(self.put("IN", late), *words)
        self.assertEqual((status, sorted(opened)), (0, sorted(self.decrypted(DATA / f"{name}.pcap", *words)[2])))
        self.assertGreater(min(it["sak"]["record"] for it in shown if "sak" in it), len(late) - len(agreement) - 1)
        self.assertEqual(main_of(config.main, "--capture", self.folder / "IN", *words)[0], 0)
        told = main_of(report.main, self.folder / "IN", "-o", self.folder / "R", *words)
        self.assertEqual(told, (0, "", ""))
        with open(self.folder / "IN", "rb") as file, mock.patch("sys.stdin", mock.Mock(buffer=file)):
            self.assertEqual(self.decrypted("-", *words)[0], 3)

    def test_another_ethertype(self) -> None:
        member, key = Member(OTHER), KEYS[3]
        sak = member.frame(member.sak(key, Suite.gcm128))
        frames = [member.as_cisco(sak), *protected(client_frames(3), key=key)]
        self.assertEqual(
            self.decrypted(self.put("IN", frames), "--cak", CAK.hex())[::2], (0, [frames[0], *client_frames(3)])
        )
        altered = [frames[0][:13] + b"\x8e" + frames[0][14:], *frames[1:]]
        self.assertEqual(self.decrypted(self.put("IN", altered), "--cak", CAK.hex())[0], 3)

    def test_hints(self) -> None:
        (cak,) = caks_of_file(str(DATA / "cak-256.cak"))
        whole, later = DATA / "cak-256.pcap", self.put("LATER", frames_of("cak-256")[5:9])
        for path, words, text in (
            (whole, ("--key", "00" * 16), "the capture has 6 MKPDUs: with the CAK, --cak takes the keys"),
            (whole, ("--cak", "00" * 16), "6 MKPDUs with another ICV: another CAK, or altered"),
            (whole, ("--cak", "00" * 16, "--ckn", "01"), "6 MKPDUs of another CAK name"),
            (later, ("--cak", cak.octets.hex()), "the capture has no MKPDU"),
        ):
            status, shown, _ = self.decrypted(path, *words)
            self.assertEqual(status, 3)
            self.assertIn(text, " ".join(it.get("hint", "") for it in shown))

    def test_options(self) -> None:
        path = DATA / "cak-256.pcap"
        empty = self.put("E", "")
        for words in (("--cak", "00"), ("--ckn", "01"), ("--cak", "00" * 16, "--ckn", "0"), ("--cak-file", empty)):
            for command in ((decrypt.main, path, self.folder / "OUT"), (config.main, "--capture", path)):
                status, out, error = main_of(command[0], *command[1:], *words)
                self.assertEqual((status, out), (2, ""), words)
                self.assertTrue(error)
        self.assertEqual(main_of(config.main, "--lint", path, "--cak", "00" * 16)[0], 2)
        self.assertEqual(main_of(decrypt.main, path, self.folder / "OUT", "--cak-file", self.folder / "none")[0], 1)
        self.assertEqual(self.names(), ["E"])


class Missing(unittest.TestCase):
    def test_without_cryptography(self) -> None:
        """The text says where the package is. Frames of MKA are read without it too, if no CAK is given."""
        names = [it for it in sys.modules if it.split(".")[0] == "cryptography"]
        with mock.patch.dict(sys.modules, {"cryptography": None, **dict.fromkeys(names)}):
            with self.assertRaises(UsageError) as why:
                KeyAgreements([Cak(CAK)])
            self.assertEqual(learned(frames_of("cak-256")).seen, 6)
        self.assertIn("python3-cryptography", str(why.exception))
        self.assertIn("pip install cryptography", str(why.exception))
