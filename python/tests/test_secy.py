"""Endpoints: what is sent and received, what raises, and what a frame can be."""

from __future__ import annotations

import copy
import gc
import pickle
import threading
import unittest

import macsec
from macsec import Fate, Mode, SecY, Verdict

from .frames import client_frames, protected, sender
from .helpers import KEYS, OTHER, RECEIVER, SENDER


def receiver() -> SecY:
    it = SecY(RECEIVER)
    it.install_key(0, KEYS[0])
    it.add_rx_sc(SENDER)
    it.add_rx_sa(SENDER, 0, 0, 1, ssci=1)
    it.enable_rx_sa(SENDER, 0)
    return it


class Frames(unittest.TestCase):
    def test_what_a_frame_can_be(self) -> None:
        class Packet:
            def __bytes__(self) -> bytes:
                return client_frames(1)[0]

        (frame,) = client_frames(1)
        whole = b"".join(bytes([it, 0]) for it in frame)
        for given in (frame, bytearray(frame), memoryview(frame), memoryview(whole)[::2], Packet()):
            with sender() as a:
                self.assertEqual(a.send(given).frame, protected([frame])[0])
        with sender() as a:
            for wrong in (60, "00" * 60, [0] * 60, None):
                self.assertRaises(TypeError, a.send, wrong)
                self.assertRaises(TypeError, a.receive, wrong)

    def test_answers_are_kept(self) -> None:
        frames = client_frames(2)
        with sender() as a:
            first = a.send(frames[0])
            octets = bytes(first.frame or b"")
            a.send(frames[1])
            a.set_protect(False)
            self.assertEqual(a.send(frames[0]), (Fate.Plain, frames[0], None))
        self.assertEqual(first.frame, octets)

    def test_lengths(self) -> None:
        with sender() as a:
            for length, name in ((0, "Short"), (13, "Short"), (9249, "Long")):
                for call in (a.send, a.receive, a.send_uncontrolled):
                    with self.assertRaises(macsec.FrameFault) as why:
                        call(bytes(length))
                    self.assertEqual(why.exception.name, name)
            self.assertEqual(a.send_uncontrolled(bytes(14)), bytes(14))
            self.assertEqual(a.counters()["OutPktsEncrypted"], 0)


class Errors(unittest.TestCase):
    def test_a_refusal_has_number_and_name(self) -> None:
        with sender() as a:
            with self.assertRaises(macsec.Refused) as why:
                a.add_tx_sa(1, 9, 1, True)
            self.assertEqual((why.exception.number, why.exception.name, why.exception.line), (5, "NoKey", None))
            with self.assertRaises(macsec.TextFault) as fault:
                a.command("A txon")
            self.assertEqual((fault.exception.number, fault.exception.name), (47, "Count"))
            for key in (b"", bytes(17), bytes(33), bytes(300)):
                with self.assertRaises(macsec.MacsecError) as octets:
                    a.install_key(1, key)
                self.assertEqual(octets.exception.name, "NoSuchKeyOctets")
            self.assertRaises(macsec.NotFound, a.rx_counters, OTHER)
            self.assertRaises(LookupError, a.tx_sa, 1)

    def test_numbers_are_never_cut(self) -> None:
        """An argument of C is narrower than Python's numbers: 256 must not become association 0."""
        with sender() as a:
            wrong = (
                lambda: a.disable_tx_sa(256), lambda: a.disable_tx_sa(-1), lambda: a.retire_key(65_536),
                lambda: a.add_tx_sa(1, 0, 2**64, True), lambda: a.set_replay(True, 2**64),
                lambda: a.set_validation(2**32), lambda: a.add_rx_sa(OTHER, 0, 0, 1, 2**32),
                lambda: a.install_key(1, KEYS[1], offset=256), lambda: a.install_key(1, KEYS[1], salt=bytes(11)),
                lambda: a.add_rx_sc("02000000000100"), lambda: SecY(SENDER, max_frame=2**32 + 64),
            )  # fmt: skip
            for call in wrong:
                self.assertRaises(ValueError, call)
            self.assertRaises(TypeError, a.disable_tx_sa, 0.0)
            self.assertEqual(a.tx_sa(0).on, True)

    def test_closed(self) -> None:
        a = sender()
        a.close()
        a.close()
        for call in (lambda: a.send(bytes(14)), lambda: a.receive(bytes(14)), a.counters, lambda: a.enable_tx_sa(0)):
            with self.assertRaises(macsec.MacsecError) as why:
                call()
            self.assertEqual(why.exception.name, "Empty")

    def test_no_copies(self) -> None:
        with sender() as a:
            for copied in (copy.copy, copy.deepcopy, pickle.dumps):
                self.assertRaises(TypeError, copied, a)


class Journals(unittest.TestCase):
    def test_faults(self) -> None:
        journal = macsec.journal_header(bytes(24))
        config = f"end A gcm128 {SENDER} 1546 sci\n"
        for call in (
            lambda: SecY(SENDER, journal=journal[1:]), lambda: SecY.configure(config, b""),
            lambda: macsec.journal_compacted(bytes(64)),
            lambda: SecY.configure(config, journal).reserve_granted(bytes(64)),
            lambda: SecY.configure(config, journal).reserve_granted(bytes(63)),
        ):  # fmt: skip
            self.assertRaises(macsec.JournalFault, call)
        self.assertRaises(ValueError, macsec.journal_header, bytes(23))

    def test_ahead_is_an_option_of_a_journal(self) -> None:
        config = f"end A gcm128 {RECEIVER} 1546 sci\n"
        self.assertRaises(ValueError, lambda: SecY(RECEIVER, ahead=True))
        self.assertRaises(ValueError, lambda: SecY.configure(config, ahead=True))
        self.assertRaises(TypeError, lambda: SecY(RECEIVER, 1, 1, 1546, b"", True))  # type: ignore[misc]
        self.assertRaises(macsec.JournalFault, lambda: SecY(RECEIVER, journal=b"", ahead=True))


class Options(unittest.TestCase):
    def test_options_by_name_and_number(self) -> None:
        with SecY(SENDER) as a:
            a.set_validation("check")
            a.set_replay(True, 7)
            a.set_tag_form("es")
            a.set_protect(False)
            self.assertEqual(a.options(), (False, Mode.check, True, 7, macsec.Form.es))
            a.set_validation(Mode.strict)
            self.assertEqual(a.options().mode.name, "strict")
            self.assertEqual(a.keys_left(), 4096)


class Life(unittest.TestCase):
    def test_threads_share_an_endpoint(self) -> None:
        frames, sent, each = client_frames(50), [], 5
        with sender() as a:

            def work() -> None:
                for frame in frames:
                    sent.append(a.send(frame).frame)

            threads = [threading.Thread(target=work) for _ in range(each)]
            for thread in threads:
                thread.start()
            for thread in threads:
                thread.join()
        with receiver() as b:
            b.set_replay(False)
            verdicts = {b.receive(link).verdict for link in sent}
        self.assertEqual(len({link[16:20] for link in sent}), len(frames) * each)
        self.assertLessEqual(verdicts, {Verdict.OK, Verdict.Delayed})

    def test_many_endpoints_come_and_go(self) -> None:
        for _ in range(2000):
            SecY(SENDER).close()
        kept = [SecY(SENDER) for _ in range(50)]
        del kept
        gc.collect()
        with open("/proc/self/status", encoding="ascii") as file:
            size = next(int(it.split()[1]) for it in file if it.startswith("VmSize"))
        # In kB. Threads of other tests have some; 2,000 endpoints that stay would have 38 million.
        self.assertLess(size, 8_000_000)
