"""macsec-config --pair: two ends that understand each other, and no one else."""

from __future__ import annotations

import pathlib
import stat

from macsec import Suite
from macsec.cli.config import main
from macsec.endpoint_of_config import Configuration
from macsec.iproute import Devices

from .frames import client_frames
from .helpers import InFolder, main_of

ENDS = "alice=02:00:00:00:01:00@eth1", "bob=02-00-00-00-02-00"


def endpoint_of(text: str) -> Configuration:
    return Configuration("".join(it for it in text.splitlines(True) if not it.startswith("device ")).encode())


class Pair(InFolder):
    def made(self, *words: object) -> list[pathlib.Path]:
        status, text, error = main_of(main, "--pair", *ENDS, "--folder", self.folder, *words)
        self.assertEqual((status, error), (0, ""))
        return [pathlib.Path(it) for it in text.splitlines()]

    def test_each_suite_in_both_directions(self) -> None:
        for suite in filter(None, Suite):
            paths = self.made("--suite", suite.name)
            texts = [it.read_text() for it in paths]
            self.assertEqual([it.name for it in paths], ["alice.conf", "bob.conf"])
            self.assertEqual([stat.S_IMODE(it.stat().st_mode) for it in paths], [0o600, 0o600])
            self.assertIn("device link eth1\n", texts[0])
            self.assertIn("device link eth0\n", texts[1])
            alice, bob = map(endpoint_of, texts)
            self.assertEqual(alice.refusals + bob.refusals, [])
            for one, other in ((alice, bob), (bob, alice)):
                for frame in client_frames(3):
                    sent = one.secy.send(frame).frame
                    assert sent is not None
                    self.assertNotIn(frame[14:], sent)
                    received = other.secy.receive(sent)
                    self.assertEqual((received.verdict.name, received.frame), ("OK", frame))
            # Each direction has its own key, which neither the other direction nor another pair has.
            keys = [it.octets for it in (*alice.keys.values(), *bob.keys.values())]
            self.assertEqual(len(set(keys)), 2)
            for it in paths:
                it.unlink()
            again = [endpoint_of(it.read_text()) for it in self.made("--suite", suite.name)]
            self.assertTrue(set(keys).isdisjoint(it.octets for end in again for it in end.keys.values()))
            for it in paths:
                it.unlink()

    def test_an_end_of_linux(self) -> None:
        for suite in filter(None, Suite):
            conf, script = self.made("--suite", suite.name, "--ip-end", "bob", "--name", "sec7")
            self.assertEqual((script.name, stat.S_IMODE(script.stat().st_mode)), ("bob.batch", 0o600))
            plan = Devices(script.read_bytes().decode(), {}).plan("sec7", 1500)
            alice, bob = endpoint_of(conf.read_text()), Configuration(plan.text().encode())
            self.assertEqual(bob.refusals, [])
            for one, other in ((alice, bob), (bob, alice)):
                sent = one.secy.send(client_frames(1)[0]).frame
                assert sent is not None
                self.assertEqual(other.secy.receive(sent).verdict.name, "OK")
            conf.unlink()
            script.unlink()

    def test_nothing_is_written_over(self) -> None:
        for there in ("alice.conf", "bob.conf"):
            path = pathlib.Path(self.put(there, "mine"))
            status, _, error = main_of(main, "--pair", *ENDS, "--folder", self.folder)
            self.assertEqual((status, self.names(), path.read_text()), (2, [there], "mine"))
            self.assertIn(f"{path} is there already", error)
            path.unlink()
        (self.folder / "bob.conf").symlink_to(self.folder / "elsewhere")
        self.assertEqual(main_of(main, "--pair", *ENDS, "--folder", self.folder)[0], 2)
        self.assertEqual(self.names(), ["bob.conf"])

    def test_wrong_words(self) -> None:
        for words in (
            ["alice", ENDS[1]], ["a=02:00:00:00:01", ENDS[1]], ["a=03:00:00:00:01:00", ENDS[1]], [ENDS[0], ENDS[0]],
            ["../a=02:00:00:00:01:00", ENDS[1]], ["a=02:00:00:00:02:00", ENDS[1]], [*ENDS, "--ip-end", "carol"],
            ["a=02:00:00:00:01:00@", ENDS[1]],
        ):  # fmt: skip
            status, text, error = main_of(main, "--pair", *words, "--folder", self.folder)
            self.assertEqual((status, text, self.names()), (2, "", []), words)
            self.assertTrue(error.startswith("macsec-config: --"), error)
