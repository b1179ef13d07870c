"""What the commands print about themselves."""

from __future__ import annotations

import contextlib
import importlib
import os
import pathlib
import re
import shlex
import shutil
import subprocess
from collections.abc import Iterator

from .helpers import CAPTURES, KEYS, ROOT, InFolder, main_of
from .test_config import IP_COMMANDS

NAMES = re.findall("^macsec-([a-z]+) = ", (ROOT / "python/pyproject.toml").read_text(), re.M)


@contextlib.contextmanager
def within(folder: pathlib.Path) -> Iterator[None]:
    before = os.getcwd()
    os.chdir(folder)
    try:
        yield
    finally:
        os.chdir(before)


class Help(InFolder):
    def test_form(self) -> None:
        for name in NAMES:
            with self.subTest(name):
                main = importlib.import_module(f"macsec.cli.{name}").main
                status, text, error = main_of(main, "--help")
                self.assertEqual((status, error), (0, ""))
                order = "\noptions:\n", "--version", "\nexit status: 0", "\nexamples:\n", "Manual: man"
                found = [text.find(it) for it in (f"usage: macsec-{name} ", *order)]
                self.assertEqual((found, found[0]), (sorted(found), 0), text)
                self.assertEqual(main_of(main, "--version"), (0, f"macsec-{name} {(ROOT / 'VERSION').read_text()}", ""))

    def test_examples(self) -> None:
        """The examples of the help run, except examples with other programs or with interfaces."""
        ran = 0
        for name in NAMES:
            module = importlib.import_module(f"macsec.cli.{name}")
            for line in module.parser().epilog.split("examples:\n")[1].split("\n\n")[0].splitlines():
                words = shlex.split(line)
                if words[0] != f"macsec-{name}" or "--send" in words:
                    continue
                for it in ("link.pcap", "receiver.config"):
                    shutil.copy(CAPTURES / it, self.folder)
                shutil.copy(CAPTURES / "observer.config", self.folder)
                self.put("keys", f"{KEYS[0].hex()}\n")
                self.put("macsec-setup.sh", IP_COMMANDS)
                for it in ("clear.pcapng", "hostile.pcapng", "report.html", "judged.html"):
                    (self.folder / it).unlink(missing_ok=True)
                if "7" in words:
                    words[words.index("7")] = "1"
                with self.subTest(line), within(self.folder):
                    told = main_of(module.main, *(words[1 : words.index(">")] if ">" in words else words[1:]))
                    self.assertEqual((told[0], told[2]), (0, ""))
                    ran += 1
        self.assertGreater(ran, 8)

    def test_tried_commands(self) -> None:
        """python/tried_command.sh is each command that `make try` puts into build/try."""
        there = self.folder / "build/try"
        there.mkdir(parents=True)
        (self.folder / "python").symlink_to(ROOT / "python")
        for name in NAMES:
            shutil.copy(ROOT / "python/tried_command.sh", there / f"macsec-{name}")
            os.symlink(there / f"macsec-{name}", self.folder / f"macsec-{name}")
            for path in (there / f"macsec-{name}", self.folder / f"macsec-{name}"):
                environment = {"PATH": os.environ["PATH"], "MACSEC_LIBRARY": os.environ["MACSEC_LIBRARY"]}
                told = subprocess.run([path, "--version"], cwd="/", capture_output=True, text=True, env=environment)
                self.assertEqual(told.stdout, f"macsec-{name} {(ROOT / 'VERSION').read_text()}", told.stderr)
