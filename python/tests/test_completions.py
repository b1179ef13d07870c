"""The completions that tools/completions writes, and what bash offers by them."""

from __future__ import annotations

import os
import pathlib
import re
import subprocess
import sys
import tempfile
import unittest

from .helpers import ROOT

# What is typed, the last word begun, in a folder with the files frames.pcap and keys.txt; and what has to be offered.
TYPED = {
    "macsec pro": {"protect"},
    "macsec run fra": {"frames.pcap"},
    "macsec validate CONFIG IN fra": {"frames.pcap"},
    "macsec protect CONFIG IN OUT fra": set(),
    "macsecd --cre": {"--create-journal"},
    "macsecctl macsec0 cou": {"counters"},
    "macsec-link rel": {"release"},
    "macsec-link d": {"doctor"},
    "macsec-decrypt fra": {"frames.pcap"},
    "macsec-decrypt --keys key": {"keys.txt"},
    "macsec-decrypt --suite xpn1": {"xpn128"},
    "macsec-decrypt --suite xpn128 fra": {"frames.pcap"},
    "macsec-decrypt IN --only": {"--only-opened"},
    "macsec-config --ip-j": {"--ip-json"},
    "macsec-config --as ob": {"observer"},
    "macsec-why CONFIG fra": {"frames.pcap"},
    "macsec-report IN IN fra": {"frames.pcap"},
    "macsec-report IN -o OUT --ke": {"--key", "--keys"},
    "macsec-report --config key": {"keys.txt"},
    "macsec-forge --each oc": {"octet"},
    "macsec-forge --hos": {"--hostile"},
}  # fmt: skip
BASH = """
source {file}
COMP_WORDS=({words}) COMP_CWORD={last}
{function} 2> /dev/null
printf '%s\\n' "${{COMPREPLY[@]}}"
"""


def in_python() -> list[str]:
    return re.findall("^(macsec-[a-z]+) = ", (ROOT / "python/pyproject.toml").read_text(), re.M)


class Completions(unittest.TestCase):
    @classmethod
    def setUpClass(cls) -> None:
        room = tempfile.TemporaryDirectory()
        cls.addClassCleanup(room.cleanup)
        cls.folder = pathlib.Path(room.name)
        words = [sys.executable, ROOT / "tools/completions", "program", "device", "python", "--to", cls.folder]
        subprocess.run(words, check=True)
        cls.work = cls.folder / "work"
        cls.work.mkdir()
        for name in ("frames.pcap", "keys.txt"):
            (cls.work / name).touch()

    def test_every_command_has_them(self) -> None:
        names = ["macsec", "macsecd", "macsecctl", "macsec-link", *in_python()]
        for folder, form in (("bash-completion/completions", "{}"), ("zsh/site-functions", "_{}"),
                             ("fish/vendor_completions.d", "{}.fish")):  # fmt: skip
            self.assertEqual(set(os.listdir(self.folder / "share" / folder)), {form.format(it) for it in names})

    def test_every_option_is_there(self) -> None:
        """The help names no option that a completion lacks."""
        self.assertGreater(len(in_python()), 3)
        for name in in_python():
            module = f"macsec.cli.{name.removeprefix('macsec-')}"
            helped = subprocess.run([sys.executable, "-m", module, "--help"], capture_output=True, text=True)
            options = set(re.findall(r"^  .*?(--[a-z-]+)", helped.stdout.split("examples:")[0], re.M))
            for path in self.folder.rglob(f"*{name}*"):
                text = path.read_text()
                missing = [it for it in options if it not in text and f"-l {it[2:]} " not in text]
                self.assertEqual((missing, len(options) > 3), ([], True), path)

    def test_every_request_is_there(self) -> None:
        """Offered are the requests of requests.c, the `A` of lines for the endpoint, `load`, and macsecctl's own."""
        answered = (ROOT / "device/requests.c").read_text()
        form = r'(?:words_(?:is|are)\(w, 0, |\{ (?="\w+", answer_))"(\w+)'
        names = set(re.findall(form, answered)) | {"A", "load", "watch", "help"}
        text = (self.folder / "share/bash-completion/completions/macsecctl").read_text()
        (offered,) = re.findall(r'compgen -W "([\w ]+)"', text)
        self.assertEqual((set(offered.split()), len(names) > 10), (names, True))

    def test_bash(self) -> None:
        for typed, offered in TYPED.items():
            words = typed.split()
            file = self.folder / "share/bash-completion/completions" / words[0]
            script = BASH.format(file=file, words=" ".join(words), last=len(words) - 1,
                                 function="_" + words[0].replace("-", "_"))  # fmt: skip
            told = subprocess.run(["bash", "-c", script], cwd=self.work, capture_output=True, text=True)
            self.assertEqual((set(told.stdout.split()), told.stderr), (offered, ""), typed)
