"""macsec-config --lint says what the library says of each line, and what macsecd --check says of planted faults."""

from __future__ import annotations

import json
import os
import random
import re
import subprocess
import sys
import types
import unittest
from collections import Counter

from macsec import MacsecError, Refused, SecY, TextFault, grammar
from macsec import lint as lint_module
from macsec.cli.config import main
from macsec.lint import Finding, lint
from macsec.names import Kind

from .helpers import KEYS, OTHER, ROOT, SALT, SENDER, InFolder, main_of

for folder in ("fuzz", "tools", "device/tests"):
    sys.path.insert(0, str(ROOT / folder))
import calls
import macsecd_check
from macsecd_world import End

del sys.path[:3]

FIRST = f"end A gcm128 {SENDER} 1546 sci"
# Right arguments of each keyword: each line is right at an endpoint that has the key, the channel and the associations.
RIGHT = {
    "protect": ["on", "off"], "validate": ["strict", "check", "disabled"], "tag": ["auto", "sci"],
    "replay": ["on 0", "off 18446744073709551615"],
    "key": [
        f"0 {'5a' * 16} 30", f"4095 {'A5' * 32} 0 gcm256", f"7 {KEYS[0].hex()} 0 0000000a {SALT.hex()}",
        f"9 {KEYS[1].hex()} 0 xpn128 0000000b {SALT.hex()}",
    ],
    "retire": ["9"], "txsa": ["0 0 1 conf", "3 4095 ffffffff int"], "txon": ["0"], "txoff": ["3"], "txdel": ["0"],
    "rxsc": [OTHER], "rxscdel": [OTHER], "rxsa": [f"{OTHER} 0 0 1", f"{OTHER} 3 4095 0000000000000001 0000000a"],
    "rxon": [f"{OTHER} 0"], "rxoff": [f"{OTHER} 3"], "rxlow": [f"{OTHER} 0 FF"], "rxdel": [f"{OTHER} 0"],
}  # fmt: skip
OF_SCRIPTS = {"send": ["00"], "sendu": ["0001"], "deliver": ["0"], "counters": [""], "numbers": [""]}
PLAIN = [
    "end A xpn128 0200000000010000 64 scb", "end B gcm256 0200000000010001 9248 es", "alter 0 0 00", "pad 1",
    "inject 00",
]  # fmt: skip
# Words for the wrong places.
WORDS = [
    "", "A", "B", "a", "end", "#", "key", "Key", "txonn", "on", "On", "off", "strict", "auto", "es", "scb", "int",
    "conf", "confidential", "gcm128", "gcm-aes-256", "default", "0", "00", "1", "3", "4", "63", "64", "255", "256",
    "4095", "4096", "9248", "9249", "-1", "+1", "0x1", "1_0", "18446744073709551615", "18446744073709551616",
    "000000000000000000003", "0000000000000000000003", "f", "g", "1g", "02:00", SENDER, SENDER.upper(), SENDER[:-1],
    SENDER + "0", "5a" * 16, "5a" * 24, "5a" * 32, "5a" * 33, SALT.hex(), "00000001", "\u0660", "\xb2", "\0", "0\0",
    "x" * 300, "\x0b", "\r",
]  # fmt: skip


class Source:
    """Random lines, made from the keywords."""

    def __init__(self, seed: str) -> None:
        self.random = random.Random(seed)

    def line(self) -> str:
        """A line for an endpoint, and mostly right."""
        pick, number = self.random.choice, self.random.random()
        if number < 0.05:
            return pick(["", " ", "# a comment", "\t#A key", "#" * 20_000, "#" * 20_001, "A", *PLAIN])
        table = OF_SCRIPTS if number < 0.1 else RIGHT
        keyword = pick(list(table))
        words = ["A", keyword, *pick(table[keyword]).split()]
        for _ in range(pick([0, 0, 1, 1, 2])):
            place = self.random.randrange(len(words) + 1)
            words[place : place + pick([0, 1, 1, 1, 1])] = pick([[], *([pick(WORDS)] for _ in range(6))])
        return (
            pick(["", "", "", " ", "\t"]) + pick([" "] * 8 + ["  ", " \t "]).join(words) + pick([""] * 8 + [" ", "\r"])
        )

    def text(self) -> list[str]:
        """The lines of a text, whose first one is mostly right. Then come the key, the channel and the associations."""
        wrong = [*PLAIN, FIRST.replace("sci", "es"), "A txon 0", "A key 0 0 0", "\ufeff" + FIRST, "#" * 20_001]
        first = FIRST if self.random.random() < 0.8 else self.random.choice(wrong)
        begun = [f"A key 0 {'00' * 16} 0", f"A rxsc {OTHER}", "A txsa 0 0 1 conf", f"A rxsa {OTHER} 0 0 1"]
        return [first, *begun[: self.random.randrange(5)], *(self.line() for _ in range(40))]


def of_library(lines: list[str]) -> tuple[dict[int, str], dict[int, str]]:
    """The names of the faults and of the refusals of lines after the first one, as an endpoint says them."""
    faults, refusals = {}, {}
    with SecY(SENDER) as secy:
        for number, line in enumerate(lines[1:], 2):
            try:
                secy.command(line.encode())
            except TextFault as why:
                faults[number] = why.name
            except Refused as why:
                refusals[number] = why.name
    return faults, refusals


def names_of(found: list[Finding], kind: str) -> dict[int, str]:
    return {it.line: it.name for it in found if it.kind == kind and it.line != 1}


class Lines(unittest.TestCase):
    def test_random_lines(self) -> None:
        """20,000 random lines: what is said of each is what the library says as it carries them out."""
        self.assertEqual(set(RIGHT), {it.name for it in Kind})
        source, met, count = Source(str(random.random())), Counter[str](), 0
        while count < 20_000:
            lines = source.text()
            text, found = "\n".join(lines).encode(), lint("\n".join(lines).encode())
            is_begun = grammar.parse(text).end == grammar.parse(FIRST.encode()).end
            faults, refusals = of_library(lines)
            self.assertEqual(names_of(found, "fault"), faults, lines)
            if is_begun:
                self.assertEqual(names_of(found, "refused"), refusals, lines)
            count += len(lines)
            met.update(faults.values(), refused=len(refusals), wrong_first=not is_begun)
        self.assertLessEqual({"Word", "Count", "Hex", "Number", "Ends", "LineLong", "refused", "wrong_first"}, {*+met})

    def test_the_first_fault_of_a_text(self) -> None:
        """Random texts: the first line that is wrong and the name of its fault are those of macsec_configure."""
        source, more, met = Source(str(random.random())), calls.Calls(str(random.random())), Counter[object]()
        for number in range(3000):
            text = more.text() if number % 2 else "\n".join(source.text()[: number % 13]).encode()
            faults = grammar.parse(text).faults
            try:
                SecY.configure(text).close()
                expected = None
            except MacsecError as why:
                expected = (why.name, why.line or 0) if why.number > 20 else None
            self.assertEqual((faults[0].name, faults[0].line) if faults else None, expected, text[:2000])
            met[expected and expected[0]] += 1
        self.assertLessEqual({"Word", "Count", "Hex", "Number", "Ends", "LineLong", "ScriptLong", None}, {*met})

    def test_the_place_of_a_wrong_argument(self) -> None:
        """A wrong word in the place of each right argument is found, and is named in the message or counted."""
        met = Counter[str]()
        rows = [*((f"A {keyword}", it) for keyword, given in RIGHT.items() for it in given), ("end", FIRST[4:])]
        for before, given in rows:
            words = [*before.split(), *given.split()]
            for place in range(len(before.split()), len(words)):
                for wrong in filter(None, (it.strip() for it in WORDS)):
                    line = " ".join([*words[:place], wrong, *words[place + 1 :]])
                    text = line if before == "end" else f"{FIRST}\n{line}"
                    name = self.fault_of(text)
                    found = [it for it in lint(text.encode()) if it.kind == "fault"]
                    if name not in (None, "Ends", "Count"):
                        self.assertEqual([(it.word, it.name) for it in found], [(place + 1, name)], line)
                        met[str(name)] += 1
        self.assertLessEqual({"Word", "Hex", "Number"}, {*met})

    def fault_of(self, text: str) -> str | None:
        """The fault of a text that the library names."""
        try:
            SecY.configure(text.encode()).close()
        except TextFault as why:
            return why.name
        except Refused:
            pass
        return None

    def test_what_is_expected(self) -> None:
        """The bounds, the numbers of digits and the words that a message names are those that the library takes."""
        asked = [("end", it) for it in grammar._forms_of("end")]
        asked += [(f"A {keyword}", it) for keyword in grammar.USAGES for it in grammar._forms_of(keyword)]
        checked = set()
        for before, kinds in asked:
            for place, kind in enumerate(kinds):
                for word, is_right in self.words_of(kind):
                    words = [word if at == place else grammar._right(it) for at, it in enumerate(kinds)]
                    line = " ".join([before, *words])
                    name = self.fault_of(line if before == "end" else f"{FIRST}\n{line}")
                    self.assertEqual(name not in ("Word", "Hex", "Number"), is_right, line)
                checked.add(kind)
        self.assertLessEqual({*grammar._NUMBERS, *grammar._DIGITS, "SUITE", "FORM", "on|off", "int|conf"}, checked)
        self.assertEqual(set(grammar.USAGES), {it.name for it in Kind})

    def words_of(self, kind: str) -> list[tuple[str, bool]]:
        """Words, and whether the message for an argument says that they are right."""
        if kind in grammar._NUMBERS:
            low, high = grammar._NUMBERS[kind]
            return [(str(it), low <= it <= high) for it in (low - 1, low, high, high + 1)]
        if kind in grammar._DIGITS:
            numbers = [int(it) for it in re.findall(r"\d+", grammar._DIGITS[kind])]
            right = set(range(numbers[0], numbers[1] + 1)) if " to " in grammar._DIGITS[kind] else set(numbers)
            return [("1" * it, it in right) for it in range(1, 80)]
        words = grammar._WORDS.get(kind, kind).split("|")
        return [
            *((it, True) for it in words),
            *((it, False) for it in ("other", words[0] + "x", words[-1].upper() + "Y")),
        ]


class Planted(InFolder):
    """The faults and slips that device/tests/macsecd_check.py plants, and expects of macsecd --check."""

    # What only macsecd says of lines for the endpoint: of LINK, and of modes.
    OF_DEVICE = re.compile(r"line \d+: hint: .*(LINK|recorded|TAP|in clear).*")

    def test_findings(self) -> None:
        met = Counter[str]()
        world = types.SimpleNamespace(keys=[it.hex() for it in KEYS], max_frame=1514)
        end = types.SimpleNamespace(
            number=1, world=world, sci=SENDER, workers=None, isolated=False, config=self.folder / "macsec0.conf"
        )
        end.write = lambda text: end.config.write_text(text)
        end.write_config = lambda: End.write_config(end)  # type: ignore[arg-type]
        for lines, wanted in macsecd_check.PLANTED:
            macsecd_check.plant(end, lines)  # type: ignore[arg-type]
            text = end.config.read_bytes()
            expected = [it for it in wanted if self.is_of_the_endpoint(it, text)]
            found = [(str(it).split(",")[0].split(":")[0], it.kind, it.message) for it in lint(text)]
            told = [f"{where}: {'' if kind == 'fault' else kind + ': '}{said}" for where, kind, said in found]
            self.assertEqual(len(told), len(expected), (lines, told, expected))
            for it, start in zip(told, expected):
                self.assertEqual(self.without_text(it), self.without_text(start), (lines, told))
                if ": hint: " in start or ": refused: " in start:
                    self.assertTrue(re.sub(r"refused: \d+ \w+: ", "refused: ", it).startswith(start), (it, start))
                met[self.without_text(it).split(": ")[-1]] += 1
        self.assertGreater(min(met["hint"], met["refused"], met.total()), 5)

    def without_text(self, line: str) -> str:
        """Where and what kind of finding it is."""
        where, _, rest = line.partition(": ")
        return where + next((f": {it}" for it in ("hint", "refused") if rest.startswith(it)), "")

    def is_of_the_endpoint(self, told: str, text: bytes) -> bool:
        number = re.match(r"line (\d+): ", told)
        if number is None or self.OF_DEVICE.fullmatch(told):
            return False
        return not text.split(b"\n")[int(number[1]) - 1].lstrip().startswith((b"device", b"#"))


class Command(InFolder):
    def config(self, *words: object, status: int = 0) -> str:
        ended, text, error = main_of(main, *words)
        self.assertEqual((ended, error), (status, ""), text)
        return text

    def test_where_and_what(self) -> None:
        good = f"end A gcm128 {SENDER} 1546 sci\nA key 0 {KEYS[0].hex()} 0\nA txsa 0 0 1 conf\nA txon 0\n"
        self.assertEqual(self.config("--lint", self.put("CONFIG", good)), "")
        alone = "a comment needs a line of its own"
        no_key = "line 3: refused: 5 NoKey: there is no such key; install it in a line before this one\n"
        no_sa = "line 4: refused: 13 NoSa: there is no such association; begin it in a line before this one\n"
        off = f"line 3: hint: {lint_module.NOT_ENABLED_TX}\n" % 0
        unused = f"line 2, argument 3: hint: {lint_module.UNUSED_KEY}\n" % 0
        other = f"end B gcm128 {OTHER} 99 sci", "line 4: every line after the first has to be a command at A\n"
        for old, new, expected in (
            ("345 0", "345f 0", f"line 2, argument 4: 33 digits, 32 or 64 expected\n{no_key}{no_sa}"),
            (KEYS[0].hex(), KEYS[0].hex(":"),
             f"line 2, argument 4: ':' is no hex digit: leave them out\n{no_key}{no_sa}"),
            ("gcm128", "gcm-aes-128",
             "line 1, argument 3: 'gcm-aes-128', gcm128, gcm256, xpn128 or xpn256 expected; write gcm128\n"),
            ("A key", "A keys", f"line 2, argument 2: 'keys' is no command; write key\n{no_key}{no_sa}"),
            ("A key", "a key", f"line 2, argument 1: 'a', A or end expected\n{no_key}{no_sa}"),
            ("0 1 conf", "0 0x1 conf", f"{unused}line 3, argument 5: 'x' is no hex digit: leave 0x out\n{no_sa}"),
            ("1546", "9249", "line 1, argument 5: '9249', a decimal number from 64 to 9248 expected\n"),
            (" sci", "", f"line 1: 5 words, 6 expected: {grammar.END}\n"),
            (" sci", " scb", "line 1, argument 6: scb needs an SCI with port 0000\n"),
            ("A txon 0", "A txon 0 # on", f"{off}line 4: 5 words, 3 expected: A txon AN; {alone}\n"),
            ("A txon 0", "A counters", f"{off}line 4: counters is for scripts alone\n"),
            ("A txon 0", "A", f"{off}line 4: a command is missing\n"),
            ("A txon 0", "alter 0 0 00", f"{off}{other[1]}"),
            ("A txon 0", other[0], off + other[1]),
            ("txsa 0 0", "txsa 0 1", f"{unused}{no_key}{no_sa}"),
        ):  # fmt: skip
            with self.subTest(new=new):
                text = self.put("CONFIG", good.replace(old, new, 1))
                self.assertEqual(self.config("--lint", text, status=3), expected)
        hinted = self.config("--lint", self.put("CONFIG", good.replace("0 1 conf", "0 57 conf")))
        self.assertEqual(hinted, "line 3, argument 5: hint: packet numbers are hex: decimal 57 is 39\n")
        text = self.put("CONFIG", good.replace("345 0", "345f 0"))
        shown = json.loads(self.config("--lint", text, "--json", status=3).splitlines()[0])
        self.assertEqual((shown["name"], shown["line"], shown["word"]), ("Hex", 2, 4))

    def test_what_is_no_slip(self) -> None:
        """The slips are those of Planted. A packet number that is no decimal one is none."""
        begun = [FIRST, f"A key 0 {KEYS[0].hex()} 0", f"A key 1 {KEYS[1].hex()} 0", "A txsa 0 0 1 conf", "A txon 0"]
        for number in ("1", "01", "012345678", "9f"):
            text = "\n".join([*begun, f"A rxsc {OTHER}", f"A rxsa {OTHER} 0 1 {number}", f"A rxon {OTHER} 0"])
            self.assertEqual(lint(text.encode()), [], number)

    def test_a_text_as_a_whole(self) -> None:
        for text, expected in (
            (b"", f"the text: every line is skipped; the first has to be {grammar.END}\n"),
            (b"device link eth0\n# none\n", f"the text: every line is skipped; the first has to be {grammar.END}\n"),
            (b"\n" * 65_537, "the text: the text has more than 1048576 octets or 65536 lines\n"),
            (b"# " + b"A" * 20_000, "line 1: the line has more than 20000 octets\n"),
            (b"\xef\xbb\xbf" + FIRST.encode(),
             "line 1, argument 1: the file begins with a byte order mark (EF BB BF); save it without one\n"),
        ):  # fmt: skip
            with self.subTest(text=text[:20]):
                self.assertEqual(self.config("--lint", self.put("CONFIG", text), status=3), expected)

    def test_without_the_library(self) -> None:
        """Nothing is said of lines if the library is not there."""
        words = [sys.executable, "-m", "macsec.cli.config", "--lint", self.put("CONFIG", "end A\n")]
        ended = subprocess.run(
            words, env={**os.environ, "MACSEC_LIBRARY": str(self.folder / "none")}, capture_output=True, text=True
        )
        self.assertEqual((ended.returncode, ended.stdout), (1, ""))
        self.assertRegex(
            ended.stderr, r"^macsec-config: cannot load .*: install libmacsec1, or name the file in MACSEC_LIB"
        )
