"""The inputs of fuzz.py: altered or generated scripts, configurations and captures, and files named `-`.

Input number N of a seed depends only on these two numbers and on the files of this repository that it starts from.
"""

from __future__ import annotations

import collections
import hashlib
import pathlib
import random
import re
import struct

import blocks
import captures
import expected
import made

ROOT = pathlib.Path(__file__).resolve().parent.parent
DATA = ROOT / "examples/scripts"
# A client frame of 14 octets, the minimum.
SHORTEST = bytes.fromhex("ffffffffffff0200000000010800")


class Case:
    """The program's arguments, its standard input, its files, and the expected answer.

    The answer has the exit status, the text, standard error, and the octets of OUT, or None if no file is created or
    changed.
    """

    def __init__(self, kind, words, answer, stdin=b"", files=(), out="out"):
        self.kind, self.words, self.answer, self.stdin = kind, words, answer, stdin
        self.files, self.out = dict(files), out

    def files_after(self):
        return self.files if self.answer[3] is None else {**self.files, self.out: self.answer[3]}


class Capture:
    """The fields of a capture file. A record has its times, its lengths minus the frame's length, and its frame."""

    def __init__(self, frames, order="<", is_nano=False):
        self.order, self.is_nano = order, is_nano
        self.records = [(it, it * 1000, 0, 0, frame) for it, frame in enumerate(frames)]
        self.fields = {"major": 2, "minor": 4, "zone": 0, "figures": 0, "snap": 65_535, "link": 1}

    def octets(self):
        magic, field = (0xA1B23C4D if self.is_nano else 0xA1B2C3D4), self.fields
        fields = (field[it] for it in ("major", "minor", "zone", "figures", "snap", "link"))
        file = struct.pack(self.order + "IHHIIII", magic, *fields)
        for seconds, fraction, captured, original, frame in self.records:
            lengths = [(len(frame) + it) % 2**32 for it in (captured, original)]
            file += struct.pack(self.order + "IIII", seconds, fraction, *lengths) + frame
        return file


class Corpus:
    """Scripts, and runs of captures: a direction, a configuration and frames."""

    def __init__(self):
        self.scripts, self.runs = [], []
        for path in sorted(DATA.glob("*.macsec")):
            script, text = path.read_bytes(), path.with_suffix(".txt").read_bytes()
            assert expected.run_script(script) == (0, text, b""), f"expected.py has another text of {path.name}"
            self.scripts.append(script)
            self.add_runs(script, text)
        raised = re.findall(r" (\w+) [1-9]\d*$", (DATA / "each-counter.txt").read_text(), re.M)
        assert {*expected.SECY_COUNTERS, *expected.RX_COUNTERS} <= {*raised}, "each-counter leaves a counter at 0"
        folder = ROOT / "examples/captures"
        sender, receiver = ((folder / f"{it}.config").read_bytes() for it in ("sender", "receiver"))
        two = Capture([SHORTEST, SHORTEST])
        link = expected.run_capture("protect", sender, two.octets())[3]
        self.runs += [("protect", sender, [SHORTEST] * 2)] * 4
        self.runs += [("validate", receiver, [link[40:86], link[102:]])] * 4
        words = {word for script in self.scripts for word in script.split() if len(word) < 80}
        self.words = collections.defaultdict(list, {None: sorted(words | set(EDGES))})
        for word in self.words[None]:
            self.words[kind_of(word)].append(word)
        self.lines = sorted({line for script in self.scripts for line in script.split(b"\n") if len(line) < 300})

    def add_runs(self, script, text):
        """Adds what each end of a script sends and receives, as captures of that end."""
        link = {int(n): bytes.fromhex(it.decode()) for n, it in re.findall(rb" frame (\d+) ([0-9a-f]+)", text)}
        lines = [it.split() for it in script.split(b"\n")]
        for end in (b"A", b"B"):
            config, sent, heard = [], [], []
            for words in lines:
                if words[:2] == [b"end", end]:
                    config.append(b" ".join([b"end", b"A", *words[2:]]))
                elif words[:1] == [end] and words[1].decode() in expected.COMMANDS:
                    config.append(b" ".join([b"A", *words[1:]]))
                elif words[:2] == [end, b"send"]:
                    sent.append(bytes.fromhex(words[2].decode()))
                elif words[:2] == [end, b"deliver"] and int(words[2]) in link:
                    heard.append(link[int(words[2])])
            for direction, frames in (("protect", sent), ("validate", heard)):
                if frames:
                    self.runs.append((direction, b"\n".join(config) + b"\n", frames[:60]))


# Words of one kind.
KEYWORDS = [tuple(expected.SUITES), expected.FORMS, expected.MODES]
ALIKE = "A B,on off,int conf,send sendu,txon txoff txdel retire deliver,rxon rxoff rxdel,rxsc rxscdel"
KEYWORDS += [tuple(it.split()) for it in ALIKE.split(",")]
EDGES = (
    b"0 1 3 4 30 50 63 64 255 256 4095 4096 1073741823 1073741824 4294967295 4294967296 9248 9249 "
    b"18446744073709551615 18446744073709551616 00000000000000000000 000000000000000000000 ffffffff 100000000 "
    b"ffffffffffffffff 10000000000000000 00 0g 000 0000000000000000 %b auto sci es scb on off "
    b"int conf check disabled strict # #x A B C end alter pad inject \xff \x00 \x0b"
    % " ".join(expected.SUITES).encode()
).split(b" ")


# Mutations.


def span(rng, length):
    """A range of indices, usually a short one."""
    first = rng.randrange(length + 1)
    return first, min(length, first + rng.choice((1, 1, 2, 3, 8, 40, length)))


def of_items(rng, items, others):
    """The items of a list, some of them removed, repeated, exchanged or taken from elsewhere."""
    items = list(items)
    first, last = span(rng, len(items))
    way = rng.randrange(6)
    if way == 0:
        del items[first:last]
    elif way == 1:
        items[first:first] = items[first:last] * rng.choice((1, 1, 2, 5))
    elif way == 2 and items:
        here, there = rng.randrange(len(items)), rng.randrange(len(items))
        items[here], items[there] = items[there], items[here]
    elif way == 3:
        items.insert(first, rng.choice(others))
    elif way == 4 and first < len(items):
        items[first] = rng.choice(others)
    elif way == 5:
        items[first:last] = reversed(items[first:last])
    return items


def of_octets(rng, octets):
    """The octets, some of them altered, removed, repeated or inserted, or without the end."""
    octets = bytearray(octets)
    first, last = span(rng, len(octets))
    way = rng.randrange(6)
    if way == 0 and first < len(octets):
        octets[first] ^= 1 << rng.randrange(8)
    elif way == 1 and first < len(octets):
        octets[first] = rng.randrange(256)
    elif way == 2:
        del octets[first:last]
    elif way == 3:
        octets[first:first] = octets[first:last]
    elif way == 4:
        octets[first:first] = rng.choice((b"\0", b"\r", b"\r\r\n", b"\n", b"\t", b" ", b"#", b"\xff", rng.randbytes(3)))
    elif way == 5:
        del octets[first:]
    return bytes(octets)


def of_word(rng, word, words):
    """Another word in place of this one, usually one of the same kind, or one with another digit."""
    way = rng.randrange(24)
    if way < 10:
        return rng.choice(words[kind_of(word)] or [word])
    if way < 16 and word.isdigit():
        if rng.randrange(12) == 0:
            return word.rjust(rng.choice((2, 19, 20, 21, 22)), b"0")
        return b"%d" % max(0, int(word) + rng.choice((-2, -1, 1, 2)))
    if way < 22 and re.fullmatch(rb"[0-9a-fA-F]+", word):
        place = rng.randrange(len(word))
        return word[:place] + rng.choice((b"0", b"1", b"2", b"8", b"f", b"F")) + word[place + 1 :]
    if way < 21:
        return rng.choice(words[kind_of(word)] or [word])
    return of_octets(rng, word) if way < 23 else rng.choice(words[None])


def kind_of(word):
    """The kind of a word. Words of one kind can usually replace each other."""
    if word.isdigit() and len(word) < 6:
        return "number"
    if re.fullmatch(rb"[0-9a-fA-F]+", word) and len(word) > 1:
        return len(word)
    return next((it for it in KEYWORDS if word.decode("latin-1") in it), "other")


def of_words(rng, line, words):
    """A line with one word altered, or with its words rearranged."""
    items = line.split(b" ")
    if rng.randrange(16) == 0:
        return b" ".join(of_items(rng, items, words[None]))
    place = rng.randrange(len(items))
    items[place] = of_word(rng, items[place], words)
    return b" ".join(items)


def of_text(rng, corpus, text):
    """A script or a configuration after some mutations, or one at a limit."""
    if rng.randrange(250) == 0:
        return at_limit(rng, text)
    if rng.randrange(15) == 0:
        return at_edge(rng, text)
    for _ in range(rng.choice((0, 1, 1, 1, 1, 2, 3, 5))):
        lines = text.split(b"\n")
        way = rng.randrange(16)
        if way < 8:
            place = rng.randrange(len(lines))
            lines[place] = of_words(rng, lines[place], corpus.words)
        elif way < 15:
            lines[2 * (len(lines) > 2) :] = of_items(rng, lines[2 * (len(lines) > 2) :], corpus.lines)
        text = b"\n".join(lines) if way < 15 else of_octets(rng, text)
    return text


def at_limit(rng, text):
    """A text with a line or a length at one of the limits of scripts, or one octet or line past it; or a long text."""
    past = rng.randrange(-1, 2)
    way = rng.choice((0, 1, 2, 2, 2, 3, 4))
    if way == 0:
        return text + b"\n" * (expected.MAX_LINES - text.count(b"\n") + past)
    if way == 1:
        return text.ljust(expected.MAX_SCRIPT + past, rng.choice((b"\n", b"#")))
    if way == 2:
        return text + b"#" * (expected.MAX_LINE + past) + rng.choice((b"", b"\r", b"\n", b"\r\n"))
    if way == 3:
        return text + (b"#" * 15_999 + b"\n") * 65 + b"#" * (expected.MAX_SCRIPT - 65 * 16_000 - len(text) + past)
    lines = text.split(b"\n")
    head, rest = lines[:2], lines[2:]
    return b"\n".join(head + rest * (8_000 // max(1, len(rest)) if len(text) < 20_000 else 2))


def at_edge(rng, text):
    """A text with a long line, a number with many digits, two carriage returns, or no line after its first."""
    way, lines = rng.choice((0, 0, 1, 2, 3)), text.split(b"\n")
    if way == 0:
        return text + b"#" * (expected.MAX_LINE + rng.choice((0, 0, -1, 1))) + rng.choice((b"\r\n", b"\r\n", b"\n"))
    if way == 1:
        return text + b"A txoff " + b"0" * rng.choice((20, 21)) + b"\n"
    if way == 2:
        lines[rng.randrange(len(lines))] += rng.choice((b"\r", b"\r\r"))
        return b"\n".join(lines)
    first = next((it for it, line in enumerate(lines) if line.startswith(b"end")), 0)
    return b"\n".join(lines[: first + 1] + [b"#", b""][: rng.randrange(3)])


def of_frame(rng, frame):
    """A frame with another tag, or one that is cut, padded or altered."""
    frame = bytearray(frame)
    way = rng.randrange(8)
    if way == 0:
        return bytes(frame[: rng.randrange(len(frame) + 1)])
    if way == 1:
        return bytes(frame).ljust(60, b"\0") + bytes(rng.randrange(3))
    if way == 2 and len(frame) > 19:
        frame[rng.choice((14, 14, 15, 16, 19))] = rng.randrange(256)
    elif way == 3 and frame:
        frame[rng.randrange(len(frame))] ^= 1 << rng.randrange(8)
    elif way == 4:
        sizes = (13, 14, 59, 60, 61, 63, 64, 1_486, 1_494, 1_518, 9_216, 9_248, 9_249)
        size = rng.choice(sizes if rng.randrange(30) else (captures.MAX_RECORD, captures.MAX_RECORD + 1))
        return (bytes(frame) + bytes(size))[:size]
    elif way == 5:
        return rng.randbytes(rng.randrange(100))
    return bytes(frame)


def of_capture(rng, frames):
    """A capture file with these frames, in either format and any form, after some mutations."""
    octets = of_blocks(rng, frames) if rng.randrange(3) == 0 else of_records(rng, frames)
    return octets if rng.random() < 0.7 else of_octets(rng, octets)


def of_blocks(rng, frames):
    """A pcapng file, after some mutations of frames and blocks."""
    frames = [of_frame(rng, it) if rng.randrange(4) == 0 else it for it in frames]
    return blocks.made_file(rng, frames, is_sound=rng.randrange(3) == 0)


def of_records(rng, frames):
    """A pcap file, after some mutations of frames, records and fields."""
    capture = Capture(frames, rng.choice("<<>"), rng.random() < 0.3)
    for _ in range(rng.choice((0, 1, 1, 2, 3))):
        records, place = capture.records, rng.randrange(len(capture.records) or 1)
        way = rng.randrange(8)
        if way < 4 and records:
            *fields, frame = records[place]
            records[place] = (*fields, of_frame(rng, frame))
        elif way == 4:
            capture.records = of_items(rng, records, [(5, 6, 0, 0, SHORTEST), (2**32 - 1, 2**32 - 1, 0, 1, b"")])
        elif way == 5 and records:
            seconds, fraction, *_, frame = records[place]
            at = rng.choice(((0, 0, 0), (0, 0, 1), (0, 0, -1), (0, 1, 0), (0, -6, 0), (0, 262_145, 0), (0, -1, 0)))
            records[place] = (seconds, fraction, at[1] * (rng.random() < 0.7), at[2] + rng.choice((0, 6, -6)), frame)
        elif way == 6 and rng.random() < 0.5:
            name = rng.choice(sorted(capture.fields))
            capture.fields[name] = rng.choice((0, 1, 2, 3, 4, 256, 65_535))
        elif way == 7 and records and rng.randrange(60) == 0 and len(capture.octets()) < 5_000:
            capture.records = records * (3_000 // len(records))
    return capture.octets()


# Cases.


def script_case(rng, corpus):
    """A script of this repository or a generated one, after mutations."""
    script = rng.choice(corpus.scripts)
    if rng.randrange(2):
        script = made.made_script(rng)[0]
    elif rng.randrange(5) == 0:
        other = rng.choice(corpus.scripts).split(b"\n")
        lines = script.split(b"\n")
        script = b"\n".join(lines[: rng.randrange(len(lines) + 1)] + other[rng.randrange(len(other)) :])
    script = of_text(rng, corpus, script)
    answer = (*expected.run_script(script), None)
    if rng.randrange(4) == 0:
        return Case("run", ["run", "script"], answer, files={"script": script})
    return Case("run -", ["run", "-"], answer, script)


def made_case(rng, _corpus):
    """A script without a fault, for two ends that have SAs in both directions, with any events."""
    script, text = made.made_script(rng)
    return Case("made", ["run", "-"], (0, text, b"", None), script)


def capture_case(rng, corpus):
    direction, config, frames = rng.choice(corpus.runs)
    if rng.randrange(10) == 0:
        frames = rng.choice(corpus.runs)[2]
    if rng.randrange(2):
        config = of_text(rng, corpus, config)
    file = of_capture(rng, frames)
    answer = expected.run_capture(direction, config, file)
    files = {"config": config, "in": file, "out": rng.choice((b"", b"old" * 20, file))}
    if rng.randrange(4) == 0:
        del files["out"]
    return Case(direction, [direction, "config", "in", "out"], answer, files=files)


def back_case(rng, _corpus):
    """Client frames to protect; or the resulting link frames to validate, which must give the client frames back."""
    suite, own, others = (rng.choice(list(expected.SUITES)) for _ in range(3))
    length, is_xpn = expected.SUITES[suite]
    key, sci = rng.randbytes(length).hex(), "0200000000010001"
    first = rng.choice((1, 2**31, 2**32 - 200, *((2**32 + 2**31 - 3, 2**33 - 2) if is_xpn else ())))
    offset = 0 if is_xpn else rng.choice((0, 0, 30, 50))
    form, mode = rng.choice(("auto", "sci", "es")), rng.choice(("int", "conf"))
    sender = (
        f"end A {own} {sci} 9248 {form}\nA key 0 {key} {offset} {suite} 00000001 {'b7' * 12}\n"
        f"A txsa 1 0 {first:x} {mode}\nA txon 1\n"
    ).encode()
    receiver = (
        f"end A {others} 0000000000000002 9248 auto\nA key 9 {key} {offset} {suite} 00000002 {'b7' * 12}\n"
        f"A rxsc {sci}\nA rxsa {sci} 1 9 {first:x} 00000001\nA rxon {sci} 1\n"
    ).encode()
    sizes = [rng.choice((2, 3, 31, 47, 48, 49, 63, 64, rng.randrange(2, 1_500))) for _ in range(rng.randrange(1, 30))]
    source = rng.choice((b"\2\0\0\0\0\1", b"\2\0\0\0\0\2"))
    frames = [rng.randbytes(6) + source + b"\x08" + rng.randbytes(it - 1) for it in sizes]
    capture = Capture(frames, is_nano=rng.random() < 0.5)
    client = capture.octets()
    protected = expected.run_capture("protect", sender, client)
    if rng.randrange(2):
        direction, config, file, answer = "protect", sender, client, protected
    else:
        direction, config, file = "validate", receiver, protected[3]
        answer = *expected.run_capture("validate", receiver, file)[:3], client
    files = {"config": config, "in": file, "out": b""}
    return Case("there and back", [direction, "config", "in", "out"], answer, files=files)


def dash_case(rng, corpus):
    """A file with the name `-`, and other octets on standard input, which `-` means for SCRIPT alone."""
    scripts = rng.sample(corpus.scripts, 2)
    way = rng.randrange(8)
    if way < 2:
        words = rng.choice((["run", "-"], ["run", "--", "-"]))
        return Case("words", words, (*expected.run_script(scripts[0]), None), scripts[0], {"-": scripts[1]})
    if way == 2:
        words = rng.choice((["run", "./-"], ["run", "--", "./-"]))
        return Case("words", words, (*expected.run_script(scripts[1]), None), scripts[0], {"-": scripts[1]})
    direction, config, frames = rng.choice(corpus.runs)
    file = Capture(frames, is_nano=rng.random() < 0.5).octets()
    names = {"config": "config", "in": "in", "out": "out"}
    names[rng.choice(list(names))] = "-"
    words = [direction, *["--"] * rng.randrange(2), *names.values()]
    files = {names["config"]: config, names["in"]: file, names["out"]: b"old"}
    if rng.randrange(2):
        del files[names["out"]]
    stdin = rng.choice((b"", config, file, b"end A gcm128 0200000000010001 1518 sci\nA protect off\n"))
    return Case("words", words, expected.run_capture(direction, config, file), stdin, files, out=names["out"])


KINDS = {script_case: 30, made_case: 35, capture_case: 26, back_case: 4, dash_case: 3}


def case_of(seed, number, corpus):
    digest = hashlib.sha256(f"{seed}:{number}".encode()).digest()
    rng = random.Random(int.from_bytes(digest, "big"))
    return rng.choices(list(KINDS), list(KINDS.values()))[0](rng, corpus)
